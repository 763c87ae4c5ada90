"""pymongo's `ClientEncryption`: data keys made and kept, and single values sealed and opened."""
from __future__ import annotations

import uuid
from types import TracebackType
from typing import Any, Callable, Mapping, NamedTuple, Optional, Sequence, Type, TypeVar

import bson
from bson.binary import UUID_SUBTYPE, Binary
from bson.codec_options import CodecOptions

from .databases import Databases
from .errors import Refused, refused_at
from .faults import Reason
from .files import File
from .fle import Fle
from .key_calls import SEALED, Key
from .listed import documents_of
from .program_keys import DETERMINISTIC, RANDOM
from .replies import HEADS
from .vault import collection_of, key_in, read_keys, replace_keys, want_local

Answer = TypeVar("Answer")

PAYLOAD = 6  # the subtype of a sealed value
KeyId = Any  # a Binary of subtype 4, or a uuid.UUID


class RewrapManyDataKeyResult(NamedTuple):
    """What became of keys: pymongo's BulkWriteResult, or None where no key was found. Of one that somebody else changed
    meanwhile nothing is written: it isn't among those that matched."""

    bulk_write_result: Any


class ClientEncryption:
    """The calls of pymongo's class of this name, over the provider local. A key vault is read when it is made; where a
    key isn't there that a value wants, it is read anew within the call. Errors are those of this package.

    Payloads are those of libmongocrypt, byte for byte under the deterministic algorithm, but for some regular
    expressions, codes and dbPointers, which it changes before it seals them (docs/DIFFERENCES.md)."""

    def __init__(self, kms_providers: Mapping[str, Any], key_vault_namespace: str, key_vault_client: Any,
                 codec_options: CodecOptions[Any], *, program: Optional[File] = None,
                 timeout: Optional[float] = 60) -> None:
        if not isinstance(codec_options, CodecOptions):
            raise TypeError("codec_options must be an instance of bson.codec_options.CodecOptions")
        self._options, self._client = codec_options, key_vault_client
        self._fles = Databases(key_vault_client, key_vault_namespace, None, None, kms_providers, bypass=True,
                               program=program, timeout=timeout)
        self._master = "the master key", key_in(kms_providers["local"])

    def create_data_key(self, kms_provider: str, master_key: Optional[Mapping[str, Any]] = None,
                        key_alt_names: Optional[Sequence[str]] = None) -> Binary:
        """Makes a data key, and puts it into the vault; its id. A `master_key` is for other providers."""
        if master_key is not None:
            raise ValueError("master_key: a data key is made under the one of kms_providers")
        return self._fles.create_data_key(kms_provider, key_alt_names=key_alt_names)

    def encrypt(self, value: Any, algorithm: str, key_id: Optional[KeyId] = None,
                key_alt_name: Optional[str] = None) -> Binary:
        """A value sealed by one of pymongo's two `Algorithm`s under the key of an id, or of an alternate name."""
        if algorithm not in (RANDOM, DETERMINISTIC):
            raise ValueError(f"the algorithms are {RANDOM} and {DETERMINISTIC}")
        key = key_of(key_id, key_alt_name)
        document = bson.encode({SEALED: value}, codec_options=self._options)
        sealed = self._with_keys(lambda fle: fle.key_calls().seal_value(key, algorithm == RANDOM, document))
        payload: Binary = bson.decode(sealed)[SEALED]
        return payload

    def decrypt(self, value: Binary) -> Any:
        """The value that was sealed."""
        if not isinstance(value, Binary) or value.subtype != PAYLOAD:
            raise TypeError("value to decrypt must be a bson.binary.Binary with subtype 6")
        if bytes([PAYLOAD]) + value[:1] not in HEADS:
            raise refused_at(Reason.PayloadShape.name, 1, Reason.PayloadShape, (0,), SEALED)
        document = bson.encode({SEALED: value})
        return bson.decode(self._with_keys(lambda fle: fle.decrypt(document)), self._options)[SEALED]

    def _with_keys(self, call: Callable[[Fle], Answer]) -> Answer:
        """What a call answers; where a key is missing, by the keys that are in the vault now."""
        try:
            return call(self._fles.opening())
        except Refused as refused:
            if refused.reason != Reason.KeyMissing:
                raise
        self._fles.reload()
        return call(self._fles.opening())

    def rewrap_many_data_key(self, filter: Mapping[str, Any], provider: Optional[str] = None,
                             master_key: Optional[Mapping[str, Any]] = None) -> RewrapManyDataKeyResult:
        """Seals the data keys that a filter finds anew, under the master key of `{"key": ..}`, or under that of
        `kms_providers`. This `ClientEncryption` doesn't open those under another one that it reads later."""
        want_local(provider)
        new = self._master if master_key is None else ("the new master key", key_in(master_key))
        vault, calls = self._fles.vault, self._fles.opening().key_calls()
        old = read_keys(self._client, vault, filter)
        made = calls.rewrap_keys((".".join(vault), old), new) if old else []
        return RewrapManyDataKeyResult(replace_keys(self._client, vault, zip(documents_of(old), made)))

    def get_key(self, id: KeyId) -> Any:
        """The key document of an id, as a RawBSONDocument; or None."""
        return self._keys().find_one({"_id": id_of(id)})

    def get_keys(self) -> Any:
        """A cursor of all key documents."""
        return self._keys().find({})

    def get_key_by_alt_name(self, key_alt_name: str) -> Any:
        """The key document that has an alternate name; or None."""
        return self._keys().find_one({"keyAltNames": key_alt_name})

    def delete_key(self, id: KeyId) -> Any:
        """Takes a key out of the vault: what is sealed under it nobody opens any more."""
        return self._keys().delete_one({"_id": id_of(id)})

    def add_key_alt_name(self, id: KeyId, key_alt_name: str) -> Any:
        """Gives a key another alternate name; the document before that."""
        return self._keys().find_one_and_update({"_id": id_of(id)}, {"$addToSet": {"keyAltNames": key_alt_name}})

    def remove_key_alt_name(self, id: KeyId, key_alt_name: str) -> Any:
        """Takes an alternate name from a key, and with the last one the field; the document before that."""
        others = {"$filter": {"input": "$keyAltNames", "cond": {"$ne": ["$$this", key_alt_name]}}}
        was_last = {"$eq": ["$keyAltNames", [key_alt_name]]}
        names = {"$cond": [was_last, "$$REMOVE", others]}
        return self._keys().find_one_and_update({"_id": id_of(id)}, [{"$set": {"keyAltNames": names}}])

    def _keys(self) -> Any:
        """The collection of the vault, for what isn't closed."""
        self._fles.opening()
        return collection_of(self._client, self._fles.vault)

    def close(self) -> None:
        """Ends its engines. A later call raises `Closed`."""
        self._fles.close()

    def __enter__(self) -> ClientEncryption:
        return self

    def __exit__(self, kind: Optional[Type[BaseException]], error: Optional[BaseException],
                 trace: Optional[TracebackType]) -> None:
        self.close()


def key_of(key_id: Optional[KeyId], key_alt_name: Optional[str]) -> Key:
    """The key that a value is to be sealed under."""
    if (key_id is None) == (key_alt_name is None):
        raise TypeError("the key is wanted once: key_id or key_alt_name")
    if key_alt_name is None:
        return bytes(id_of(key_id))
    if not isinstance(key_alt_name, str):
        raise TypeError("key_alt_name is a text")
    return key_alt_name


def id_of(key_id: KeyId) -> Binary:
    """The id of a key."""
    if isinstance(key_id, uuid.UUID):
        return Binary(key_id.bytes, UUID_SUBTYPE)
    if not isinstance(key_id, Binary) or key_id.subtype != UUID_SUBTYPE or len(key_id) != 16:
        raise TypeError("key_id must be a bson.binary.Binary with subtype 4, of 16 bytes, or a uuid.UUID")
    return key_id
