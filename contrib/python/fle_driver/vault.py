"""What opens data keys, as pymongo has it: a collection of key documents, and the master key in memory."""
from __future__ import annotations

from typing import Any, Iterable, Mapping, Optional, Tuple

from bson.binary import UUID_SUBTYPE, Binary, UuidRepresentation
from bson.codec_options import CodecOptions
from bson.raw_bson import RawBSONDocument
from pymongo.operations import ReplaceOne
from pymongo.read_concern import ReadConcern
from pymongo.write_concern import WriteConcern

from .files import LONGEST
from .process import Bytes
from .walk import STRING, elements, spelled, text_of

Namespace = Tuple[str, str]  # a database, and a collection of it

# Documents as they are stored; of a field that is read a UUID is the binary that it is.
RAW: CodecOptions[Any] = CodecOptions(document_class=RawBSONDocument,
                                      uuid_representation=UuidRepresentation.UNSPECIFIED)


def namespace_of(vault: str) -> Namespace:
    """The database and the collection of `database.collection`."""
    database, _, collection = vault.partition(".")
    if not database or not collection:
        raise ValueError("the key vault isn't named as database.collection")
    return database, collection


def collection_of(client: Any, vault: Namespace) -> Any:
    """The collection of a vault, by reads and writes that a majority has."""
    database, collection = vault
    return client[database].get_collection(collection, codec_options=RAW, read_concern=ReadConcern("majority"),
                                           write_concern=WriteConcern("majority"))


def read_keys(client: Any, vault: Namespace, those: Optional[Mapping[str, Any]] = None) -> bytes:
    """The key documents of a vault, or those that a filter finds, as the server has them. Of a vault that is too long
    as much is read as shows it."""
    contents = bytearray()
    with collection_of(client, vault).find(those or {}) as cursor:
        for key in cursor:
            contents += key.raw
            if len(contents) > LONGEST:
                break
    return bytes(contents)


def insert_key(client: Any, vault: Namespace, key: bytes) -> Binary:
    """Puts a key document into its collection; its id."""
    collection_of(client, vault).insert_one(RawBSONDocument(key))
    (key_id,) = [element.value[5:] for element in elements(key) if element.name == "_id"]
    return Binary(key_id, UUID_SUBTYPE)


def replace_keys(client: Any, vault: Namespace, pairs: Iterable[Tuple[bytes, bytes]]) -> Any:
    """Puts each second key document into the place of the first, where this is still there with its material; what
    pymongo tells of it, or None where none changes."""
    writes = [ReplaceOne(RawBSONDocument(spelled(part.spelled() for part in elements(old)
                                                 if part.name in ("_id", "keyMaterial"))), RawBSONDocument(new))
              for old, new in pairs if old != new]
    return collection_of(client, vault).bulk_write(writes) if writes else None


def reads_keys(vault: Optional[Namespace], database: str, command: bytes) -> bool:
    """Whether a command is that of `read_keys`: a find in the vault, which compares no value."""
    if vault is None or database != vault[0]:
        return False
    parts = list(elements(command))
    collections = [text_of(it) for it in parts[:1] if (it.tag, it.name) == (STRING, "find")]
    filters = [it.value for it in parts if it.name == "filter"]
    return collections == [vault[1].encode()] and filters == [spelled([])]


def master_of(master: Optional[Bytes], kms_providers: Optional[Mapping[str, Any]]) -> bytes:
    """The master key: bytes, or pymongo's `{"local": {"key": ..}}`, where it may be a base64 text too. What isn't one
    is never told by its value."""
    if (master is None) == (kms_providers is None):
        raise TypeError("the master key is wanted once: master=BYTES, or kms_providers={'local': {'key': ..}}")
    if kms_providers is None:
        return bytes_of(master)
    local = kms_providers.get("local")
    if len(kms_providers) != 1 or not isinstance(local, Mapping):
        raise ValueError("kms_providers: the provider local is supported, and no other")
    return key_in(local)


def key_in(local: Mapping[str, Any]) -> bytes:
    """The master key of pymongo's `{"key": ..}`."""
    key = local.get("key")
    return key.encode() if isinstance(key, str) else bytes_of(key)


def bytes_of(key: Any) -> bytes:
    """A master key that has to be bytes."""
    if not isinstance(key, (bytes, bytearray, memoryview)):
        raise TypeError(f"the master key is bytes, and no {type(key).__name__}")
    return bytes(key)


def want_local(provider: Optional[str]) -> None:
    """Raises where another provider is named than the one of master keys that are in memory."""
    if provider not in (None, "local"):
        raise ValueError("the provider local is supported, and no other")
