"""What library_keys.py does, by the program, which is run once for each call. It has no verb that seals one value: that
is sealed as the only protected one of an insert, by a rule that is made for it."""
from __future__ import annotations

import os
import subprocess
from typing import List, Optional, Sequence

from bson.binary import UUID_SUBTYPE, Binary

from .deadline import Deadline
from .errors import NotStarted, Refused, ended, told_at
from .files import Named, handed, name_of
from .key_calls import Key, texts_of
from .listed import documents_of
from .schema_map import info_of
from .walk import ARRAY, DOCUMENT, STRING, Element, elements, spelled, text_of

RANDOM, DETERMINISTIC = (f"AEAD_AES_256_CBC_HMAC_SHA_512-{name}" for name in ("Random", "Deterministic"))
# What `bsonType` calls the types that the deterministic algorithm seals.
TYPES = {2: "string", 5: "binData", 7: "objectId", 9: "date", 11: "regex", 12: "dbPointer", 13: "javascript",
         14: "symbol", 16: "int", 17: "timestamp", 18: "long"}
ANY = "string"  # stands for the others: the rule is kept, and the value refused for its type


class KeysByProgram:
    """Runs of the program, over keys and a master key."""

    def __init__(self, program: str, keys: Named, master: Named, timeout: Optional[float]) -> None:
        self._program, self._keys, self._master, self._timeout = program, keys, master, timeout

    def seal_value(self, key: Key, is_random: bool, document: bytes) -> bytes:
        """{v: value} with the value sealed."""
        (value,) = elements(document)
        key_id = self._id_of(key) if isinstance(key, str) else key
        schemas = "the rule of a value", rule_for(value, key_id, is_random)
        try:
            sealed = self._ran(["encrypt", "x"], [self._keys, schemas, self._master], stream=insert_of(document))
        except Refused as refused:  # at the value, which is all that is protected there
            raise told_at(refused, (0,), value.name) from None
        return document_in(sealed)

    def _id_of(self, name: str) -> bytes:
        """The id of the key that has an alternate name; one that no key has where none has it."""
        for key in documents_of(self._keys[1]):
            parts = {part.name: part for part in elements(key)}
            names = elements(parts["keyAltNames"].value) if "keyAltNames" in parts else ()
            if name.encode() in map(text_of, names):
                return parts["_id"].value[5:]
        return os.urandom(16)

    def make_key(self, names: Sequence[str]) -> bytes:
        """The document of a new data key, by `fle keygen`."""
        return self._ran(["keygen"], [self._master], texts_of(names))

    def rewrap_keys(self, keys: Named, new_master: Named) -> List[bytes]:
        """These key documents under another master key, by `fle rewrap`."""
        return list(documents_of(self._ran(["rewrap"], [self._master, new_master, keys])))

    def _ran(self, words: Sequence[str], files: Sequence[Named], more: Sequence[bytes] = (),
             stream: bytes = b"") -> bytes:
        """What a run writes, with these words, files and more words, over a stream."""
        deadline = Deadline(self._timeout)
        with handed([content for _, content in files]) as descriptors:
            try:
                run = subprocess.run([self._program, *words, *map(name_of, descriptors), *more], pass_fds=descriptors,
                                     input=stream, stdout=subprocess.PIPE, stderr=subprocess.PIPE,
                                     timeout=self._timeout, check=False)
            except subprocess.TimeoutExpired:
                raise deadline.passed() from None
            except OSError as error:
                raise NotStarted(f"{self._program} doesn't start: {error.strerror}") from error
        if run.returncode:
            said = run.stderr.decode("utf-8", "replace")
            raise ended(run.returncode, said, stream, 0, [name for name, _ in files])
        return run.stdout


def rule_for(value: Element, key_id: bytes, is_random: bool) -> bytes:
    """SCHEMAS of one rule, which seals a field of this name, and takes a value of this type where it may be sealed."""
    rule = {"keyId": [Binary(key_id, UUID_SUBTYPE)], "algorithm": RANDOM if is_random else DETERMINISTIC}
    if not is_random:
        rule["bsonType"] = TYPES.get(value.tag, ANY)
    return info_of("x.values", "values", {"properties": {value.name: {"encrypt": rule}}})


def insert_of(document: bytes) -> bytes:
    """An insert of one document."""
    name = b"values\0"
    return spelled([Element(STRING, "insert", len(name).to_bytes(4, "little") + name).spelled(),
                    Element(ARRAY, "documents", spelled([Element(DOCUMENT, "0", document).spelled()])).spelled()])


def document_in(insert: bytes) -> bytes:
    """The document of an insert of one."""
    (documents,) = [part for part in elements(insert) if part.name == "documents"]
    (one,) = elements(documents.value)
    return one.value
