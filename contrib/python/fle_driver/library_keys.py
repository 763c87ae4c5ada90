"""What the library does with keys: seals one value under a key that is named, makes key documents, and rewraps them."""
from __future__ import annotations

import ctypes
import os
import time
from typing import Any, List, Sequence, Tuple

import bson

from .errors import Ended, ended
from .faults import Status
from .files import Named
from .key_calls import Key, texts_of
from .library import Answer, Call, Engine
from .listed import documents_of

OF_VALUE, OF_KEY = 16, 128  # random bytes: the IV of a value, or of a key that is rewrapped; and a new key with its id
BESIDE = 87  # bytes that a sealed value has beside its document, at most


class KeyEngine(Engine):
    """Engines that do this too."""

    def seal_value(self, key: Key, is_random: bool, document: bytes) -> bytes:
        """{v: value} with the value sealed."""
        is_name, spelled = isinstance(key, str), key.encode() if isinstance(key, str) else key
        words = [is_name, spelled, len(spelled), is_random, document, len(document)]
        out, answer = self._drawn("fle_seal_value", words, OF_VALUE * is_random, len(document) + BESIDE)
        if answer.status:
            raise self._end(answer, document)
        return bytes(out[:answer.length])

    def make_key(self, names: Sequence[str]) -> bytes:
        """The document of a new data key."""
        document = bson.encode({"keyAltNames": [name.decode() for name in texts_of(names)]})
        words = [document, len(document), now()]
        out, answer = self._drawn("fle_make_key", words, OF_KEY, 0)
        if answer.status == Call.NoRoom:
            out, answer = self._drawn("fle_make_key", words, OF_KEY, answer.length)
        if answer.status == Call.NoNames:  # what `fle keygen` says of them
            raise ended(Status.Words, "fle: 2 0 0 -\n", b"", 0, [])
        if answer.status:
            raise self._end(answer, document)
        return bytes(out[:answer.length])

    def rewrap_keys(self, keys: Named, new_master: Named) -> List[bytes]:
        """These key documents under another master key."""
        files = [keys[0], "", new_master[0]]
        return [self._rewrapped(number, key, new_master[1], files)
                for number, key in enumerate(documents_of(keys[1]), 1)]

    def _rewrapped(self, number: int, key: bytes, master: bytes, files: Sequence[str]) -> bytes:
        """One of them, by its number, which is told where it doesn't open."""
        words = [master, len(master), now(), key, len(key)]
        out, answer = self._drawn("fle_rewrap_key", words, OF_VALUE, len(key))
        if answer.status:
            raise end_at(number, answer, files)
        return bytes(out[:answer.length])

    def _drawn(self, name: str, words: Sequence[object], random: int, room: int) -> Tuple[Any, Answer]:
        """What a call writes, and what it answers: at the engine of this thread, with so many random bytes and so much
        room."""
        blocks, out = os.urandom(random), ctypes.create_string_buffer(room)
        slot = self._opened().slot
        answer: Answer = getattr(self._calls, name)(ctypes.byref(slot), *words, blocks, random, out, room)
        return out, answer


def end_at(number: int, answer: Answer, files: Sequence[str]) -> Ended:
    """What is raised of a key document by its number: what `fle rewrap` says of a vault of them."""
    place, document = "-", number
    if answer.status == Status.Setup:
        place, document = str(number if answer.file == 1 else 0), answer.file
    end: Ended = ended(answer.status, f"fle: {answer.status} {document} {answer.reason} {place}\n", b"", 0, files)
    return end


def now() -> int:
    """The time, in milliseconds since 1970."""
    return int(time.time() * 1000)
