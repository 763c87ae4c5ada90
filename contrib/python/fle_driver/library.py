"""Sealing and opening by the library libfle, in this process: a refusal answers its call, and no pipe can fill."""
from __future__ import annotations

import ctypes
import enum
import os
import threading
from typing import Any, List, Optional, Sequence, Tuple

from .errors import Closed, Ended, ended
from .faults import Status
from .kept import want_whole
from .process import Bytes
from .walk import place_at

FOUND = "libfle.so.0"
COMMANDS_MORE = 1  # the flag of an engine that takes the commands of a driver, and refuses a value where none belongs
FEW, SPARE = 256, 4096  # what a call is handed at first: random bytes for 16 values, and room beside twice a document


class Call(enum.IntEnum):
    """The statuses that only a call of the library has."""

    NoRoom = 10
    NotOpen = 11
    NoId = 12
    NoInfo = 13
    NoNames = 14
    Flags = 15


class Slot(ctypes.Structure):
    """A place for an engine; zeros are none."""

    _fields_ = [("engine", ctypes.c_void_p), ("full", ctypes.c_bool)]


class Answer(ctypes.Structure):
    """What a call answers, as contrib/c/fle.h has it."""

    _fields_ = [("status", ctypes.c_uint32), ("reason", ctypes.c_uint32), ("file", ctypes.c_uint32),
                ("place", ctypes.c_size_t), ("length", ctypes.c_size_t), ("random", ctypes.c_size_t)]


SLOT = ctypes.POINTER(Slot)
BYTES = ctypes.c_char_p, ctypes.c_size_t
# What each call answers, and what it takes: with an argument too few it isn't called.
FORMS = {"fle_open": (Answer, (SLOT, ctypes.c_uint32, *BYTES * 4)), "fle_seal": (Answer, (SLOT, *BYTES * 4)),
         "fle_unseal": (Answer, (SLOT, *BYTES * 2)), "fle_close": (None, (SLOT,))}

# The same of those that library_keys.py makes: flags and a time stand between their bytes.
FORMS_OF_KEYS = {
    "fle_seal_value": (Answer, (SLOT, ctypes.c_bool, *BYTES, ctypes.c_bool, *BYTES * 3)),
    "fle_make_key": (Answer, (SLOT, *BYTES, ctypes.c_int64, *BYTES * 2)),
    "fle_rewrap_key": (Answer, (SLOT, *BYTES, ctypes.c_int64, *BYTES * 3)),
}


def loaded() -> Optional[ctypes.CDLL]:
    """The library, where the system finds it."""
    try:
        calls = ctypes.CDLL(FOUND)
    except OSError:
        return None
    for name, (answer, arguments) in {**FORMS, **FORMS_OF_KEYS}.items():
        call = getattr(calls, name)
        call.restype, call.argtypes = answer, arguments
    return calls


class Opened:
    """A slot with its engine, of one thread; freed where the thread ends, or the last that names it."""

    def __init__(self, calls: ctypes.CDLL, arguments: Sequence[bytes]) -> None:
        self.calls, self.slot = calls, Slot()
        self.answer = self.call(calls.fle_open, arguments, None, COMMANDS_MORE)

    def call(self, call: Any, arguments: Sequence[bytes], out: Any = None, *flags: int) -> Answer:
        """What a call answers at this slot."""
        words: List[object] = [ctypes.byref(self.slot), *flags]
        for argument in arguments:
            words += [argument, len(argument)]
        if out is not None:
            words += [out, len(out)]
        answer: Answer = call(*words)
        return answer

    def __del__(self) -> None:
        self.calls.fle_close(ctypes.byref(self.slot))


class Engine:
    """Engines of one database and one set of files: one in each thread that calls; a slot takes a call at a time."""

    def __init__(self, calls: ctypes.CDLL, db: str, files: Sequence[str], contents: Sequence[bytes]) -> None:
        self._calls, self._db, self._files, self._own = calls, db.encode(), list(files), threading.local()
        self._arguments: Optional[Tuple[bytes, ...]] = (self._db, *contents)
        self._opened()

    def _opened(self) -> Opened:
        """The engine of this thread."""
        arguments = self._arguments  # read once: a `close` beside this call takes them away, all or none
        if arguments is None:
            self._own.__dict__.clear()
            raise Closed("fle was closed")
        opened: Optional[Opened] = self._own.__dict__.get("opened")
        if opened is None:
            opened = Opened(self._calls, arguments)
            if opened.answer.status:
                raise self._end(opened.answer, b"")
            self._own.opened = opened
        return opened

    def seal(self, command: Bytes) -> bytes:
        """A command that is sent to this database, sealed with random bytes of the system."""
        return self._answer(self._calls.fle_seal, bytes(command), True, FEW)

    def unseal(self, document: Bytes) -> bytes:
        """A document, opened."""
        return self._answer(self._calls.fle_unseal, bytes(document), False, 0)

    def _answer(self, call: Any, document: bytes, draws: bool, random: int) -> bytes:
        """What a call writes. With too few random bytes or too little room it writes nothing, and is made once more
        with as much as it tells."""
        room, again = 2 * len(document) + SPARE, False
        while True:
            out = ctypes.create_string_buffer(room)
            arguments = [self._db, document, os.urandom(random)] if draws else [document]
            answer = self._opened().call(call, arguments, out)
            if answer.status == 0:
                return out.raw[:answer.length]
            if again or answer.status not in (Status.EntropyFault, Call.NoRoom):
                raise self._end(answer, document)
            random, room, again = answer.random, answer.length, True

    def _end(self, answer: Answer, document: bytes) -> Ended:
        """What a call raises: the same as a process that says so in its line."""
        place = str(answer.place) if answer.status in (Status.Malformed, Status.Setup) else "-"
        if answer.status == Status.Refused:
            place = ".".join(map(str, place_at(document, answer.place))) or "-"
        number = answer.file if answer.status == Status.Setup else 1
        end: Ended = ended(answer.status, f"fle: {answer.status} {number} {answer.reason} {place}\n", document, 0,
                           self._files)
        return end

    def close(self) -> None:
        """Frees the engine of this thread; those of others are freed where their threads end, or call again."""
        self._arguments = None
        self._own.__dict__.clear()


class Part:
    """One of both directions of an engine, as a process of it would be kept."""

    def __init__(self, engine: Engine, seals: bool) -> None:
        self._engine, self._seals = engine, seals

    def ask(self, document: Bytes) -> bytes:
        """The answer to one document of BSON."""
        want_whole(document)
        return self._engine.seal(document) if self._seals else self._engine.unseal(document)

    def close(self) -> None:
        """Frees the engine of both."""
        self._engine.close()
