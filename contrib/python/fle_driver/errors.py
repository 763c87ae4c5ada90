"""What this package raises. No message holds a value of a document."""
from __future__ import annotations

import re
from typing import Any, Optional, Sequence, Tuple

from pymongo.errors import EncryptionError

from .faults import Fault, Status, fault_of
from .walk import field_names

LINE = re.compile(r"fle: (\d+) (\d+) (\d+) (-|\d+(?:\.\d+)*)\n?")


class FleError(EncryptionError):
    """The base of them all: code that catches the errors of pymongo's own encryption catches these too."""


class NotStarted(FleError):
    """The program isn't in PATH, or doesn't start."""


class Closed(FleError):
    """A call after `close`."""


class TimedOut(FleError):
    """A process gave no answer in time: it was stopped, or has too much to do. It is ended; the next call begins
    another one."""


class Unsupported(FleError):
    """A client that has no place for an encrypter, or has one already, or whose pymongo wasn't tried; or a command that
    isn't sent: of a database or a collection that isn't named, or one that would write past the rules."""


class Ended(FleError):
    """The process ended in place of an answer, and so did the one that was asked behind it; the next call begins
    another one.

    Raised itself where the document isn't at fault: a device failed or memory ran out (status 5 to 8), the words aren't
    right (2), a signal ended the process (the negative of its number), or the program isn't `fle`.

    - `status`: the exit status
    - `document`: the number of the document in this call, which is 1; 0 where no document is at fault
    - `reason`: what was wrong, by its name in docs/errors.tsv
    - `place`: the numbers of the place: the way to a refused value, or one offset in malformed bytes, or the number of
      the faulty document in a file
    - `fields`: the way to a refused value by names, as `documents.0.ssn`; empty for the document itself
    """

    def __init__(self, message: str, status: int = 0, document: int = 0, reason: Optional[Fault] = None,
                 place: Tuple[int, ...] = (), fields: Optional[str] = None) -> None:
        super().__init__(message)
        self.status, self.document, self.reason, self.place, self.fields = status, document, reason, place, fields


class Refused(Ended):
    """The document isn't taken: it is refused (status 1), is no BSON (3), or passes a limit (9)."""


class FaultyFile(Ended):
    """One of the files is missing, too long, or at fault (status 4); `file` is its path."""

    def __init__(self, message: str, *details: Any, file: str = "") -> None:
        super().__init__(message, *details)
        self.file = file


def ended(status: int, said: str, document: bytes, answered: int, files: Sequence[str]) -> Ended:
    """How a process ended, by its exit status and its line, in place of an answer to this document and behind so many
    answers. These were its files."""
    line = LINE.fullmatch(said)
    if line is None:
        how = f"by signal {-status}" if status < 0 else f"with status {status}"
        return Ended(f"fle ended {how}" + (f": {said.strip()[:200]}" if said else ""), status)
    status, number = Status(int(line[1])), int(line[2])
    reason = fault_of(status, int(line[3]))
    name = reason.name if reason is not None else f"number {line[3]}"
    place = tuple(map(int, line[4].split("."))) if line[4] != "-" else ()
    if status == Status.Setup:
        file = files[number - 1]
        where = f" in its document {line[4]}" if any(place) else ""
        return FaultyFile(f"{file}: {type(reason).__name__} {name}{where}", status, 0, reason, place, file=file)
    number = max(number - answered, 0)
    if status == Status.Refused:
        return refused_at(name, number, reason, place, field_names(document, place))
    if status == Status.Malformed:
        return Refused(f"no BSON: {name} at offset {line[4]}", status, number, reason, place)
    if status == Status.Limit:
        return Refused(f"a limit is passed: {name}", status, number, reason, place)
    return Ended(f"fle ended with status {int(status)}, {status.name}", status, number, reason, place)


def refused_at(name: str, number: int, reason: Optional[Fault], place: Tuple[int, ...], fields: str) -> Refused:
    """A document that is refused, by this name of the reason, for what stands at a place of it."""
    where = f"{fields} (place {'.'.join(map(str, place))})" if place else "the document itself"
    return Refused(f"{name} at {where}", Status.Refused, number, reason, place, fields)


def told_at(refused: Refused, place: Tuple[int, ...], *fields: str) -> Refused:
    """The same refusal at another place, that of what was refused within a whole; as it is where it tells no place."""
    if refused.status != Status.Refused:
        return refused
    name = str(refused).split(" at ")[0]
    return refused_at(name, refused.document, refused.reason, place, ".".join(filter(None, fields)))
