"""The numbers in the line of `fle`, by name. docs/errors.tsv has them all, with what to do about each; docs/ERRORS.md
explains them."""
from __future__ import annotations

from enum import IntEnum
from typing import Dict, Optional, Tuple, Type, Union


class Status(IntEnum):
    """How a process ended."""

    Done = 0
    Refused = 1
    Words = 2
    Malformed = 3
    Setup = 4
    ReadFault = 5
    WriteFault = 6
    EntropyFault = 7
    Memory = 8
    Limit = 9


class Reason(IntEnum):
    """Why a document was refused."""

    NotACommand = 1
    BadField = 2
    WrongDb = 3
    View = 4
    TypeNotAllowed = 5
    AlreadyEncrypted = 6
    ArrayOnPath = 7
    BelowProtected = 8
    PositionalOnPath = 9
    RandomCompared = 10
    OperatorOnProtected = 11
    PrefixCompared = 12
    Pipeline = 13
    FieldNotAllowed = 14
    RenameMixed = 15
    KeyMissing = 16
    KeyNotLocal = 17
    KeyDamaged = 18
    PayloadShape = 19
    TagMismatch = 20
    Padding = 21
    Plain = 22
    PointerBad = 23
    ReplyShape = 25
    ReplyDiffers = 26
    ReplyMissing = 27
    NotText = 28


class InputFault(IntEnum):
    """What is wrong with bytes that are no BSON document."""

    Short = 1
    Length = 2
    Tag = 3
    NoEnd = 4
    Bool = 5
    Deep = 6
    Extra = 7


class Limit(IntEnum):
    """Which limit was passed."""

    Document = 1
    Output = 2
    Stream = 3


class FileFault(IntEnum):
    """What is wrong with a file, or with SCHEMAS as a file of collection infos."""

    Missing = 1
    TooLong = 2
    Bson = 30
    Shape = 31
    Twice = 32
    Syntax = 33
    Form = 34


class MasterFault(IntEnum):
    """What is wrong with MASTER."""

    Length = 10
    Base64 = 11


class KeyFault(IntEnum):
    """What is wrong with KEYS."""

    Bson = 20
    Id = 21
    AltNames = 22
    Material = 23
    Provider = 24
    IdTwice = 25
    NameTwice = 26
    TooMany = 27


class SchemaFault(IntEnum):
    """Which rule of schemas is broken in SCHEMAS."""

    Keyword = 41
    Shape = 42
    Misplaced = 43
    Sibling = 44
    NoKey = 45
    NoAlgorithm = 46
    Algorithm = 47
    TypeName = 48
    DeterministicType = 49
    Name = 50
    TooMany = 51
    DeterministicPointer = 54


Fault = Union[Reason, InputFault, Limit, FileFault, MasterFault, KeyFault, SchemaFault]

BY_STATUS: Dict[int, Tuple[Type[Fault], ...]] = {
    Status.Refused: (Reason,),
    Status.Malformed: (InputFault,),
    Status.Setup: (FileFault, MasterFault, KeyFault, SchemaFault),
    Status.Limit: (Limit,),
}


def fault_of(status: int, number: int) -> Optional[Fault]:
    """The fault that the third number of the line is, behind this status; None where it has no name here."""
    for kind in BY_STATUS.get(status, ()):
        if number in kind.__members__.values():
            return kind(number)
    return None
