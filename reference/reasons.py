"""The numbers by which a refused command and a schema at fault are told, by their names of docs/errors.tsv, which says
when each comes."""
from enum import IntEnum


class Reason(IntEnum):
    """Why a command, a reply or a payload is refused. Of several at one place the least number is told."""

    NOT_A_COMMAND = 1
    BAD_FIELD = 2
    WRONG_DB = 3
    VIEW = 4
    TYPE_NOT_ALLOWED = 5
    ALREADY_ENCRYPTED = 6
    ARRAY_ON_PATH = 7
    BELOW_PROTECTED = 8
    POSITIONAL_ON_PATH = 9
    RANDOM_COMPARED = 10
    OPERATOR_ON_PROTECTED = 11
    PREFIX_COMPARED = 12
    PIPELINE = 13
    FIELD_NOT_ALLOWED = 14
    RENAME_MIXED = 15
    KEY_MISSING = 16
    KEY_NOT_LOCAL = 17
    KEY_DAMAGED = 18
    PAYLOAD_SHAPE = 19
    TAG_MISMATCH = 20
    PADDING = 21
    PLAIN = 22
    POINTER_BAD = 23
    REPLY_SHAPE = 25
    REPLY_DIFFERS = 26
    REPLY_MISSING = 27


class InfoFault(IntEnum):
    """What is wrong with a collection info around its schema."""

    BSON = 30
    SHAPE = 31
    TWICE = 32


class SchemaFault(IntEnum):
    """What is wrong with a schema."""

    KEYWORD = 41
    SHAPE = 42
    MISPLACED = 43
    SIBLING = 44
    NO_KEY = 45
    NO_ALGORITHM = 46
    ALGORITHM = 47
    TYPE_NAME = 48
    DETERMINISTIC_TYPE = 49
    NAME = 50
    TOO_MANY = 51
    DETERMINISTIC_POINTER = 54
