"""BSON as Python has it, and how it is spelled (BSON 1.1, bsonspec.org).

An element is a tuple (kind, name, value); its kind is the byte of its type. The value of a document or an array is the
list of its elements; any other value is the bytes that spell it. Bytes of a name or a text that are no UTF-8 are kept
in it. A place is a tuple of child numbers, counted from 0: (1, 0) is the first child of the second element.
"""
import struct

DOUBLE, STRING, DOCUMENT, ARRAY, BINARY, UNDEFINED, OBJECT_ID, BOOL, DATE, NULL = range(1, 11)
REGEX, DB_POINTER, CODE, SYMBOL, CODE_WITH_SCOPE, INT, TIMESTAMP, LONG, DECIMAL = range(11, 20)
MAX_KEY, MIN_KEY = 0x7F, 0xFF

UUID, ENCRYPTED = 4, 6  # subtypes of a binary

# How many bytes a value has, where its type says it.
WIDTHS = {DOUBLE: 8, UNDEFINED: 0, OBJECT_ID: 12, BOOL: 1, DATE: 8, NULL: 0, INT: 4, TIMESTAMP: 8, LONG: 8, DECIMAL: 16,
          MAX_KEY: 0, MIN_KEY: 0}
# How many bytes stand behind the text with which a value begins.
BEHIND_TEXT = {STRING: 0, DB_POINTER: 12, CODE: 0, SYMBOL: 0}
# How many bytes a value has beside those that the length at its front counts.
BESIDE = {DOCUMENT: 0, ARRAY: 0, BINARY: 5, CODE_WITH_SCOPE: 0,
          **{kind: 4 + behind for kind, behind in BEHIND_TEXT.items()}}


def spell(value):
    """The bytes of a value; of a list of elements those of the document or the array."""
    if isinstance(value, bytes):
        return value
    body = b"".join(bytes([kind]) + name.encode("utf-8", "surrogateescape") + b"\0" + spell(inner)
                    for kind, name, inner in value)
    return struct.pack("<i", len(body) + 5) + body + b"\0"


def text(words):
    """The value of a string."""
    spelled = words.encode("utf-8", "surrogateescape")
    return struct.pack("<i", len(spelled) + 1) + spelled + b"\0"


def words_of(value):
    """What a string's value says: text, turned round."""
    return value[4:-1].decode("utf-8", "surrogateescape")


def binary(subtype, contents):
    """The value of a binary."""
    return struct.pack("<iB", len(contents), subtype) + contents


def contents_of(value):
    """What a binary's value holds."""
    return value[5:]


def is_encrypted(kind, value):
    """Whether a value is a binary of subtype 6, be it sealed or marked."""
    return kind == BINARY and value[4] == ENCRYPTED


def int32(number):
    """The value of an int."""
    return struct.pack("<i", number)


def array(kind, values):
    """The elements of an array whose values have one type."""
    return [(kind, str(number), value) for number, value in enumerate(values)]


def places_of(elements, place=()):
    """Each place with its type and its value, in reading order: a document before what is in it."""
    for number, (kind, _, value) in enumerate(elements):
        yield place + (number,), kind, value
        if isinstance(value, list):
            yield from places_of(value, place + (number,))


def with_values(elements, values, place=()):
    """The same elements with other types and values at some places: a dictionary from places to such pairs."""
    result = []
    for number, (kind, name, value) in enumerate(elements):
        here = place + (number,)
        if here in values:
            kind, value = values[here]
        elif isinstance(value, list):
            value = with_values(value, values, here)
        result.append((kind, name, value))
    return result
