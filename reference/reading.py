"""BSON read: bytes to elements as bson.py has them, or ValueError where they spell no document (BSON 1.1).

Each function reads from an offset `at` to an offset `end`, at which something around it ends, and answers where what it
read ends. A document may have 100 levels, itself the first; `levels` is how many are left.
"""
import struct

from reference.bson import ARRAY, BEHIND_TEXT, BINARY, BOOL, CODE_WITH_SCOPE, DOCUMENT, REGEX, WIDTHS

LEVELS = 100


def require(well):
    """Ends the reading where this isn't so."""
    if not well:
        raise ValueError


def length_at(data, at, end, least):
    """The length that is stated here, of four bytes, low byte first."""
    require(at + 4 <= end)
    stated = struct.unpack_from("<i", data, at)[0]
    require(stated >= least)
    return stated


def behind_name(data, at, end):
    """Where a name that begins here ends, behind its 00."""
    found = data.find(0, at, end)
    require(found >= 0)
    return found + 1


def behind_text(data, at, end):
    """Where a text ends: its length, which counts the 00 behind it, its bytes, the 00."""
    last = at + 3 + length_at(data, at, end, 1)
    require(last < end and data[last] == 0)
    return last + 1


def behind_scope(data, at, end, levels):
    """Where code with its scope ends: a length that counts all of it, a text, a document."""
    last = at + length_at(data, at, end, 14)
    require(last <= end)
    _, behind = document_at(data, behind_text(data, at + 4, last), last, levels)
    require(behind == last)
    return last


def behind_value(kind, data, at, end, levels):
    """Where a value that is neither a document nor an array ends."""
    if kind in WIDTHS:
        behind = at + WIDTHS[kind]
        require(behind <= end and (kind != BOOL or data[at] < 2))
        return behind
    if kind in BEHIND_TEXT:
        behind = behind_text(data, at, end) + BEHIND_TEXT[kind]
    elif kind == REGEX:
        behind = behind_name(data, behind_name(data, at, end), end)
    elif kind == CODE_WITH_SCOPE:
        behind = behind_scope(data, at, end, levels)
    else:
        require(kind == BINARY)
        behind = at + 5 + length_at(data, at, end, 0)
    require(behind <= end)
    return behind


def value_at(kind, data, at, end, levels):
    """The value that begins here, and where it ends."""
    if kind in (DOCUMENT, ARRAY):
        return document_at(data, at, end, levels)
    behind = behind_value(kind, data, at, end, levels)
    return data[at:behind], behind


def document_at(data, at, end, levels):
    """The elements of the document that begins here, and where it ends."""
    stated = length_at(data, at, end, 5)
    last = at + stated - 1
    require(levels > 0 and last < end and data[last] == 0)
    elements, at = [], at + 4
    while at < last:
        kind, behind = data[at], behind_name(data, at + 1, last)
        require(kind)
        name = data[at + 1:behind - 1].decode("utf-8", "surrogateescape")
        value, at = value_at(kind, data, behind, last, levels - 1)
        elements.append((kind, name, value))
    return elements, last + 1


def documents_of(stream):
    """The documents that stand one behind the other: of each its elements, and its bytes."""
    found, at = [], 0
    while at < len(stream):
        elements, behind = document_at(stream, at, len(stream), LEVELS)
        found.append((elements, stream[at:behind]))
        at = behind
    return found


def is_value(kind, data, levels):
    """Whether the bytes are one value of this type, with at most so many levels in it."""
    try:
        return value_at(kind, data, 0, len(data), levels)[1] == len(data)
    except (ValueError, RecursionError):
        return False
