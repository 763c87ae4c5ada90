"""Well-formed BSON, read without a check: elements are as in reference/bson.py."""
import struct

from reference.bson import ARRAY, BESIDE, BINARY, DOCUMENT, ENCRYPTED, REGEX, WIDTHS


def length_of(document, at, tag):
    """How many bytes the value of this type has that begins there."""
    if tag in WIDTHS:
        return WIDTHS[tag]
    if tag == REGEX:
        return document.index(0, document.index(0, at) + 1) + 1 - at
    return struct.unpack_from("<i", document, at)[0] + BESIDE.get(tag, 0)


def elements_of(document):
    elements, at = [], 4
    while document[at]:
        tag, end = document[at], document.index(0, at + 1)
        length = length_of(document, end + 1, tag)
        value = document[end + 1:end + 1 + length]
        name = document[at + 1:end].decode("utf-8", "surrogateescape")
        elements.append((tag, name, elements_of(value) if tag in (DOCUMENT, ARRAY) else value))
        at = end + 1 + length
    return elements


def field(document, name):
    """The value of the first element of this name."""
    return next(value for _, other, value in elements_of(document) if other == name)


def is_payload(tag, value):
    return tag == BINARY and value[4] == ENCRYPTED and len(value) > 5 and value[5] in (1, 2)


def payloads_of(elements):
    """The contents of each payload of a list of elements, in reading order."""
    found = []
    for tag, _, value in elements:
        if isinstance(value, list):
            found += payloads_of(value)
        elif is_payload(tag, value):
            found.append(value[5:])
    return found


def differs(ours, theirs, place=""):
    """Where two lists of elements differ in more than what random payloads have behind their heads; '' if nowhere."""
    if [(tag, name) for tag, name, _ in ours] != [(tag, name) for tag, name, _ in theirs]:
        return f"names or types below {place or 'the top'}"
    for (tag, name, one), (_, _, other) in zip(ours, theirs):
        here = f"{place}.{name}" if place else name
        if isinstance(one, list):
            inner = differs(one, other, here)
            if inner:
                return inner
        elif is_payload(tag, one) and is_payload(tag, other) and one[5] == other[5] == 2:
            if one[:23] != other[:23] or len(one) != len(other):
                return f"the head or the length of the random payload {here}"
        elif one != other:
            return f"the value {here}"
    return ""
