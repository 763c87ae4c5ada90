"""A walk over the elements of a BSON document, as far as names and places need it."""
from __future__ import annotations

from typing import Iterable, Iterator, List, NamedTuple, Sequence, Tuple

STRING, DOCUMENT, ARRAY, REGEX = 2, 3, 4, 11
# The lengths of the values of each type (bsonspec.org): the same for all, or what stands beside a stated length.
# The same as in reference/bson.py, which isn't installed with this package.
WIDTHS = {1: 8, 6: 0, 7: 12, 8: 1, 9: 8, 10: 0, 16: 4, 17: 8, 18: 8, 19: 16, 127: 0, 255: 0}
BESIDE = {2: 4, 3: 0, 4: 0, 5: 5, 12: 16, 13: 4, 14: 4, 15: 0}


class Element(NamedTuple):
    """One element of a document."""

    tag: int
    name: str
    value: bytes

    def spelled(self) -> bytes:
        """Its bytes in a document."""
        return bytes([self.tag]) + self.name.encode("utf-8", "surrogateescape") + b"\0" + self.value


def text_of(string: Element) -> bytes:
    """The bytes of a string, without the length before it and the 00 behind."""
    return string.value[4:-1]


def spelled(parts: Iterable[bytes]) -> bytes:
    """A document of elements that are spelled."""
    body = b"".join(parts)
    return (len(body) + 5).to_bytes(4, "little") + body + b"\0"


def elements(document: bytes) -> Iterator[Element]:
    """The elements of a document or an array, in their order; a byte of a name that is no text is kept in it."""
    at = 4
    while document[at]:
        behind_name = document.index(0, at + 1) + 1
        behind = behind_name + width(document[at], document, behind_name)
        name = document[at + 1:behind_name - 1].decode("utf-8", "surrogateescape")
        yield Element(document[at], name, document[behind_name:behind])
        at = behind


def width(tag: int, document: bytes, at: int) -> int:
    """The length of a value of this type."""
    if tag in WIDTHS:
        return WIDTHS[tag]
    if tag == REGEX:  # two texts that end with 00
        return document.index(0, document.index(0, at) + 1) + 1 - at
    return int.from_bytes(document[at:at + 4], "little") + BESIDE[tag]


def field_names(document: bytes, place: Sequence[int]) -> str:
    """The names on the way to a place, joined by dots; a place numbers the children from 0."""
    names = []
    for number in place:
        child = list(elements(document))[number]
        names.append(shown(child.name))
        document = child.value
    return ".".join(names)


def shown(name: str) -> str:
    """A name of an element, as a text that can be written anywhere."""
    return name.encode("utf-8", "surrogateescape").decode("utf-8", "replace")


def place_at(document: bytes, offset: int) -> Tuple[int, ...]:
    """The place of the value that begins at an offset of a document; the document's own where none does."""
    place: List[int] = []
    at, number = 4, 0
    while at < len(document) and document[at]:
        tag, start = document[at], document.index(0, at + 1) + 1
        behind = start + width(tag, document, start)
        if start == offset:
            return (*place, number)
        if start < offset < behind and tag in (DOCUMENT, ARRAY):
            place.append(number)
            at, number = start + 4, 0
        else:
            at, number = behind, number + 1
    return ()
