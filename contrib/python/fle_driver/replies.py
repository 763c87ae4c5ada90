"""Replies of a server, opened by processes: long ones in parts, of which those that hold nothing sealed stay."""
from __future__ import annotations

from typing import Callable, Iterator

from .errors import Refused, ended, told_at
from .faults import Limit, Status
from .kept import want_whole
from .process import LONGEST, Bytes
from .walk import ARRAY, DOCUMENT, Element, elements, shown, spelled

MOST = 16_777_216  # bytes of a document that a process takes
HEADS = b"\6\1", b"\6\2"  # how each payload begins: the subtype, and which algorithm sealed it

Open = Callable[[bytes], bytes]


def opened_whole(document: Bytes, open_one: Open) -> bytes:
    """A document of at most `LONGEST` bytes, by what opens one of `MOST`. Of a longer one parts that hold no payload
    stay as they are; where it isn't BSON, that is all that is told."""
    want_whole(document)
    if len(document) <= MOST:
        return open_one(document)
    if len(document) > LONGEST:
        raise ended(Status.Limit, f"fle: {Status.Limit:d} 1 {Limit.Document:d} -\n", b"", 0, [])
    try:
        return opened(bytes(document), open_one)
    except (IndexError, KeyError, ValueError, Refused) as error:
        if isinstance(error, Refused) and error.status != Status.Malformed:
            raise
        raise Refused("no BSON", Status.Malformed, 1) from None


def opened(reply: bytes, open_one: Open) -> bytes:
    """A reply, or a document of one, by what opens one document. One above `MOST` bytes, as a full batch of a cursor
    with what stands around it, is opened element by element: a document that is stored has at most so many."""
    if not may_hold_payloads(reply):
        return reply
    if len(reply) <= MOST:
        return open_one(reply)
    return spelled(parts_of(reply, open_one))


def may_hold_payloads(part: bytes) -> bool:
    """Whether a payload may be in there; False only where there is none."""
    return any(head in part for head in HEADS)


def parts_of(document: bytes, open_one: Open) -> Iterator[bytes]:
    """The elements of a document or an array, opened; a refusal tells its place from there."""
    for number, element in enumerate(elements(document)):
        try:
            yield opened_element(element, open_one)
        except Refused as refused:
            raise told_at(refused, (number, *refused.place), shown(element.name), refused.fields or "") from None


def opened_element(element: Element, open_one: Open) -> bytes:
    """An element: with its own elements opened, or as a document of it alone is."""
    if element.tag in (DOCUMENT, ARRAY):
        return element._replace(value=opened(element.value, open_one)).spelled()
    if not may_hold_payloads(element.value):
        return element.spelled()
    try:
        return open_one(spelled([element.spelled()]))[4:-1]
    except Refused as refused:  # at the element, which is the only one there
        raise told_at(refused, ()) from None
