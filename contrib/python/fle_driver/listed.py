"""The collections that SCHEMAS lists."""
from __future__ import annotations

import json
from typing import FrozenSet, Iterator

from .walk import elements, text_of


def collections_of(schemas: bytes) -> FrozenSet[bytes]:
    """The names of all infos, those of views too, in a file that `fle` has taken."""
    if 1 <= len(schemas) < 4 or schemas[3:4] > b"\x08":  # as `fle` tells JSON from BSON
        return frozenset(info["name"].encode("utf-8", "surrogatepass") for info in json.loads(schemas))
    return frozenset(text_of(element) for info in documents_of(schemas)
                     for element in elements(info) if element.name == "name")


def documents_of(stream: bytes) -> Iterator[bytes]:
    """The documents of a stream, with nothing between them."""
    at = 0
    while at < len(stream):
        behind = at + int.from_bytes(stream[at:at + 4], "little")
        yield stream[at:behind]
        at = behind
