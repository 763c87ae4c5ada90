"""A command as pymongo sends it: the bytes that were judged, and beside them what pymongo sets itself."""
from __future__ import annotations

from typing import Any, Dict, Iterator, Mapping, MutableMapping, Optional

import bson
from bson.codec_options import CodecOptions
from bson.raw_bson import RawBSONDocument

from .walk import Element, elements, spelled

TIME = "$clusterTime"  # the server's own; as in pymongo's own encryption it isn't judged: a check of names refuses it


class Sent(MutableMapping[str, Any]):
    """The elements of a command that was judged, in their order. pymongo reads it, takes the documents of a write out,
    which it sends beside it, and sets `$db` and the like; the rest it sends as `raw`, as it does with a
    RawBSONDocument. So no element that was judged is encoded anew, and none changes its type or a byte.
    """

    _type_marker = RawBSONDocument._type_marker

    def __init__(self, judged: bytes, options: CodecOptions[Any]) -> None:
        self._options = options
        self._items: Dict[str, Any] = {element.name: element for element in elements(judged)}

    @property
    def raw(self) -> bytes:
        """The whole, as it is sent."""
        return spelled(self._spelled(name, value) for name, value in self._items.items())

    def _spelled(self, name: str, value: Any) -> bytes:
        """An element: as it was judged, or, where it was set behind that, encoded."""
        if isinstance(value, Element):
            return value.spelled()
        encoded: bytes = bson.encode({name: value}, codec_options=self._options)
        return encoded[4:-1]

    def __getitem__(self, name: str) -> Any:
        """A value to be read. Documents, those of an array too, are RawBSONDocuments: sent, they are the same bytes."""
        value = self._items[name]
        return RawBSONDocument(spelled([value.spelled()]))[name] if isinstance(value, Element) else value

    def __setitem__(self, name: str, value: Any) -> None:
        self._items[name] = value

    def __delitem__(self, name: str) -> None:
        del self._items[name]

    def __contains__(self, name: object) -> bool:
        return name in self._items

    def __iter__(self) -> Iterator[str]:
        return iter(self._items)

    def __len__(self) -> int:
        return len(self._items)

    def __repr__(self) -> str:
        return f"Sent({list(self)})"


def encoded(command: Mapping[str, Any], *options: Any) -> bytes:
    """A command as it is judged. It is encoded here, once: what is sent is what was judged, since its values may have
    changed when they are encoded again, by another thread or by a codec's own code."""
    judged = {name: value for name, value in command.items() if name != TIME}
    checks_names = any(options[:-1])  # pymongo 3 says it before the codec options, pymongo 4 never does
    plain: bytes = bson.encode(judged, checks_names, options[-1])
    return plain


def sent_of(command: Mapping[str, Any], whole: Optional[bytes], options: CodecOptions[Any]) -> Mapping[str, Any]:
    """What is sent of a command: what was judged, and the server's own time; the command itself where no byte was."""
    if whole is None:
        return command
    sent = Sent(whole, options)
    if TIME in command:
        sent[TIME] = command[TIME]
    return sent
