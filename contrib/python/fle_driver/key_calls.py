"""What an engine does with keys that are named: the same by the library (library_keys.py) and by the program
(program_keys.py)."""
from __future__ import annotations

from typing import List, Protocol, Sequence, Union

from .files import Named

Key = Union[bytes, str]  # a data key by its id, of 16 bytes, or by an alternate name
SEALED = "v"  # the only field of a document whose value is sealed by itself


class KeyCalls(Protocol):
    """Calls that raise the same, and answer with the same bytes but for those that are drawn."""

    def seal_value(self, key: Key, is_random: bool, document: bytes) -> bytes:
        """{v: value} with the value sealed under a data key, by the random algorithm or the deterministic one."""

    def make_key(self, names: Sequence[str]) -> bytes:
        """The document of a new data key with these alternate names, under the master key."""

    def rewrap_keys(self, keys: Named, new_master: Named) -> List[bytes]:
        """These key documents under another master key. Keys of another provider stay as they are."""


def texts_of(names: Sequence[str]) -> List[bytes]:
    """Alternate names as bytes. What no argument of a program can be is refused here."""
    if isinstance(names, str) or not all(isinstance(name, str) for name in names):
        raise TypeError("a list of names is wanted")
    if any("\0" in name for name in names):
        raise ValueError("a name with a 00 in it")
    return [name.encode() for name in names]
