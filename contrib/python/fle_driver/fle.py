"""Sealing and opening, bytes to bytes."""
from __future__ import annotations

import os
import shutil
from types import TracebackType
from typing import TYPE_CHECKING, Any, Dict, FrozenSet, Mapping, Optional, Sequence, Tuple, Type, Union

from .deadline import MOST
from .errors import Closed, NotStarted
from .files import File, Named, read_all
from .kept import Kept
from .key_calls import KeyCalls
from .library import Part, loaded
from .library_keys import KeyEngine
from .listed import collections_of
from .process import Bytes
from .program_keys import KeysByProgram
from .replies import opened_whole

if TYPE_CHECKING:
    from .databases import Databases
    from .schema_map import Schemas

PING = b"\x0f\0\0\0\x10ping\0\1\0\0\0\0"  # {ping: 1}
EMPTY = b"\5\0\0\0\0"


class Fle:
    """The library libfle, where the system finds it and no program is named; else two kept processes: `fle encrypt db
    keys schemas master` and `fle decrypt keys master`.

    The files are read here, once, and a fault of one is raised here: both processes begin here. One that ended, by a
    refusal or otherwise, begins anew at the next call, over what was read here: make another `Fle` where a file has
    changed. A call of a process raises `TimedOut` after so many seconds, those in which it waits for other threads too;
    with None it waits as long as it takes.
    """

    bypass = whole_names = False
    vault: Optional[Tuple[str, str]] = None

    def __init__(self, db: str, keys: File, schemas: File, master: File, program: Optional[File] = None,
                 timeout: Optional[float] = 60) -> None:
        paths = [os.path.abspath(path) for path in (keys, schemas, master)]
        self._begin(db, list(zip(paths, read_all(paths))), program, timeout)

    @classmethod
    def over(cls, db: str, files: Sequence[Named], program: Optional[File] = None, timeout: Optional[float] = 60, *,
             seals: bool = True, opens: bool = True) -> Fle:
        """One over what is in memory: keys, schemas and master. A process that isn't for sealing, or for opening,
        begins at the first call that wants it, if ever one does."""
        made = cls.__new__(cls)
        made._begin(db, files, program, timeout, seals, opens)
        return made

    @staticmethod
    def of(client: Any, vault: str, *, schemas: Optional[Schemas] = None, master: Optional[Bytes] = None,
           kms_providers: Optional[Mapping[str, Any]] = None, db: Optional[str] = None, bypass: bool = False,
           program: Optional[File] = None, timeout: Optional[float] = 60) -> Databases:
        """Those of several databases, with the keys of a collection, as `encryption.__keyVault`, which is read by this
        client: `Databases` says more."""
        from .databases import Databases  # which stands on this module

        return Databases(client, vault, schemas, master, kms_providers, db=db, bypass=bypass, program=program,
                         timeout=timeout)

    def _begin(self, db: str, files: Sequence[Named], program: Optional[File], timeout: Optional[float],
               seals: bool = True, opens: bool = True) -> None:
        """Opens an engine of the library; or else begins processes."""
        if timeout is not None and not 0 < timeout <= MOST:
            raise ValueError(f"a timeout of {timeout} seconds: it is above 0 and at most {MOST:,}")
        self.db, self.timeout = db, timeout
        self._schemas: Optional[bytes] = files[1][1]
        calls = loaded() if program is None else None
        self.by_library = calls is not None
        if calls is not None:
            engine = KeyEngine(calls, db, [name for name, _ in files], [content for _, content in files])
            self._key_calls: Optional[KeyCalls] = engine
            self._sealing: Union[Kept, Part] = Part(engine, True)
            self._opening: Union[Kept, Part] = Part(engine, False)
            return
        fle = found(program or "fle")
        self._key_calls = KeysByProgram(fle, files[0], files[2], timeout)
        self._sealing = Kept([fle, "encrypt", db], files, timeout)
        self._opening = Kept([fle, "decrypt"], [files[0], files[2]], timeout)
        try:
            if seals:
                self._sealing.ask(PING)
            if opens:
                self._opening.ask(EMPTY)
        except BaseException:
            self.close()
            raise

    def engine(self, db: str) -> Optional[Fle]:
        """What seals the commands of a database: this one those of its own, and of no other."""
        return self if db == self.db else None

    def opening(self) -> Fle:
        """What opens replies."""
        return self

    def encrypt(self, command: Bytes) -> bytes:
        """A command of this database with each protected value sealed, and nothing else changed."""
        return self._sealing.ask(command)

    def decrypt(self, document: Bytes) -> bytes:
        """A document of at most 48,000,000 bytes, as a reply of the server, with each sealed value opened, and nothing
        else changed. A process takes 16,777,216 bytes, and a longer document in parts."""
        return self._opening.ask(document) if self.by_library else opened_whole(document, self._opening.ask)

    def key_calls(self) -> KeyCalls:
        """What it does with keys that are named."""
        calls = self._key_calls
        if calls is None:
            raise Closed("fle was closed")
        return calls

    def collections(self) -> FrozenSet[bytes]:
        """The names of the collections and views that SCHEMAS lists."""
        schemas = self._schemas
        if schemas is None:
            raise Closed("fle was closed")
        return collections_of(schemas)

    def listed(self) -> Dict[str, FrozenSet[bytes]]:
        """The same, by the name of the database."""
        return {self.db: self.collections()}

    def close(self) -> None:
        """Ends both processes, once calls that are at work have ended; a later call raises `Closed`."""
        self._schemas = self._key_calls = None
        self._sealing.close()
        self._opening.close()

    def __enter__(self) -> Fle:
        return self

    def __exit__(self, kind: Optional[Type[BaseException]], error: Optional[BaseException],
                 trace: Optional[TracebackType]) -> None:
        self.close()


def found(program: File) -> str:
    """The path of a program, by its name in PATH."""
    path = shutil.which(program)
    if path is None:
        raise NotStarted(f"there is no program {os.fspath(program)} in PATH")
    return os.path.abspath(path)
