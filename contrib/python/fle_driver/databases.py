"""Several databases over one key vault, which is a collection: what `Fle.of` gives."""
from __future__ import annotations

import threading
from types import TracebackType
from typing import Any, Dict, FrozenSet, Mapping, Optional, Sequence, Type

from bson.binary import Binary

from .clients import want_blocking
from .errors import Closed, Unsupported
from .files import File, Named
from .fle import Fle
from .kept import ALL
from .process import Bytes
from .schema_map import Schemas, schemas_of
from .vault import insert_key, master_of, namespace_of, read_keys, want_local


class Databases:
    """An engine for each database that `schemas` names, over the keys that a client reads from a collection.

    All is read here, and by `reload` the keys alone. What can't be read, or is at fault, is raised then. With `bypass`
    replies are opened and nothing is sealed; schemas aren't looked at.
    """

    whole_names = True  # `plain` of `enable` names collections as database.collection

    def __init__(self, client: Any, vault: str, schemas: Optional[Schemas], master: Optional[Bytes],
                 kms_providers: Optional[Mapping[str, Any]], *, db: Optional[str] = None, bypass: bool = False,
                 program: Optional[File] = None, timeout: Optional[float] = 60) -> None:
        want_blocking(client)
        self.bypass, self.vault = bypass, namespace_of(vault)
        self._client, self._program, self.timeout = client, program, timeout
        self._master: Named = "the master key", master_of(master, kms_providers)
        self._schemas: Dict[str, Named] = {} if bypass else schemas_of(schemas, db)
        self.forget()
        ALL.add(self)
        self._fles: Optional[Dict[str, Fle]] = self._made()
        self.by_library = self.opening().by_library

    def _made(self) -> Dict[str, Fle]:
        """Engines over the keys as they are now; one of no database where nothing is sealed."""
        keys = ".".join(self.vault), read_keys(self._client, self.vault)
        fles: Dict[str, Fle] = {}
        try:
            for db, schemas in (self._schemas or {self.vault[0]: ("no schemas", b"")}).items():
                fles[db] = Fle.over(db, [keys, schemas, self._master], self._program, self.timeout,
                                    seals=not self.bypass, opens=not fles)
        except BaseException:
            close_all(fles)
            raise
        return fles

    def reload(self) -> None:
        """Reads the keys anew. Calls that are at work end with the engines that they began with, which go when nothing
        names them any more; later ones have new engines. Where this raises, the old ones stay."""
        with self._reading:
            self._now()
            made = self._made()
            with self._changing:
                is_closed = self._fles is None
                if not is_closed:
                    self._fles = made
        if is_closed:
            close_all(made)
            raise Closed("fle was closed")

    def create_data_key(self, kms_provider: str = "local", *, key_alt_names: Optional[Sequence[str]] = None) -> Binary:
        """Makes a data key, and puts it into the collection; its id. `reload` makes it known here."""
        want_local(kms_provider)
        key = self.opening().key_calls().make_key(key_alt_names or ())
        return insert_key(self._client, self.vault, key)

    def _now(self) -> Dict[str, Fle]:
        """The engines of calls that begin now."""
        fles = self._fles
        if fles is None:
            raise Closed("fle was closed")
        return fles

    def forget(self) -> None:
        """In a child: a lock may be held by a thread that isn't here."""
        self._reading, self._changing = threading.Lock(), threading.Lock()

    def engine(self, db: str) -> Optional[Fle]:
        """What seals the commands of a database, by the keys of now; None for one that `schemas` doesn't name."""
        return self._now()[db] if db in self._schemas else None

    def opening(self) -> Fle:
        """What opens replies, by the keys of now: the first, whose process for it has begun."""
        return next(iter(self._now().values()))

    def encrypt(self, command: Bytes, db: Optional[str] = None) -> bytes:
        """A command of a database with each protected value sealed. Where there is only one, it needn't be named."""
        one = next(iter(self._schemas)) if db is None and len(self._schemas) == 1 else db
        fle = None if one is None else self.engine(one)
        if fle is None:
            raise Unsupported(f"the name of a database is wanted, one of: {', '.join(self._schemas) or 'none'}")
        return fle.encrypt(command)

    def decrypt(self, document: Bytes) -> bytes:
        """A document with each sealed value opened, whichever database it comes from."""
        return self.opening().decrypt(document)

    def listed(self) -> Dict[str, FrozenSet[bytes]]:
        """The names of the collections and views that the schemas of each database list."""
        return {db: self._now()[db].collections() for db in self._schemas}

    def close(self) -> None:
        """Ends all engines, once calls that are at work have ended; a later call raises `Closed`."""
        with self._changing:
            fles, self._fles = self._fles, None
        close_all(fles or {})

    def __enter__(self) -> Databases:
        return self

    def __exit__(self, kind: Optional[Type[BaseException]], error: Optional[BaseException],
                 trace: Optional[TracebackType]) -> None:
        self.close()


def close_all(fles: Mapping[str, Fle]) -> None:
    """Closes each."""
    for fle in fles.values():
        fle.close()
