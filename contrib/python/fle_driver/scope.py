"""Which databases and collections a client's commands may be sent to."""
from __future__ import annotations

from typing import Dict, FrozenSet, Iterable, Union

from .databases import Databases
from .errors import Unsupported
from .fle import Fle
from .reach import name_of, reaches
from .walk import STRING, elements, text_of

Engines = Union[Fle, Databases]

# Commands that carry no document to be stored or compared: of the handshake, of sessions, transactions and cursors, of
# authentication, and those by which a server tells of itself. They pass, whichever database they are sent to.
PASSING = frozenset("""abortTransaction authenticate buildInfo buildinfo commitTransaction connectionStatus endSessions
    getMore getParameter getnonce hello hostInfo isMaster ismaster killCursors listCollections listDatabases logout ping
    refreshSessions renameCollection replSetGetStatus saslContinue saslStart serverStatus startSession
    whatsmyuri""".split())


class Scope:
    """The databases of a `Fle`, and in each the collections that SCHEMAS lists; and what is named beside them, where
    values are sent as they are: other databases, and plain collections of these."""

    def __init__(self, fle: Engines, others: Iterable[str], plain: Iterable[str]) -> None:
        self._others, self._is_whole = names_of(others), fle.whole_names
        self._collections: Dict[str, FrozenSet[bytes]] = fle.listed()
        for name in names_of(plain):
            db, _, collection = name.partition(".") if self._is_whole else (*self._collections, "", name)
            if not collection or db not in self._collections:
                raise ValueError(f"plain: {name} is no database.collection of {self._databases()}")
            self._collections[db] |= {collection.encode()}

    def _databases(self) -> str:
        return ", ".join(self._collections) or "no database"

    def want_database(self, database: str, name: str) -> None:
        """Raises where a command of this name may not be sent to another database."""
        if name not in PASSING and database not in self._others:
            raise Unsupported(f"{name} of the database {database}: Fle has the rules of {self._databases()}. Where "
                              f"values may be sent there as they are: enable(.., others=[{database!r}])")

    def want_no_reach(self, command: bytes) -> None:
        """Raises where a command of another database may write into one of these."""
        for db in self._collections:
            if reaches(db, command):
                raise Unsupported(f"{name_of(command)} of another database would write into {db} past its rules: write "
                                  "by the calls of its collections")

    def want_collection(self, db: str, command: bytes) -> None:
        """Raises where a command that `fle` has taken names a collection that isn't listed."""
        first = next(elements(command))
        if first.name in PASSING or first.tag == STRING and text_of(first) in self._collections[db]:
            return
        collection = text_of(first).decode("utf-8", "replace")
        named = f"{db}.{collection}" if self._is_whole else collection
        raise Unsupported(f"SCHEMAS lists no collection {collection} of {db}. Where values may be sent there as they "
                          f"are: enable(.., plain=[{named!r}])")


def names_of(names: Iterable[str]) -> FrozenSet[str]:
    """Several names; one text alone would be its letters."""
    if isinstance(names, str):
        raise TypeError(f"a list of names is wanted, as [{names!r}]")
    return frozenset(names)
