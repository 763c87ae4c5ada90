"""A whole pymongo client, by the hook of pymongo's own automatic encryption."""
from __future__ import annotations

from typing import Any, Iterable, Mapping, Optional

from .clients import is_async, refuse_bulk_write, want_place
from .coroutines import Coroutines
from .reach import REACHING, name_of
from .replies import may_hold_payloads
from .scope import Engines, Scope
from .sent import encoded, sent_of
from .vault import reads_keys


class Hook:
    """What pymongo asks of the object that it keeps as a client's `_encrypter`."""

    def __init__(self, fle: Engines, others: Iterable[str] = (), plain: Iterable[str] = ()) -> None:
        self._fle, self._scope = fle, Scope(fle, others, plain)
        self._bypass_auto_encryption = fle.bypass  # then pymongo hands in replies alone

    def encrypt(self, database: str, command: Mapping[str, Any], *options: Any) -> Mapping[str, Any]:
        """The command as it is sent. pymongo 3 hands in whether names are checked, and then, as pymongo 4 does, the
        codec options."""
        return sent_of(command, self.judged(database, encoded(command, *options)), options[-1])

    def judged(self, database: str, plain: bytes) -> Optional[bytes]:
        """What is sent of a command that may be sent; None where no byte of it was looked at but its name."""
        if reads_keys(self._fle.vault, database, plain):
            return plain
        fle = self._fle.engine(database)  # a call ends with the engine that it began with
        if fle is not None:
            whole = fle.encrypt(plain)
            self._scope.want_collection(database, whole)
            return whole
        self._scope.want_database(database, name_of(plain))
        if name_of(plain) not in REACHING:
            return None
        self._scope.want_no_reach(plain)
        return plain

    def decrypt(self, response: bytes) -> bytes:
        """A reply with what was sealed opened, all of it by one engine."""
        reply = bytes(response)
        return self._fle.opening().decrypt(reply) if may_hold_payloads(reply) else reply

    def close(self) -> None:
        """What the client's own `close` calls."""
        self._fle.close()


def enable(client: Any, fle: Engines, others: Iterable[str] = (), plain: Iterable[str] = (), *,
           untried: bool = False) -> None:
    """From here on the client, a MongoClient or an AsyncMongoClient, seals what it sends to each database of `fle`, and
    opens each reply that it receives.

    `others` names other databases, and `plain` collections of these that SCHEMAS doesn't list, as `database.collection`
    where `fle` is by `Fle.of`: their values are sent as they are. A command of any other, and one of another database
    that would write into these, raises `Unsupported`; one that `fle` doesn't know, such as aggregate, `Refused`.
    Closing the client closes `fle`.

    A version of pymongo that wasn't tried is taken only with `untried`.
    """
    want_place(client, untried)
    hook = Hook(fle, others, plain)
    refuse_bulk_write(client)
    client._encrypter = Coroutines(hook, fle) if is_async(client) else hook
