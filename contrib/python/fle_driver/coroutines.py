"""A whole client of asyncio: the hook of a blocking client, whose calls don't keep the event loop waiting."""
from __future__ import annotations

import asyncio
from concurrent.futures import ThreadPoolExecutor
from functools import partial
from typing import TYPE_CHECKING, Any, Callable, Dict, Mapping, TypeVar

from .deadline import Deadline
from .errors import Closed
from .replies import may_hold_payloads
from .scope import Engines
from .sent import encoded, sent_of

if TYPE_CHECKING:
    from .hook import Hook

Answer = TypeVar("Answer")

# Bytes that the library seals or opens in the event loop's own thread: of nothing but protected fields it seals them in
# 1.2 ms (72 ns a byte: bench/results/2026-11-30-library.md). By a thread a call took 0.05 to 0.1 ms longer, ten times
# what the library takes for a small command. Behind a `reload` the first call opens an engine too, 1 ms for 1,000 keys.
AT_ONCE = 16_384


class Coroutines:
    """What pymongo asks of the object that an AsyncMongoClient keeps as its `_encrypter`: it encodes a command in the
    thread of the event loop, as pymongo itself does, and the calls of the hook take the bytes from there.

    A process may keep its caller waiting, so each has a thread in which its calls wait for one another, first come,
    first served. These threads aren't the event loop's own (its default executor): a process that is stopped would hold
    them all, while the application, and a look-up of a host's address, needs them. They end with the client.

    A task that is cancelled takes back a call that hasn't begun. One that has goes on to its answer, or its deadline,
    though nobody waits for it: so nothing is left in a process. A command that was to be sealed isn't sent.
    """

    def __init__(self, hook: Hook, fle: Engines) -> None:
        self._hook, self._fle, self._closed = hook, fle, False
        self._bypass_auto_encryption = fle.bypass  # then pymongo hands in replies alone
        self._opening = ThreadPoolExecutor(1, "fle")
        self._sealing: Dict[str, ThreadPoolExecutor] = {db: ThreadPoolExecutor(1, "fle") for db in fle.listed()}

    async def encrypt(self, database: str, command: Mapping[str, Any], *options: Any) -> Mapping[str, Any]:
        """The command as it is sent."""
        plain = encoded(command, *options)
        judged = partial(self._hook.judged, database, plain)
        thread = self._sealing.get(database)  # none where no engine is asked
        whole = judged() if thread is None else await self._answer(thread, judged, len(plain))
        return sent_of(command, whole, options[-1])

    async def decrypt(self, response: bytes) -> bytes:
        """A reply with what was sealed opened, all of it by one engine."""
        reply = bytes(response)
        if not may_hold_payloads(reply):
            return reply
        return await self._answer(self._opening, partial(self._hook.decrypt, reply), len(reply))

    async def _answer(self, thread: ThreadPoolExecutor, call: Callable[[], Answer], length: int) -> Answer:
        """What a call answers that is handed so many bytes; the library's own answers at once where these are few."""
        if self._closed:
            raise Closed("fle was closed")
        if self._fle.by_library and length <= AT_ONCE:
            return call()
        deadline = Deadline(None if self._fle.by_library else self._fle.timeout)
        answer = asyncio.get_running_loop().run_in_executor(thread, call)
        try:
            await asyncio.wait([answer], timeout=deadline.left())
            if not answer.done():
                raise deadline.passed()
            return answer.result()
        finally:
            if not answer.cancel() and not answer.cancelled():
                answer.exception()  # it isn't told as one that nobody looked at

    async def close(self) -> None:
        """What the client's own `close` awaits. It goes on where its task is cancelled."""
        if self._closed:
            return
        self._closed = True
        try:
            if self._fle.by_library:
                self._hook.close()  # this thread's engine; those of the others go with their threads
            else:
                await asyncio.shield(asyncio.get_running_loop().run_in_executor(self._opening, self._hook.close))
        finally:
            for thread in (self._opening, *self._sealing.values()):
                thread.shutdown(wait=False)
