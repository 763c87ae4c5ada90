"""A process of `fle` that is kept between calls, and begun anew where one came to no answer."""
from __future__ import annotations

import os
import threading
import weakref
from typing import Optional, Protocol, Sequence, Tuple

from .deadline import Deadline
from .errors import Closed, Ended, ended
from .process import Bytes, Process

STREAM = 1 << 40  # bytes that one process takes; behind them another is begun


def want_whole(document: Bytes) -> None:
    """Raises where the bytes aren't one document, by the length that they state."""
    if len(document) < 5 or int.from_bytes(document[:4], "little") != len(document):
        raise ValueError(f"{len(document)} bytes are not one BSON document, which states its length first")


class Kept:
    """One process at a time, with these words, and files by their paths and contents: begun at the first call, and anew
    after it ended, over the same contents.

    A call leaves nothing in the pipes: one that doesn't come to an answer ends its process. Safe for threads, which
    wait for one another, and for forks: a child begins a process of its own. A call may take so many seconds, those in
    which it waits for another one too; None is no bound.
    """

    def __init__(self, words: Sequence[str], files: Sequence[Tuple[str, bytes]],
                 timeout: Optional[float] = None) -> None:
        self._words, self._timeout = words, timeout
        self._paths, self._contents = [path for path, _ in files], [content for _, content in files]
        self._lock, self._closed = threading.Lock(), False
        self._process: Optional[Process] = None
        self._answered = self._taken = 0
        ALL.add(self)

    def ask(self, document: Bytes) -> bytes:
        """The answer to one document of BSON. Where a process ends with no word against the document, another one is
        asked, once: sealing and opening change nothing. The time counts in which other threads are waited for: else a
        stopped process would hold each of them in turn."""
        want_whole(document)
        deadline = Deadline(self._timeout)
        lock, left = self._lock, deadline.left()
        if not lock.acquire(timeout=-1 if left is None else left):
            raise deadline.passed()
        try:
            return self._asked(document, deadline)
        finally:
            lock.release()

    def _asked(self, document: Bytes, deadline: Deadline) -> bytes:
        """The answer of one process, or of the next."""
        try:
            return self._answer(document, deadline)
        except Ended as end:
            if type(end) is not Ended:  # a refusal, or a file at fault
                raise
        return self._answer(document, deadline)

    def _answer(self, document: Bytes, deadline: Deadline) -> bytes:
        """The answer of the process that is kept."""
        if self._closed:
            raise Closed("fle was closed")
        process = self._running()
        try:
            answer = process.answer(document, deadline)
            if answer is None:
                raise ended(*process.end(deadline), bytes(document), self._answered, self._paths)
            self._answered += 1
            self._taken += len(document)
        except BaseException:  # KeyboardInterrupt too: no later call may read the answer to this document
            self._stop()
            raise
        return answer

    def close(self) -> None:
        """Ends the process, once a call that is at work has ended."""
        with self._lock:
            self._closed, self._contents = True, []
            self._stop()

    def _running(self) -> Process:
        if self._process is not None and (self._taken >= STREAM or self._process.has_ended()):
            self._stop()
        if self._process is None:
            self._process, self._answered, self._taken = Process(self._words, self._contents), 0, 0
        return self._process

    def _stop(self) -> None:
        process, self._process = self._process, None
        if process is not None:
            process.stop()

    def forget(self) -> None:
        """In a child: the process is the parent's, and the lock may be held by a thread that isn't here."""
        self._lock, process, self._process = threading.Lock(), self._process, None
        if process is not None:
            process.forget()


class Forgetting(Protocol):
    """What a child has to make anew after a fork."""

    def forget(self) -> None:
        """Leaves to the parent what is the parent's."""


ALL: weakref.WeakSet[Forgetting] = weakref.WeakSet()


def forget_all() -> None:
    """What a child does after a fork."""
    for one in list(ALL):
        one.forget()


os.register_at_fork(after_in_child=forget_all)
