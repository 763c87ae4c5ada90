"""One process of `fle`, the socket to it and the pipes from it."""
from __future__ import annotations

import os
import select
import socket
import subprocess
import weakref
from contextlib import ExitStack
from typing import Optional, Sequence, Tuple, Union

from .deadline import Deadline
from .errors import FleError, NotStarted
from .files import handed, name_of

Bytes = Union[bytes, bytearray, memoryview]

PIECE = 65_536  # bytes that are read at once: what a pipe holds
LONGEST = 48_000_000  # bytes of an answer, at most


class Process:
    """A process that answers each document before it takes the next. Its words end with the names of files that hold
    these contents. It is ended where nothing names it any more, too, and where the interpreter ends."""

    def __init__(self, words: Sequence[str], contents: Sequence[bytes]) -> None:
        with ExitStack() as unless_begun:
            try:
                self._into, source = socket.socketpair()
                unless_begun.enter_context(self._into)
                with source, handed(contents) as files:  # it has descriptors of its own once it has begun
                    self._child = subprocess.Popen([*words, *map(name_of, files)], bufsize=0, stdin=source.fileno(),
                                                   stdout=subprocess.PIPE, stderr=subprocess.PIPE, pass_fds=files)
            except OSError as error:
                raise NotStarted(f"{words[0]} doesn't start: {error.strerror}") from error
            unless_begun.pop_all()
        assert self._child.stdout and self._child.stderr
        self._out, self._said = self._child.stdout.fileno(), self._child.stderr.fileno()
        self._into.setblocking(False)
        self._answers, self._both = select.poll(), select.poll()
        self._answers.register(self._out, select.POLLIN)
        self._both.register(self._out, select.POLLIN)
        self._both.register(self._into, select.POLLOUT)
        self._end = weakref.finalize(self, put_away, self._child, self._into, os.getpid())

    def answer(self, document: Bytes, deadline: Deadline) -> Optional[bytes]:
        """The answer to a document, written and read side by side where the process doesn't take the document at once;
        None where the process ends in place of an answer."""
        answer = bytearray()
        try:
            unsent = self._hand(memoryview(document))
            while unsent or missing(answer):
                if self._takes_more(bool(unsent), deadline):
                    unsent = self._hand(unsent)
                else:
                    piece = os.read(self._out, PIECE)
                    if not piece:
                        return None
                    answer += piece
        except ConnectionError:
            return None
        return bytes(answer)

    def _hand(self, unsent: memoryview) -> memoryview:
        """Hands in what the process takes at once, and says what is left. Where the process has ended no signal comes:
        SIGPIPE would end a program that has it at its default."""
        return unsent[self._into.send(unsent, socket.MSG_NOSIGNAL):]

    def _takes_more(self, is_unsent: bool, deadline: Deadline) -> bool:
        """Whether the process takes more of a document; asked once it does, or has written something. Raises where
        neither comes in time."""
        left = deadline.left()
        ready = (self._both if is_unsent else self._answers).poll(None if left is None else 1000 * left)
        if not ready:
            raise deadline.passed()
        return is_unsent and any(end != self._out for end, _ in ready)

    def end(self, deadline: Deadline) -> Tuple[int, str]:
        """The status of a process that ends by itself, and what it says."""
        try:
            return self._child.wait(deadline.left()), os.read(self._said, PIECE).decode("utf-8", "replace")
        except subprocess.TimeoutExpired:
            raise deadline.passed() from None

    def has_ended(self) -> bool:
        """Whether it ended by itself, or by a signal."""
        return self._child.poll() is not None

    def stop(self) -> None:
        """Ends it. Nothing is lost by that: what it took is answered, or was given up."""
        self._end()

    def forget(self) -> None:
        """Leaves it to the process that began it, of which this one is a fork."""
        self._end()
        self._child.returncode = 0  # nothing to wait for


def put_away(child: subprocess.Popen[bytes], into: socket.socket, owner: int) -> None:
    """Closes the ways to a process and, where this one began it, ends it."""
    into.close()
    if os.getpid() == owner:
        with child:  # closes its pipes, and waits for it
            child.kill()
        return
    for pipe in (child.stdout, child.stderr):
        if pipe is not None:
            pipe.close()


def missing(answer: bytearray) -> int:
    """How many bytes are missing to an answer that begins so, as far as that is known."""
    if len(answer) < 4:
        return 4 - len(answer)
    length = int.from_bytes(answer[:4], "little")
    if not max(5, len(answer)) <= length <= LONGEST:
        raise FleError("what the program wrote isn't one document: it isn't fle")
    return length - len(answer)
