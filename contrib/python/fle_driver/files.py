"""The files of keys, schemas and master: read once, and handed to each process as they were read."""
from __future__ import annotations

import fcntl
import os
from contextlib import ExitStack, contextmanager
from typing import BinaryIO, Iterator, List, Sequence, Tuple, Union

from .errors import Ended, ended
from .faults import Status

File = Union[str, "os.PathLike[str]"]
Named = Tuple[str, bytes]  # what a file holds, or would, by the name that errors tell

LONGEST = 67_108_864  # bytes of a file, at most: of a longer one a byte more is read, and `fle` says so
STANDARD = 3  # so many descriptors are a process's own: its input, its output and its line


def read_all(files: Sequence[str]) -> List[bytes]:
    """What the files hold; raises what `fle` ends with where one can't be read."""
    contents = []
    for number, path in enumerate(files, 1):
        try:
            with open(path, "rb") as file:
                contents.append(file.read(LONGEST + 1))
        except FileNotFoundError as missing:
            raise ended(Status.Setup, f"fle: 4 {number} 1 0\n", b"", 0, files) from missing
        except OSError as failed:
            raise Ended(f"{path}: {failed.strerror}", Status.ReadFault) from failed
    return contents


def in_memory(contents: bytes) -> BinaryIO:
    """A file of these bytes in memory, which nobody changes any more."""
    made = os.memfd_create("fle", os.MFD_CLOEXEC | os.MFD_ALLOW_SEALING)
    try:
        file = open(fcntl.fcntl(made, fcntl.F_DUPFD_CLOEXEC, STANDARD), "wb")
    finally:
        os.close(made)
    try:
        file.write(contents)
        file.flush()
        if hasattr(fcntl, "F_ADD_SEALS"):  # from Python 3.9 on
            fcntl.fcntl(file, fcntl.F_ADD_SEALS,
                        fcntl.F_SEAL_SEAL | fcntl.F_SEAL_SHRINK | fcntl.F_SEAL_GROW | fcntl.F_SEAL_WRITE)
    except BaseException:
        file.close()
        raise
    return file


@contextmanager
def handed(contents: Sequence[bytes]) -> Iterator[List[int]]:
    """Descriptors at which a process that is begun meanwhile finds these contents; each one that it opens by its name
    begins at the first byte. They are made at each start: a name below the parent's /proc would want the right to look
    into the parent."""
    with ExitStack() as files:
        yield [files.enter_context(in_memory(content)).fileno() for content in contents]


def name_of(descriptor: int) -> str:
    """The name by which a process opens what it was handed."""
    return f"/proc/self/fd/{descriptor}"
