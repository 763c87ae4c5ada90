"""What the tests share: the examples' files, documents written byte by byte, and a run of `fle` for each of them."""
import contextlib
import stat
import subprocess
import tempfile
from pathlib import Path

TOP = Path(__file__).parents[3]
EXAMPLES = TOP / "examples"
KEYS, SCHEMAS, MASTER = (EXAMPLES / name for name in ("keys.bson", "people.schemas.json", "EXAMPLE-ONLY.master"))
FILES = "hr", KEYS, SCHEMAS, MASTER


def spelled(*elements):
    """A document, or an array, of these elements."""
    body = b"".join(elements)
    return (len(body) + 5).to_bytes(4, "little") + body + b"\0"


def element(tag, name, value):
    return bytes([tag]) + name.encode() + b"\0" + value


def string(name, text):
    return element(2, name, (len(text) + 1).to_bytes(4, "little") + text.encode() + b"\0")


def integer(name, number):
    return element(16, name, number.to_bytes(4, "little"))


def binary(name, subtype, contents):
    return element(5, name, len(contents).to_bytes(4, "little") + bytes([subtype]) + contents)


def documents(*parts):
    """The field `documents` of an insert."""
    return element(4, "documents", spelled(*(element(3, str(at), part) for at, part in enumerate(parts))))


def insert(*parts):
    """An insert of these documents into people."""
    return spelled(string("insert", "people"), documents(*parts))


# Elements that pymongo changes, or refuses, where it decodes them and encodes them again: a UUID, equal names, a date
# after the year 9999, a symbol, a value that is undefined.
ODD = (binary("token", 4, bytes(range(16))), integer("twin", 1), integer("twin", 2),
       element(9, "far", (253_402_300_800_000).to_bytes(8, "little")),
       element(14, "symbol", b"\2\0\0\0s\0"), element(6, "undefined", b""))
PERSON = spelled(integer("_id", 1), string("ssn", "123-45-6789"), *ODD)


def ran(words, stream):
    """What a run of `fle` with these words writes."""
    return subprocess.run(["fle", *map(str, words)], input=stream, stdout=subprocess.PIPE, check=True).stdout


def sealed(command):
    return ran(["encrypt", *FILES], command)


@contextlib.contextmanager
def program(text):
    """A program of this text."""
    with tempfile.TemporaryDirectory() as folder:
        path = Path(folder, "program")
        path.write_text(f"#!/bin/sh\n{text}\n")
        path.chmod(path.stat().st_mode | stat.S_IXUSR)
        yield str(path)
