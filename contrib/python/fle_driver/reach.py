"""Commands that are sent to one database and write into another, which their documents name."""
from __future__ import annotations

from typing import Callable, Dict, Iterator

from .walk import ARRAY, DOCUMENT, STRING, Element, elements, text_of


def name_of(command: bytes) -> str:
    """The name of a command, which is that of its first element."""
    return next((element.name for element in elements(command)), "")


def reaches(db: str, command: bytes) -> bool:
    """Whether a command that is sent to another database may write into this one; also where that can't be read."""
    judge = REACHING.get(name_of(command))
    return judge is not None and any(judge(db, element) for element in elements(command))


def always(_db: str, _element: Element) -> bool:
    """applyOps, and doTxn of older servers, name a collection in each write, and have writes within writes."""
    return True


def by_collections(db: str, element: Element) -> bool:
    """bulkWrite, by the whole names of the collections that its writes number."""
    return element.name == "nsInfo" and (element.tag != ARRAY or any(is_within(db, it) for it in inner(element)))


def is_within(db: str, collection: Element) -> bool:
    """Whether a collection of bulkWrite is in this database, or has no name that can be read."""
    return collection.tag != DOCUMENT or any(it.tag != STRING or text_of(it).startswith(db.encode() + b".")
                                             for it in inner(collection) if it.name == "ns")


def by_stages(db: str, element: Element) -> bool:
    """aggregate, by the stages $out and $merge: these stand in its pipeline itself, and within no other stage."""
    return element.name == "pipeline" and (element.tag != ARRAY or any(writes(db, it) for it in inner(element)))


def writes(db: str, stage: Element) -> bool:
    """Whether a stage writes into this database, or is none."""
    return stage.tag != DOCUMENT or any(it.name in ("$out", "$merge") and names(db, it) for it in inner(stage))


def by_out(db: str, element: Element) -> bool:
    """mapReduce, by its `out`."""
    return element.name == "out" and names(db, element)


def names(db: str, target: Element) -> bool:
    """Whether a target of $out, $merge or mapReduce is in this database, or can't be read. A text is a collection of
    the database that the command is sent to; a document may have a database as `db`, and one of $merge is or has such a
    target as `into`."""
    if target.tag != DOCUMENT:
        return target.tag != STRING
    return any((it.tag != STRING or text_of(it) == db.encode()) if it.name == "db" else
               it.name == "into" and names(db, it) for it in inner(target))


def by_command(db: str, element: Element) -> bool:
    """explain, by the command in it."""
    return element.name == "explain" and (element.tag != DOCUMENT or reaches(db, element.value))


def inner(element: Element) -> Iterator[Element]:
    """The elements of a document or of an array."""
    return elements(element.value)


REACHING: Dict[str, Callable[[str, Element], bool]] = {
    "aggregate": by_stages, "applyOps": always, "bulkWrite": by_collections, "doTxn": always, "explain": by_command,
    "mapReduce": by_out, "mapreduce": by_out,
}
