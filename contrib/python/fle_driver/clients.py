"""The clients that `enable` takes, and what it does to those whose own calls would pass by a hook."""
from __future__ import annotations

import re
from typing import Any, NoReturn

import pymongo

from .errors import Unsupported

TRIED = "pymongo 3.11 and 4.10"
IS_TRIED = re.compile(r"(3\.11|4\.10)(\..*)?")  # of pymongo.version


def is_async(client: Any) -> bool:
    """Whether a client is that of asyncio, which pymongo has from 4.9 on."""
    kind = getattr(pymongo, "AsyncMongoClient", None)
    return kind is not None and isinstance(client, kind)


def want_blocking(client: Any) -> None:
    """Raises where a client is that of asyncio, whose calls only tasks await."""
    if is_async(client):
        raise TypeError("the key vault is read by a pymongo.MongoClient; enable takes an AsyncMongoClient")


def want_place(client: Any, untried: bool) -> None:
    """Raises where a client has no place for an encrypter, or has one, or is of a version that wasn't tried."""
    if not (is_async(client) or isinstance(client, pymongo.MongoClient)) or "_encrypter" not in vars(client):
        raise Unsupported(f"no MongoClient with a place for an encrypter, in pymongo {pymongo.version}; tried: {TRIED}")
    if not untried and not IS_TRIED.fullmatch(pymongo.version):
        raise Unsupported(f"pymongo {pymongo.version} wasn't tried, {TRIED} were: with another one a call might pass "
                          "by the rules. To take it all the same: enable(.., untried=True)")
    if client._encrypter is not None:
        raise Unsupported("the client has an encrypter already")


class Refusing:
    """In place of pymongo's own options of an encrypter."""

    _encrypted_fields_map = None  # read before a collection is made, or dropped


def refuse_bulk_write(client: Any) -> None:
    """Has a client's own `bulk_write`, of pymongo 4.9, refused: what it writes is sent past an encrypter.

    Motor calls the method of the class, and not that of the client: there pymongo refuses it, by its options."""
    if not hasattr(type(client), "bulk_write"):
        return
    options = vars(client).get("_options")
    if options is not None:
        options._ClientOptions__auto_encryption_opts = Refusing()
    if not isinstance(getattr(options, "auto_encryption_opts", None), Refusing):
        raise Unsupported(f"bulk_write of a client can't be refused: pymongo {pymongo.version} keeps its options "
                          "elsewhere")
    client.bulk_write = refuse


def refuse(*_: Any, **__: Any) -> NoReturn:
    """In place of a call whose commands the hook never sees."""
    raise Unsupported("bulk_write of a client seals nothing: use bulk_write of a collection")
