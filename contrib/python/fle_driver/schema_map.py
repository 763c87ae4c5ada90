"""The schemas of several databases: in code, as pymongo's `schema_map` has them, or a file for each database."""
from __future__ import annotations

import os
from typing import Any, Dict, List, Mapping, Optional, Tuple, Union

import bson
from bson.binary import STANDARD
from bson.codec_options import CodecOptions
from bson.son import SON

from .files import File, Named, read_all

Schemas = Union[File, Mapping[str, Union[File, Mapping[str, Any]]]]

# Those of pymongo's schema_map.
OPTIONS: CodecOptions[Any] = CodecOptions(document_class=SON, uuid_representation=STANDARD)


def schemas_of(schemas: Optional[Schemas], db: Optional[str]) -> Dict[str, Named]:
    """SCHEMAS of each database: one file of the database `db`, or a mapping from `database.collection` to a schema, and
    from `database` to a file."""
    if isinstance(schemas, (str, os.PathLike)):
        if db is None:
            raise TypeError("a file of schemas is that of one database: Fle.of(.., schemas=FILE, db=NAME)")
        schemas = {db: schemas}
    elif db is not None:
        raise TypeError("db= goes with a file of schemas; a mapping names its databases itself")
    if not isinstance(schemas, Mapping) or not schemas:
        raise TypeError("schemas are wanted, of one collection or more; those that a server has aren't taken")
    paths, infos = parted(schemas)
    files = {name: (os.path.abspath(path), read_all([os.path.abspath(path)])[0]) for name, path in paths.items()}
    return {**files, **{name: (f"the schemas of {name}", b"".join(each)) for name, each in infos.items()}}


def parted(schemas: Mapping[str, Any]) -> Tuple[Dict[str, File], Dict[str, List[bytes]]]:
    """The files of databases, and the collection infos of others."""
    paths: Dict[str, File] = {}
    infos: Dict[str, List[bytes]] = {}
    for name, schema in schemas.items():
        database, dot, collection = name.partition(".")
        if not dot and isinstance(schema, (str, os.PathLike)):
            paths[name] = schema
        elif database and collection and isinstance(schema, Mapping):
            infos.setdefault(database, []).append(info_of(name, collection, schema))
        else:
            raise TypeError(f"schemas: {name!r} is no database.collection with a schema, and no database with a file")
    if paths.keys() & infos.keys():
        raise ValueError(f"both a file and schemas in code: {', '.join(sorted(paths.keys() & infos.keys()))}")
    return paths, infos


def info_of(name: str, collection: str, schema: Mapping[str, Any]) -> bytes:
    """The collection info that has a schema. What can't be encoded is told by its collection, and not by its value."""
    info = SON([("name", collection), ("options", {"validator": {"$jsonSchema": schema}})])
    try:
        encoded: bytes = bson.encode(info, codec_options=OPTIONS)
    except Exception as error:
        raise ValueError(f"the schema of {name} is no BSON: {type(error).__name__}") from None
    return encoded
