#!/usr/bin/env python3
"""Puts a vault that `fle rewrap` wrote back into the collection that it was dumped from, with pymongo.

    put_keys.py URI DB.COLLECTION OLD NEW

OLD is the dump that `fle rewrap` read, NEW what it wrote. Each document takes the place of the one with its `_id` whose
`keyMaterial` is still that of OLD, by a write that a majority has. It may run again after it was cut off: a document that
is new already is counted, and left. One that is in the collection with another material, or isn't there, is told, left as
it is, and makes the exit status 1. Keys that the collection has beside are not touched.
"""
import sys

import pymongo
from bson import decode_file_iter
from bson.binary import UuidRepresentation
from bson.codec_options import CodecOptions
from bson.raw_bson import RawBSONDocument
from pymongo.write_concern import WriteConcern

RAW = CodecOptions(document_class=RawBSONDocument, uuid_representation=UuidRepresentation.UNSPECIFIED)


def keys_in(path):
    """The key documents of a file, each as its bytes."""
    with open(path, "rb") as file:
        return list(decode_file_iter(file, RAW))


def pairs_of(old, new):
    """Each key before and after `fle rewrap`, which changes neither order nor lengths; None where these aren't such."""
    pairs = list(zip(old, new))
    are_alike = all(one["_id"] == two["_id"] and len(one.raw) == len(two.raw) for one, two in pairs)
    return pairs if len(old) == len(new) and are_alike else None


def put(vault, old, new):
    """What became of one key: 'put', 'new already', or why it was left."""
    if vault.replace_one({"_id": old["_id"], "keyMaterial": old["keyMaterial"]}, new).matched_count:
        return "put"
    there = vault.find_one({"_id": old["_id"]})
    if there is None:
        return "left: it isn't in the collection"
    return "new already" if there["keyMaterial"] == new["keyMaterial"] else "left: its material is another"


def main(uri, name, old, new):
    pairs = pairs_of(keys_in(old), keys_in(new))
    if pairs is None:
        sys.exit("NEW isn't what fle rewrap makes of OLD: nothing was put")
    database, _, collection = name.partition(".")
    with pymongo.MongoClient(uri) as client:
        vault = client[database].get_collection(collection, RAW, write_concern=WriteConcern("majority"))
        ended = [put(vault, *pair) for pair in pairs]
    for (key, _), end in zip(pairs, ended):
        if end.startswith("left"):
            print(f"{key['_id'].hex()}: {end}")
    print(", ".join(f"{ended.count(end)} {end}" for end in dict.fromkeys(ended)) or "no key")
    return any(end.startswith("left") for end in ended)


if __name__ == "__main__":
    if len(sys.argv) != 5:
        sys.exit(__doc__)
    sys.exit(main(*sys.argv[1:]))
