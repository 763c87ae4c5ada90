#!/usr/bin/env python3
"""Reads documents from standard input, as a dump of a collection has them, and writes commands that insert them, of at
most 1,000 documents and 8,000,000 bytes or of one document. Needs no package.

    python3 examples/python/inserts.py DB COLLECTION < people.bson | fle encrypt ..
"""
import struct
import sys

MOST, ROOM = 1000, 8_000_000


def text(words):
    return struct.pack("<i", len(words.encode()) + 1) + words.encode() + b"\0"


def closed(elements):
    return struct.pack("<i", len(elements) + 5) + elements + b"\0"


def documents(source):
    while head := source.read(4):
        rest = source.read(struct.unpack("<i", head)[0] - 4)
        yield head + rest


def insert(database, collection, batch):
    stored = closed(b"".join(b"\x03%d\0" % at + document for at, document in enumerate(batch)))
    return closed(b"\x02insert\0" + text(collection) + b"\x04documents\0" + stored + b"\x02$db\0" + text(database))


def main(database, collection):
    batch = []
    for document in documents(sys.stdin.buffer):
        if batch and (len(batch) == MOST or sum(map(len, batch)) + len(document) > ROOM):
            sys.stdout.buffer.write(insert(database, collection, batch))
            batch = []
        batch.append(document)
    if batch:
        sys.stdout.buffer.write(insert(database, collection, batch))


main(*sys.argv[1:3])
