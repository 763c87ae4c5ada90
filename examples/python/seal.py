#!/usr/bin/env python3
"""Keeps `fle encrypt` and `fle decrypt` open and sends a document at a time through them, with pymongo's `bson`.

Seals three commands, shows that no protected value is left in what comes out, opens it and compares, byte for byte; and
goes on after a refusal. Run from the top, with fle in PATH: /usr/bin/python3 examples/python/seal.py
"""
import subprocess
import sys

import bson
from bson.binary import Binary

KEYS, SCHEMAS, MASTER = "examples/keys.bson", "examples/people.schemas.json", "examples/EXAMPLE-ONLY.master"


class Refused(Exception):
    """The process ended in place of an answer, with this line."""


class Kept:
    """One process: it answers each document before it takes the next."""

    def __init__(self, *words):
        pipe = subprocess.PIPE
        self.process = subprocess.Popen(["fle", *words], stdin=pipe, stdout=pipe, stderr=pipe)

    def ask(self, document):
        """The answer to one document, in BSON both; its first four bytes are its length."""
        self.process.stdin.write(document)
        self.process.stdin.flush()
        head = self.process.stdout.read(4)
        if not head:
            raise Refused(self.process.communicate()[1].decode().strip())
        return head + self.process.stdout.read(int.from_bytes(head, "little") - 4)


def sealing():
    return Kept("encrypt", "hr", KEYS, SCHEMAS, MASTER)


def commands():
    person = {"ssn": "123-45-6789", "salary": 70000, "token": Binary(bytes(16), 4)}
    return [{"insert": "people", "documents": [person, {"ssn": "987-65-4321", "n": 2}], "$db": "hr"},
            {"find": "people", "filter": {"ssn": "123-45-6789"}, "$db": "hr"},
            {"update": "people",
             "updates": [{"q": {"ssn": {"$in": ["a", "b"]}}, "u": {"$set": {"salary": 80000}}}], "$db": "hr"}]


def is_payload(value):
    return isinstance(value, Binary) and value.subtype == 6


def main():
    seal, unseal = sealing(), Kept("decrypt", KEYS, MASTER)
    plain = list(map(bson.encode, commands()))
    sealed = list(map(seal.ask, plain))
    insert, find, _ = map(bson.decode, sealed)
    first, second = insert["documents"]
    again = bson.decode(seal.ask(plain[0]))["documents"][0]
    checks = [("each protected value is a payload, and nothing else is",
               all(map(is_payload, (first["ssn"], first["salary"], second["ssn"]))) and second["n"] == 2),
              ("a filter has the payload that was stored", find["filter"]["ssn"] == first["ssn"]),
              ("no value is left in clear", b"123-45-6789" not in b"".join(sealed)),
              ("what is opened is what was sealed, byte for byte", list(map(unseal.ask, sealed)) == plain),
              ("a deterministic value is sealed alike again", again["ssn"] == first["ssn"]),
              ("a random one isn't", again["salary"] != first["salary"])]
    try:
        seal.ask(bson.encode({"insert": "people", "documents": [{"ssn": None}], "$db": "hr"}))
        checks.append(("null is refused", False))
    except Refused as refused:  # document 5 of that process, which has ended
        checks.append(("null is refused with its place", str(refused) == "fle: 1 5 5 1.0.0"))
    checks.append(("a new process goes on behind a refusal", sealing().ask(plain[1]) == sealed[1]))
    for name, holds in checks:
        print("holds:" if holds else "FAILS:", name)
    sys.exit(0 if all(holds for _, holds in checks) else 1)


if __name__ == "__main__":
    main()
