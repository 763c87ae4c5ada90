"""Markings, and the marking reply: a command with, in the place of each value that is to be sealed, what the sealing
side needs to know of it (MongoDB's client-side encryption specification; BSON binary subtype 6, intent-to-encrypt)."""
import struct

from reference.bson import (BINARY, BOOL, DOCUMENT, DOUBLE, ENCRYPTED, INT, STRING, UUID, binary, int32, places_of,
                            spell, text, with_values)
from reference.commands import rules_of
from reference.rules import Contents

NUMBERS = {"D": 1, "R": 2}  # of the algorithms, in a marking and at the front of a payload


def key_field(need):
    """The field of a marking that says which key."""
    field, value = need
    return (BINARY, "ki", binary(UUID, value)) if field == "ki" else (STRING, "ka", text(value))


def marking_of(kind, value, algorithm, need):
    """The contents of the binary that stands for a value: 00, and a document of the value, the algorithm, the key."""
    return b"\0" + spell([(kind, "v", value), (INT, "a", int32(NUMBERS[algorithm])), key_field(need)])


def marked(marks, command):
    """The command with a marking in the place of each value that is to be sealed."""
    return with_values(command, {place: (BINARY, binary(ENCRYPTED, marking_of(kind, value, *marks[place])))
                                 for place, kind, value in places_of(command) if place in marks})


def marks_of(infos, command):
    """What is sealed of a command that isn't refused: a dictionary from places to algorithms and needs."""
    rules = rules_of(infos, command)
    return Contents(rules).command(command).marks if rules else {}


def reply_with(marks, is_ruled, command):
    """The marking reply to a command with these marks, whose collection has rules or not."""
    return spell([(BOOL, "hasEncryptionPlaceholders", bytes([bool(marks)])),
                  (BOOL, "schemaRequiresEncryption", bytes([is_ruled])),
                  (DOCUMENT, "result", marked(marks, command)), (DOUBLE, "ok", struct.pack("<d", 1.0))])


def reply(infos, command):
    """The marking reply to a command that isn't refused."""
    return reply_with(marks_of(infos, command), bool(rules_of(infos, command)), command)
