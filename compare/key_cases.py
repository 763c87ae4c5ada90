"""Vaults and master keys with something wrong, each with a document to be opened: tuples of a title, KEYS, MASTER and
the document. The key is the first of examples/keys.bson, and the document holds an int sealed under it."""
import struct

from documents import elements_of
from forge import padded, sealed
from opening_cases import DATA, ID, INT, KEY, document
from reference.bson import ARRAY, BINARY, DOCUMENT, STRING, binary, spell, text
from sides import MASTER

SEALED = document(INT)
PLAIN = spell([(16, "a", struct.pack("<i", 7))])


def with_field(name, tag, value):
    """The key document with another type and value at a field."""
    return spell([(tag, one, value) if one == name else (other, one, old) for other, one, old in elements_of(KEY)])


def without(name):
    return spell([element for element in elements_of(KEY) if element[1] != name])


def twice(name):
    return spell([element for element in elements_of(KEY) for _ in range(1 + (element[1] == name))])


def with_more(*elements):
    return spell([*elements_of(KEY), *elements])


def material(contents, subtype=0):
    return with_field("keyMaterial", BINARY, binary(subtype, contents))


def master_key(*elements):
    return with_field("masterKey", DOCUMENT, list(elements))


def provider(name, *elements):
    return master_key((STRING, "provider", text(name)), *elements)


def under_master(plain):
    return sealed(MASTER, b"", padded(plain))


def of_vaults():
    other = spell([(BINARY, "_id", binary(4, bytes(16))), *elements_of(KEY)[2:]])
    yield "the vault of the key alone", KEY
    yield "an empty vault", b""
    yield "a vault without the key", other
    yield "two keys of one id", KEY + without("keyAltNames")
    yield "two keys of one id, the first with wrong material", material(bytes(160)) + KEY
    yield "two keys with one name", KEY + with_field("_id", BINARY, binary(4, bytes(16)))


def of_fields():
    for name in ("_id", "keyMaterial", "creationDate", "updateDate", "status", "masterKey", "keyAltNames"):
        yield f"without `{name}`", without(name)
    for name in ("_id", "keyMaterial", "creationDate", "status", "masterKey"):
        yield f"`{name}` twice, with the same value", twice(name)
    yield "a field `v` more", with_more((16, "v", bytes(4)))
    yield "`_id` of subtype 03", with_field("_id", BINARY, binary(3, ID))
    yield "`_id` of subtype 00", with_field("_id", BINARY, binary(0, ID))
    yield "`_id` an objectId", with_field("_id", 7, bytes(12))
    yield "`keyAltNames` empty", with_field("keyAltNames", ARRAY, [])
    yield "`keyAltNames` a string", with_field("keyAltNames", STRING, text("a"))
    yield "`keyAltNames` with an int", with_field("keyAltNames", ARRAY, [(16, "0", bytes(4))])
    names = [(STRING, "0", text("a")), (STRING, "1", text("a"))]
    yield "`keyAltNames` with one name twice", with_field("keyAltNames", ARRAY, names)
    yield "`keyAltNames` with the empty name", with_field("keyAltNames", ARRAY, [(STRING, "0", text(""))])
    yield "`status` 1", with_field("status", 16, struct.pack("<i", 1))
    yield "`status` a long", with_field("status", 18, bytes(8))
    yield "`creationDate` an int", with_field("creationDate", 16, bytes(4))
    yield "`creationDate` before 1970", with_field("creationDate", 9, struct.pack("<q", -1))


def of_master_keys():
    yield "`masterKey` a string", with_field("masterKey", STRING, text("local"))
    yield "`masterKey` empty", master_key()
    yield "`masterKey` with a field more", provider("local", (STRING, "key", text("k")))
    yield "`provider` aws", provider("aws", (STRING, "region", text("r")), (STRING, "key", text("k")))
    yield "`provider` of a name that is none", provider("x")
    yield "`provider` a named local one", provider("local:name1")
    yield "`provider` an int", master_key((16, "provider", bytes(4)))


def of_material():
    good = under_master(DATA)
    yield "material of subtype 06", material(good, 6)
    yield "material of no byte", material(b"")
    yield "material of 159 bytes", material(good[:-1])
    yield "material with a wrong tag", material(good[:-1] + bytes([good[-1] ^ 1]))
    yield "material of 95 bytes of key", material(under_master(DATA[:95]))
    yield "material of 97 bytes of key", material(under_master(DATA + b"\0"))
    yield "material padded with 10 at its end alone", material(sealed(MASTER, b"", DATA + bytes(15) + b"\x10"))
    yield "material padded with 00", material(sealed(MASTER, b"", DATA + bytes(16)))


def cases():
    for title, keys in [*of_vaults(), *of_fields(), *of_master_keys(), *of_material()]:
        yield title, keys, MASTER, SEALED
    yield "a key with wrong material that isn't needed", material(bytes(160)), MASTER, PLAIN
    yield "another master key", KEY, bytes(96), SEALED
    yield "a master key of 96 bytes that differs behind byte 64", KEY, MASTER[:64] + bytes(32), SEALED
