"""Calls of the library of contrib/c that make key documents: keys of a vault under another master key, and new keys."""
import base64
import re
import struct

from library_calls import expect
from reference.bson import ARRAY, BINARY, DATE, DOCUMENT, INT, STRING, UUID, array, binary, spell, text
from reference.reading import documents_of
from reference.reasons import Reason
from reference.vault import id_of, new_key, rewrapped

MALFORMED, SETUP, ENTROPY, LIMIT, ROOM, CLOSED, NO_NAMES = 3, 4, 7, 9, 10, 11, 14
LONGEST = 16_777_216  # bytes of a document
NAMES = 1_000, 15_999_840  # the most names of a new key, and the most bytes of them
ID, MATERIAL = (BINARY, "_id", binary(UUID, bytes(16))), (BINARY, "keyMaterial", binary(0, bytes(160)))
LOCAL = DOCUMENT, "masterKey", [(STRING, "provider", text("local"))]
FAULTS = [([], 21), ([ID, (INT, "keyAltNames", bytes(4))], 22), ([ID], 23), ([ID, MATERIAL], 24),
          ([ID, MATERIAL, LOCAL, (ARRAY, "keyAltNames", array(STRING, [text("a"), text("a")]))], 26)]
MASTERS = [(b"", 10), (bytes(95), 10), (b"=" * 128, 11), (bytes(130), 2)]  # files of no master key, and their faults


def some_time(chance):
    """A time in milliseconds since 1970, and its eight bytes."""
    time = chance.choice((0, -1, 1_700_000_000_000, -2**63, 2**63 - 1, chance.randrange(-2**63, 2**63)))
    return time, struct.pack("<q", time)


def rewrap_keys(chance, library, file, vault):
    """Each key of a vault under another master key: as a reference has it, with a block too few, a byte of room too
    few, and refused where it doesn't open."""
    for elements, *_ in documents_of(file):
        master, (time, stamp), block = chance.randbytes(96), some_time(chance), chance.randbytes(16)
        handed = chance.choice((master, base64.b64encode(master), base64.b64encode(master) + b"\n"))
        words, key = [handed, stamp, spell(elements)], vault.data_key(id_of(elements))
        if isinstance(key, Reason) and vault.is_local(id_of(elements)):
            came = library.call("fle_rewrap_key", [*words, block], 16)
            expect(came, (1, 18, 0, 0, 0, 0), b"", 16, "a damaged key under another master key")
            continue
        drawn = 16 * vault.is_local(id_of(elements))
        wanted = spell(rewrapped(elements, key, master, block, time) if drawn else elements)
        if drawn:
            came = library.call("fle_rewrap_key", [*words, block[:chance.randrange(16)]], 0)
            expect(came, (ENTROPY, 0, 0, 0, len(wanted), 16), b"", 0, "a block too few for a key document")
        written(library, "fle_rewrap_key", [*words, block + b"more"], wanted, drawn)


def make_keys(chance, library, master):
    """New keys as a reference has them, with random bytes and room too few, and names that no key can have."""
    for _ in range(2):
        names = chance.sample(["a", "b", "\u00e9", "a name", "x" * 300, "k\0"], chance.randrange(4))
        document = names_of(map(text, names)) if names or chance.random() < 0.5 else spell([])
        (time, stamp), blocks = some_time(chance), chance.randbytes(128)
        wanted = spell(new_key(master, names, time, blocks))
        came = library.call("fle_make_key", [document, stamp, blocks[:chance.randrange(128)]], 9)
        expect(came, (ENTROPY, 0, 0, 0, len(wanted), 128), b"", 9, "blocks too few for a new key")
        written(library, "fle_make_key", [document, stamp, blocks + chance.randbytes(20)], wanted, 128)


def written(library, name, arguments, wanted, random_):
    """An output, with exactly its room and with a byte too few."""
    numbers = 0, 0, 0, len(wanted), random_
    expect(library.call(name, arguments, len(wanted)), (0, *numbers), wanted, len(wanted), name)
    came = library.call(name, arguments, len(wanted) - 1)
    expect(came, (ROOM, *numbers), b"", len(wanted) - 1, f"{name} with a byte of room too few")


def names_of(names):
    """A document of names."""
    return spell([(ARRAY, "keyAltNames", array(STRING, names))])


def keys_at_the_limits(library, header):
    """Faulty key documents, master keys and names, names at their limits, and what the version is."""
    call, stamp, key = library.call, bytes(8), spell([ID, MATERIAL, LOCAL])
    for elements, fault in FAULTS:
        came = call("fle_rewrap_key", [b"", stamp, spell(elements), b""], 16)
        expect(came, (SETUP, fault, 1, 1, 0, 0), b"", 16, "a faulty key document, and no master key")
    for master, fault in MASTERS:
        came = call("fle_rewrap_key", [master, stamp, key, b""], 16)
        expect(came, (SETUP, fault, 3, 0, 0, 0), b"", 16, "a faulty master key")
    bad = [spell([(STRING, "keyAltNames", text("a"))]), spell([(ARRAY, "keyAltName", [])]), names_of([text("")]),
           spell([(ARRAY, "keyAltNames", []), (INT, "a", bytes(4))]), names_of([text("a"), text("a")]),
           spell([(ARRAY, "keyAltNames", array(INT, [bytes(4)]))]), names_of([b"\2\0\0\0\xff\0"]),
           names_of([text(str(number)) for number in range(NAMES[0] + 1)]), names_of([text("x" * (NAMES[1] + 1))])]
    for names in bad:
        expect(call("fle_make_key", [names, stamp, bytes(128)], 16), (NO_NAMES, 0, 0, 0, 0, 0), b"", 16, "bad names")
    for names in ([str(number) for number in range(NAMES[0])], ["x" * NAMES[1]]):
        written(library, "fle_make_key", [names_of(map(text, names)), stamp, bytes(128)],
                spell(new_key(bytes(96), names, 0, bytes(128))), 128)
    long = (LONGEST + 1).to_bytes(4, "little") + bytes(LONGEST - 3)
    for name, words in (("fle_rewrap_key", [b"", stamp, long, b""]), ("fle_make_key", [long, stamp, b""])):
        expect(call(name, words, 16), (LIMIT, 1, 0, 0, 0, 0), b"", 16, "a document that is too long")
        words[words.index(long)] = spell([])[:-1]
        expect(call(name, words, 16), (MALFORMED, 1, 0, 4, 0, 0), b"", 16, "a document cut short")
    version = re.search(r'FLE_VERSION "(.*)"', header)[1].encode() + b"\0"
    expect(call("fle_version", [], 16), (0, 0, 0, 0, len(version), 0), version, 16, "the version")
    expect(call("fle_version", [], 5), (ROOM, 0, 0, 0, len(version), 0), b"", 5, "the version with too little room")


def keys_without_engine(library):
    """Both calls at an empty slot."""
    for name, words in (("fle_rewrap_key", [bytes(96), bytes(8), spell([]), b""]),
                        ("fle_make_key", [spell([]), bytes(8), b""])):
        expect(library.call(name, words, 16), (CLOSED, 0, 0, 0, 0, 0), b"", 16, "key documents without an engine")
