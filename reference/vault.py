"""Data keys under a local master key, and the same keys under another one (MongoDB's client-side encryption
specification: a document of the key vault, whose `keyMaterial` the provider `local` seals with an empty head)."""
import struct

from reference.aead import BLOCK, IV, KEY, TAG, opened, padded, sealed
from reference.bson import ARRAY, BINARY, DATE, DOCUMENT, INT, STRING, UUID, array, binary, contents_of, spell, text
from reference.reasons import Reason

MATERIAL = IV + KEY + BLOCK + TAG  # bytes: a whole block is padding


class Vault:
    """Keys under a master key: a dictionary from ids to providers and materials, and one from names to ids."""

    def __init__(self, master, keys, names):
        self.master, self.keys, self.names, self.known = master, keys, names, {}

    def id_for(self, need):
        """The id of the key for a need, as rules.py has them; None where no key has the name."""
        field, value = need
        return value if field == "ki" else self.names.get(value)

    def is_local(self, key_id):
        """Whether this key, which is there, is sealed under a master key of the user's own."""
        return self.keys[key_id][0] == "local"

    def open(self, key_id):
        """The data key; or the reason why there is none."""
        if key_id not in self.keys:
            return Reason.KEY_MISSING
        if not self.is_local(key_id):
            return Reason.KEY_NOT_LOCAL
        _, material = self.keys[key_id]
        key = opened(self.master, b"", material) if len(material) == MATERIAL else b""
        return key if isinstance(key, bytes) and len(key) == KEY else Reason.KEY_DAMAGED

    def data_key(self, key_id):
        """The same, opened once."""
        if key_id not in self.known:
            self.known[key_id] = self.open(key_id)
        return self.known[key_id]

    def refusal(self, needs):
        """The place and the reason of the first of some places whose key, for that need, cannot be obtained."""
        answers = ((place, self.data_key(self.id_for(need))) for place, need in needs)
        return next(((place, key) for place, key in answers if isinstance(key, Reason)), None)


def id_of(elements):
    """The id of a key's document."""
    return next(contents_of(value) for _, name, value in elements if name == "_id")


def rewrapped(elements, key, master, iv, time):
    """The document of this data key under another master key, at this time, in milliseconds since 1970."""
    changed = {(BINARY, "keyMaterial"): binary(0, sealed(master, b"", iv, padded(key))),
               (DATE, "updateDate"): struct.pack("<q", time)}
    return [(kind, name, changed.get((kind, name), value)) for kind, name, value in elements]


def rewrap(documents, vault, master, time, blocks):
    """A vault's file under another master key, each local key under the next of the blocks; or None, and the number of
    the first document whose key doesn't open."""
    file = b""
    for number, elements in enumerate(documents, 1):
        if vault.is_local(id_of(elements)):
            key = vault.data_key(id_of(elements))
            if isinstance(key, Reason):
                return None, number
            elements = rewrapped(elements, key, master, next(blocks), time)
        file += spell(elements)
    return file, None


def version_4(block):
    """A UUID of version 4 from a random block (RFC 4122, section 4.4)."""
    return block[:6] + bytes([block[6] & 0x0F | 0x40, block[7], block[8] & 0x3F | 0x80]) + block[9:]


def new_key(master, names, time, blocks):
    """The document of a new key, made at this time: of eight random blocks the first makes the id, the next six are the
    data key, and the last is its IV."""
    date, material = struct.pack("<q", time), sealed(master, b"", blocks[112:128], padded(blocks[16:112]))
    named = [(ARRAY, "keyAltNames", array(STRING, map(text, names)))] if names else []
    return [(BINARY, "_id", binary(UUID, version_4(blocks[:16]))), *named, (BINARY, "keyMaterial", binary(0, material)),
            (DATE, "creationDate", date), (DATE, "updateDate", date), (INT, "status", bytes(4)),
            (DOCUMENT, "masterKey", [(STRING, "provider", text("local"))])]
