"""Vaults, and documents with payloads, at random: some keys are missing, foreign or damaged, some payloads are
changed."""
import base64

from reference.aead import derived_iv, padded, sealed
from reference.bson import ARRAY, BINARY, DATE, DOCUMENT, ENCRYPTED, INT, LONG, STRING, array, binary, spell, text
from reference.chance.commands import KEY_NAMES, NAMES, RAW, some_raw
from reference.reasons import Reason
from reference.schemas import TYPES
from reference.vault import Vault

FOREIGN = ["aws", "azure", "gcp", "kmip", "Local", "local:a", "loca", ""]


def changed(chance, contents):
    """The same bytes with one bit changed, or a few bytes cut off or put behind."""
    draw = chance.random()
    if draw < 0.5 and contents:
        at = chance.randrange(len(contents))
        return contents[:at] + bytes([contents[at] ^ 1 << chance.randrange(8)]) + contents[at + 1:]
    count = chance.choice([1, 2, 16])
    return contents[:-count] if draw < 0.75 else contents + chance.randbytes(count)


def some_blocks(chance, plain):
    """Whole blocks that hold a text, mostly with another padding than the right one."""
    if chance.random() < 0.5:
        last = chance.choice([0, 1, 2, 15, 16, 17, 255])
        return plain + chance.randbytes(-(len(plain) + 1) % 16) + bytes([last])
    blocks = padded(plain)
    at = len(blocks) - chance.randrange(1, blocks[-1] + 1)
    return blocks[:at] + chance.randbytes(1) + blocks[at + 1:]


# ---- vaults

def some_material(chance, master, damaged):
    """A data key under the master key; or what is damaged in one of four ways."""
    way = chance.choice(["other key", "changed", "length", "padding"]) if damaged else ""
    key = chance.randbytes(chance.choice([0, 64, 95, 97, 111, 112]) if way == "length" else 96)
    blocks = some_blocks(chance, key) if way == "padding" else padded(key)
    material = sealed(chance.randbytes(96) if way == "other key" else master, b"", chance.randbytes(16), blocks)
    return changed(chance, material) if way == "changed" else material


def some_dates(chance):
    """`updateDate` up to three times, mostly once and a date."""
    tags = chance.choices([DATE, LONG], [9, 1], k=chance.choice([0, 1, 1, 1, 2, 3]))
    return [(kind, "updateDate", chance.randbytes(8)) for kind in tags]


def some_ids(chance, infos):
    """The ids that rules name, each once, and a few more."""
    named = [rule.key for rules, _ in infos.values() for rule in rules.values() if isinstance(rule.key, bytes)]
    return list(dict.fromkeys(named)) + [chance.randbytes(16) for _ in range(3)]


def key_document(chance, key_id, names, provider, material):
    """The document of a key, its fields in any order."""
    inner = some_dates(chance) if chance.random() < 0.1 else []
    fields = [(BINARY, "_id", binary(4, key_id)), (BINARY, "keyMaterial", binary(0, material)),
              (DATE, "creationDate", chance.randbytes(8)), *some_dates(chance), (INT, "status", bytes(4)),
              (DOCUMENT, "masterKey", [(STRING, "provider", text(provider)), *inner])]
    if names or chance.random() < 0.5:
        fields.append((ARRAY, "keyAltNames", array(STRING, map(text, names))))
    if chance.random() < 0.3:
        chance.shuffle(fields)
    return spell(fields)


def some_vault(chance, ids):
    """A vault for these ids, where in four of ten one in four keys is spoiled, and where each name is that of some key;
    its file, and that of the master key."""
    master, keys, file = chance.randbytes(96), {}, b""
    spoiled = 0.25 if chance.random() < 0.4 else 0
    owners = {name: chance.choice(ids) for name in chance.sample(KEY_NAMES, len(KEY_NAMES))}
    for key_id in chance.sample(ids, len(ids)) + [chance.randbytes(16)]:
        way = chance.choice(["missing", "foreign", "damaged"]) if chance.random() < spoiled else ""
        if way != "missing":
            provider = chance.choice(FOREIGN) if way == "foreign" else "local"
            material = some_material(chance, master, way == "damaged")
            names = [name for name, owner in owners.items() if owner == key_id]
            file += key_document(chance, key_id, names, provider, material)
            keys[key_id] = provider, material
    text_of_master = base64.b64encode(master)
    return Vault(master, keys, owners), file, chance.choice([master, text_of_master, text_of_master + b"\n"])


# ---- documents to be opened

def some_plain(chance):
    """A type and bytes that are mostly a value of it; some nest about as deeply as a document may."""
    draw = chance.random()
    if draw < 0.03:
        plain = []
        for _ in range(chance.randrange(93, 100)):
            plain = [(DOCUMENT, "", plain)]
        return DOCUMENT, spell(plain)
    kind = chance.randrange(256) if draw < 0.04 else chance.choice(RAW) if draw < 0.06 else chance.choice(TYPES)[1]
    plain = some_raw(chance, kind) if kind in RAW else spell([(STRING, "s", text("t"))])
    return kind, changed(chance, plain) if chance.random() < 0.02 else plain


def some_payload(chance, vault, ids):
    """A payload under a key of these, mostly a right one."""
    key_id, (kind, plain) = chance.choice(ids), some_plain(chance)
    key, head = vault.data_key(key_id), bytes([chance.choice([1, 2]), *key_id, kind])
    key = chance.randbytes(96) if isinstance(key, Reason) else key
    iv = derived_iv(key, head, plain) if head[0] == 1 else chance.randbytes(16)
    contents = head + sealed(key, head, iv, some_blocks(chance, plain) if chance.random() < 0.02 else padded(plain))
    return changed(chance, contents) if chance.random() < 0.02 else contents


def some_sealed(chance, vault, ids, depth):
    """Elements of a document, payloads among them."""
    elements = []
    for name in chance.choices(NAMES, k=chance.randrange(4)):
        draw = chance.random()
        if draw < 0.3 and depth:
            elements.append((chance.choice([DOCUMENT, ARRAY]), name, some_sealed(chance, vault, ids, depth - 1)))
        elif draw < 0.7:
            elements.append((BINARY, name, binary(ENCRYPTED, some_payload(chance, vault, ids))))
        else:
            kind = chance.choice(RAW)
            elements.append((kind, name, some_raw(chance, kind)))
    return elements
