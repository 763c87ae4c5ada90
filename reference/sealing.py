"""Payloads: the values of a command sealed, and those of a document opened (MongoDB's client-side encryption
specification, BSON binary subtype 6). A payload is the head, that is the algorithm, the key's id and the type of the
plain value, and behind it what aead.py makes; docs/FORMATS.md draws it."""
from reference.aead import BLOCK, IV, TAG, derived_iv, opened, padded, sealed
from reference.bson import BINARY, ENCRYPTED, binary, contents_of, is_encrypted, places_of, spell, with_values
from reference.marking import NUMBERS
from reference.reading import LEVELS, is_value
from reference.reasons import Reason
from reference.rules import UNSTORABLE

HEAD = 18  # bytes: the algorithm, an id of 16, the type


def payload_of(kind, value, algorithm, key_id, key, blocks):
    """The payload of a value; a random one is sealed under the next of the blocks, which is its IV."""
    head, plain = bytes([NUMBERS[algorithm], *key_id, kind]), spell(value)
    iv = derived_iv(key, head, plain) if algorithm == "D" else next(blocks)
    return head + sealed(key, head, iv, padded(plain))


def seal(marks, command, vault, blocks):
    """A command that its rules accept, sealed: what marks_of lists, in reading order; or None, and its refusal."""
    found = [(place, kind, value, *marks[place]) for place, kind, value in places_of(command) if place in marks]
    refused = vault.refusal((place, need) for place, _, _, _, need in found)
    if refused:
        return None, refused
    values = {}
    for place, kind, value, algorithm, need in found:
        key_id = vault.id_for(need)
        payload = payload_of(kind, value, algorithm, key_id, vault.data_key(key_id), blocks)
        values[place] = BINARY, binary(ENCRYPTED, payload)
    return spell(with_values(command, values)), None


def payloads_of(elements):
    """Each payload with its place, in reading order."""
    return [(place, contents_of(value)) for place, kind, value in places_of(elements)
            if is_encrypted(kind, value) and contents_of(value)[:1] in (b"\1", b"\2")]


def has_shape(payload):
    """Whether a payload has the length of one: head, IV, one or more blocks, tag."""
    blocks = len(payload) - HEAD - IV - TAG
    return blocks >= BLOCK and blocks % BLOCK == 0


def opened_payload(payload, place, vault):
    """The type and the value; or the reason why there is none."""
    head, kind = payload[:HEAD], payload[HEAD - 1]
    plain = opened(vault.data_key(head[1:17]), head, payload[HEAD:])
    if isinstance(plain, Reason):
        return plain
    well = kind not in UNSTORABLE and is_value(kind, plain, LEVELS - len(place))
    return (kind, plain) if well else Reason.PLAIN


def unseal(elements, vault):
    """A document with its payloads opened; or None, and its refusal: shapes come before keys, and keys before tags."""
    found, values = payloads_of(elements), {}
    misshapen = [place for place, payload in found if not has_shape(payload)]
    if misshapen:
        return None, (misshapen[0], Reason.PAYLOAD_SHAPE)
    refused = vault.refusal((place, ("ki", payload[1:17])) for place, payload in found)
    if refused:
        return None, refused
    for place, payload in found:
        values[place] = opened_payload(payload, place, vault)
        if isinstance(values[place], Reason):
            return None, (place, values[place])
    return spell(with_values(elements, values)), None
