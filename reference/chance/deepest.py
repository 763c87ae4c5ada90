"""Infos, commands and documents that nest as deep as BSON's 100 levels allow, and a vault for them."""
from reference.bson import ARRAY, BINARY, DOCUMENT, INT, STRING, binary, text
from reference.reading import documents_of
from reference.schemas import ALGORITHMS
from reference.vault import Vault, id_of

KEY_ID = bytes.fromhex("00112233445546778899aabbccddeeff")  # that of the first key of examples/keys.bson
RULE = [(DOCUMENT, "encrypt", [(ARRAY, "keyId", [(BINARY, "0", binary(4, KEY_ID))]),
                               (STRING, "algorithm", text(ALGORITHMS["R"]))])]
LEAF = [(INT, "a", bytes(4))]
# Ways down from a schema at the fourth level to one that has no level left for another step, and what stands there.
SCHEMAS = [([(DOCUMENT, "properties"), (DOCUMENT, "a")] * 47, RULE), ([(DOCUMENT, "additionalProperties")] * 94, []),
           ([(ARRAY, "allOf"), (DOCUMENT, "0")] * 47, []), ([(DOCUMENT, "not")] * 95, [])]


def nested(way, inner):
    """Elements at the end of a way of types and names."""
    for tag, name in reversed(way):
        inner = [(tag, name, inner)]
    return inner


def info_of(schema):
    """The info of the collection c with this schema."""
    return [(STRING, "name", text("c")),
            (DOCUMENT, "options", [(DOCUMENT, "validator", [(DOCUMENT, "$jsonSchema", schema)])])]


def deep_infos():
    """An info for each keyword that leads down."""
    return [info_of(nested(way, inner)) for way, inner in SCHEMAS]


def flat_info():
    """The info of a rule for the field a of stored documents."""
    return info_of([(DOCUMENT, "properties", [(DOCUMENT, "a", RULE)])])


def as_json(tag, value):
    """A value of an info as a text."""
    if tag == DOCUMENT:
        return "{" + ",".join(f'"{name}":{as_json(inner, one)}' for inner, name, one in value) + "}"
    if tag == ARRAY:
        return "[" + ",".join(as_json(inner, one) for inner, _, one in value) + "]"
    digits = value[5:].hex() if tag == BINARY else ""
    parts = "-".join(digits[at:to] for at, to in ((0, 8), (8, 12), (12, 16), (16, 20), (20, 32)))
    return f'{{"$uuid":"{parts}"}}' if tag == BINARY else f'"{value[4:-1].decode()}"'


def command_of(verb, *fields):
    return [(STRING, verb, text("c")), *fields, (STRING, "$db", text("hr"))]


def deep_commands():
    """Commands whose contents reach the hundredth level, below a field of a rule and below others."""
    found = []
    for name in ("a", "z"):
        stored = nested([(DOCUMENT, name)] * 97, LEAF)
        found.append(command_of("insert", (ARRAY, "documents", [(DOCUMENT, "0", stored)])))
        found.append(command_of("find", (DOCUMENT, "filter", nested([(DOCUMENT, name)] * 98, LEAF))))
        turned = nested([(DOCUMENT, name)] + [(DOCUMENT, "$not")] * 97, LEAF)
        found.append(command_of("find", (DOCUMENT, "filter", turned)))
        update = [(DOCUMENT, "q", []), (DOCUMENT, "u", [(DOCUMENT, "$set", nested([(DOCUMENT, name)] * 95, LEAF))])]
        found.append(command_of("update", (ARRAY, "updates", [(DOCUMENT, "0", update)])))
    found.append(command_of("find", (DOCUMENT, "filter", nested([(ARRAY, "$and"), (DOCUMENT, "0")] * 49, []))))
    stored = nested([(DOCUMENT, "a")] * 46, LEAF)
    return [*found, command_of("insert", (ARRAY, "documents", [(DOCUMENT, "0", stored)]))]


def example_vault(keys, master):
    """The vault of a file of local keys."""
    documents = [elements for elements, _ in documents_of(keys)]
    materials = [next(value[5:] for _, name, value in elements if name == "keyMaterial") for elements in documents]
    return Vault(master, {id_of(elements): ("local", one) for elements, one in zip(documents, materials)}, {})
