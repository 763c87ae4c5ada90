"""Random collection infos, good ones, and ones that are spoiled once or twice, of which some stay good."""
from reference.bson import ARRAY, BINARY, BOOL, DOCUMENT, STRING, SYMBOL, array, binary, spell, text
from reference.chance.commands import put, some_raw
from reference.schemas import ALGORITHMS, DETERMINISTIC_TYPES, KEYWORDS, TYPES, Fault, read_infos

POINTED = 0.7  # how many of the keys that random rules may have are named by a pointer; 0: none
OWNERS = ["owner", "o/w", "k~y", "e"]  # fields that name keys; a schema lists them seldom
WITHIN = ["a", "b", "c", "e"]  # documents that hold such fields
NO_POINTERS = ["", "/", "owner", "/a/", "//owner", "/a//b", "/~", "/~2", "/a~", "#/owner", "/owner/"]
OTHER_TYPES = ["null", "undefined", "minKey", "Int", "", "double", "object"]


def id_of_16(chance):
    """An element `keyId` with an id."""
    return ARRAY, "keyId", [(BINARY, "0", binary(4, chance.randbytes(16)))]


def some_pointer(chance):
    """A pointer; its last name is mostly one of a field that names keys."""
    names = chance.choices(WITHIN, k=chance.choices([0, 1, 2], [6, 3, 1])[0]) + [chance.choice(OWNERS)]
    if chance.random() < 0.05:
        names[-1] = chance.choice(["a", "ssn", "a.b", "$x", "0"])
    return "".join("/" + name.replace("~", "~0").replace("/", "~1") for name in names)


def some_key(chance, algorithm):
    """An element `keyId`, of a pointer where the algorithm isn't deterministic."""
    pointed = algorithm != "D" and chance.random() < POINTED
    return (STRING, "keyId", text(some_pointer(chance))) if pointed else id_of_16(chance)


def some_rule(chance, key, algorithm):
    """The elements of `encrypt` under an element `keyId` and an algorithm that may be in force."""
    own = chance.choice("DR") if algorithm is None or chance.random() < 0.3 else algorithm
    rule = [] if own == algorithm else [(STRING, "algorithm", text(ALGORITHMS[own]))]
    if key is None or chance.random() < 0.3 or own == "D" and key[0] == STRING:
        rule.insert(0, some_key(chance, own))
    types = chance.sample(DETERMINISTIC_TYPES if own == "D" else TYPES, 1 if own == "D" else chance.randrange(1, 4))
    if own == "R" and chance.random() < 0.5:
        return rule
    if len(types) == 1:
        return rule + [(STRING, "bsonType", text(types[0][0]))]
    return rule + [(ARRAY, "bsonType", array(STRING, [text(name) for name, _ in types]))]


def some_schema(chance, path, key, algorithm, depth):
    """The elements of a schema of the field at a path."""
    elements, fields = [], []
    if chance.random() < 0.4:
        algorithm = chance.choice("DR")
        key = some_key(chance, None)
        elements.append((DOCUMENT, "encryptMetadata", [key, (STRING, "algorithm", text(ALGORITHMS[algorithm]))]))
    for name in chance.sample(["a", "b", "c", "ssn", "0"], chance.randrange(4) if path else 3):
        if depth and chance.random() < 0.4:
            fields.append((DOCUMENT, name, some_schema(chance, path + (name,), key, algorithm, depth - 1)))
        elif chance.random() < 0.8:
            fields.append((DOCUMENT, name, [(DOCUMENT, "encrypt", some_rule(chance, key, algorithm))]))
        elif chance.random() < 0.5:
            fields.append((DOCUMENT, name, []))
    fields += [(DOCUMENT, name, []) for name in OWNERS if chance.random() < 0.2]
    if fields:
        elements.append((DOCUMENT, "properties", fields))
    if chance.random() < (0.25 if path else 0.05):
        others = (DOCUMENT, "additionalProperties", [(DOCUMENT, "encrypt", some_rule(chance, key, algorithm))])
        elements.insert(chance.randrange(len(elements) + 1), others)
    elif chance.random() < 0.1:
        elements.append((DOCUMENT, "additionalProperties", [(STRING, "bsonType", text("int"))]))
    return elements


def some_documents(chance):
    """Infos of three collections, two of which have rules, and of a view."""
    documents = []
    for name in ["people", "staff", "notes", "v"]:
        schema = [(DOCUMENT, "$jsonSchema", some_schema(chance, (), None, None, 3))]
        options = [(DOCUMENT, "validator", schema)] if name != "notes" else []
        kind = "view" if name == "v" else "collection"
        documents.append([(STRING, "name", text(name)), (STRING, "type", text(kind)), (DOCUMENT, "options", options)])
    return documents


def some_infos(chance):
    """The rules of each collection, as schemas.py has them, and whether it is a view; and the file."""
    documents = some_documents(chance)
    return read_infos(documents), b"".join(map(spell, documents))


# ---- infos with something wrong

SETTINGS = ["encrypt", "encryptMetadata"]
LISTS = ["keyId", "bsonType"]  # arrays that are changed as one value


def some_element_of(chance, keyword):
    """An element of a schema: of some keyword, with an empty rule within where it has schemas."""
    inner = [(DOCUMENT, chance.choice(SETTINGS), [])]
    if keyword in ("properties", "patternProperties", "dependencies"):
        return DOCUMENT, keyword, [(DOCUMENT, chance.choice(["x", "", "a.b", "$x"]), inner)]
    if keyword in ("allOf", "anyOf", "oneOf"):
        return ARRAY, keyword, [(DOCUMENT, "0", inner)]
    if keyword in SETTINGS:
        return DOCUMENT, keyword, [id_of_16(chance), (STRING, "algorithm", text(ALGORITHMS["R"]))]
    kind = chance.choice([DOCUMENT, DOCUMENT, STRING, ARRAY, BOOL])
    return kind, keyword, inner if kind == DOCUMENT else [] if kind == ARRAY else some_raw(chance, kind)


def another_key(chance):
    """Another value of `keyId`, a good one or one of no form."""
    if POINTED and chance.random() < 0.8:
        return STRING, "keyId", text(chance.choice(NO_POINTERS) if chance.random() < 0.5 else some_pointer(chance))
    one, short, old = (BINARY, "0", binary(4, bytes(16))), (BINARY, "0", binary(4, bytes(15))), (
        BINARY, "0", binary(3, bytes(16)))
    return chance.choice([(ARRAY, "keyId", among) for among in ([], [one], [one, one], [short], [old])] + [
        (BINARY, "keyId", one[2]), (STRING, "keyId", text("k"))])


def another_setting(chance, kind, name, value):
    """Another value for an element of a rule."""
    if name == "keyId":
        return another_key(chance)
    if name == "algorithm":
        return STRING, name, text(chance.choice([*ALGORITHMS.values(), "", "AEAD_AES_256_CBC_HMAC_SHA_512-random"]))
    names = chance.choices(OTHER_TYPES + [one for one, _ in TYPES], k=chance.choice([0, 1, 1, 2]))
    single = names and chance.random() < 0.5
    return (STRING, name, text(names[0])) if single else (ARRAY, name, array(STRING, map(text, names)))


def edited_rule(chance, elements):
    """Other elements of `encrypt` or `encryptMetadata`."""
    way = chance.randrange(6)
    if way == 0 and POINTED:
        return [(STRING, "keyId", text(some_pointer(chance))), (STRING, "algorithm", text(ALGORITHMS["D"])),
                (STRING, "bsonType", text("int"))]
    if way <= 1 or not elements:
        return elements + [another_setting(chance, 0, chance.choice(["keyId", "algorithm", "bsonType"]), [])]
    at = chance.randrange(len(elements))
    if way == 2:
        return put(elements, at)
    if way == 3:
        return put(elements, at, (elements[at][0], chance.choice(["foo", "keyId", "bsonType"]), elements[at][2]))
    return put(elements, at, another_setting(chance, *elements[at]))


def edited_names(chance, elements):
    """Another name for a field, or a field twice, or one that is no document."""
    if not elements:
        return [some_element_of(chance, "encrypt")]
    at = chance.randrange(len(elements))
    kind, name, value = elements[at]
    return put(elements, at, *chance.choice([
        [(kind, chance.choice(["", "a.b", "$a", "ok"]), value)], [elements[at], elements[at]], [(ARRAY, name, [])]]))


def edited_schema(chance, elements):
    """One keyword more, or less, or twice, or in another form."""
    way = chance.choice(["more", "more", "unknown", "other", "dropped", "doubled"])
    if way in ("more", "unknown") or not elements:
        keyword = chance.choice(["foo", "", "Type"] if way == "unknown" else sorted(KEYWORDS) + SETTINGS * 3)
        at = chance.randrange(len(elements) + 1)
        return elements[:at] + [some_element_of(chance, keyword)] + elements[at:]
    at = chance.randrange(len(elements))
    if way == "other":
        return put(elements, at, some_element_of(chance, chance.choice([elements[at][1], *sorted(KEYWORDS)])))
    return put(elements, at) if way == "dropped" else put(elements, at, elements[at], elements[at])


def schemas_below(elements, around, place=()):
    """The place of each document of a schema, and what changes it."""
    inside = {"encrypt": edited_rule, "encryptMetadata": edited_rule, "properties": edited_names}
    yield place, inside.get(around, edited_schema)
    for number, (_, name, value) in enumerate(elements):
        if isinstance(value, list) and name not in LISTS:
            yield from schemas_below(value, "" if around == "properties" else name, place + (number,))


def edited_within(chance, elements, place, edit):
    """The elements, but for a document within, which is changed so."""
    if not place:
        return edit(chance, elements)
    kind, name, value = elements[place[0]]
    return put(elements, place[0], (kind, name, edited_within(chance, value, place[1:], edit)))


def edited_info(chance, elements):
    """Another name, type or value for a field of an info, or a field twice."""
    at = chance.randrange(len(elements))
    kind, name, value = elements[at]
    return put(elements, at, *chance.choice([
        [(STRING, "name", text(chance.choice(["people", "staff", ""])))], [(SYMBOL, name, text("people"))], [],
        [(kind, "other", value)], [elements[at], elements[at]], [(STRING, "type", text("view"))]]))


def spoiled(chance, elements):
    """An info, changed once, mostly in its schema."""
    schema = (2, 0, 0)
    if chance.random() < 0.1 or not elements[2:] or not isinstance(elements[2][2], list) or not elements[2][2]:
        return edited_info(chance, elements)
    inner = elements[2][2][0][2]
    if not isinstance(inner, list) or not inner or not isinstance(inner[0][2], list):
        return edited_info(chance, elements)
    place, edit = chance.choice(list(schemas_below(inner[0][2], "")))
    return edited_within(chance, elements, schema + place, edit)


def some_spoiled_infos(chance):
    """A file of infos that is changed once or twice, or cut; and its first fault, or None."""
    documents, cut = some_documents(chance), chance.random() < 0.05
    for _ in range(chance.choice([1, 1, 2]) if not cut else 0):
        at = chance.choices(range(4), [6, 5, 1, 1])[0]
        documents[at] = spoiled(chance, documents[at])
    *front, last = pieces = list(map(spell, documents))
    try:
        read_infos(documents[:-1] if cut else documents, cut)
        fault = None
    except Fault as first:
        fault = first
    return b"".join([*front, last[:-chance.randrange(1, 9)]] if cut else pieces), fault
