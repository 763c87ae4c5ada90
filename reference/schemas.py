"""Collection infos and their JSON schemas, read: the rules that they state, or the first fault.

The keywords `encrypt` and `encryptMetadata` are those of MongoDB's client-side encryption specification; a `keyId` that
is a text is a JSON pointer (RFC 6901). docs/SCHEMAS.md says the same in words.

Rules are a dictionary from paths to rules. A path is the tuple of the names that lead to a field; its last part may be
a set of names, and stands then for each name that isn't among them. A rule's key is an id, 16 bytes, or the names of a
JSON pointer, a tuple; its types are a list of type bytes.
"""
import re
from collections import namedtuple

from reference.bson import (ARRAY, BINARY, BOOL, CODE, CODE_WITH_SCOPE, DATE, DB_POINTER, DECIMAL, DOCUMENT, DOUBLE,
                            INT, LONG, OBJECT_ID, REGEX, STRING, SYMBOL, TIMESTAMP, UUID, binary, contents_of, words_of)
from reference.reasons import InfoFault, SchemaFault

Rule = namedtuple("Rule", "algorithm key types")
ALGORITHMS = {"D": "AEAD_AES_256_CBC_HMAC_SHA_512-Deterministic", "R": "AEAD_AES_256_CBC_HMAC_SHA_512-Random"}
# The names of the types that a rule may state; under the deterministic algorithm it may state the first eleven alone.
TYPES = [("string", STRING), ("binData", BINARY), ("objectId", OBJECT_ID), ("date", DATE), ("regex", REGEX),
         ("dbPointer", DB_POINTER), ("javascript", CODE), ("symbol", SYMBOL), ("int", INT), ("timestamp", TIMESTAMP),
         ("long", LONG), ("double", DOUBLE), ("object", DOCUMENT), ("array", ARRAY), ("bool", BOOL),
         ("javascriptWithScope", CODE_WITH_SCOPE), ("decimal", DECIMAL)]
DETERMINISTIC_TYPES = TYPES[:11]
MOST_RULES = 4096
KEYWORDS = set("""additionalItems additionalProperties allOf anyOf bsonType dependencies description encrypt
    encryptMetadata enum exclusiveMaximum exclusiveMinimum items maximum maxItems maxLength maxProperties minimum
    minItems minLength minProperties multipleOf not oneOf pattern patternProperties properties required title type
    uniqueItems""".split())
# Where a schema stands: at the top; where a rule may stand; right under `additionalProperties` of such a schema; or
# where none may. Of each position the keywords that may not stand there.
TOP, GOOD, LAST, BAD = range(4)
MISPLACED = {TOP: {"encrypt"}, GOOD: set(), LAST: {"encryptMetadata"}, BAD: {"encrypt", "encryptMetadata"}}


class Fault(Exception):
    """The number of a fault, and that of the document that has it."""

    def __init__(self, number, document=0):
        super().__init__(number, document)
        self.number, self.document = number, document


def require(well, number):
    """Ends the reading with this fault where something isn't so."""
    if not well:
        raise Fault(number)


# ---- forms of values

def pointer_of(spelled):
    """The names of a JSON pointer, none of them empty; or None where the text spells none."""
    first, *tokens = spelled.split("/")
    well = not first and tokens and all(tokens) and not re.search("~(?![01])", spelled)
    return tuple(token.replace("~1", "/").replace("~0", "~") for token in tokens) if well else None


def key_of(kind, value):
    """An id, or the names of a pointer; or None where the value has neither form."""
    if kind == STRING:
        return pointer_of(words_of(value))
    if kind != ARRAY or [inner for inner, _, _ in value] != [BINARY]:
        return None
    [(_, _, spelled)] = value
    key_id = contents_of(spelled)
    return key_id if len(key_id) == 16 and spelled == binary(UUID, key_id) else None


def are(kind, value):
    """Whether all elements have this type."""
    return all(inner == kind for inner, _, _ in value)


def are_distinct(value):
    """Whether no two elements have one name."""
    return len({name for _, name, _ in value}) == len(value)


def is_setting(kind, name, value):
    """Whether an element of `encrypt` or `encryptMetadata` has its form."""
    if name == "keyId":
        return key_of(kind, value) is not None
    if name == "bsonType":
        return kind == STRING or kind == ARRAY and value != [] and are(STRING, value)
    return kind == STRING


def are_settings(value, known):
    """Whether the elements of `encrypt` or `encryptMetadata` are these, each at most once and of its form."""
    return are_distinct(value) and all(
        name in known and is_setting(kind, name, setting) for kind, name, setting in value)


def has_form(kind, name, value):
    """Whether a keyword's value has its form."""
    if name in ("encrypt", "encryptMetadata"):
        known = ["keyId", "algorithm"] + (["bsonType"] if name == "encrypt" else [])
        return kind == DOCUMENT and are_settings(value, known)
    if name in ("properties", "patternProperties"):
        return kind == DOCUMENT and are(DOCUMENT, value) and are_distinct(value)
    if name in ("additionalProperties", "additionalItems"):
        return kind in (BOOL, DOCUMENT)
    if name in ("allOf", "anyOf", "oneOf"):
        return kind == ARRAY and are(DOCUMENT, value)
    if name == "items":
        return kind == DOCUMENT or kind == ARRAY and are(DOCUMENT, value)
    return kind == DOCUMENT or name not in ("not", "dependencies")


def schemas_in(kind, name, value):
    """The schemas in a keyword's value, each with its name there."""
    if name in ("properties", "patternProperties", "allOf", "anyOf", "oneOf", "dependencies"):
        return [(one, schema) for inner, one, schema in value if inner == DOCUMENT]
    if name == "items" and kind == ARRAY:
        return [(one, schema) for _, one, schema in value]
    alone = name in ("additionalProperties", "additionalItems", "not", "items") and kind == DOCUMENT
    return [("", value)] if alone else []


# ---- schemas

def keywords_of(elements):
    """The keywords of a schema, each with its type and its value."""
    stated = {}
    for kind, name, value in elements:
        require(name in KEYWORDS, SchemaFault.KEYWORD)
        require(name not in stated and has_form(kind, name, value), SchemaFault.SHAPE)
        stated[name] = kind, value
    return stated


def algorithm_of(value):
    """The letter of an algorithm, D or R, by its name."""
    letters = {name: letter for letter, name in ALGORITHMS.items()}
    require(words_of(value) in letters, SchemaFault.ALGORITHM)
    return letters[words_of(value)]


def types_of(own, algorithm):
    """The bytes of the types that a rule allows: those that it states; all, where it states none."""
    known, (kind, value) = dict(TYPES), own.get("bsonType", (ARRAY, []))
    names = [words_of(value)] if kind == STRING else [words_of(one) for _, _, one in value]
    require(all(name in known for name in names), SchemaFault.TYPE_NAME)
    if algorithm == "D":
        require(len(names) == 1 and names[0] in dict(DETERMINISTIC_TYPES), SchemaFault.DETERMINISTIC_TYPE)
    return [known[name] for name in names] if "bsonType" in own else list(known.values())


def read_rule(own, rules, path, key, algorithm):
    """Adds a rule, of what `encrypt` itself states and of the key and the algorithm that are in force."""
    require(key, SchemaFault.NO_KEY)
    require(algorithm, SchemaFault.NO_ALGORITHM)
    types = types_of(own, algorithm)
    names = [name for name in path if isinstance(name, str)]
    require(all(name and "." not in name and not name.startswith("$") for name in names), SchemaFault.NAME)
    require(len(rules) < MOST_RULES, SchemaFault.TOO_MANY)
    require(algorithm == "R" or isinstance(key, bytes), SchemaFault.DETERMINISTIC_POINTER)
    rules[path] = Rule(algorithm, key, types)


def place_of(position, path, keyword, name, stated):
    """The position and the path of a schema inside one that states these keywords."""
    if position in (TOP, GOOD) and keyword == "properties":
        return GOOD, path + (name,)
    if position in (TOP, GOOD) and keyword == "additionalProperties" and "patternProperties" not in stated:
        _, listed = stated.get("properties", (DOCUMENT, []))
        return LAST, path + (frozenset(one for _, one, _ in listed),)
    return BAD, path


def read_schema(elements, rules, path=(), position=TOP, key=None, algorithm=None):
    """Adds the rules of a schema to a dictionary; the key and the algorithm are those in force around it."""
    stated = keywords_of(elements)
    require(not MISPLACED[position] & set(stated), SchemaFault.MISPLACED)
    require("encrypt" not in stated or set(stated) <= {"encrypt", "title", "description"}, SchemaFault.SIBLING)
    _, settings = stated.get("encrypt") or stated.get("encryptMetadata") or (DOCUMENT, [])
    own = {name: (kind, value) for kind, name, value in settings}
    algorithm = algorithm_of(own["algorithm"][1]) if "algorithm" in own else algorithm
    key = key_of(*own["keyId"]) if "keyId" in own else key
    if "encrypt" in stated:
        read_rule(own, rules, path, key, algorithm)
    for kind, keyword, value in elements:
        for name, schema in schemas_in(kind, keyword, value):
            inside, below = place_of(position, path, keyword, name, stated)
            read_schema(schema, rules, below, inside, key, algorithm)


# ---- infos

def fields_of(elements, types):
    """The values of the fields that are read, each at most once and of its type."""
    found = {}
    for kind, name, value in elements:
        if name in types:
            require(kind == types[name] and name not in found, InfoFault.SHAPE)
            found[name] = value
    return found


def read_info(elements, known):
    """A collection's name, its rules, and whether it is a view; no collection that is known has the name."""
    fields = fields_of(elements, {"name": STRING, "type": STRING, "options": DOCUMENT})
    validator = fields_of(fields.get("options", []), {"validator": DOCUMENT}).get("validator", [])
    schema = fields_of(validator, {"$jsonSchema": DOCUMENT}).get("$jsonSchema", [])
    name, view, rules = words_of(fields.get("name", b"")), words_of(fields.get("type", b"")) == "view", {}
    require(name, InfoFault.SHAPE)
    require(name not in known, InfoFault.TWICE)
    if not view:
        read_schema(schema, rules)
    return name, rules, view


def read_infos(documents, is_cut=False):
    """The rules of each collection and whether it is a view, by its name; behind the documents bytes may stand that
    spell none. Raises the first fault."""
    infos = {}
    for number, elements in enumerate(documents, 1):
        try:
            name, rules, view = read_info(elements, infos)
        except Fault as fault:
            raise Fault(fault.number, number) from fault
        infos[name] = rules, view
    if is_cut:
        raise Fault(InfoFault.BSON, len(documents) + 1)
    return infos
