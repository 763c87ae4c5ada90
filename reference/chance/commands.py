"""Random commands, most of them near to what the rules accept; `chance` is a random.Random."""
from reference.bson import (ARRAY, BINARY, BOOL, CODE, CODE_WITH_SCOPE, DB_POINTER, DOCUMENT, INT, MAX_KEY, MIN_KEY,
                            NULL, REGEX, STRING, SYMBOL, WIDTHS, binary, int32, is_encrypted, spell, text)
from reference.commands import MARKED, PASSING
from reference.paths import CLEAR, is_above, rule_at, standing

RAW = [kind for kind in range(1, 20) if kind not in (DOCUMENT, ARRAY)] + [MAX_KEY, MIN_KEY]  # types without elements
NAMES = ["a", "b", "c", "d", "ssn", "0", "$x", "a.b", "", "documents"]
OTHERS = ["d", "e", "x", "7", "_id", "", "a", "$x"]  # names that a schema lists seldom
KEY_NAMES = ["hr", "pay/roll", "x", "", "k\0n", "\u00e9"]  # those that keys have, in any order
NO_NAMES = ["none", "h", "k", "hr "]  # those that no key has
UNREAD = ["ordered", "lsid", "comment", "writeConcern", "hint", "limit", "sort", "collation"]


def some_text(chance):
    """A few characters."""
    return "".join(chance.choice("xyz0 ") for _ in range(chance.randrange(12)))


def some_raw(chance, kind):
    """A value of this type, which has no elements."""
    scope = text(some_text(chance)) + spell([(NULL, "n", b"")])
    if kind == BOOL:
        return bytes([chance.randrange(2)])
    if kind in WIDTHS:
        return chance.randbytes(WIDTHS[kind])
    return {STRING: lambda: text(some_text(chance)), CODE: lambda: text("f()"), SYMBOL: lambda: text("sym"),
            BINARY: lambda: binary(chance.choice([0, 2, 4, 6]), chance.randbytes(chance.randrange(9))),
            REGEX: lambda: b"a.c\0i\0", DB_POINTER: lambda: text("db.c") + chance.randbytes(12),
            CODE_WITH_SCOPE: lambda: int32(4 + len(scope)) + scope}[kind]()


def some_element(chance, name, depth):
    """An element of this name, which may nest so deep."""
    kind = chance.choice([DOCUMENT, DOCUMENT, ARRAY] + RAW) if depth else chance.choice(RAW)
    if kind in (DOCUMENT, ARRAY):
        return (kind, name, [some_element(chance, chance.choice(NAMES), depth - 1) for _ in range(chance.randrange(4))])
    return (kind, name, some_raw(chance, kind))


def put(elements, at, *others):
    """The elements, with others in the place of the one at this number."""
    return elements[:at] + list(others) + elements[at + 1:]


# ---- texts that name keys

def some_name(chance):
    """A name of a key, mostly of one that is there."""
    return chance.choice(NO_NAMES if chance.random() < 0.01 else KEY_NAMES)


def spoiled_target(chance, name):
    """What stands in the place of a field that names a key, and names none; or one that does so by its type."""
    good = STRING, name, text(some_name(chance))
    other = chance.choice([(SYMBOL, name, text("hr")), (INT, name, bytes(4)),
                           (ARRAY, name, [(STRING, "0", text("hr"))]), (DOCUMENT, name, []), (NULL, name, b"")])
    return chance.choice([[], [good, good], [good, other], [other]])


def with_target(chance, elements, names):
    """The elements with a text where these names lead to, but for chance."""
    name, *inner = names
    others, mine = ([one for one in elements if (one[1] == name) == same] for same in (False, True))
    if inner:
        within = next((value for kind, _, value in mine if kind == DOCUMENT), [])
        made = [(DOCUMENT, name, with_target(chance, within, inner))]
        made = made if chance.random() < 0.99 else chance.choice([made + made, [(ARRAY, *made[0][1:])]])
    else:
        made = [(STRING, name, text(some_name(chance)))]
        made = made if chance.random() < 0.98 else spoiled_target(chance, name)
    at = chance.randrange(len(others) + 1)
    return others[:at] + made + others[at:]


def some_stored(chance, rules):
    """A stored document as a whole that these rules accept, mostly."""
    elements = suited(chance, rules, (), 3)
    for names in dict.fromkeys(rule.key for rule in rules.values() if isinstance(rule.key, tuple)):
        if standing(rules, names) == CLEAR or chance.random() < 0.1:
            elements = with_target(chance, elements, names)
    return elements


# ---- values under rules

def suited_value(chance, rule, name):
    """An element whose type the rule allows, mostly no sealed value."""
    kind = chance.choice(rule.types)
    value = [some_element(chance, "n", 1)] if kind in (DOCUMENT, ARRAY) else some_raw(chance, kind)
    if is_encrypted(kind, value) and chance.random() < 0.8:
        value = binary(0, b"six")
    return (kind, name, value)


def suited(chance, rules, path, depth):
    """Elements of a document that these rules accept, mostly."""
    elements = []
    for name in chance.sample(NAMES, chance.randrange(6)) + chance.choices(["a", "b", "ssn"], k=chance.randrange(3)):
        below = path + (name,)
        rule, above = rule_at(rules, below), is_above(rules, below)
        if rule and chance.random() < 0.97:
            elements.append(suited_value(chance, rule, name))
        elif above and chance.random() < 0.03:
            elements.append((ARRAY, name, []))
        elif above and chance.random() < 0.9 and depth:
            elements.append((DOCUMENT, name, suited(chance, rules, below, depth - 1)))
        else:
            elements.append(some_element(chance, name, depth))
    return elements


def some_dotted(chance, rules, algorithms="DR"):
    """A dotted path: often that of a rule with one of these algorithms; or one longer, shorter, other, positional."""
    known = [path for path, rule in rules.items() if rule.algorithm in algorithms or chance.random() < 0.02]
    if known and chance.random() < 0.85:
        *names, last = chance.choice(known)
        path = names + [chance.choice(OTHERS) if isinstance(last, frozenset) else last]
    else:
        path = chance.choices(["d", "e", "f", "x"], k=chance.randrange(1, 3))
        path = path[:1] if rule_at(rules, tuple(path[:1])) else path
    if chance.random() < 0.05:
        path.insert(chance.randrange(1, len(path) + 1), chance.choice(["0", "17", "$", "$[]", "x"]))
    if chance.random() < 0.02:
        path.append(chance.choice(["a", "x", ""]))
    if chance.random() < 0.15:
        path.pop()
    return tuple(path) or ("x",)


def some_compared(chance, rules, path, name):
    """An element with a value that the field at a path may be compared with, mostly."""
    rule = rule_at(rules, path)
    if rule and chance.random() < 0.98:
        return suited_value(chance, rule, name)
    return some_element(chance, name, 1 if rule or chance.random() < 0.5 else 0)


def some_operators(chance, rules, path, depth):
    """Operators of a filter on the field at a path, which may nest so deep."""
    elements = []
    for _ in range(chance.randrange(1, 3)):
        name = chance.choices(["$eq", "$ne", "$in", "$nin", "$not", "$exists", "$gt", "x"],
                              weights=[5, 3, 5, 2, 3, 2, 0.1, 0.1])[0]
        if name in ("$in", "$nin") and chance.random() < 0.95:
            among = [some_compared(chance, rules, path, str(at)) for at in range(chance.randrange(4))]
            elements.append((ARRAY, name, among))
        elif name == "$not" and depth and chance.random() < 0.9:
            elements.append((DOCUMENT, name, some_operators(chance, rules, path, depth - 1)))
        elif name == "$not":
            elements.append((REGEX, name, b"a\0\0"))
        else:
            elements.append(some_compared(chance, rules, path, name))
    return elements


def some_filter(chance, rules, depth):
    """The elements of a filter, which may nest so deep."""
    elements = []
    for _ in range(chance.randrange(4)):
        draw = chance.random()
        if draw < 0.15 and depth:
            parts = [(DOCUMENT, str(at), some_filter(chance, rules, depth - 1)) for at in range(chance.randrange(3))]
            if chance.random() < 0.03:
                parts.append(some_element(chance, "x", 0))
            elements.append((ARRAY, chance.choice(["$and", "$or", "$nor"]), parts))
        elif draw < 0.2:
            word = chance.choices(["$comment", "$where", "$and"], weights=[20, 1, 1])[0]
            elements.append(some_element(chance, word, 1))
        else:
            path = some_dotted(chance, rules, "D")
            name = ".".join(path)
            if chance.random() < 0.4:
                elements.append((DOCUMENT, name, some_operators(chance, rules, path, 2)))
            else:
                elements.append(some_compared(chance, rules, path, name))
    return elements


def some_argument(chance, rules, operator):
    """An element of the document behind an operator of an update, where no pointer can be read."""
    if chance.random() < 0.97:
        rules = {path: rule for path, rule in rules.items() if isinstance(rule.key, bytes)}
    path = some_dotted(chance, rules)
    name = ".".join(path)
    if operator == "$rename" and chance.random() < 0.95:
        return (STRING, name, text(".".join(path if chance.random() < 0.5 else some_dotted(chance, rules))))
    if any(rule[: len(path)] == path and rule != path for rule in rules) and chance.random() < 0.9:
        return (DOCUMENT, name, suited(chance, rules, path, 2))
    return some_compared(chance, rules, path, name)


def some_update(chance, rules):
    """What stands behind `u`."""
    if chance.random() < 0.25:
        return some_stored(chance, rules)
    elements = []
    for _ in range(chance.randrange(1, 4)):
        operator = chance.choices(["$set", "$setOnInsert", "$unset", "$rename", "$inc", "$push", "a"],
                                  weights=[8, 3, 3, 0.6, 0.5, 0.5, 0.05])[0]
        arguments = [some_argument(chance, rules, operator) for _ in range(chance.randrange(4))]
        if operator in ("$inc", "$push") and chance.random() < 0.8:
            arguments = [some_element(chance, "other", 0)]
        well = chance.random() < 0.99
        elements.append((DOCUMENT, operator, arguments) if well else some_element(chance, operator, 0))
    return elements


# ---- commands

def some_item(chance, rules, verb):
    """An item of `updates` or `deletes`."""
    item = [(DOCUMENT, "q", some_filter(chance, rules, 2))]
    if verb == "update":
        item.append((DOCUMENT, "u", some_update(chance, rules)))
        if chance.random() < 0.03:
            item[1] = chance.choice([(ARRAY, "u", []), (INT, "u", bytes(4))])
    if chance.random() < 0.3:
        at = chance.randrange(len(item) + 1)
        item.insert(at, some_element(chance, chance.choice(["multi", "upsert", "limit", "collation"]), 1))
    if chance.random() < 0.015:
        item.append(some_element(chance, chance.choice(["arrayFilters", "c", "q", "u"]), 1))
    if chance.random() < 0.01:
        item.pop(chance.randrange(len(item)))
    return item


def some_contents(chance, rules, verb):
    """The fields of a command that hold documents, filters and updates."""
    if verb == "insert":
        documents = [(DOCUMENT, str(at), some_stored(chance, rules)) for at in range(chance.randrange(1, 4))]
        return [(ARRAY, "documents", documents)]
    if verb in ("update", "delete"):
        items = [(DOCUMENT, str(at), some_item(chance, rules, verb)) for at in range(chance.randrange(1, 4))]
        return [(ARRAY, verb + "s", items)]
    fields = [(DOCUMENT, "filter", some_filter(chance, rules, 2))] if chance.random() < 0.95 else []
    if chance.random() < 0.3:
        shown = [some_element(chance, chance.choice(NAMES), 0) for _ in range(chance.randrange(3))]
        if chance.random() < 0.5:
            word = chance.choices(["$slice", "$meta", "$elemMatch"], weights=[9, 9, 1])[0]
            shown.append((DOCUMENT, "s", [(INT, word, bytes(4))]))
        fields.append((DOCUMENT, "projection", shown))
    if chance.random() < 0.02:
        fields.append(some_element(chance, chance.choice(["min", "max", "let"]), 1))
    return fields


def some_spoiling(chance, verb, name):
    """An element that refuses many a command."""
    return chance.choice([
        (STRING, "$db", text("x")), (INT, "$db", bytes(4)), (STRING, verb, text(name)), (ARRAY, "documents", []),
        (ARRAY, "updates", [(INT, "0", bytes(4))]), (DOCUMENT, "deletes", []), (STRING, "aggregate", text(name)),
        (STRING, verb, text("")), (ARRAY, "filter", []), (DOCUMENT, "let", [])])


def some_command(chance, infos):
    """The elements of a command on one of the collections, or on none."""
    verb = chance.choices(MARKED + ["passing"], weights=[3, 4, 2, 3, 1])[0]
    name = chance.choices(["people", "staff", "notes", "unknown", "v"], weights=[60, 60, 10, 5, 1])[0]
    if verb == "passing":
        first = some_element(chance, chance.choice(PASSING), 1)
        return [first] + [(STRING, "$db", text("admin"))] * (chance.random() < 0.8)
    contents = some_contents(chance, infos.get(name, ({}, False))[0], verb)
    command = [(STRING, verb, text(name))] + contents + [(STRING, "$db", text("hr" if chance.random() < 0.99 else "x"))]
    if chance.random() < 0.3:
        command.insert(chance.randrange(1, len(command) + 1), some_element(chance, chance.choice(UNREAD), 1))
    while chance.random() < 0.05:
        at = chance.randrange(len(command) + 1)
        command.insert(at, some_spoiling(chance, verb, name))
        if chance.random() < 0.3:
            del command[chance.randrange(len(command))]
    return command
