"""Marking replies at random: the right one to a command, its elements and the fields of its markings in any order; or
one that is spoiled in one of many ways, of which some leave it right."""
from reference.bson import (ARRAY, BINARY, BOOL, CODE, DATE, DOCUMENT, DOUBLE, ENCRYPTED, INT, LONG, MAX_KEY, MIN_KEY,
                            NULL, STRING, SYMBOL, TIMESTAMP, UNDEFINED, binary, int32, places_of, spell, with_values)
from reference.chance.commands import KEY_NAMES, NAMES, RAW, put, some_element, some_raw
from reference.commands import rules_of
from reference.marking import key_field, marks_of, reply
from reference.reading import LEVELS, document_at, documents_of
from reference.replies import ORDER, READ

OTHERS = ["ok", "Result", "results", "resul", "hasEncryptionPlaceholder", "schemaRequiresEncryption ", ""]  # unread
FORMS = [(STRING, CODE, SYMBOL), (DOUBLE, DATE, TIMESTAMP, LONG), (UNDEFINED, NULL, MAX_KEY, MIN_KEY),
         (DOCUMENT, ARRAY)]  # types whose values have one form


# ---- one element among some, at a number

def dropped(_chance, elements, at):
    """One element less."""
    return put(elements, at)


def doubled(chance, elements, at):
    """An element twice."""
    there = chance.randrange(len(elements) + 1)
    return elements[:there] + [elements[at]] + elements[there:]


def swapped(chance, elements, at):
    """Two elements in each other's place."""
    there = chance.randrange(len(elements))
    return put(put(elements, at, elements[there]), there, elements[at])


def renamed(chance, elements, at):
    """Another name."""
    kind, _, value = elements[at]
    return put(elements, at, (kind, chance.choice([*READ, *ORDER, *NAMES]), value))


def retyped(chance, elements, at):
    """Another type, with the same bytes where there is one of this form."""
    kind, name, value = elements[at]
    alike = [other for form in FORMS if kind in form for other in form if other != kind]
    if alike and chance.random() < 0.8:
        return put(elements, at, (chance.choice(alike), name, value))
    other = chance.choice(RAW)
    return put(elements, at, (other, name, some_raw(chance, other)))


def revalued(chance, elements, at):
    """Another value of the type, but for chance."""
    kind, name, value = elements[at]
    if kind == BOOL:
        return put(elements, at, (kind, name, bytes([1 - value[0]])))
    if isinstance(value, list):
        return put(elements, at, (kind, name, value[1:]))
    return put(elements, at, (kind, name, some_raw(chance, kind)))


def added(chance, elements, at):
    """One element more."""
    return elements[:at] + [some_element(chance, chance.choice(NAMES + OTHERS), 1)] + elements[at:]


def edited(chance, elements):
    """The elements, changed at one of them."""
    if not elements:
        return [some_element(chance, chance.choice(NAMES), 1)]
    edit = chance.choice([dropped, doubled, swapped, renamed, retyped, revalued, added])
    return edit(chance, elements, chance.randrange(len(elements)))


def edited_within(chance, elements):
    """An edit here, or in a document within."""
    inner = [at for at, (_, _, value) in enumerate(elements) if isinstance(value, list)]
    if not inner or chance.random() < 0.2:
        return edited(chance, elements)
    at = chance.choice(inner)
    kind, name, value = elements[at]
    return put(elements, at, (kind, name, edited_within(chance, value)))


# ---- markings

def marking(fields):
    """The kind and the value of a marking."""
    return BINARY, binary(ENCRYPTED, b"\0" + spell(fields))


def fields_of(value):
    """The fields of a marking."""
    return document_at(value, 6, len(value), LEVELS)[0]


def shuffled(chance, elements):
    """The same in any order."""
    return chance.sample(elements, len(elements))


def some_need(chance, rules):
    """A key's name, or the id of a rule's key where one is named so."""
    ids = [key for _, key, _ in rules.values() if isinstance(key, bytes)]
    return ("ki", chance.choice(ids)) if ids and chance.random() < 0.5 else ("ka", chance.choice(KEY_NAMES))


def under_another(chance, fields, rules):
    """A marking under the other algorithm, or under another key, or one that is named otherwise."""
    if chance.random() < 0.5:
        return [(kind, name, int32(3 - value[0]) if name == "a" else value) for kind, name, value in fields]
    key = key_field(some_need(chance, rules))
    return [key if field[1] in ("ki", "ka") else field for field in fields]


def in_another_frame(chance, fields):
    """The fields behind another first byte, in another binary, or with bytes behind them."""
    subtype, first, behind = chance.choice([
        (0, b"\0", b""), (ENCRYPTED, b"\1", b""), (ENCRYPTED, b"", b""), (ENCRYPTED, b"\0", b"\0")])
    return BINARY, binary(subtype, first + spell(fields) + behind)


def spoiled_marking(chance, value, rules):
    """The kind and the value of what stands in the place of a marking."""
    fields = fields_of(value)
    way = chance.randrange(4)
    if way == 0:
        kind, _, plain = fields[0]
        return kind, plain
    if way == 1:
        return in_another_frame(chance, fields)
    return marking(under_another(chance, fields, rules) if way == 2 else edited(chance, fields))


# ---- replies

def of_result(elements, made):
    """A reply's elements with another result, made of the one that stands there."""
    return [(kind, name, made(value) if name == "result" else value) for kind, name, value in elements]


def reordered(chance, elements, marks):
    """A right reply with its elements in any order, others among them, and so the fields of its markings."""
    def turned(result):
        """The fields of each marking in any order."""
        return with_values(result, {place: marking(shuffled(chance, fields_of(value)))
                                    for place, _, value in places_of(result) if place in marks})
    others = [some_element(chance, chance.choice(OTHERS), 1) for _ in range(chance.randrange(3))]
    return shuffled(chance, of_result(elements, turned) + others)


def marked_too_much(chance, result, rules):
    """A marking in the place of one more value."""
    place, kind, value = chance.choice(list(places_of(result)))
    rest = [(INT, "a", int32(chance.choice([1, 2]))), key_field(some_need(chance, rules))]
    return with_values(result, {place: marking([(kind, "v", value), *rest])})


def spoiled(chance, elements, infos, command, others):
    """A right reply that is changed once, in its own elements, in its result or in one of its markings."""
    rules, marks = rules_of(infos, command), marks_of(infos, command)
    way = chance.choice([0, 0, 1, 2, 3, 4, 5, 5, 5])
    if way == 0:
        return edited(chance, elements)
    if way == 1:
        return of_result(elements, lambda _: command)
    if way == 2:
        return of_result(elements, lambda _: of_right(infos, chance.choice(others))[2][2])
    if way == 3:
        return of_result(elements, lambda result: marked_too_much(chance, result, rules))
    if way == 4 or not marks:
        return of_result(elements, lambda result: edited_within(chance, result))
    place = chance.choice(list(marks))
    return of_result(elements, lambda result: with_values(result, {
        other: spoiled_marking(chance, value, rules) for other, _, value in places_of(result) if other == place}))


def of_right(infos, command):
    """The elements of the right reply."""
    [(elements, _)] = documents_of(reply(infos, command))
    return elements


def some_right_reply(chance, infos, command):
    """The elements of a right reply to a command that isn't refused, in the form of `fle mark` or in another one."""
    elements = of_right(infos, command)
    marks = marks_of(infos, command)
    return reordered(chance, elements, marks) if chance.random() < 0.5 else elements


def some_wrong_reply(chance, infos, command, others):
    """The elements of a reply that is spoiled once or twice; it may be the one to one of some other commands."""
    elements = spoiled(chance, of_right(infos, command), infos, command, others)
    elements = edited(chance, elements) if chance.random() < 0.2 else elements
    elements = shuffled(chance, elements) if chance.random() < 0.5 else elements
    return elements if is_document(elements) else of_right(infos, command)


def is_document(elements):
    """Whether the elements spell a document."""
    try:
        return len(documents_of(spell(elements))) == 1
    except ValueError:
        return False


# ---- pairs

def some_pairs(chance, infos, accepted, refused):
    """Some of the accepted commands, each before a reply, as elements, and the bytes of a cut document behind them. Of
    ten rows six have a wrong reply; else a reply may be missing, or the last command be the one that is refused."""
    documents = []
    for command in chance.sample(accepted, min(len(accepted), chance.randrange(1, 6))):
        documents += [command, some_right_reply(chance, infos, command)]
    way = chance.choices(["wrong", "missing", "cut", "refused", "right"], [6, 1, 1, 1, 1])[0]
    if way == "wrong" and documents:
        at = chance.randrange(0, len(documents), 2)
        documents[at + 1] = some_wrong_reply(chance, infos, documents[at], accepted)
    elif way == "missing":
        del documents[-1:]
    elif way == "refused":
        documents += refused
    elif way == "cut" and documents:
        at = len(documents) - chance.choice([1, 2])
        front = spell(documents[at])
        return documents[:at], front[:chance.randrange(1, len(front))]
    return documents, b""
