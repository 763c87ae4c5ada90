"""Random commands for a library, on a collection `c` with rules and a collection `d` without: each value at a protected
path holds the word, and no other value does, wherever a command may put one; `chance` is a random.Random."""
from reference.bson import ARRAY, BOOL, DOCUMENT, INT, NULL, STRING, int32, text
from reference.schemas import Rule

WORD = b"SECRET"
KEY_ID = bytes(range(16))
PATHS = ["ssn", "pay", "in.ssn"]
RULES = {("ssn",): Rule("D", KEY_ID, [STRING]), ("pay",): Rule("R", KEY_ID, [STRING]),
         ("in", "ssn"): Rule("D", KEY_ID, [STRING])}
INFOS = {"c": (RULES, False), "d": ({}, False)}
YES, ONE, NONE = (BOOL, b"\1"), (INT, int32(1)), (NULL, b"")


# ---- values: a pair of a type and what it holds

def document(*fields):
    """A document of these names, each with a value."""
    return DOCUMENT, [(value[0], name, value[1]) for name, value in fields]


def listing(*values):
    """An array of these values."""
    return ARRAY, [(value[0], str(number), value[1]) for number, value in enumerate(values)]


def words(said):
    """A text."""
    return STRING, text(said)


def secret(chance):
    """A value of a protected path."""
    return words(WORD.decode() + "".join(chance.choice("xyz") for _ in range(chance.randrange(20))))


def other(chance):
    """A value of another path."""
    return chance.choice([ONE, words("free"), NONE, listing(ONE, words("y")), document(("z", ONE))])


def one_of(chance, *makers):
    """What one of these makes."""
    return chance.choice(makers)()


# ---- filters, updates, stored documents

def compared(chance, depth=0):
    """What a filter compares a protected field with."""
    def inner():
        return compared(chance, depth + 1) if depth < 2 else secret(chance)
    return one_of(
        chance, *[lambda: secret(chance)] * 4,
        lambda: document((chance.choice(["$eq", "$ne", "$gt", "$in"]), secret(chance))),
        lambda: document((chance.choice(["$in", "$nin", "$all"]), listing(secret(chance), secret(chance)))),
        lambda: document(("$not", inner())), lambda: document(("$elemMatch", document(("x", secret(chance))))),
        lambda: document(("$exists", YES if chance.random() < 0.8 else secret(chance))))


def expression(chance):
    """An expression that may compare a protected field."""
    equal = document(("$eq", listing(words("$ssn"), secret(chance))))
    return chance.choice([equal, document(("$literal", secret(chance))), words("$ssn"),
                          document(("$cond", listing(equal, ONE, ONE)))])


def condition(chance, depth):
    """One element of a filter."""
    def below(*values):
        return "in", chance.choice(values)
    inner = document(("ssn", secret(chance)))
    return one_of(
        chance, *[lambda: ("ssn", compared(chance))] * 5, lambda: ("in.ssn", compared(chance)),
        lambda: chance.choice([("pay", secret(chance)), ("ssn.x", secret(chance)), ("in.0.ssn", secret(chance))]),
        lambda: below(inner, listing(inner), document(("$elemMatch", inner))),
        lambda: (chance.choice(["$and", "$or", "$nor"]), listing(*[some_filter(chance, depth + 1)] * 2)),
        lambda: (chance.choice(["$expr", "$where", "$text", "$jsonSchema", "$comment"]), expression(chance)),
        lambda: (chance.choice(["name", "x.y"]), other(chance)), lambda: ("name", other(chance)))


def some_filter(chance, depth=0):
    """A filter."""
    return document(*[condition(chance, depth) for _ in range(chance.choice([0, 1, 1, 2]) if depth < 3 else 0)])


def stored(chance):
    """A stored document."""
    inner = document(("ssn", secret(chance)))
    return document(("_id", ONE), *[one_of(
        chance, lambda: ("ssn", secret(chance)), lambda: ("pay", secret(chance)), lambda: ("name", other(chance)),
        lambda: ("in", inner), lambda: ("in", listing(inner)), lambda: ("ssn", listing(secret(chance))))
        for _ in range(chance.randrange(3))])


def change(chance):
    """One operator of an update."""
    name = chance.choice(["$set", "$set", "$setOnInsert", "$unset", "$push", "$inc", "$rename", "$min", "$pull"])
    path = chance.choice(PATHS)
    if name == "$unset":
        return name, document((path, words("") if chance.random() < 0.8 else secret(chance)))
    if name == "$pull":
        return name, document((path, compared(chance)))
    return name, document(*[(path, secret(chance)) if chance.random() < 0.8 else ("name", other(chance))])


def some_update(chance):
    """What stands behind `u` or `update`."""
    return one_of(chance, lambda: stored(chance), lambda: listing(document(("$set", stored(chance)))),
                  *[lambda: document(*[change(chance) for _ in range(chance.choice([1, 1, 2]))])] * 6)


def keyed(chance, well=0.7):
    """An order, a choice of fields, the keys of an index; or values where none belong."""
    return document(*[(chance.choice(PATHS + ["name", "_id"]), chance.choice([ONE, YES]) if chance.random() < well
                       else chance.choice([secret(chance), document(("$meta", words("textScore"))), expression(chance),
                                           document(("$slice", listing(ONE, secret(chance)))),
                                           document(("$elemMatch", document(("ssn", secret(chance))))),
                                           document(("ssn", secret(chance))), listing(secret(chance))]))
                      for _ in range(chance.choice([0, 1, 2]))])


# ---- pipelines

def foreign_stage(chance):
    """A stage that may reach the collection with rules from another one."""
    filters = listing(document(("$match", some_filter(chance))))
    joined = document(("$lookup", document(("from", words("c")), ("as", words("x")), ("pipeline", filters))))
    return chance.choice([
        joined, document(("$unionWith", document(("coll", words("c")), ("pipeline", filters)))),
        document(("$graphLookup", document(("from", words("c")), ("restrictSearchWithMatch", some_filter(chance))))),
        document(("$merge", document(("into", words("c")), ("let", document(("ssn", secret(chance))))))),
        document(("$facet", document(("a", filters)))), document(("$facet", document(("a", listing(joined))))),
        document(("$documents", listing(stored(chance)))), document(("$limit", ONE))])


def stage(chance):
    """A stage."""
    name, summed = words(chance.choice(["n", "ssn"])), document(("$sum", ONE))
    told = document((chance.choice(["$first", "$sum", "$push"]), expression(chance)))
    return one_of(
        chance, *[lambda: document(("$match", some_filter(chance)))] * 5, lambda: foreign_stage(chance),
        lambda: document((chance.choice(["$limit", "$skip"]), ONE)),
        lambda: document((chance.choice(["$sort", "$project"]), keyed(chance))),
        lambda: document(("$unset", chance.choice([name, listing(name), document(("ssn", secret(chance)))]))),
        lambda: document(("$count", name)), lambda: document(("$group", document(("_id", NONE), ("n", summed)))),
        lambda: document(("$group", document(("_id", ONE), ("ssn", summed)))),
        lambda: document(("$group", document(("_id", NONE), ("a", told)))),
        lambda: document(("$group", document(("_id", chance.choice([expression(chance), stored(chance)]))))),
        lambda: document((chance.choice(["$set", "$addFields", "$replaceWith"]), document(("ssn", secret(chance))))),
        lambda: document(("$match", some_filter(chance)), ("$match", some_filter(chance))),
        lambda: document(("$bucket", document(("groupBy", words("$ssn")), ("boundaries", listing(secret(chance)))))),
        lambda: document(("$redact", expression(chance))), lambda: document())


def some_pipeline(chance, of=stage):
    """A pipeline of such stages."""
    return listing(*[of(chance) for _ in range(chance.choice([0, 1, 1, 2, 3]))])


# ---- commands

def some_fields(chance, *makers):
    """Fields of which each may be there."""
    return [make() for make in makers if chance.random() < 0.3]


def some_item(chance, verb):
    """An item of `updates` or `deletes`."""
    own = [("u", some_update(chance))] if verb == "update" else [("limit", ONE)]
    return document(("q", some_filter(chance)), *own, *some_fields(chance, lambda: chance.choice([
        ("upsert", YES), ("hint", keyed(chance)), ("sort", keyed(chance)), ("x", document(("ssn", secret(chance)))),
        ("collation", document(("ssn", document(("x", secret(chance)))))), ("y", listing(stored(chance)))])))


def some_index(chance):
    """An item of `indexes`."""
    return document(("key", keyed(chance, 0.85)), ("name", words("n")), *some_fields(
        chance, lambda: ("partialFilterExpression", some_filter(chance)), lambda: ("weights", keyed(chance))))


def fields_of(chance, verb):
    """The fields of a command on the collection with rules."""
    choices = {
        "insert": lambda: [("documents", listing(*[stored(chance)] * 2))],
        "find": lambda: [("filter", some_filter(chance)), *some_fields(
            chance, lambda: ("projection", keyed(chance)), lambda: ("sort", keyed(chance)))],
        "update": lambda: [("updates", listing(some_item(chance, verb)))],
        "delete": lambda: [("deletes", listing(some_item(chance, verb)))],
        "count": lambda: [("query", some_filter(chance))],
        "distinct": lambda: [("key", words(chance.choice(PATHS + ["name", "in", "in.0.ssn"]))),
                             ("query", some_filter(chance))],
        "findAndModify": lambda: [("query", some_filter(chance)), ("update", some_update(chance))
                                  if chance.random() < 0.8 else ("remove", YES), *some_fields(
            chance, lambda: ("sort", keyed(chance)), lambda: ("fields", keyed(chance)), lambda: ("upsert", YES))],
        "aggregate": lambda: [("pipeline", some_pipeline(chance)), ("cursor", document())],
        "createIndexes": lambda: [("indexes", listing(some_index(chance)))],
        "create": lambda: some_fields(
            chance, lambda: ("viewOn", words("c")), lambda: ("pipeline", some_pipeline(chance)),
            lambda: ("validator", some_filter(chance)), lambda: ("capped", YES)),
        "dropIndexes": lambda: [("index", keyed(chance))]}
    return choices.get("create" if verb == "collMod" else verb, list)()


ADDED = """query update filter updates deletes documents pipeline indexes validator let min max arrayFilters fields sort
    projection hint comment collation writeConcern lsid readConcern cursor x key bypassDocumentValidation limit remove
    new upsert c stages""".split()
VERBS = ["insert", "find", "update", "delete", "count", "distinct", "findAndModify", "findAndModify", "aggregate",
         "aggregate", "createIndexes", "create", "collMod", "explain", "ping", "listIndexes", "drop", "getMore",
         "dropIndexes"]


def some_command(chance, inside=False):
    """The elements of a command, most of them near to what a library accepts."""
    verb = chance.choice(VERBS)
    if verb == "explain" and not inside:
        added = some_fields(chance, lambda: ("verbosity", words("queryPlanner")),
                            lambda: ("filter", some_filter(chance)))
        return document(("explain", (DOCUMENT, some_command(chance, True))), *added)[1]
    if chance.random() < 0.1:  # on the other collection no value is protected, but where a command reaches both
        reach = some_pipeline(chance, foreign_stage)
        return document(*[("aggregate", words("d")), ("pipeline", reach)] if chance.random() < 0.5 else
                        [("create", words("d")), ("viewOn", words("c")), ("pipeline", reach)])[1]
    fields = [(verb, words("c"))] + fields_of(chance, verb)
    if chance.random() < 0.2:  # a field that may be there, or not, or once more
        made = chance.choice([some_filter, keyed, some_pipeline, stored])
        value = one_of(chance, *[lambda: made(chance)] * 4,
                       lambda: listing(stored(chance)), lambda: listing(some_item(chance, "update")),
                       lambda: document(("ssn", document(("ssn", secret(chance))))),
                       lambda: document((chance.choice(["w", "id", "level"]), document(("ssn", secret(chance))))))
        fields.insert(chance.randrange(1, len(fields) + 1), (chance.choice(ADDED), value))
    if chance.random() < 0.01:
        chance.shuffle(fields)
    return document(*fields)[1]
