"""What a driver asks for before it seals a command, as the states of libmongocrypt do: the filter by which the info of
the command's collection is looked for, and that of its keys."""
from reference.bson import ARRAY, BINARY, DOCUMENT, STRING, UUID, array, binary, spell, text


def needed(marks):
    """What keys are asked for by, each once, in the order of the places that need them: ids, and names."""
    needs = list(dict.fromkeys(need for _, (_, need) in sorted(marks.items())))
    return [[value for field, value in needs if field == wanted] for wanted in ("ki", "ka")]


def collection_filter(name):
    """{name: name}"""
    return spell([(STRING, "name", text(name))])


def key_filter(ids, names):
    """{$or: [{_id: {$in: ids}}, {keyAltNames: {$in: names}}]}"""
    by_id = [(DOCUMENT, "_id", [(ARRAY, "$in", array(BINARY, [binary(UUID, one) for one in ids]))])]
    by_name = [(DOCUMENT, "keyAltNames", [(ARRAY, "$in", array(STRING, map(text, names)))])]
    return spell([(ARRAY, "$or", array(DOCUMENT, [by_id, by_name]))])
