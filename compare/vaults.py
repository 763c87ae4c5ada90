"""Key documents made by libmongocrypt. Material is sealed without the key's id, so that a document may get another."""
import functools

from documents import elements_of
from reference.bson import ARRAY, BINARY, STRING, array, binary, spell, text
from sides import MASTER, Files, library


@functools.lru_cache(maxsize=None)
def made_by_library(count):
    with Files() as files:
        master = files.put("master", MASTER)
        return [library("keygen", master)[1] for _ in range(count)]


def with_names(document, key_id, names):
    """The key document with another id and these names."""
    fields = [element for element in elements_of(document) if element[1] not in ("_id", "keyAltNames")]
    named = [(ARRAY, "keyAltNames", array(STRING, map(text, names)))] if names else []
    return spell([(BINARY, "_id", binary(4, key_id)), *named, *fields])


def vault_of(ids, owners=()):
    """A key document for each id, over eight data keys; owners are pairs of a name and an id."""
    made = made_by_library(8)
    return b"".join(with_names(made[number % 8], key_id, [name for name, owner in owners if owner == key_id])
                    for number, key_id in enumerate(ids))
