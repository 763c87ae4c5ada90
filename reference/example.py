"""One way through all of it, over files of examples/: schemas read, commands judged, a value sealed and opened again.
Run from the top: python3 -m reference.example"""
import base64
import os

from reference.aead import IV, TAG
from reference.bson import contents_of, words_of
from reference.commands import judge
from reference.marking import marks_of
from reference.reading import documents_of
from reference.schemas import read_infos
from reference.sealing import HEAD, payloads_of, seal, unseal
from reference.vault import Vault, id_of

COMMANDS = ["insert.bson", "find.bson", "refused/null-value.bson", "refused/greater-than.bson"]


def read(name):
    """The bytes of a file."""
    with open(f"examples/{name}", "rb") as file:
        return file.read()


def elements_of(stream):
    """The elements of each of some documents."""
    return [elements for elements, _ in documents_of(stream)]


def value_of(elements, name):
    """The value of the first element of this name."""
    return next(value for _, other, value in elements if other == name)


def vault_of(documents, master):
    """The vault of some keys' documents."""
    keys, names = {}, {}
    for document in documents:
        provider = words_of(value_of(value_of(document, "masterKey"), "provider"))
        keys[id_of(document)] = provider, contents_of(value_of(document, "keyMaterial"))
        names.update({words_of(name): id_of(document) for _, _, name in value_of(document, "keyAltNames")})
    return Vault(master, keys, names)


def drawn():
    """Random blocks, one after another: the IVs of random values."""
    while True:
        yield os.urandom(IV)


def show(payload):
    """Prints the parts of a payload."""
    head, rest = payload[:HEAD], payload[HEAD:]
    print("  algorithm, key, type:", head[:1].hex(), head[1:17].hex(), head[17:].hex())
    for name, part in (("IV", rest[:IV]), ("blocks", rest[IV:-TAG]), ("tag", rest[-TAG:])):
        print(f"  {name}:", part.hex())


def seal_and_open(name, command, infos, vault):
    """Prints what a command that is accepted is sealed to, and whether it is opened to what it was."""
    sealed, _ = seal(marks_of(infos, command), command, vault, drawn())
    [answer] = elements_of(sealed)
    for place, payload in payloads_of(answer):
        print(f"{name}: the value at {'.'.join(map(str, place))} is sealed")
        show(payload)
    opened, _ = unseal(answer, vault)
    print("  opened:", "the same command" if opened == read(name) else "another command")


def main():
    """Judges the commands, and seals those that are accepted."""
    infos = read_infos(elements_of(read("people.schemas.bson")))
    master = base64.b64decode(read("EXAMPLE-ONLY.master"))
    vault = vault_of(elements_of(read("keys.bson")), master)
    for name in COMMANDS:
        [command] = elements_of(read(name))
        refused = judge(infos, command, "hr")
        if refused:
            place, reason = refused
            print(f"{name}: refused at {'.'.join(map(str, place))}, reason {reason:d}, {reason.name}")
        else:
            seal_and_open(name, command, infos, vault)


if __name__ == "__main__":
    main()
