"""Commands that a library takes with the flag FLE_COMMANDS_MORE: the random ones of reference/chance/library.py, in which
a word stands wherever a protected value may stand, by the rules of reference/library.py."""
from library_calls import DONE, expect, refusal
from reference.asks import collection_filter, key_filter, needed
from reference.bson import ARRAY, BINARY, DOCUMENT, STRING, UUID, array, binary, spell, text
from reference.chance.library import INFOS, KEY_ID, RULES, WORD, some_command
from reference.chance.sealed import key_document, some_material
from reference.commands import first_refusal, later_refusals
from reference.fields import PASSING
from reference.library import judge, marks_of
from reference.marking import reply_with
from reference.reasons import Reason
from reference.sealing import seal
from reference.vault import Vault

MORE = (1).to_bytes(8, "little")  # the flag
TAKEN = ["insert", "update", "delete", "find", "count", "distinct", "findAndModify", "createIndexes"]
HOLDING = ["insert", "update", "delete", "find", "count", "distinct", "findAndModify"]  # those that hold protected values
ALGORITHMS = {"D": "AEAD_AES_256_CBC_HMAC_SHA_512-Deterministic", "R": "AEAD_AES_256_CBC_HMAC_SHA_512-Random"}


def schema_of(rules):
    """A schema that states these rules, of texts."""
    properties = []
    for name in dict.fromkeys(path[0] for path in rules):
        inner = {path[1:]: rule for path, rule in rules.items() if path[0] == name}
        properties.append((DOCUMENT, name, schema_of(inner) if () not in inner else [(DOCUMENT, "encrypt", [
            (ARRAY, "keyId", array(BINARY, [binary(UUID, inner[()].key)])), (STRING, "bsonType", text("string")),
            (STRING, "algorithm", text(ALGORITHMS[inner[()].algorithm]))])]))
    return [(STRING, "bsonType", text("object")), (DOCUMENT, "properties", properties)]


def info_of(name, rules):
    """The info of a collection with these rules, or without any."""
    schema = [(DOCUMENT, "options", [(DOCUMENT, "validator", [(DOCUMENT, "$jsonSchema", schema_of(rules))])])]
    return spell([(STRING, "name", text(name)), *(schema if rules else [])])


def judged(command):
    """What refuses a command (place, reason), or None."""
    return first_refusal(command, PASSING, TAKEN) or judge(INFOS, command, "hr")


def judged_fields(command):
    """What refuses a command for its own fields."""
    refused = first_refusal(command, PASSING, TAKEN)
    if refused or command[0][1] in TAKEN:
        return refused or min(later_refusals(command, "hr"), default=None)
    return judge(INFOS, command, "hr")


class More:
    """One engine, told of the collections of those commands and of their key."""

    def __init__(self, chance, library):
        self.chance, self.library, self.reasons, self.held = chance, library, [], {}
        self.master = chance.randbytes(96)
        material = some_material(chance, self.master, False)
        self.vault = Vault(self.master, {KEY_ID: ("local", material)}, {})
        self.key = key_document(chance, KEY_ID, [], "local", material)

    def run(self, count):
        """So many commands, half of them before the engine has the key."""
        self.told("fle_start", [MORE, self.master])
        for name, rules in (("c", RULES), ("d", {})):
            self.told("fle_put_info", [b"hr", info_of(name, rules)])
        for number in range(count):
            if number == count // 2:
                self.told("fle_put_key", [self.key])
            self.try_command(some_command(self.chance), number >= count // 2)
        self.library.close()

    def told(self, name, arguments):
        expect(self.library.call(name, arguments), DONE, b"", 0, name)

    def made(self, name, arguments, wanted, random_):
        """An output."""
        numbers = 0, 0, 0, 0, len(wanted), random_
        expect(self.library.call(name, arguments, len(wanted)), numbers, wanted, len(wanted), f"{name}, more commands")

    def try_command(self, command, has_key):
        words, refused = [b"hr", spell(command)], judged(command)
        self.ask_info(words, command)
        if refused:
            self.reasons.append(refused[1])
            self.refused(["fle_mark", "fle_keys_wanted", "fle_seal"], words, command, refused)
            return
        marks = marks_of(INFOS, command) if command[0][1] in TAKEN else {}
        random_ = 16 * sum(algorithm == "R" for algorithm, _ in marks.values())
        self.made("fle_mark", words, reply_with(marks, self.is_ruled(command), command), 0)
        ids, _ = needed(marks)
        self.made("fle_keys_wanted", words, key_filter(ids, []) if ids and not has_key else b"", random_)
        if has_key or not marks:
            self.seal(words, command, marks)
        else:
            self.refused(["fle_seal"], words, command, (min(marks), Reason.KEY_MISSING))

    def is_ruled(self, command):
        """Whether a command is on the collection with rules."""
        return command[0][1] in TAKEN and command[0][2] == text("c")

    def ask_info(self, words, command):
        refused = judged_fields(command)
        if refused:
            self.refused(["fle_info_wanted"], words, command, refused)
        else:
            name = command[0][2][4:-1].decode() if command[0][1] in TAKEN else None
            self.made("fle_info_wanted", words, collection_filter(name) if name else b"", 0)

    def refused(self, names, words, command, why):
        for name in names:
            blocks = [bytes(256)] if name == "fle_seal" else []
            expect(self.library.call(name, words + blocks, 64), refusal(command, why), b"", 64,
                   f"{name} of a command that is refused: {command}")

    def seal(self, words, command, marks):
        """A command sealed, without the word, and opened again."""
        blocks = self.chance.randbytes(1024)
        handed = iter([blocks[at:at + 16] for at in range(0, len(blocks), 16)])
        wanted, _ = seal(marks, command, self.vault, handed)
        self.made("fle_seal", [*words, blocks], wanted, len(blocks) - 16 * len(list(handed)))
        self.made("fle_unseal", [wanted], words[1], 0)
        if WORD in words[1]:
            self.held[command[0][1]] = self.held.get(command[0][1], 0) + 1
        if WORD in wanted:
            raise AssertionError(f"a protected value comes out: {command}")
