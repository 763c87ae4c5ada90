"""Rounds of calls of the library of contrib/c, whose answers the second program of reference/ knows."""
import random

from library_calls import DONE, expect, refusal
from library_keys import keys_at_the_limits, keys_without_engine, make_keys, rewrap_keys
from reference.asks import collection_filter, key_filter, needed
from reference.bson import DOCUMENT, binary, spell, words_of
from reference.chance.commands import some_command
from reference.chance.deepest import LEAF, as_json, deep_commands, deep_infos, example_vault, flat_info, nested
from reference.chance.schemas import some_infos
from reference.chance.sealed import some_ids, some_sealed, some_vault
from reference.commands import PASSING, judge, judge_fields
from reference.marking import marks_of, reply
from reference.reading import documents_of
from reference.schemas import read_infos
from reference.sealing import payloads_of, seal, unseal

LONGEST, OPENED = 16_777_216, 48_000_000  # bytes of a command, and of a document that is opened
with open("examples/people.schemas.bson", "rb") as infos:
    PEOPLE = infos.read()
PING = spell([(16, "ping", b"\1\0\0\0")])
NEVER, UNCOMPARED = (6, 10, 127, 255), (1, 3, 4, 8, 15, 19)  # types that aren't sealed, and not deterministically
MALFORMED, ENTROPY, LIMIT, ROOM, CLOSED = 3, 7, 9, 10, 11
OPENING = "fle_unseal", "fle_keys_wanted_open"
TELLING = [("fle_put_info", [b"hr", PEOPLE]), ("fle_forget_info", [b"hr", b"people"]), ("fle_forget_infos", []),
           ("fle_put_key", [PEOPLE]), ("fle_forget_keys", [])]


def sent(db, command):
    """Each call that takes a command that is sent to a database."""
    return [("fle_seal", [db, command, b""]),
            *((name, [db, command]) for name in ("fle_mark", "fle_info_wanted", "fle_keys_wanted"))]


def calls_with(document):
    """Each call that takes a document, with this one."""
    return [*sent(b"hr", document), *((name, [document]) for name in OPENING),
            ("fle_seal_value", [bytes(2), bytes(16), document, b""])]


class Round:
    """One round: an engine, its commands and documents."""

    db = "hr"

    def __init__(self, chance, library):
        self.chance, self.library = chance, library
        self.infos, schemas = some_infos(chance)
        self.ids = some_ids(chance, self.infos)
        self.vault, keys, master = some_vault(chance, self.ids)
        self.files = keys, schemas, master
        self.reasons = []

    def run(self):
        self.without_engine("before it is open")
        for what in ("open", "open at a full slot"):
            expect(self.library.call("fle_open", [bytes(8), b"hr", *self.files]), DONE, b"", 0, what)
        for _ in range(6):
            self.try_command(some_command(self.chance, self.infos))
        for _ in range(4):
            self.unseal(some_sealed(self.chance, self.vault, self.ids, 2))
            self.value(*some_value(self.chance))
        rewrap_keys(self.chance, self.library, self.files[0], self.vault)
        make_keys(self.chance, self.library, self.vault.master)
        self.library.close()
        self.without_engine("after it is closed")

    def try_command(self, command):
        self.ask(command)
        refused = judge(self.infos, command, self.db)
        if refused:
            self.refuse(command, refused)
        else:
            self.seal(command)

    def without_engine(self, when):
        for name, arguments in [*calls_with(PING), ("fle_value_keys_wanted", [bytes(2), bytes(16)])]:
            expect(self.library.call(name, arguments, 64), (CLOSED, 0, 0, 0, 0, 0), b"", 64, f"{name} {when}")
        for name, arguments in TELLING:
            expect(self.library.call(name, arguments), (CLOSED, 0, 0, 0, 0, 0), b"", 0, f"{name} {when}")
        keys_without_engine(self.library)

    def refuse(self, command, refused):
        self.reasons.append(refused[1])
        db = self.db.encode()
        came = self.library.call("fle_seal", [db, spell(command), bytes(16)], 64)
        expect(came, refusal(command, refused), b"", 64, "a command that is refused")
        if judge(self.infos, command, self.db):
            for name in ("fle_mark", "fle_keys_wanted"):
                expect(self.library.call(name, [db, spell(command)], 64), refusal(command, refused), b"", 64,
                       f"{name} of a command that is refused")

    def made(self, name, arguments, wanted, random_, what):
        """An output, with exactly its room and with a byte too few."""
        call, numbers = self.library.call, (0, 0, 0, len(wanted), random_)
        expect(call(name, arguments, len(wanted)), (0, *numbers), wanted, len(wanted), what)
        if wanted:
            expect(call(name, arguments, len(wanted) - 1), (ROOM, *numbers), b"", len(wanted) - 1, what)

    def ask(self, command):
        """The filter of the info that a command needs, or the refusal of a field by itself."""
        words, refused = [self.db.encode(), spell(command)], judge_fields({}, command, self.db)
        if refused:
            expect(self.library.call("fle_info_wanted", words, 64), refusal(command, refused), b"", 64,
                   "the info of a command whose fields are refused")
        else:
            wanted = b"" if command[0][1] in PASSING else collection_filter(words_of(command[0][2]))
            self.made("fle_info_wanted", words, wanted, 0, "the info of a command")

    def lacking(self, ids, names):
        """The filter of those of some keys that the vault lacks."""
        ids = [one for one in ids if one not in self.vault.keys]
        names = [name for name in names if self.vault.names.get(name) not in self.vault.keys]
        return key_filter(ids, names) if ids or names else b""

    def tell(self, command):
        """The reply to a command that isn't refused by itself, and the keys that it lacks; another database's is."""
        marks, words = marks_of(self.infos, command), [self.db.encode(), spell(command)]
        random_ = 16 * sum(algorithm == "R" for algorithm, _ in marks.values())
        self.made("fle_mark", words, reply(self.infos, command), 0, "a reply")
        self.made("fle_keys_wanted", words, self.lacking(*needed(marks)), random_, "the keys of a command")
        self.send_elsewhere(command)

    def send_elsewhere(self, command):
        """Another database's command is refused."""
        other = self.chance.choice((b"", self.db[:-1].encode(), self.db.encode() + b"x", self.db.upper().encode()))
        for name, arguments in sent(other, spell(command)):
            expect(self.library.call(name, arguments, 64), (1, 3, 0, 0, 0, 0), b"", 64,
                   f"{name} of another database's command")

    def seal(self, command):
        db, bytes_ = self.db.encode(), spell(command)
        self.tell(command)
        need = self.library.needed(len(bytes_))
        blocks = self.chance.randbytes(need.random)
        handed = iter([blocks[at:at + 16] for at in range(0, len(blocks), 16)])
        wanted, refused = seal(marks_of(self.infos, command), command, self.vault, handed)
        if refused:
            return self.refuse(command, refused)
        drawn = need.random - 16 * len(list(handed))
        if len(wanted) > need.room:
            raise AssertionError(f"fle_needed says {need.room} bytes of room; wanted are {len(wanted)}")
        call, sizes = self.library.call, (len(wanted), drawn)
        done, room = (0, 0, 0, 0, *sizes), (ROOM, 0, 0, 0, *sizes)
        expect(call("fle_seal", [db, bytes_, blocks], len(wanted) + 3), done, wanted, len(wanted) + 3, "a command")
        expect(call("fle_seal", [db, bytes_, blocks], len(wanted) - 1), room, b"", len(wanted) - 1, "a byte too few")
        if drawn:
            few = self.chance.choice((0, self.chance.randrange(drawn), drawn - 1))
            short = self.chance.choice((0, len(wanted)))
            expect(call("fle_seal", [db, bytes_, blocks[:few]], short), (ENTROPY, 0, 0, 0, *sizes), b"", short,
                   "random bytes too few, and room perhaps")
        expect(call("fle_seal", [db, bytes_, blocks[:drawn]], len(wanted)), done, wanted, len(wanted), "just enough")
        self.spoil(bytes_)
        self.unseal(documents_of(wanted)[0][0])

    def spoil(self, whole):
        """A document cut short, and one with a byte behind it, are malformed, whatever the call."""
        cut = self.chance.randrange(4, len(whole))
        for spoiled, fault, place in ((whole[:cut], 1, cut), (whole + b"\0", 7, len(whole))):
            for name, arguments in calls_with(spoiled):
                expect(self.library.call(name, arguments, 9), (MALFORMED, fault, 0, place, 0, 0), b"", 9,
                       f"{name} of what is no document")

    def value(self, tag, value):
        """One value sealed under some key, by its id or by a name, and opened again; or refused."""
        chance, call = self.chance, self.library.call
        named, random_, field = chance.random() < 0.5, chance.random() < 0.5, chance.choice(("v", "", "value"))
        keys = [*self.vault.names, "none"] if named else [*self.vault.keys, bytes(16)]
        key = chance.choice(keys)
        need, how = ("ka" if named else "ki", key), bytes([named, random_])
        key, document, at = key.encode() if named else key, spell([(tag, field, value)]), 6 + len(field)
        wanted = self.lacking([], [need[1]]) if named else self.lacking([need[1]], [])
        self.made("fle_value_keys_wanted", [how, key], wanted, 0, "the key of a value")
        blocks = chance.randbytes(chance.choice((16, 33)))
        reason, marks = offence_of(tag, value, random_), {(0,): ("R" if random_ else "D", need)}
        if not reason:
            sealed, refused = seal(marks, [(tag, field, value)], self.vault, iter([blocks[:16]]))
            reason = refused[1] if refused else 0
        if reason:
            self.reasons.append(reason)
            came = call("fle_seal_value", [how, key, document, blocks], 64)
            return expect(came, (1, reason, 0, at, 0, 0), b"", 64, "a value that is refused")
        sizes = len(sealed), 16 * random_
        if random_:
            came = call("fle_seal_value", [how, key, document, blocks[:15]], 0)
            expect(came, (ENTROPY, 0, 0, 0, *sizes), b"", 0, "a block too few for a value")
        self.made("fle_seal_value", [how, key, document, blocks], sealed, sizes[1], "a value")
        self.made("fle_unseal", [sealed], document, 0, "a value opened")

    def unseal(self, elements):
        sealed = spell(elements)
        wanted, refused = unseal(elements, self.vault)
        if refused and refused[1] == 19:
            expect(self.library.call("fle_keys_wanted_open", [sealed], 64), refusal(elements, refused), b"", 64,
                   "the keys of a document with a payload that is none")
        else:
            ids = list(dict.fromkeys(contents[1:17] for _, contents in payloads_of(elements)))
            self.made("fle_keys_wanted_open", [sealed], self.lacking(ids, []), 0, "the keys of a document")
        if refused:
            self.reasons.append(refused[1])
            came = self.library.call("fle_unseal", [sealed], len(sealed))
            return expect(came, refusal(elements, refused), b"", len(sealed), "a document that is refused")
        numbers = 0, 0, 0, 0, len(wanted), 0
        expect(self.library.call("fle_unseal", [sealed], len(sealed)), numbers, wanted, len(sealed), "a document")
        expect(self.library.call("fle_unseal", [sealed], len(wanted) - 1), (ROOM, 0, 0, 0, len(wanted), 0), b"",
               len(wanted) - 1, "a byte of room too few to open")


def offence_of(tag, value, random_):
    """The number of the reason for which a value isn't sealed, whatever its key; 0 where there is none."""
    if tag in NEVER or not random_ and tag in UNCOMPARED:
        return 5
    return 6 if tag == 5 and value[4] == 6 else 0


def some_value(chance):
    """A type and a value of it."""
    return chance.choice([(16, b"\1\2\3\4"), (2, b"\4\0\0\0abc\0"), (1, bytes(8)), (8, b"\1"), (10, b""),
                          (5, binary(0, b"xyz")), (5, binary(6, b"\1" + bytes(81))), (7, bytes(12)), (19, bytes(16)),
                          (18, bytes(8)),
                          (3, [(16, "a", b"\1\0\0\0")]), (255, b""), (13, b"\2\0\0\0x\0"), (9, bytes(8)),
                          (11, b"a\0b\0"), (2, b"\1\4\0\0" + b"x" * 1024 + b"\0")])


class Deepest(Round):
    """Schemas, commands and documents at the limit of nesting, which want the most stack."""

    def __init__(self, library):
        self.chance, self.library, self.reasons = random.Random(1), library, []
        with open("examples/keys.bson", "rb") as keys:
            self.keys, self.master = keys.read(), bytes(range(96))
        self.vault = example_vault(self.keys, self.master)

    def run(self):
        for info in [*deep_infos(), flat_info()]:
            self.infos = read_infos([info])
            for infos in (spell(info), f"[{as_json(DOCUMENT, info)}]".encode()):
                opened = self.library.call("fle_open", [bytes(8), b"hr", self.keys, infos, self.master])
                expect(opened, DONE, b"", 0, "open, of a schema at the limit")
                put = self.library.call("fle_put_info", [b"hr", spell(info)])
                expect(put, DONE, b"", 0, "the same schema put in its own place")
                for command in deep_commands():
                    self.try_command(command)
        for _ in range(16):  # under either algorithm, by ids and by names
            self.value(DOCUMENT, nested([(DOCUMENT, "a")] * 98, LEAF))


def at_the_limits(library):
    """A command above 16,777,216 bytes, documents that are opened up to 48,000,000, what fle_needed says of any length,
    key documents, and what opens no engine."""
    call = library.call
    expect(call("fle_open", [bytes(8), b"hr", b"", PEOPLE, bytes(96)]), DONE, b"", 0, "open")
    one, two = spell([(16, "v", bytes(4))]), spell([(16, "v", bytes(4)), (16, "w", bytes(4))])
    expect(call("fle_seal_value", [bytes(2), bytes(15), one, b""], 16), (12, 0, 0, 0, 0, 0), b"", 16, "an id of 15")
    expect(call("fle_value_keys_wanted", [bytes(2), bytes(17)], 16), (12, 0, 0, 0, 0, 0), b"", 16, "an id of 17")
    for elements in (spell([]), two):
        expect(call("fle_seal_value", [bytes(2), bytes(16), elements, b""], 16), (1, 2, 0, 0, 0, 0), b"", 16, "not one")
    for limit in (LONGEST, OPENED):
        long = (limit + 1).to_bytes(4, "little") + bytes(limit - 3)
        for name, arguments in calls_with(long):
            if (limit == OPENED) == (name in OPENING):
                expect(call(name, arguments, 16), (LIMIT, 1, 0, 0, 0, 0), b"", 16, f"{name} of a document too long")
    for size in (LONGEST + 1, OPENED):
        long = spell([(5, "a", (size - 13).to_bytes(4, "little") + bytes(size - 12))])
        expect(call("fle_unseal", [long], size), (0, 0, 0, 0, size, 0), long, size, "a document of a long reply")
    for size in (LONGEST, 1 << 63):
        need = library.needed(size)
        if (need.room, need.random) != (OPENED, 16 * 666_666):
            raise AssertionError(f"fle_needed of {size} says {need.room} bytes of room, {need.random} random bytes")
    with open("contrib/c/fle.h", encoding="utf-8") as header:
        keys_at_the_limits(library, header.read())
    for db in (b"", b"x" * 64):
        expect(call("fle_open", [bytes(8), db, b"", PEOPLE, bytes(96)]), (2, 0, 0, 0, 0, 0), b"", 0, "a database's name")
    long = [bytes(8), b"hr", b"", PEOPLE, bytes(130)]
    expect(call("fle_open", long), (4, 2, 3, 0, 0, 0), b"", 0, "a master key too long")
    expect(call("fle_seal", [b"hr", spell([]), b""], 16), (CLOSED, 0, 0, 0, 0, 0), b"", 16, "behind a failed fle_open")
