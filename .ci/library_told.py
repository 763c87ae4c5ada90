"""Rounds of engines that are told of infos and keys one by one: in any order, again, in the place of others, with
faulty ones between, and with forgettings. Whatever came before, calls answer as the second program of reference/ does
by what is there now, and so they do by an engine that is opened with files of it."""
from collections import namedtuple

from library_calls import DONE, expect, refusal
from library_keys import FAULTS, ID, LOCAL, MASTERS, MATERIAL
from library_rounds import CLOSED, LIMIT, LONGEST, Round, sent, some_value
from reference.asks import collection_filter, needed
from reference.bson import BINARY, STRING, UUID, binary, spell, text, words_of
from reference.chance.commands import some_command
from reference.chance.schemas import some_documents, spoiled
from reference.chance.sealed import key_document, some_ids, some_material, some_sealed, some_vault
from reference.commands import PASSING, judge, judge_fields
from reference.marking import marks_of
from reference.reading import documents_of
from reference.schemas import Fault, read_info
from reference.vault import Vault, id_of

SETUP, NO_INFO, FLAGS = 4, 13, 15
MORE = 1  # FLE_COMMANDS_MORE
TWICE_ID, TWICE_NAME, TOO_MANY = 25, 26, 27  # what is wrong with a key beside others
DATABASES = "hr", "h", "pay"
STEPS = 50
MOST_KEYS = 65_536
Key = namedtuple("Key", "id names provider material spelled")  # a key document, and what it states


def bare(name):
    """The info that tells of a collection that it has none."""
    return [(STRING, "name", text(name))]


def some_no_document(chance, whole):
    """Bytes that are no document."""
    return chance.choice((b"", whole[:-1], whole + b"\0", whole[:chance.randrange(4)]))


def fault_beside(keys, key):
    """What is wrong with a key beside those that are there; 0 where nothing is. The same again changes nothing."""
    if key.id in keys:
        one, other = ((it.names, it.material, it.provider == "local") for it in (keys[key.id], key))
        return 0 if one == other else TWICE_ID
    taken = {name for one in keys.values() for name in one.names}
    return TWICE_NAME if taken & set(key.names) else 0


class Told(Round):
    """One engine that is started, or, where it is `whole`, opened for the first database, and told more."""

    def __init__(self, chance, library):
        self.chance, self.library, self.reasons = chance, library, []
        self.whole = chance.random() < 0.3
        self.stock = {db: some_documents(chance) + some_documents(chance) for db in DATABASES}
        every = [document for documents in self.stock.values() for document in documents]
        self.ids = some_ids(chance, {number: read_info(one, {})[1:] for number, one in enumerate(every)})
        vault, self.keys_file, self.master_file = some_vault(chance, self.ids)
        self.master, self.key_stock = vault.master, list(self.keys_of(vault))
        self.known, self.spelled, self.keys = {db: {} for db in DATABASES}, {db: {} for db in DATABASES}, {}
        self.judging = "fle_seal", "fle_mark", "fle_keys_wanted"
        self.turn_to(DATABASES[0])

    def keys_of(self, vault):
        """The keys of a vault's file; of each another one of its id and its names, and one that takes a name of it."""
        for elements, whole in documents_of(self.keys_file):
            names = [name for name, owner in vault.names.items() if owner == id_of(elements)]
            yield Key(id_of(elements), names, *vault.keys[id_of(elements)], whole)
            for key_id, owned in ((id_of(elements), names), (self.chance.randbytes(16), names[:1])):
                material = some_material(self.chance, vault.master, False)
                made = key_document(self.chance, key_id, owned, "local", material)
                yield Key(key_id, owned, "local", material, made)

    def turn_to(self, db):
        """What follows is of this database, by what is there now."""
        self.db, self.infos = db, self.known[db]
        self.vault = Vault(self.master, {key.id: (key.provider, key.material) for key in self.keys.values()},
                           {name: key.id for key in self.keys.values() for name in key.names})

    def told(self, name, arguments, numbers=DONE):
        """A call that has no room."""
        expect(self.library.call(name, arguments), numbers, b"", 0, name)

    # ---- steps

    def run(self):
        self.without_engine("before it is started")
        self.begin()
        steps = [self.put_info, self.put_bare, self.put_spoiled, self.put_key, self.put_no_key, self.forget_info,
                 self.forget_infos, self.forget_keys, self.command, self.document]
        for step in self.chance.choices(steps, [8, 2, 2, 6, 2, 1, 0.3, 0.7, 12, 2], k=STEPS):
            step()
        self.masterless()
        self.by_files()
        self.library.close()
        self.without_engine("after it is closed")

    def begin(self):
        for _ in range(2):  # the second time at a full slot
            if self.whole:
                infos = b"".join(map(spell, self.stock[self.db][:4]))
                self.told("fle_open", [bytes(8), self.db.encode(), self.keys_file, infos, self.master_file])
            else:
                self.told("fle_start", [bytes(8), self.master_file])
        if self.whole:
            for elements in self.stock[self.db][:4]:
                self.learn(self.db, elements)
            ids = {id_of(elements): whole for elements, whole in documents_of(self.keys_file)}
            self.keys = {key.id: key for key in self.key_stock if ids.get(key.id) == key.spelled}

    def some_database(self):
        """One of the databases, mostly the engine's own where it is whole; whether the engine takes it."""
        db = self.chance.choice(DATABASES[:1] * 6 * self.whole + DATABASES)
        return db, not self.whole or db == DATABASES[0]

    def learn(self, db, elements):
        """An info is there from here on, in the place of the one of its name."""
        name, rules, view = read_info(elements, {})
        self.known[db][name], self.spelled[db][name] = (rules, view), spell(elements)

    def put(self, elements):
        """An info put, or one of another database than the engine's refused."""
        db, takes = self.some_database()
        self.told("fle_put_info", [db.encode(), spell(elements)], DONE if takes else (1, 3, 0, 0, 0, 0))
        if takes:
            self.learn(db, elements)

    def put_info(self):
        self.put(self.chance.choice(self.stock[self.chance.choice(DATABASES)]))

    def put_bare(self):
        self.put(bare(self.chance.choice(("people", "staff", "v", "unknown"))))

    def put_spoiled(self):
        """An info that is changed, and perhaps faulty; and bytes that are none."""
        db, fault = DATABASES[0], 0
        elements = spoiled(self.chance, self.chance.choice(self.stock[db]))
        try:
            read_info(elements, {})
        except Fault as first:
            fault = first.number
        self.told("fle_put_info", [db.encode(), spell(elements)], (SETUP, fault, 2, 1, 0, 0) if fault else DONE)
        if not fault:
            self.learn(db, elements)
        none = some_no_document(self.chance, spell(elements))
        self.told("fle_put_info", [db.encode(), none], (SETUP, 30, 2, 1, 0, 0))

    def put_key(self, key=None):
        key = key or self.chance.choice(self.key_stock)
        fault = fault_beside(self.keys, key)
        self.told("fle_put_key", [key.spelled], (SETUP, fault, 1, 1, 0, 0) if fault else DONE)
        if not fault:
            self.keys.setdefault(key.id, key)

    def put_wanted(self, command):
        """The keys that a command needs, of which some may be there."""
        if not self.is_untold(command) and not judge(self.infos, command, self.db):
            ids, names = needed(marks_of(self.infos, command))
            for key in self.key_stock:
                if key.id in ids or set(names) & set(key.names):
                    self.put_key(key)
            self.turn_to(self.db)

    def put_no_key(self):
        elements, fault = self.chance.choice(FAULTS)
        self.told("fle_put_key", [spell(elements)], (SETUP, fault, 1, 1, 0, 0))
        none = some_no_document(self.chance, self.chance.choice(self.key_stock).spelled)
        self.told("fle_put_key", [none], (SETUP, 20, 1, 1, 0, 0))

    def forget_info(self):
        (db, takes), name = self.some_database(), self.chance.choice(("people", "staff", "notes", "v", "peopl", ""))
        self.told("fle_forget_info", [db.encode(), name.encode()])
        if takes:
            self.known[db].pop(name, None), self.spelled[db].pop(name, None)

    def forget_infos(self):
        self.told("fle_forget_infos", [])
        for db in DATABASES:
            self.known[db].clear(), self.spelled[db].clear()

    def forget_keys(self):
        self.told("fle_forget_keys", [])
        self.keys = {}

    # ---- what is answered then

    def some_command(self):
        """A command of a database, as it is for what is there, or for what may be put."""
        self.turn_to(DATABASES[0] if self.whole else self.chance.choice(DATABASES))
        stock = [read_info(one, {}) for one in self.stock[self.db]]
        return self.sent_here({**{name: (rules, view) for name, rules, view in stock}, **self.infos})

    def sent_here(self, infos):
        """A command under these infos, which names this database where it would name hr."""
        return [(kind, name, text(self.db) if (name, value) == ("$db", text("hr")) else value)
                for kind, name, value in some_command(self.chance, infos)]

    def command(self):
        command = self.some_command()
        if self.chance.random() < 0.6:
            self.put_wanted(command)
        self.try_command(command)

    def document(self):
        self.turn_to(self.db)
        whole = Vault(self.master, {key.id: (key.provider, key.material) for key in self.key_stock}, {})
        self.unseal(some_sealed(self.chance, whole, [key.id for key in self.key_stock], 2))
        self.value(*some_value(self.chance))

    def is_untold(self, command):
        """Whether nothing is known of the collection of a command, which is asked for."""
        asks = not judge_fields({}, command, self.db) and command[0][1] not in PASSING
        return not self.whole and asks and words_of(command[0][2]) not in self.infos

    def try_command(self, command):
        if not self.is_untold(command):
            return super().try_command(command)
        self.ask(command)
        self.lacks_info(self.db, command)

    def lacks_info(self, db, command):
        """A command for a collection of which nothing is known is marked and sealed by no call."""
        for name, arguments in sent(db.encode(), spell(command)):
            if name in self.judging:
                expect(self.library.call(name, arguments, 64), (NO_INFO, 0, 0, 0, 0, 0), b"", 64, f"{name} untold")

    def send_elsewhere(self, command):
        """A command of another database is for a collection of that one; that of a whole engine is refused."""
        if self.whole:
            return super().send_elsewhere(command)
        other = self.db + "x"
        refused = judge_fields({}, command, other)
        if command[0][1] not in PASSING and not refused:
            self.lacks_info(other, command)
        for name, arguments in sent(other.encode(), spell(command)) if refused else []:
            if name in (*self.judging, "fle_info_wanted"):
                expect(self.library.call(name, arguments, 64), refusal(command, refused), b"", 64, f"{name} elsewhere")

    def masterless(self):
        """An engine without a master key, told the same: it marks, and says what is wanted, and no more."""
        self.whole, self.judging = False, ("fle_mark", "fle_keys_wanted")
        self.told("fle_start", [bytes(8), b""])
        for db, infos in self.spelled.items():
            for info in infos.values():
                self.told("fle_put_info", [db.encode(), info])
        for key in self.keys.values():
            self.told("fle_put_key", [key.spelled])
        for _ in range(4):
            command = self.some_command()
            if self.is_untold(command):
                self.lacks_info(self.db, command)
            elif not judge(self.infos, command, self.db):
                self.tell(command)
            self.closed(spell(command))

    def closed(self, document):
        """The calls that want a master key."""
        for name, arguments in (("fle_seal", [self.db.encode(), document, bytes(256)]), ("fle_unseal", [document]),
                                ("fle_seal_value", [bytes(2), bytes(16), spell([ID]), bytes(16)]),
                                ("fle_make_key", [spell([]), bytes(8), bytes(128)]),
                                ("fle_rewrap_key", [bytes(96), bytes(8), spell([ID, MATERIAL, LOCAL]), bytes(16)])):
            expect(self.library.call(name, arguments, 64), (CLOSED, 0, 0, 0, 0, 0), b"", 64, f"{name} masterless")

    def by_files(self):
        """Engines that are opened with what is there now."""
        self.whole, keys = True, b"".join(key.spelled for key in self.keys.values())
        for db in DATABASES:
            infos = b"".join(self.spelled[db].values())
            self.told("fle_open", [bytes(8), db.encode(), keys, infos, self.master_file])
            self.turn_to(db)
            for _ in range(2):
                self.try_command(self.sent_here(self.infos))


def told_at_the_limits(library):
    """What starts no engine, infos and keys that are too long, and a key beside as many as there may be."""
    def told(name, arguments, numbers=DONE):
        expect(library.call(name, arguments), numbers, b"", 0, f"{name} at its limits")
    more = MORE.to_bytes(8, "little")
    for name, words in (("fle_start", [b""]), ("fle_open", [b"hr", b"", b"", bytes(96)])):
        told(name, [more, *words])
        told("fle_forget_keys", [])
        for flags in (2, 3, 1 << 31, (1 << 32) - 1):
            told("fle_start", [bytes(8), b""])
            told(name, [flags.to_bytes(8, "little"), *(b"?" for _ in words)], (FLAGS, 0, 0, 0, 0, 0))
            told("fle_forget_keys", [], (CLOSED, 0, 0, 0, 0, 0))
    for master, fault in MASTERS[1:]:
        told("fle_start", [bytes(8), bytes(96)])
        told("fle_start", [bytes(8), master], (SETUP, fault, 3, 0, 0, 0))
        told("fle_forget_infos", [], (CLOSED, 0, 0, 0, 0, 0))
    told("fle_start", [bytes(8), bytes(96)])
    for name, words in (("fle_put_info", [b"hr"]), ("fle_put_key", [])):
        told(name, [*words, (LONGEST + 1).to_bytes(4, "little") + bytes(LONGEST - 3)], (LIMIT, 1, 0, 0, 0, 0))
    filling = LONGEST - len(spell([*bare("c"), (BINARY, "x", binary(0, b""))]))
    told("fle_put_info", [b"hr", spell([*bare("c"), (BINARY, "x", binary(0, bytes(filling)))])])
    wanted = collection_filter("c")
    came = library.call("fle_info_wanted", [b"hr", spell([(STRING, "find", text("c"))])], len(wanted))
    expect(came, (0, 0, 0, 0, len(wanted), 0), wanted, len(wanted), "a filter, which is an info too")
    told("fle_put_info", [b"hr", wanted])
    keys = [spell([(BINARY, "_id", binary(UUID, number.to_bytes(16, "big"))), MATERIAL, LOCAL])
            for number in range(MOST_KEYS + 1)]
    told("fle_open", [bytes(8), b"hr", b"".join(keys[:-1]), b"", bytes(96)])
    told("fle_put_key", [keys[-1]], (SETUP, TOO_MANY, 1, 1, 0, 0))
    told("fle_put_key", [keys[0]])
    told("fle_forget_keys", [])
    told("fle_put_key", [keys[-1]])
