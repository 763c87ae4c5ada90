"""pymongo's `ClientEncryption`, by processes: values sealed and opened, and the data keys of a vault."""
import datetime
import uuid

import bson
from bson.binary import STANDARD, Binary
from bson.code import Code
from bson.codec_options import CodecOptions
from bson.max_key import MaxKey
from bson.min_key import MinKey
from pymongo.errors import EncryptionError

from fle_driver import (ClientEncryption, Closed, Ended, FaultyFile, KeyFault, Limit, MasterFault, Reason, Refused,
                        enable)
from fle_driver.program_keys import DETERMINISTIC, RANDOM
from fle_driver.walk import elements

from . import corpus
from .samples import MASTER, element, spelled, string
from .vaults import FIRST, LOCAL, SECOND, VAULT, WithVault
from .wire import batch

OPTIONS = CodecOptions(uuid_representation=STANDARD)
ID = Binary(uuid.UUID("00112233-4455-4677-8899-aabbccddeeff").bytes, 4)
NOWHERE = Binary(bytes(16), 4)
NEW = bytes(range(96, 192))  # another master key than that of the examples
NEVER = None, MinKey(), MaxKey()


def without(name, key, *more):
    """A key document without a field, and with these elements."""
    return spelled(*(part.spelled() for part in elements(key) if part.name != name), *more)


FOREIGN = without("masterKey", FIRST.replace(ID, NOWHERE).replace(b"hr-key", b"hr-aws"),
                  element(3, "masterKey", spelled(string("provider", "aws"))))


class WithKeys(WithVault):
    def made_of(self, *keys, local=LOCAL, options=OPTIONS, **words):
        """A `ClientEncryption` whose vault has these keys."""
        self.wire.replies = [batch("firstBatch", 0, *keys)]
        made = ClientEncryption({"local": {"key": local}}, VAULT, self.plain_client(), options, program=self.program,
                                **words)
        self.addCleanup(made.close)
        self.assertEqual(made._fles.by_library, self.program is None)
        self.wire.forget()
        return made

    def answers(self, *keys):
        """The server answers a find of keys with these."""
        self.wire.replies.append(batch("firstBatch", 0, *keys))

    def refused(self, reason, call, *words):
        with self.assertRaises(Refused) as refused:
            call(*words)
        self.assertEqual(refused.exception.reason, reason)
        return refused.exception


class Values(WithKeys):
    def corpus(self, **words):
        return self.made_of(corpus.KEY, local=corpus.MASTER, options=CodecOptions(), **words)

    def test_encrypt(self):
        made = self.corpus()
        for value, payload in corpus.DETERMINISTIC:
            with self.subTest(value):
                self.assertEqual(made.encrypt(value, DETERMINISTIC, key_id=corpus.ID), payload)
                self.assertEqual(made.encrypt(value, DETERMINISTIC, key_alt_name=corpus.NAME), payload)
        for value, payload in corpus.RANDOM:
            with self.subTest(value):
                sealed = [made.encrypt(value, RANDOM, corpus.ID), made.encrypt(value, RANDOM, None, corpus.NAME)]
                for one in sealed:
                    self.assertEqual((one.subtype, one[:18], made.decrypt(one)), (6, payload[:18], value))
                self.assertNotEqual(*sealed)
        self.assertEqual(self.wire.came, [])

    def test_decrypt(self):
        made = self.corpus()
        for value, payload in corpus.DETERMINISTIC + corpus.RANDOM:
            self.assertEqual(made.decrypt(payload), value)

    def test_what_is_not_sealed(self):
        made = self.made_of(FIRST)
        for value in (*NEVER, 1.5, {"a": 1}, [1], True, Code("x", {}), bson.Decimal128("1.5")):
            error = self.refused(Reason.TypeNotAllowed, made.encrypt, value, DETERMINISTIC, ID)
            self.assertEqual((error.status, error.document, error.place, error.fields), (1, 1, (0,), "v"))
            self.assertEqual(str(error), "TypeNotAllowed at v (place 0)")
        for value in NEVER:
            self.refused(Reason.TypeNotAllowed, made.encrypt, value, RANDOM, ID)
        sealed = made.encrypt("x", RANDOM, ID)
        for algorithm in (DETERMINISTIC, RANDOM):
            self.refused(Reason.AlreadyEncrypted, made.encrypt, sealed, algorithm, ID)
        self.refused(Limit.Document, made.encrypt, "x" * (1 << 24), RANDOM, ID)

    def test_codec_options(self):
        one = uuid.uuid4()
        made = self.made_of(FIRST)
        self.assertEqual(made.decrypt(made.encrypt(one, DETERMINISTIC, ID)), one)
        aware = self.made_of(FIRST, options=CodecOptions(tz_aware=True))
        date = datetime.datetime(2026, 1, 1, tzinfo=datetime.timezone.utc)
        self.assertEqual(aware.decrypt(aware.encrypt(date, RANDOM, ID)), date)
        self.assertRaises(TypeError, self.made_of, FIRST, options=None)

    def test_arguments(self):
        made = self.made_of(FIRST)
        for words in ((RANDOM,), (RANDOM, ID, "hr-key"), (RANDOM, bytes(ID)), (RANDOM, Binary(bytes(15), 4)),
                      (RANDOM, Binary(bytes(ID), 3)), (RANDOM, None, b"hr-key")):
            self.assertRaises(TypeError, made.encrypt, "x", *words)
        self.assertRaises(ValueError, made.encrypt, "x", "AES", ID)
        for value in (b"\1", Binary(b"\1", 0), "x"):
            self.assertRaises(TypeError, made.decrypt, value)
        self.assertEqual(made.decrypt(made.encrypt("x", RANDOM, uuid.UUID(bytes=bytes(ID)))), "x")

    def test_payloads_that_are_none(self):
        made = self.made_of(FIRST)
        sealed = made.encrypt("x", RANDOM, ID)
        for contents in (b"", b"\0", b"\3" + sealed[1:], b"\1", sealed[:-1]):
            error = self.refused(Reason.PayloadShape, made.decrypt, Binary(contents, 6))
            self.assertEqual((error.status, error.place, error.fields), (1, (0,), "v"))
        self.refused(Reason.TagMismatch, made.decrypt, Binary(sealed[:-1] + bytes([sealed[-1] ^ 1]), 6))

    def test_keys_that_came_later(self):
        made = self.made_of()
        self.answers(FIRST)
        sealed = made.encrypt("x", DETERMINISTIC, key_alt_name="hr-key")
        other = self.made_of()
        self.answers(FIRST)
        self.assertEqual(other.decrypt(sealed), "x")
        self.assertEqual(self.names(), ["find"])
        self.assertEqual(other.decrypt(sealed), "x")
        self.assertEqual(self.names(), ["find"])

    def test_keys_that_are_nowhere(self):
        made = self.made_of(FIRST)
        for words in ((NOWHERE,), (None, "no such name"), (None, "")):
            self.wire.forget()
            self.answers(FIRST)
            error = self.refused(Reason.KeyMissing, made.encrypt, "x", RANDOM, *words)
            self.assertEqual((error.place, error.fields, self.names()), ((0,), "v", ["find"]))
            self.refused(Reason.TypeNotAllowed, made.encrypt, None, RANDOM, *words)
        self.answers(FIRST)
        self.refused(Reason.KeyMissing, made.decrypt, Binary(b"\1" + bytes(97), 6))

    def test_keys_that_do_not_open(self):
        self.refused(Reason.KeyNotLocal, self.made_of(FOREIGN).encrypt, "x", RANDOM, NOWHERE)
        self.refused(Reason.KeyDamaged, self.made_of(FIRST, local=NEW).encrypt, "x", RANDOM, ID)

    def test_errors_are_those_of_encryption(self):
        with self.assertRaises(EncryptionError):
            self.made_of(FIRST).encrypt(None, RANDOM, ID)

    def test_ClientEncryption(self):
        for local in (LOCAL, MASTER.read_text().strip()):
            made = self.made_of(FIRST, local=local)
            self.assertEqual(made.decrypt(made.encrypt("x", RANDOM, ID)), "x")
        for providers in ({}, {"aws": {}}, {"local": {"key": LOCAL}, "aws": {}}):
            with self.assertRaises(ValueError):
                ClientEncryption(providers, VAULT, self.plain_client(), OPTIONS)
        with self.assertRaises(FaultyFile) as faulty:
            self.made_of(FIRST, local=LOCAL[1:])
        self.assertEqual((faulty.exception.file, faulty.exception.reason), ("the master key", MasterFault.Length))

    def test_close(self):
        made = self.made_of(FIRST)
        sealed = made.encrypt("x", RANDOM, ID)
        made.close()
        made.close()
        for call in (lambda: made.encrypt("x", RANDOM, ID), lambda: made.decrypt(sealed), made.get_keys,
                     lambda: made.create_data_key("local"), lambda: made.rewrap_many_data_key({})):
            self.assertRaises(Closed, call)
        self.assertEqual(self.wire.came, [])

    def test___enter__(self):
        made = self.made_of(FIRST)
        with made as entered:
            self.assertIs(entered, made)

    def test___exit__(self):
        with self.assertRaises(KeyError), self.made_of(FIRST) as made:
            raise KeyError
        self.assertRaises(Closed, made.get_keys)


class Keys(WithKeys):
    def test_create_data_key(self):
        made = self.made_of()
        names = ["payroll", "\u00e4lter"]
        key_id = made.create_data_key("local", key_alt_names=names)
        (command,) = self.wire.came
        self.assertEqual([command["insert"], command["$db"], command["writeConcern"]["w"]],
                         ["__keyVault", "encryption", "majority"])
        (key,) = self.wire.last("documents")
        found = bson.decode(key, OPTIONS)
        self.assertEqual((key_id.subtype, bytes(key_id)), (4, found["_id"].bytes))
        self.assertEqual((found["_id"].version, found["keyAltNames"], found["masterKey"], found["status"]),
                         (4, names, {"provider": "local"}, 0))
        made_at = found["creationDate"]
        self.assertLess(abs(datetime.datetime.utcnow() - made_at), datetime.timedelta(seconds=60))
        self.assertEqual(found["updateDate"], made_at)
        for words in ({"key_id": key_id}, {"key_alt_name": "payroll"}):
            made = self.made_of()
            self.answers(key)
            self.assertEqual(made.decrypt(made.encrypt("x", RANDOM, **words)), "x")

    def test_create_data_key_without_names(self):
        made = self.made_of()
        for names in ({}, {"key_alt_names": None}, {"key_alt_names": []}):
            made.create_data_key("local", **names)
            (key,) = self.wire.last("documents")
            self.assertNotIn("keyAltNames", bson.decode(key))

    def test_create_data_key_that_makes_none(self):
        made = self.made_of()
        for words, error in (({"kms_provider": "aws"}, ValueError), ({"master_key": {}}, ValueError),
                             ({"key_alt_names": "payroll"}, TypeError), ({"key_alt_names": [b"a"]}, TypeError),
                             ({"key_alt_names": ["a", "a"]}, Ended), ({"key_alt_names": [""]}, Ended),
                             ({"key_alt_names": ["a\0"]}, ValueError), ({"key_alt_names": ["\ud800"]}, ValueError)):
            with self.subTest(words), self.assertRaises(error) as raised:
                made.create_data_key(**{"kms_provider": "local", **words})
            if error is Ended:
                self.assertEqual((type(raised.exception), raised.exception.status), (Ended, 2))
        self.assertEqual(self.wire.came, [])

    def rewrapped(self, made, *keys, filter={}, **words):
        """What comes of these keys, and the commands that did it."""
        self.wire.forget()
        self.answers(*keys)
        result = made.rewrap_many_data_key(filter, **words)
        return result.bulk_write_result, self.wire.came

    def test_rewrap_many_data_key(self):
        made = self.made_of(FIRST)
        sealed = made.encrypt("x", RANDOM, ID)
        result, (find, update) = self.rewrapped(made, FIRST, FOREIGN, SECOND, filter={"status": {"$lt": 2}},
                                                provider="local", master_key={"key": NEW})
        self.assertEqual((find["filter"].raw, find["readConcern"]["level"]),
                         (bson.encode({"status": {"$lt": 2}}), "majority"))
        self.assertEqual((result.modified_count, update["writeConcern"]["w"]), (1, "majority"))
        writes = update["updates"]
        self.assertEqual([(write["q"].raw, write["multi"], write["upsert"]) for write in writes],
                         [(spelled(*(part.spelled() for part in elements(key) if part.name in ("_id", "keyMaterial"))),
                           False, False) for key in (FIRST, SECOND)])
        for key, write in zip((FIRST, SECOND), writes):
            new = write["u"].raw
            self.assertEqual(self.kept(key), self.kept(new))
            self.assertNotEqual(key, new)
        under_new = self.made_of(writes[0]["u"].raw, local=NEW)
        self.assertEqual(under_new.decrypt(sealed), "x")
        self.refused(Reason.KeyDamaged, self.made_of(writes[0]["u"].raw).decrypt, sealed)

    def kept(self, key):
        """What stays of a key document."""
        return [(part.tag, part.name, part.value) for part in elements(key)
                if part.name not in ("keyMaterial", "updateDate")]

    def test_rewrap_many_data_key_under_the_same_master_key(self):
        made = self.made_of(FIRST)
        sealed = made.encrypt("x", RANDOM, ID)
        for words in ({}, {"provider": "local"}):
            _, (_, update) = self.rewrapped(made, FIRST, **words)
            (write,) = update["updates"]
            self.assertNotEqual(write["u"].raw, FIRST)
            self.assertEqual(self.made_of(write["u"].raw).decrypt(sealed), "x")

    def test_rewrap_many_data_key_that_finds_none(self):
        for keys in ((), (FOREIGN,)):
            result, came = self.rewrapped(self.made_of(FIRST), *keys, master_key={"key": NEW})
            self.assertEqual((result, len(came)), (None, 1))

    def test_rewrap_many_data_key_that_does_not_open(self):
        made = self.made_of(FIRST)
        with self.assertRaises(Refused) as refused:
            self.rewrapped(self.made_of(FIRST, local=NEW), FOREIGN, FIRST, master_key={"key": LOCAL})
        error = refused.exception
        self.assertEqual((error.status, error.reason, error.document, error.place), (1, Reason.KeyDamaged, 2, ()))
        self.assertEqual(self.names(), ["find"])
        for keys, words, told in (([FIRST, without("keyMaterial", SECOND)], {}, (VAULT, KeyFault.Material, (2,))),
                                  ([FIRST], {"key": NEW[1:]}, ("the new master key", MasterFault.Length, (0,)))):
            with self.assertRaises(FaultyFile) as faulty:
                self.rewrapped(made, *keys, master_key=words or None)
            error = faulty.exception
            self.assertEqual((error.file, error.reason, error.place, self.names()), (*told, ["find"]))
        self.wire.forget()
        for words in ({"provider": "aws"}, {"master_key": {}}, {"master_key": {"key": 1}}):
            with self.assertRaises((TypeError, ValueError)):
                made.rewrap_many_data_key({}, **words)
        self.assertEqual(self.wire.came, [])

    def test_a_client_with_the_hook(self):
        client = self.plain_client()
        enable(client, self.made(client=client), others=["encryption"])
        self.wire.forget()
        self.answers(FIRST)
        with ClientEncryption({"local": {"key": LOCAL}}, VAULT, client, OPTIONS, program=self.program) as made:
            self.assertEqual(made.decrypt(made.encrypt("x", RANDOM, ID)), "x")
            made.create_data_key("local")
            result, came = self.rewrapped(made, FIRST)
        self.assertEqual((result.modified_count, [next(iter(command)) for command in came]), (1, ["find", "update"]))
        self.assertEqual(bson.decode(came[1]["updates"][0]["u"].raw)["keyAltNames"], ["hr-key"])

    def test_get_key(self):
        made = self.made_of(FIRST)
        for key_id in (ID, uuid.UUID(bytes=bytes(ID))):
            self.answers(FIRST)
            found = made.get_key(key_id)
            self.assertEqual((found.raw, found["_id"]), (FIRST, ID))
            self.assertEqual(self.wire.came[-1]["filter"].raw, bson.encode({"_id": ID}))
        self.answers()
        self.assertIsNone(made.get_key(ID))
        self.assertRaises(TypeError, made.get_key, bytes(ID))

    def test_get_keys(self):
        made = self.made_of()
        self.answers(FIRST, SECOND)
        self.assertEqual([key.raw for key in made.get_keys()], [FIRST, SECOND])
        self.assertEqual(self.wire.came[-1]["filter"].raw, spelled())

    def test_get_key_by_alt_name(self):
        made = self.made_of()
        self.answers(FIRST)
        self.assertEqual(made.get_key_by_alt_name("hr-key").raw, FIRST)
        self.assertEqual(self.wire.came[-1]["filter"].raw, bson.encode({"keyAltNames": "hr-key"}))

    def test_delete_key(self):
        made = self.made_of(FIRST)
        self.assertEqual(made.delete_key(ID).deleted_count, 1)
        (delete,) = self.wire.came[-1]["deletes"]
        self.assertEqual((delete["q"].raw, delete["limit"]), (bson.encode({"_id": ID}), 1))

    def changed(self, call):
        """The filter and the update of a call that changes a key, and answers it as it was."""
        self.wire.replies.append({"ok": 1, "value": bson.raw_bson.RawBSONDocument(FIRST)})
        self.assertEqual(call(ID, "payroll").raw, FIRST)
        command = self.wire.came[-1]
        self.assertEqual((command["findAndModify"], command["query"].raw, command["writeConcern"]["w"]),
                         ("__keyVault", bson.encode({"_id": ID}), "majority"))
        return command["update"]

    def test_add_key_alt_name(self):
        update = self.changed(self.made_of(FIRST).add_key_alt_name)
        self.assertEqual(bson.decode(update.raw), {"$addToSet": {"keyAltNames": "payroll"}})

    def test_remove_key_alt_name(self):
        (stage,) = self.changed(self.made_of(FIRST).remove_key_alt_name)
        names = bson.decode(stage.raw)["$set"]["keyAltNames"]
        self.assertEqual(names, {"$cond": [{"$eq": ["$keyAltNames", ["payroll"]]}, "$$REMOVE", {
            "$filter": {"input": "$keyAltNames", "cond": {"$ne": ["$$this", "payroll"]}}}]})
