"""`Fle.of`: the keys of a collection, schemas and master key in code, several databases, by processes."""
import base64
from unittest import mock

import bson
from bson.binary import STANDARD, Binary
from bson.codec_options import CodecOptions
from bson.raw_bson import DEFAULT_RAW_BSON_OPTIONS, RawBSONDocument
from bson.son import SON
from pymongo.errors import OperationFailure

from fle_driver import Closed, FaultyFile, FileFault, Fle, KeyFault, MasterFault, Refused, SchemaFault, Unsupported

from .samples import KEYS, MASTER, PERSON, SCHEMAS, insert, ran, sealed, spelled
from .vaults import COMMAND, FIRST, LOCAL, MAP, PEOPLE, SECOND, SLIP, SLIPS, VAULT, WithVault
from .wire import batch


class Vaults(WithVault):
    def test_the_vault_is_read_as_it_stands(self):
        self.wire.replies = [batch("firstBatch", 7, FIRST), batch("nextBatch", 0, SECOND)]
        with mock.patch("fle_driver.databases.Fle.over") as over:
            Fle.of(self.plain_client(), VAULT, schemas=MAP, master=LOCAL)
        self.assertEqual(over.call_args[0][1][0], (VAULT, KEYS.read_bytes()))
        find, _ = self.wire.came
        self.assertEqual((find["find"], find["filter"].raw, find["$db"]), ("__keyVault", spelled(), "encryption"))
        self.assertEqual(bson.decode(find["readConcern"].raw), {"level": "majority"})
        self.assertEqual(self.names(), ["find", "getMore"])

    def test_two_databases(self):
        client = self.client_of(self.made())
        client.hr.people.insert_one(RawBSONDocument(PERSON))
        self.assertEqual(insert(*self.wire.last("documents")), sealed(COMMAND))
        client.pay.slips.insert_one(dict(SLIP))
        (slip,) = self.wire.last("documents")
        self.assertEqual(bson.decode(slip)["iban"].subtype, 6)
        self.assertEqual(bson.decode(ran(["decrypt", KEYS, MASTER], slip)), SLIP)
        raw = client.pay.slips.with_options(codec_options=DEFAULT_RAW_BSON_OPTIONS)
        self.wire.replies = [batch("firstBatch", 0, slip)]
        self.assertEqual(raw.find_one({"iban": SLIP["iban"]}).raw, bson.encode(SLIP))
        self.assertEqual(bson.decode(self.wire.last("filter")), {"iban": bson.decode(slip)["iban"]})
        client.hr["staff.old"].insert_one({"_id": 1})
        self.assertEqual(self.wire.came[-1]["insert"], "staff.old")

    def test_what_is_not_named_is_not_sent(self):
        fle = self.made()
        client = self.client_of(fle, others=["logs"], plain=["pay.events", "hr.a.b"])
        into = {"$merge": {"into": {"db": "pay", "coll": "slips"}}}
        self.wire.forget()
        for call, error in ((lambda: client.other.c.insert_one({}), "of the database other: Fle has the rules of hr, "),
                            (lambda: client.hr.slips.insert_one({}), r"no collection slips of hr.*=\['hr.slips'\]"),
                            (lambda: client.hr.events.insert_one({}), "no collection events of hr"),
                            (lambda: client.logs.c.aggregate([into]), "would write into pay"),
                            (lambda: client.encryption["__keyVault"].insert_one({}), "of the database encryption")):
            with self.subTest(error), self.assertRaisesRegex(Unsupported, error):
                call()
        self.assertEqual(self.wire.came, [])
        for collection in (client.logs.c, client.pay.events, client.hr["a.b"]):
            collection.insert_one({"_id": 1})
        self.assertEqual([command["insert"] for command in self.wire.came], ["c", "events", "a.b"])
        for plain in ("events", "other.c", "pay."):
            with self.subTest(plain), self.assertRaises(ValueError):
                self.client_of(fle, plain=[plain])

    def test_forms_of_schemas(self):
        binary = bson.decode(bson.encode(PEOPLE, codec_options=CodecOptions(uuid_representation=STANDARD)))
        for words in ({"schemas": str(SCHEMAS), "db": "hr"}, {"schemas": SCHEMAS, "db": "hr"},
                      {"schemas": {"hr": SCHEMAS}}, {"schemas": {"hr.people": PEOPLE}},
                      {"schemas": {"hr.people": binary}}, {"schemas": SON([("hr.x", {}), ("hr.people", PEOPLE)])}):
            with self.subTest(words), self.made(**words) as fle:
                self.assertEqual(fle.encrypt(COMMAND), sealed(COMMAND))
                self.assertIsNone(fle.engine("pay"))

    def test_schemas_that_are_none(self):
        for words, error in (({"schemas": None}, TypeError), ({"schemas": {}}, TypeError),
                             ({"schemas": SCHEMAS}, TypeError), ({"schemas": MAP, "db": "hr"}, TypeError),
                             ({"schemas": {"people": PEOPLE}}, TypeError), ({"schemas": {"hr.people": 1}}, TypeError),
                             ({"schemas": {"hr.": PEOPLE}}, TypeError), ({"schemas": {".people": PEOPLE}}, TypeError),
                             ({"schemas": {"hr.people": str(SCHEMAS)}}, TypeError),
                             ({"schemas": {"hr": SCHEMAS, "hr.people": PEOPLE}}, ValueError),
                             ({"schemas": {"hr": "/nowhere"}}, FaultyFile)):
            with self.subTest(words), self.assertRaises(error):
                self.made(**words)
        self.assertEqual(self.wire.came, [])
        with self.assertRaisesRegex(ValueError, "^the schema of hr.people is no BSON: InvalidDocument$"):
            self.made(schemas={"hr.people": {"enum": [{"secret"}]}})

    def test_a_schema_at_fault(self):
        made, over = [], Fle.over

        def kept(*words, **more):
            made.append(over(*words, **more))
            return made[-1]

        with mock.patch("fle_driver.databases.Fle.over", kept), self.assertRaises(FaultyFile) as faulty:
            self.made(schemas={"pay.slips": SLIPS, "hr.x": {}, "hr.people": {"$jsonSchema": PEOPLE}})
        self.assertEqual((faulty.exception.file, faulty.exception.reason, faulty.exception.place),
                         ("the schemas of hr", SchemaFault.Keyword, (2,)))
        (other,) = made
        self.assertRaises(Closed, other.decrypt, COMMAND)

    def test_forms_of_the_master_key(self):
        text = base64.b64encode(LOCAL)
        local = [{"kms_providers": {"local": {"key": key}}} for key in (LOCAL, Binary(LOCAL), text, text.decode())]
        for words in ({"master": bytearray(LOCAL)}, {"master": memoryview(LOCAL)}, {"master": text}, *local):
            with self.subTest(words), self.made(**words) as fle:
                self.assertEqual(fle.encrypt(COMMAND, "hr"), sealed(COMMAND))

    def test_a_master_key_that_is_none(self):
        secret = base64.b64encode(LOCAL).decode()
        local = [{"kms_providers": {"local": local}} for local in ({}, {"key": 96}, secret)]
        aws = {"local": {"key": LOCAL}, "aws": {"secretAccessKey": secret}}
        for words in ({"master": 96}, {"master": secret}, {"master": None}, {"kms_providers": {}}, *local,
                      {"kms_providers": aws}, {"kms_providers": {"aws": aws["aws"]}},
                      {"master": LOCAL, "kms_providers": {"local": {"key": LOCAL}}}):
            with self.subTest(words), self.assertRaises((TypeError, ValueError)) as raised:
                self.made(**words)
            self.assertNotIn(secret[:9], str(raised.exception))
        self.assertEqual(self.wire.came, [])
        for master, fault in ((LOCAL[1:], MasterFault.Length), (b"=" * 128, MasterFault.Base64),
                              (bytes(130), FileFault.TooLong)):
            with self.subTest(fault), self.assertRaises(FaultyFile) as faulty:
                self.made(master=master)
            self.assertEqual((faulty.exception.file, faulty.exception.reason), ("the master key", fault))

    def test_a_vault_that_is_none(self):
        for vault in ("", "vault", "vault.", ".keys"):
            with self.subTest(vault), self.assertRaisesRegex(ValueError, "^the key vault isn't named as"):
                self.made(vault=vault)
        self.assertEqual(self.wire.came, [])
        for keys, fault, place in (((FIRST, FIRST), KeyFault.IdTwice, (2,)), ((SECOND, PERSON), KeyFault.Id, (2,))):
            with self.subTest(fault), self.assertRaises(FaultyFile) as faulty:
                self.made(keys=keys)
            self.assertEqual((faulty.exception.file, faulty.exception.reason, faulty.exception.place),
                             (VAULT, fault, place))
        self.wire.replies = [{"ok": 0, "code": 13, "errmsg": "not authorized"}]
        with self.assertRaises(OperationFailure):
            Fle.of(self.plain_client(), VAULT, schemas=MAP, master=LOCAL, program=self.program)

    def test_a_vault_that_is_too_long(self):
        with mock.patch("fle_driver.vault.LONGEST", len(FIRST)), mock.patch("fle_driver.databases.Fle.over") as over:
            self.wire.replies = [batch("firstBatch", 7, FIRST, SECOND), batch("nextBatch", 7, FIRST)]
            Fle.of(self.plain_client(), VAULT, schemas=MAP, master=LOCAL)
        self.assertEqual((over.call_args[0][1][0][1], self.names()), (FIRST + SECOND, ["find", "killCursors"]))


class Bypasses(WithVault):
    def test_replies_are_opened_and_nothing_is_sealed(self):
        fle = self.made(schemas=None, bypass=True)
        client = self.client_of(fle)
        for collection in (client.hr.people, client.other.c):
            collection.insert_one(RawBSONDocument(PERSON))
            self.assertEqual(self.wire.last("documents"), [PERSON])
        stored = bson.decode(sealed(COMMAND), DEFAULT_RAW_BSON_OPTIONS)["documents"][0].raw
        self.wire.replies = [batch("firstBatch", 0, stored)]
        raw = client.other.c.with_options(codec_options=DEFAULT_RAW_BSON_OPTIONS)
        self.assertEqual(raw.find_one().raw, PERSON)
        self.wire.replies = [{"ok": 1, "result": "passes"}]
        self.assertEqual(client.hr.command("aggregate", "people", pipeline=[])["result"], "passes")
        with self.assertRaises(Unsupported):
            fle.encrypt(COMMAND)

    def test_one_process(self):
        fle = self.made(schemas=MAP, bypass=True)
        (one,) = fle._now().values()
        if self.program:
            self.assertEqual((one._sealing._process, one._opening._process is None), (None, False))
        self.reloaded(fle, SECOND)
        with self.assertRaises(Refused):
            fle.decrypt(sealed(COMMAND))
