"""A client with the hook against a mock server: what is on the wire is what `fle encrypt` writes."""
import shutil
import unittest
import uuid
from concurrent.futures import ThreadPoolExecutor
from unittest import mock

import bson
import pymongo
from bson.binary import STANDARD, Binary
from bson.codec_options import CodecOptions
from bson.errors import InvalidDocument
from bson.raw_bson import DEFAULT_RAW_BSON_OPTIONS, RawBSONDocument
from bson.son import SON
from pymongo.client_options import ClientOptions
from pymongo.errors import BulkWriteError, DuplicateKeyError, InvalidOperation, PyMongoError
from pymongo.write_concern import WriteConcern

from fle_driver import Closed, Fle, Reason, Refused, Unsupported, enable
from fle_driver.hook import Hook
from fle_driver.walk import ARRAY, elements

from .samples import FILES, PERSON, insert, sealed, spelled, string
from .wire import WithClients, batch

CODEC = CodecOptions(uuid_representation=STANDARD)
FILTER = {"ssn": "123-45-6789"}
E11000 = {"ok": 1, "n": 0, "writeErrors": [{"index": 0, "code": 11000, "errmsg": "E11000 duplicate key"}]}


def written(command, field):
    """What `fle encrypt` makes of a field of a command: a document, or the documents of an array."""
    (found,) = (part for part in elements(sealed(command)) if part.name == field)
    return [part.value for part in elements(found.value)] if found.tag == ARRAY else found.value


def updates(verb, field, *items):
    return bson.encode(SON([(verb, "people"), (field, [SON(item) for item in items])]))


class OnTheWire(WithClients):
    def setUp(self):
        super().setUp()
        self.client = self.client_of(Fle(*FILES), others=["other"])
        self.people = self.client.hr.people
        self.raw = self.people.with_options(codec_options=DEFAULT_RAW_BSON_OPTIONS)

    def test_an_insert_keeps_every_byte(self):
        self.people.insert_one(RawBSONDocument(PERSON))
        self.assertEqual(self.wire.last("documents"), written(insert(PERSON), "documents"))

    def test_an_insert_that_is_not_acknowledged(self):
        self.people.with_options(write_concern=WriteConcern(0)).insert_one(RawBSONDocument(PERSON))
        self.client.hr.command("ping")  # by the same connection
        insertion, _ = self.wire.came
        self.assertEqual([person.raw for person in insertion["documents"]], written(insert(PERSON), "documents"))

    def test_an_insert_of_a_dictionary_in_a_session(self):
        person = {"_id": 1, "ssn": "123-45-6789", "token": Binary(bytes(16), 4)}
        with self.client.start_session() as session:
            self.people.insert_one(person, session=session)
            self.assertEqual(self.wire.last("lsid"), bson.encode(session.session_id))
        self.assertEqual(self.wire.last("documents"), written(insert(bson.encode(person)), "documents"))
        self.assertEqual(person["ssn"], "123-45-6789")

    def test_a_find_over_three_batches(self):
        (stored,) = written(insert(PERSON), "documents")
        self.wire.replies = [batch("firstBatch", 7, stored), batch("nextBatch", 7, stored, stored),
                             batch("nextBatch", 0, stored)]
        self.assertEqual([person.raw for person in self.raw.find(FILTER)], [PERSON] * 4)
        self.assertEqual([next(iter(command)) for command in self.wire.came], ["find", "getMore", "getMore"])
        command = bson.encode(SON([("find", "people"), ("filter", FILTER)]))
        self.assertEqual(self.wire.came[0]["filter"].raw, written(command, "filter"))

    def test_an_update_and_a_delete(self):
        change = {"$set": {"ssn": "987-65-4321", "n": 1}}
        self.people.update_one(FILTER, change)
        item = [("q", FILTER), ("u", change), ("multi", False), ("upsert", False)]
        self.assertEqual(self.wire.last("updates"), written(updates("update", "updates", item), "updates"))
        self.people.delete_many(FILTER)
        item = [("q", FILTER), ("limit", 0)]
        self.assertEqual(self.wire.last("deletes"), written(updates("delete", "deletes", item), "deletes"))

    def test_a_bulk_write(self):
        change = {"$set": {"ssn": "x"}}
        self.people.bulk_write([pymongo.InsertOne(RawBSONDocument(PERSON)), pymongo.InsertOne(RawBSONDocument(PERSON)),
                                pymongo.UpdateOne(FILTER, change), pymongo.DeleteOne(FILTER)])
        inserts, update, delete = self.wire.came
        self.assertEqual([person.raw for person in inserts["documents"]],
                         written(insert(PERSON, PERSON), "documents"))
        item = [("q", FILTER), ("u", change), ("multi", False), ("upsert", False)]
        self.assertEqual(update["updates"][0].raw, *written(updates("update", "updates", item), "updates"))
        item = [("q", FILTER), ("limit", 1)]
        self.assertEqual(delete["deletes"][0].raw, *written(updates("delete", "deletes", item), "deletes"))

    def test_a_refusal_within_a_bulk_write_is_numbered_within_its_command(self):
        people = [{"_id": number, "filling": "x" * 900_000} for number in range(5)]
        people[4]["ssn"] = None
        self.wire.replies = [{"ok": 1, "n": 2}] * 2
        with self.assertRaises(Refused) as refused:
            self.people.insert_many(people)
        self.assertEqual(refused.exception.fields, "documents.0.ssn")
        self.assertEqual([len(command["documents"]) for command in self.wire.came], [2, 2])

    def test_a_duplicate_key(self):
        self.wire.replies = [E11000, E11000]
        with self.assertRaises(DuplicateKeyError):
            self.people.insert_one({"ssn": "x"})
        with self.assertRaises(BulkWriteError):
            self.people.insert_many([{"ssn": "x"}])

    def test_a_refused_command_in_between(self):
        self.people.insert_one({"_id": 1, "ssn": "x"})
        with self.assertRaises(Refused) as refused:
            self.people.insert_one({"_id": 2, "ssn": None})
        self.assertEqual((refused.exception.reason, refused.exception.fields),
                         (Reason.TypeNotAllowed, "documents.0.ssn"))
        self.assertIsInstance(refused.exception, PyMongoError)
        self.people.insert_one({"_id": 3, "ssn": "x"})
        self.assertEqual([bson.decode(command["documents"][0].raw)["_id"] for command in self.wire.came], [1, 3])

    def test_a_command_that_fle_does_not_know(self):
        for call in (lambda: list(self.people.aggregate([])), lambda: self.people.count_documents({})):
            with self.assertRaises(Refused) as refused:
                call()
            self.assertEqual((refused.exception.reason, refused.exception.fields), (Reason.NotACommand, "aggregate"))
        self.assertEqual(self.wire.came, [])

    def test_a_reply_that_does_not_open(self):
        (stored,) = written(insert(PERSON), "documents")
        self.wire.replies = [batch("firstBatch", 0, stored.replace(b"\x06\x01\x00\x11", b"\x06\x01\x00\x12"))]
        with self.assertRaises(Refused) as refused:
            list(self.raw.find())
        self.assertEqual((refused.exception.reason, refused.exception.fields),
                         (Reason.KeyMissing, "cursor.firstBatch.0.ssn"))

    def test_threads(self):
        people = [spelled(string("_id", str(number)), string("ssn", str(number))) for number in range(40)]
        with ThreadPoolExecutor(8) as threads:
            list(threads.map(self.people.insert_one, map(RawBSONDocument, people)))
        came = sorted(command["documents"][0].raw for command in self.wire.came)
        self.assertEqual(came, sorted(written(insert(*people), "documents")))

    def test_another_database(self):
        self.client.other.people.insert_one(RawBSONDocument(PERSON))
        self.assertEqual(self.wire.last("documents"), [PERSON])
        if pymongo.version_tuple < (4,):  # later versions check no names
            with self.assertRaises(InvalidDocument):
                self.client.other.people.insert_one({"$a": 1})

    def test_a_client_that_was_closed(self):
        self.client.close()
        with self.assertRaises((Closed, InvalidOperation)):  # pymongo 4 says so itself
            self.people.insert_one({"ssn": "x"})
        self.assertEqual(self.wire.came, [])


@unittest.skipUnless(shutil.which("fle"), "no fle in PATH")
class Commands(unittest.TestCase):
    def setUp(self):
        self.hook = Hook(Fle(*FILES))
        self.addCleanup(self.hook.close)
        self.comment = uuid.uuid4()
        self.command = SON([("insert", "people"), ("documents", [{"_id": 1, "ssn": "x"}]), ("comment", self.comment),
                            ("$clusterTime", {"$any": 1})])

    def test_the_same_command_again(self):
        before = SON(self.command)
        first, again = (self.hook.encrypt("hr", self.command, True, CODEC) for _ in range(2))
        self.assertEqual(self.command, before)
        self.assertEqual(first["documents"][0].raw, again["documents"][0].raw)

    def test_fields_that_have_no_protected_value_stay_what_they_are(self):
        sent = self.hook.encrypt("hr", self.command, True, CODEC)
        self.assertEqual(list(sent), list(self.command))
        self.assertEqual(bson.decode(sent.raw, CODEC)["comment"], self.comment)
        self.assertEqual(sent["$clusterTime"], {"$any": 1})

    def test_a_call_without_a_check_of_names(self):
        three, four = (self.hook.encrypt("hr", self.command, *options)
                       for options in ((False, CODEC), (CODEC,)))
        self.assertEqual(three["documents"][0].raw, four["documents"][0].raw)


@unittest.skipUnless(shutil.which("fle"), "no fle in PATH")
class Clients(unittest.TestCase):
    def setUp(self):
        self.fle = Fle(*FILES)
        self.addCleanup(self.fle.close)
        self.client = pymongo.MongoClient(connect=False)
        self.addCleanup(self.client.close)

    def test_a_client_that_has_an_encrypter(self):
        enable(self.client, self.fle)
        with self.assertRaises(Unsupported):
            enable(self.client, self.fle)

    def test_a_client_whose_bulk_write_passes_no_encrypter(self):
        with mock.patch.object(pymongo.MongoClient, "bulk_write", create=True) as past:
            self.client._options = ClientOptions(None, None, None, {})
            enable(self.client, self.fle)
            self.assertTrue(self.client._options.auto_encryption_opts)  # by which pymongo refuses it too
            with self.assertRaises(Unsupported):
                self.client.bulk_write([])
        past.assert_not_called()

    def test_a_client_whose_options_are_elsewhere(self):
        with mock.patch.object(pymongo.MongoClient, "bulk_write", create=True):
            self.client._options = None
            with self.assertRaisesRegex(Unsupported, "can't be refused"):
                enable(self.client, self.fle)
        self.assertIsNone(self.client._encrypter)

    def test_versions(self):
        for version, is_tried in (("3.11", True), ("3.11.4", True), ("3.110", False), ("3.10.1", False),
                                  ("3.12.0", False), ("4.9.2", False), ("4.10.1", True), ("4.11", False)):
            for untried in (False, True):
                client = pymongo.MongoClient(connect=False)
                self.addCleanup(client.close)
                with self.subTest(version, untried=untried), mock.patch("pymongo.version", version):
                    if is_tried or untried:
                        enable(client, self.fle, untried=untried)
                        self.assertIsInstance(client._encrypter, Hook)
                    else:
                        with self.assertRaisesRegex(Unsupported, f"pymongo {version} wasn't tried, pymongo 3.11 and 4"):
                            enable(client, self.fle)
                        self.assertIsNone(client._encrypter)

    def test_what_has_no_place_for_an_encrypter(self):
        encrypter = vars(self.client).pop("_encrypter")
        self.addCleanup(setattr, self.client, "_encrypter", encrypter)
        for client in (self.client, object()):
            with self.assertRaisesRegex(Unsupported, "3.11"):
                enable(client, self.fle)
