"""What is sent is what was judged, byte for byte, whatever becomes of the values in the meantime."""
import datetime
import shutil
import unittest
import uuid
from collections.abc import Mapping
from unittest import mock

import bson
import pymongo
from bson.binary import STANDARD, Binary
from bson.code import Code
from bson.codec_options import CodecOptions, TypeEncoder, TypeRegistry
from bson.dbref import DBRef
from bson.decimal128 import Decimal128
from bson.int64 import Int64
from bson.max_key import MaxKey
from bson.min_key import MinKey
from bson.objectid import ObjectId
from bson.raw_bson import RawBSONDocument
from bson.regex import Regex
from bson.son import SON
from bson.timestamp import Timestamp
from pymongo.monitoring import CommandListener

from fle_driver import Fle
from fle_driver.hook import Hook
from fle_driver.walk import elements

from .samples import FILES, PERSON, sealed
from .wire import WithClients, batch

VALUES = [1.5, float("nan"), "text", {"a": {"b": Int64(1)}}, RawBSONDocument(PERSON), [], [1, Int64(1), [None]],
          [RawBSONDocument(PERSON), "x"], Binary(b"\0\1", 0), Binary(bytes(16), 3), uuid.UUID(int=7), ObjectId(), True,
          datetime.datetime(9999, 12, 31, 23, 59, 59), None, Regex("^a", "ix"), Code("f()"), 1, Timestamp(1, 2),
          Int64(1), Int64(2 ** 40), Decimal128("1.50"), MinKey(), MaxKey(), DBRef("c", 1)]
SECRET = "123-45-6789"
CODEC = CodecOptions(uuid_representation=STANDARD)


class Filling(Mapping):
    """A document that has a field more when it is read for the second time."""

    def __init__(self, first, more):
        self.turns, self.first, self.more = 0, first, more

    def now(self):
        return {**self.first, **(self.more if self.turns > 1 else {})}

    def __iter__(self):
        self.turns += 1
        return iter(self.now())

    def __getitem__(self, name):
        return self.now()[name]

    def __len__(self):
        return len(self.now())


class Answer:
    """What only a codec's own code encodes."""


class Counting(TypeEncoder):
    """Answers another value each time."""

    python_type = Answer

    def __init__(self):
        self.turns = 0

    def transform_python(self, value):
        self.turns += 1
        return f"turn {self.turns}"


@unittest.skipUnless(shutil.which("fle"), "no fle in PATH")
class Commands(unittest.TestCase):
    def setUp(self):
        self.hook = Hook(Fle(*FILES), others=["other"])
        self.addCleanup(self.hook.close)

    def sent(self, command, database="hr", codec=CodecOptions()):
        return self.hook.encrypt(database, command, False, codec)

    def test_values_of_each_type(self):
        command = SON([("insert", "people"), ("documents", [RawBSONDocument(PERSON)]),
                       *((f"field {at}", value) for at, value in enumerate(VALUES)), ("code", Code("f()", {"x": 1})),
                       ("lsid", {"id": uuid.uuid4()})])
        self.assertEqual(self.sent(command, codec=CODEC).raw, sealed(bson.encode(command, codec_options=CODEC)))

    def test_what_pymongo_sets_and_takes(self):
        command = SON([("insert", "people"), ("ordered", True), ("documents", [{"ssn": SECRET}, {"a": 1}]), ("txn", 1)])
        sent = self.sent(SON([*command.items(), ("$clusterTime", {"$any": 1})]))
        judged = list(elements(sealed(bson.encode(command))))
        sent["$db"] = "hr"
        sent["$db"], sent["$readPreference"] = "hr", {"mode": "primary"}
        (documents,) = [element.value for element in judged if element.name == "documents"]
        self.assertEqual([document.raw for document in sent.pop("documents")],
                         [element.value for element in elements(documents)])
        kept = [element for element in judged if element.name != "documents"]
        added = SON([("$clusterTime", {"$any": 1}), ("$db", "hr"), ("$readPreference", {"mode": "primary"})])
        self.assertEqual(list(elements(bson.encode(sent))), [*kept, *elements(bson.encode(added))])
        self.assertEqual(list(sent)[0], "insert")
        self.assertNotIn("documents", sent)

    def test_a_document_that_changes(self):
        for place in ("documents", "comment"):
            command = SON([("insert", "people"), ("documents", [{"a": 1}]), ("comment", 1)])
            plain = SON([*command.items(), (place, [{"name": "x"}])])
            command[place] = [Filling({"name": "x"}, {"ssn": SECRET})]
            self.assertEqual(bson.encode(self.sent(command)), bson.encode(plain))

    def test_a_codec_that_answers_anew(self):
        counting = Counting()
        codec = CodecOptions(type_registry=TypeRegistry([counting]))
        command = SON([("insert", "people"), ("documents", [{"name": Answer(), "list": [Answer()]}]),
                       ("comment", Answer())])
        sent = bson.decode(bson.encode(self.sent(command, codec=codec), codec_options=codec))
        self.assertEqual(sent, {"insert": "people", "documents": [{"name": "turn 1", "list": ["turn 2"]}],
                                "comment": "turn 3"})
        self.assertEqual(counting.turns, 3)

    def test_a_stage_that_changes(self):
        stage = Filling({"$match": {}}, {"$out": {"db": "hr", "coll": "people"}})
        sent = self.sent(SON([("aggregate", "c"), ("pipeline", [stage])]), "other")
        self.assertEqual(bson.encode(sent), bson.encode(SON([("aggregate", "c"), ("pipeline", [{"$match": {}}])])))


class Keeping(CommandListener):
    """The commands that were told."""

    def __init__(self):
        self.told = []

    def started(self, event):
        self.told.append(event.command)

    def succeeded(self, event):
        pass

    failed = succeeded


class OnTheWire(WithClients):
    def setUp(self):
        super().setUp()
        self.fle, self.listener = Fle(*FILES), Keeping()
        self.client = self.client_of(self.fle, [self.listener])
        self.people = self.client.hr.people

    def calls(self, person):
        """Each call that sends this document, in some way."""
        people = self.people
        change = {"$set": person}
        return (lambda: people.insert_one(person), lambda: people.insert_many([person, {"b": 1}]),
                lambda: people.replace_one({}, person), lambda: people.update_many({}, change),
                lambda: people.find_one(person), lambda: people.delete_one(person),
                lambda: people.bulk_write([pymongo.UpdateOne({}, change)]),
                lambda: self.client.hr.command(SON([("ping", 1), ("comment", [person])])))

    def test_a_form_that_is_filled_in_once_it_was_judged(self):
        for number in range(8):
            person = {"_id": 1, "name": "Ann"}
            judge = self.fle.encrypt

            def judged_and_then_filled_in(command):
                sealed_command = judge(command)
                person["ssn"] = SECRET
                return sealed_command

            with self.subTest(number), mock.patch.object(self.fle, "encrypt", judged_and_then_filled_in):
                self.wire.forget()
                self.wire.replies = [{**batch("firstBatch", 0), "n": 1, "nModified": 1}]
                self.calls(person)[number]()
                (came,) = map(bson.encode, self.wire.came)
                self.assertIn(b"Ann", came)
                self.assertNotIn(b"ssn", came)

    def test_a_command_with_values_of_each_type(self):
        values = [value for value in VALUES if not isinstance(value, uuid.UUID)]  # pymongo 4 wants a form named
        command = SON([("ping", 1), *((f"field {at}", value) for at, value in enumerate(values))])
        self.client.hr.command(command)
        came = list(elements(bson.encode(self.wire.came[-1])))
        self.assertEqual(came[:len(command)], list(elements(bson.encode(command))))

    def test_a_command_that_is_told(self):
        self.people.insert_one({"_id": 1, "ssn": SECRET})
        (told,) = self.listener.told
        self.assertEqual((next(iter(told)), told["insert"], told["$db"]), ("insert", "people", "hr"))
        self.assertEqual([document.raw for document in told["documents"]], self.wire.last("documents"))
        self.assertNotIn(SECRET, repr(told))
