"""Calls of pymongo's client whose commands are beyond insert, update, delete and find, by the library: sealed where they
stand, and their replies opened."""
import shutil
import unittest

import bson
from bson.raw_bson import RawBSONDocument
from bson.son import SON
from pymongo import ReturnDocument

from fle_driver import Fle, Reason, Refused
from fle_driver.library import loaded

from .samples import FILES, insert, spelled, string
from .test_hook import FILTER, updates, written
from .wire import WithClients, batch

PERSON = spelled(string("city", "Oslo"), string("ssn", FILTER["ssn"]))
FOUND = written(bson.encode(SON([("find", "people"), ("filter", FILTER)])), "filter")


@unittest.skipUnless(loaded() and shutil.which("fle"), "no libfle.so.0 that the system finds, or no fle in PATH")
class Commands(WithClients):
    def setUp(self):
        super().setUp()
        fle = Fle(*FILES)
        self.addCleanup(fle.close)
        self.client = self.client_of(fle)
        self.people = self.client.hr.people
        (self.stored,) = written(insert(PERSON), "documents")

    def names(self):
        return [next(iter(command)) for command in self.wire.came]

    def refused(self, call, reason):
        with self.assertRaises(Refused) as refused:
            call()
        self.assertEqual(refused.exception.reason, reason)

    def test_find_one_and_update(self):
        self.wire.replies = [{"ok": 1, "value": RawBSONDocument(self.stored)}]
        change = {"$set": {"ssn": "987-65-4321"}}
        found = self.people.find_one_and_update(FILTER, change, return_document=ReturnDocument.AFTER)
        self.assertEqual(found, bson.decode(PERSON))
        update = updates("update", "updates", [("q", FILTER), ("u", change)])
        (item,) = written(update, "updates")
        self.assertEqual(self.wire.last("update"), RawBSONDocument(item)["u"].raw)
        self.assertEqual(self.wire.last("query"), FOUND)

    def test_find_one_and_delete(self):
        self.wire.replies = [{"ok": 1, "value": RawBSONDocument(self.stored)}]
        self.assertEqual(self.people.find_one_and_delete(FILTER)["ssn"], FILTER["ssn"])
        self.assertEqual((self.names(), self.wire.last("query")), (["findAndModify"], FOUND))

    def test_find_one_and_replace(self):
        self.people.find_one_and_replace(FILTER, RawBSONDocument(PERSON))
        self.assertEqual((self.wire.last("query"), self.wire.last("update")), (FOUND, self.stored))

    def test_distinct(self):
        self.wire.replies = [{"ok": 1, "values": [RawBSONDocument(self.stored)["ssn"]]}]
        self.assertEqual(self.people.distinct("ssn", FILTER), [FILTER["ssn"]])
        self.assertEqual((self.names(), self.wire.last("query")), (["distinct"], FOUND))

    def test_indexes_and_collections(self):
        self.wire.replies = [batch("firstBatch", 0) for _ in range(5)]  # pymongo 4.10 asks for infos before a drop
        self.people.create_index("ssn", name="ssn_1")
        self.people.create_index([("city", 1), ("ssn", -1)])
        self.people.drop_index("ssn_1")
        self.people.drop()
        names = [name for name in self.names() if name != "listCollections"]
        self.assertEqual(names, ["createIndexes", "createIndexes", "dropIndexes", "drop"])

    def test_a_count_of_a_command(self):
        self.wire.replies = [{"ok": 1, "n": 3}]
        self.assertEqual(self.client.hr.command("count", "people", query=FILTER)["n"], 3)
        self.assertEqual(self.wire.last("query"), FOUND)

    def test_what_no_rule_lets_through(self):
        self.refused(lambda: self.people.distinct("salary"), Reason.BelowProtected)
        self.refused(lambda: self.people.find_one_and_delete({"salary": 1}), Reason.RandomCompared)
        self.refused(lambda: self.people.create_index("ssn", partialFilterExpression={"ssn": "123-45-6789"}),
                     Reason.FieldNotAllowed)
        self.refused(lambda: self.people.find_one_and_delete(FILTER, projection={"ssn": "x"}), Reason.FieldNotAllowed)
        self.assertEqual(self.wire.came, [])
