"""Commands of another database that write into the one whose rules a client keeps aren't sent."""
import unittest

import bson
import pymongo
from bson.raw_bson import RawBSONDocument
from bson.son import SON

from fle_driver import Fle, Refused, Unsupported
from fle_driver.reach import reaches
from fle_driver.walk import elements

from .samples import FILES, element, integer, spelled, string
from .wire import WithClients


def aggregate(*stages):
    return SON([("aggregate", "c"), ("pipeline", list(stages)), ("cursor", {})])


def reduced(out):
    return SON([("mapReduce", "c"), ("map", "m"), ("reduce", "r"), ("out", out)])


def bulk(*collections):
    return SON([("bulkWrite", 1), ("ops", [{"insert": 0, "document": {"ssn": "x"}}]), ("nsInfo", list(collections))])


def elements_of(command):
    return list(elements(bson.encode(command)))


INTO = {"db": "hr", "coll": "people"}
AWAY = {"db": "other", "coll": "people"}
TWICE = RawBSONDocument(spelled(element(3, "$merge", bson.encode(AWAY)), element(3, "$merge", bson.encode(INTO))))
REACHING = {
    "out": aggregate({"$out": INTO}),
    "merge": aggregate({"$match": {}}, {"$merge": INTO}),
    "merge into": aggregate({"$merge": {"into": INTO, "whenMatched": "replace"}}),
    "two stages of one name": aggregate(TWICE),
    "a stage of two names": aggregate(SON([("$match", {}), ("$out", INTO)])),
    "explain": SON([("explain", aggregate({"$out": INTO})), ("verbosity", "queryPlanner")]),
    "explain of explain": {"explain": {"explain": aggregate({"$merge": {"into": INTO}})}},
    "bulkWrite": bulk({"ns": "other.c"}, {"ns": "hr.people"}),
    "applyOps": {"applyOps": [{"op": "i", "ns": "hr.people", "o": {"ssn": "x"}}]},
    "doTxn": {"doTxn": [{"op": "i", "ns": "hr.people", "o": {"ssn": "x"}}]},
    "mapReduce": reduced(SON([("merge", "people"), ("db", "hr")])),
    "mapreduce": SON([("mapreduce", "c"), ("out", {"replace": "people", "db": "hr"})]),
}
UNREADABLE = {
    "no pipeline": SON([("aggregate", "c"), ("pipeline", {"0": {"$out": INTO}})]),
    "no stage": aggregate("$out"),
    "no target": aggregate({"$out": 1}),
    "no name of a database": aggregate({"$out": {"db": 1, "coll": "people"}}),
    "no collection": aggregate({"$merge": {"into": [INTO]}}),
    "no command": {"explain": "aggregate"},
    "no collections": SON([("bulkWrite", 1), ("nsInfo", "hr.people")]),
    "no document of a collection": bulk("hr.people"),
    "no name of a collection": bulk({"ns": 1}),
    "no name of a result": reduced(1),
}
OTHERS = {
    "out": aggregate({"$out": "people"}),
    "out of another": aggregate({"$out": AWAY}),
    "merge": aggregate({"$merge": "people"}),
    "merge into": aggregate({"$merge": {"into": "people", "let": {"db": "hr"}}}),
    "merge into another": aggregate({"$merge": {"into": AWAY}}),
    "no stage that writes": aggregate({"$match": {"$out": INTO, "db": "hr"}}),
    "no pipeline": {"aggregate": "c"},
    "explain": SON([("explain", {"find": "c", "filter": {"$out": INTO}}), ("verbosity", "queryPlanner")]),
    "explain of nothing": {"explain": {}},
    "bulkWrite": bulk({"ns": "other.c"}, {"ns": "hr2.people"}, {"ns": "hr"}),
    "mapReduce": reduced({"inline": 1}),
    "mapReduce into its own": reduced("people"),
    "others": SON([("insert", "c"), ("documents", [INTO]), ("pipeline", [{"$out": INTO}])]),
}


class Commands(unittest.TestCase):
    def test_what_writes_into_the_database(self):
        for name, command in {**REACHING, **UNREADABLE}.items():
            with self.subTest(name):
                self.assertTrue(reaches("hr", bson.encode(command)))

    def test_what_does_not(self):
        for name, command in OTHERS.items():
            with self.subTest(name):
                self.assertFalse(reaches("hr", bson.encode(command)))

    def test_nothing(self):
        self.assertFalse(reaches("hr", spelled()))


class OnTheWire(WithClients):
    def setUp(self):
        super().setUp()
        self.client = self.client_of(Fle(*FILES), others=["other", "admin"])

    def test_from_every_database(self):
        for name, command in {**REACHING, **UNREADABLE}.items():
            for database, error in (("admin", Unsupported), ("other", Unsupported), ("hr", Refused)):
                with self.subTest(name, database=database), self.assertRaises(error):
                    self.client[database].command(SON(command))
        self.assertEqual(self.wire.came, [])

    def test_by_the_call_of_a_collection(self):
        for target in (INTO, {"into": INTO}):
            with self.assertRaisesRegex(Unsupported, "aggregate of another database would write into hr"):
                self.client.other.c.aggregate([{"$documents": [{"ssn": "x"}]}, {"$merge": target}])
        self.assertEqual(self.wire.came, [])

    def test_other_commands_of_other_databases(self):
        for name, command in OTHERS.items():
            if name == "bulkWrite" and pymongo.version_tuple >= (4, 9):
                continue  # pymongo takes it for its own, whose documents it looks for, and sends nothing
            with self.subTest(name):
                self.client.other.command(SON(command))
                came = [part for part in elements_of(self.wire.came[-1]) if part.name in command]
                self.assertEqual(sorted(came), sorted(elements_of(command)))
        self.client.other.command("insert", "c", documents=[RawBSONDocument(spelled(integer("a", 1), string("b", "")))])
        self.assertEqual(self.wire.last("documents"), [spelled(integer("a", 1), string("b", ""))])
