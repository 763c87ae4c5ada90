"""Commands of databases and collections that nothing lists or names aren't sent."""
import json
import shutil
import tempfile
import unittest

import bson
import pymongo
from bson.codec_options import CodecOptions
from bson.raw_bson import RawBSONDocument
from bson.son import SON

from fle_driver import Closed, Fle, Reason, Refused, Unsupported
from fle_driver.hook import Hook
from fle_driver.listed import collections_of
from fle_driver.scope import PASSING

from .samples import EXAMPLES, FILES, KEYS, MASTER, PERSON, spelled, string
from .wire import WithClients, batch

SECRET = {"ssn": "123-45-6789"}


class Listed(unittest.TestCase):
    def test_of_json_and_of_bson(self):
        for form in ("json", "bson"):
            self.assertEqual(collections_of((EXAMPLES / f"people.schemas.{form}").read_bytes()), {b"people"})
            self.assertEqual(collections_of((EXAMPLES / f"staff.schemas.{form}").read_bytes()), {b"staff", b"v"})

    def test_none(self):
        for schemas in (b"", b"[]"):
            self.assertEqual(collections_of(schemas), set())

    def test_names_as_the_server_has_them(self):
        infos = [{"name": "se\u00f1al.\u20ac"}, {"type": "view", "name": "v"}, {"options": {"name": "x"}, "name": "y"}]
        names = {"se\u00f1al.\u20ac".encode(), b"v", b"y"}
        self.assertEqual(collections_of(json.dumps(infos).encode()), names)
        self.assertEqual(collections_of(json.dumps(infos, ensure_ascii=False).encode()), names)
        self.assertEqual(collections_of(b"".join(spelled(string("type", "x"), string("name", name))
                                                 for name in ("a", "bc"))), {b"a", b"bc"})

    @unittest.skipUnless(shutil.which("fle"), "no fle in PATH")
    def test_of_a_fle(self):
        with Fle(*FILES) as fle:
            self.assertEqual(fle.collections(), {b"people"})
        with self.assertRaises(Closed):
            fle.collections()


class OnTheWire(WithClients):
    def setUp(self):
        super().setUp()
        self.fle = Fle(*FILES)
        self.addCleanup(self.fle.close)

    def client(self, fle=None, **names):
        return self.client_of(fle or self.fle, **names)

    def calls(self, collection):
        """Each call of a collection that sends this value."""
        return (lambda: collection.insert_one(dict(SECRET)), lambda: collection.insert_many([dict(SECRET)]),
                lambda: collection.replace_one({}, SECRET), lambda: collection.update_many({}, {"$set": SECRET}),
                lambda: collection.find_one(SECRET), lambda: collection.delete_one(SECRET),
                lambda: collection.bulk_write([pymongo.UpdateOne(SECRET, {"$set": {"a": 1}})]))

    def refused(self, collection, pattern):
        for number, call in enumerate(self.calls(collection)):
            with self.subTest(number), self.assertRaisesRegex(Unsupported, pattern):
                call()
        self.assertEqual(self.wire.came, [])

    def sent(self, collection):
        for call in self.calls(collection):
            self.wire.replies = [{**batch("firstBatch", 0), "n": 1, "nModified": 1}]
            call()
        self.assertEqual(len(self.wire.came), len(self.calls(collection)))
        self.assertTrue(all(SECRET["ssn"].encode() in bson.encode(command) for command in self.wire.came))

    def test_a_collection_that_is_not_listed(self):
        self.refused(self.client().hr.People, r"no collection People of hr.*plain=\['People'\]")

    def test_a_collection_that_is_named(self):
        self.sent(self.client(plain=["events", "People"]).hr.People)

    def test_the_collection_of_a_file_that_was_emptied(self):
        with tempfile.NamedTemporaryFile() as empty, Fle("hr", KEYS, empty.name, MASTER) as fle:
            self.refused(self.client(fle).hr.people, "no collection people of hr")

    def test_a_database_that_is_not_named(self):
        self.refused(self.client(others=["logs"]).other.people, r"of the database other: .*others=\['other'\]")
        with Fle("Hr", *FILES[1:]) as fle:
            self.refused(self.client(fle).hr.people, "of the database hr: Fle has the rules of Hr")

    def test_a_database_that_is_named(self):
        self.sent(self.client(others=("logs", "other")).other.people)

    def test_a_view_is_listed(self):
        files = "hr", KEYS, EXAMPLES / "staff.schemas.bson", MASTER
        with Fle(*files) as fle, self.assertRaises(Refused) as refused:
            self.client(fle).hr.v.insert_one(RawBSONDocument(PERSON))
        self.assertEqual(refused.exception.reason, Reason.View)

    def test_commands_of_no_document(self):
        hook = Hook(self.fle)
        for name in PASSING:
            command = SON([(name, 1)])
            self.assertIs(hook.encrypt("admin", command, False, CodecOptions()), command)
        for command in ({"ping": 1}, {"listCollections": 1}, {"getMore": 7, "collection": "People"},
                        {"killCursors": "People", "cursors": []}):
            self.client().hr.command(SON(command))
            self.assertEqual(next(iter(self.wire.came[-1])), next(iter(command)))

    def test_sessions_and_what_tells_of_a_server(self):
        client = self.client()
        with client.start_session() as session, session.start_transaction():
            client.hr.people.insert_one({"_id": 1}, session=session)
        self.wire.replies = [{"ok": 1, "databases": []}, {"ok": 1, "version": "4.2"}]
        self.assertEqual(client.list_database_names(), [])
        self.assertEqual(client.server_info(), {"ok": 1, "version": "4.2"})
        self.assertEqual([next(iter(command)) for command in self.wire.came],
                         ["insert", "commitTransaction", "listDatabases", "buildinfo"])

    def test_other_commands_of_admin(self):
        admin = self.client().admin
        for command in ({"aggregate": 1}, {"insert": "people"}, {"eval": "f()"}, {"createUser": "a"}, {"Ping": 1}):
            with self.assertRaisesRegex(Unsupported, "of the database admin"):
                admin.command(command)
        self.assertEqual(self.wire.came, [])

    def test_one_name_is_no_list(self):
        for names in ({"others": "logs"}, {"plain": "events"}):
            with self.assertRaises(TypeError):
                self.client(**names)
