"""Motor's client of asyncio, where Motor is installed, by its delegate. Tried by hand, as what test_async_client.py
has."""
import shutil
import unittest

import bson
import pymongo
from bson.raw_bson import DEFAULT_RAW_BSON_OPTIONS, RawBSONDocument
from bson.son import SON
from pymongo.errors import InvalidOperation

from fle_driver import Closed, Fle, Refused, enable

from .samples import FILES, PERSON, insert
from .server import Server
from .test_coroutines import SSN
from .test_hook import FILTER, written
from .wire import batch

try:
    from motor.motor_asyncio import AsyncIOMotorClient
except ImportError:
    AsyncIOMotorClient = None


@unittest.skipUnless(shutil.which("fle"), "no fle in PATH")
class ByProcesses(unittest.IsolatedAsyncioTestCase):
    def setUp(self):
        self.wire = Server()
        self.addCleanup(self.wire.stop)
        self.fle = Fle(*FILES, program="fle")
        self.addCleanup(self.fle.close)

    async def asyncSetUp(self):
        self.client = AsyncIOMotorClient(self.wire.uri)
        self.addCleanup(self.client.close)
        enable(self.client.delegate, self.fle)
        self.people = self.client.hr.get_collection("people", codec_options=DEFAULT_RAW_BSON_OPTIONS)

    async def test_calls(self):
        await self.people.insert_one(RawBSONDocument(PERSON))
        self.assertEqual(self.wire.last("documents"), written(insert(PERSON), "documents"))
        (stored,) = written(insert(PERSON), "documents")
        self.wire.replies = [batch("firstBatch", 7, stored), batch("nextBatch", 0, stored, stored)]
        self.assertEqual([found.raw for found in await self.people.find(FILTER).to_list(None)], [PERSON] * 3)
        command = bson.encode(SON([("find", "people"), ("filter", FILTER)]))
        self.assertEqual(self.wire.came[1]["filter"].raw, written(command, "filter"))
        await self.people.bulk_write([pymongo.UpdateOne(FILTER, {"$set": FILTER}), pymongo.DeleteOne(FILTER)])
        self.assertEqual([next(iter(command)) for command in self.wire.came],
                         ["insert", "find", "getMore", "update", "delete"])
        self.assertNotIn(SSN.encode(), self.wire.received)

    async def test_refusals_and_close(self):
        with self.assertRaises(Refused):
            await self.people.insert_one({"ssn": None})
        with self.assertRaises(InvalidOperation):
            await self.client.bulk_write([pymongo.InsertOne(FILTER, namespace="hr.people")])
        self.assertEqual(self.wire.came, [])
        self.client.close()
        self.assertRaises(Closed, self.fle.encrypt, insert(PERSON))


if AsyncIOMotorClient is None:
    del ByProcesses
