"""pymongo's own client of asyncio, where pymongo has one, against a mock server: every call of it that has a protected
value. Tried by hand: pymongo 3.11, of Debian 12, has none, and there this file has no test."""
import asyncio
import shutil
import signal
import unittest

import bson
import pymongo
from bson.raw_bson import DEFAULT_RAW_BSON_OPTIONS, RawBSONDocument
from bson.son import SON
from pymongo.errors import BulkWriteError, DuplicateKeyError, InvalidOperation
from pymongo.write_concern import WriteConcern

from fle_driver import Closed, Fle, Reason, Refused, Unsupported, enable
from fle_driver.coroutines import Coroutines

from .samples import FILES, PERSON, insert
from .server import Server
from .test_coroutines import SSN, person
from .test_ends import children_of, is_there
from .test_hook import E11000, FILTER, updates, written
from .wire import batch


@unittest.skipUnless(shutil.which("fle"), "no fle in PATH")
class WithClient(unittest.IsolatedAsyncioTestCase):
    """A client with the hook, by processes, and a server."""

    program = "fle"

    def setUp(self):
        self.wire = Server()
        self.addCleanup(self.wire.stop)
        self.fle = Fle(*FILES, program=self.program)
        self.addCleanup(self.fle.close)
        self.assertEqual(self.fle.by_library, self.program is None)

    async def asyncSetUp(self):
        asyncio.get_running_loop().slow_callback_duration = 60
        self.client = pymongo.AsyncMongoClient(self.wire.uri)
        self.addAsyncCleanup(self.client.close)
        enable(self.client, self.fle, others=["other"])
        self.people = self.client.hr.people
        self.raw = self.people.with_options(codec_options=DEFAULT_RAW_BSON_OPTIONS)

    def names(self):
        return [next(iter(command)) for command in self.wire.came]

    def sealed_alone(self):
        """No message had the protected value."""
        self.assertTrue(self.wire.received)
        self.assertNotIn(SSN.encode(), self.wire.received)



class Cases:
    """What processes and the library do alike."""

    async def test_inserts(self):
        await self.people.insert_one(RawBSONDocument(PERSON))
        self.assertEqual(self.wire.last("documents"), written(insert(PERSON), "documents"))
        await self.people.insert_many([RawBSONDocument(PERSON), RawBSONDocument(person(7))])
        self.assertEqual(self.wire.last("documents"), written(insert(PERSON, person(7)), "documents"))
        await self.people.with_options(write_concern=WriteConcern(0)).insert_one(RawBSONDocument(PERSON))
        await self.client.hr.command("ping")  # by the same connection
        self.assertEqual(self.names(), ["insert", "insert", "insert", "ping"])
        self.assertEqual([each.raw for each in self.wire.came[2]["documents"]], written(insert(PERSON), "documents"))
        self.sealed_alone()

    async def test_a_find_over_three_batches(self):
        (stored,) = written(insert(PERSON), "documents")
        self.wire.replies = [batch("firstBatch", 7, stored), batch("nextBatch", 7, stored, stored),
                             batch("nextBatch", 0, stored)]
        self.assertEqual([found.raw async for found in self.raw.find(FILTER)], [PERSON] * 4)
        self.assertEqual(self.names(), ["find", "getMore", "getMore"])
        command = bson.encode(SON([("find", "people"), ("filter", FILTER)]))
        self.assertEqual(self.wire.came[0]["filter"].raw, written(command, "filter"))
        self.sealed_alone()

    async def test_a_cursor_that_is_closed(self):
        (stored,) = written(insert(PERSON), "documents")
        self.wire.replies = [batch("firstBatch", 7, stored)]
        cursor = self.raw.find(FILTER)
        self.assertEqual((await cursor.next()).raw, PERSON)
        await cursor.close()
        self.assertEqual(self.names(), ["find", "killCursors"])

    async def test_an_update_and_a_delete(self):
        change = {"$set": {"ssn": SSN, "n": 1}}
        await self.people.update_one(FILTER, change)
        item = [("q", FILTER), ("u", change), ("multi", False), ("upsert", False)]
        self.assertEqual(self.wire.last("updates"), written(updates("update", "updates", item), "updates"))
        await self.people.replace_one(FILTER, {"ssn": SSN})
        item = [("q", FILTER), ("u", {"ssn": SSN}), ("multi", False), ("upsert", False)]
        self.assertEqual(self.wire.last("updates"), written(updates("update", "updates", item), "updates"))
        await self.people.delete_many(FILTER)
        item = [("q", FILTER), ("limit", 0)]
        self.assertEqual(self.wire.last("deletes"), written(updates("delete", "deletes", item), "deletes"))
        self.sealed_alone()

    async def test_a_bulk_write(self):
        change = {"$set": {"ssn": SSN}}
        await self.people.bulk_write([pymongo.InsertOne(RawBSONDocument(PERSON)), pymongo.UpdateOne(FILTER, change),
                                      pymongo.DeleteOne(FILTER)])
        inserted, update, delete = self.wire.came
        self.assertEqual([each.raw for each in inserted["documents"]], written(insert(PERSON), "documents"))
        item = [("q", FILTER), ("u", change), ("multi", False), ("upsert", False)]
        self.assertEqual(update["updates"][0].raw, *written(updates("update", "updates", item), "updates"))
        item = [("q", FILTER), ("limit", 1)]
        self.assertEqual(delete["deletes"][0].raw, *written(updates("delete", "deletes", item), "deletes"))
        self.sealed_alone()

    async def test_in_a_transaction(self):
        async with self.client.start_session() as session:
            async with await session.start_transaction():
                await self.people.insert_one({"_id": 1, "ssn": SSN}, session=session)
        self.assertEqual(self.names(), ["insert", "commitTransaction"])
        self.sealed_alone()

    async def test_what_pymongo_adds_to_a_sealed_command(self):
        people = self.people.with_options(write_concern=WriteConcern("majority"))
        with pymongo.timeout(60):
            await people.insert_one(RawBSONDocument(PERSON))
        self.assertEqual(self.wire.last("documents"), written(insert(PERSON), "documents"))
        self.assertEqual(bson.decode(self.wire.last("writeConcern")), {"w": "majority"})
        self.assertTrue(0 < self.wire.came[0]["maxTimeMS"] <= 60_000)

    async def test_a_duplicate_key(self):
        self.wire.replies = [E11000, E11000]
        with self.assertRaises(DuplicateKeyError):
            await self.people.insert_one({"ssn": SSN})
        with self.assertRaises(BulkWriteError):
            await self.people.insert_many([{"ssn": SSN}])

    async def test_refusals(self):
        with self.assertRaises(Refused) as refused:
            await self.people.insert_one({"_id": 2, "ssn": None})
        self.assertEqual((refused.exception.reason, refused.exception.fields),
                         (Reason.TypeNotAllowed, "documents.0.ssn"))
        people = self.people
        more = [lambda: people.find_one_and_delete(FILTER), lambda: people.create_index("ssn"),
                lambda: people.distinct("ssn", FILTER)]
        for call in [lambda: people.count_documents({}), lambda: people.aggregate([])] + (self.program and more or []):
            with self.assertRaises(Refused):
                await call()
        for collection in (self.client.hr.People, self.client.elsewhere.people):
            with self.assertRaises(Unsupported):
                await collection.insert_one({"ssn": SSN})
        models = [pymongo.InsertOne({"ssn": SSN}, namespace="hr.people")]
        with self.assertRaises(Unsupported):
            await self.client.bulk_write(models)
        for call in (lambda: pymongo.AsyncMongoClient.bulk_write(self.client, models),
                     lambda: people.aggregate_raw_batches([])):
            with self.assertRaises(InvalidOperation):
                await call()
        with self.assertRaises(InvalidOperation):
            people.find_raw_batches({})
        self.assertEqual(self.wire.came, [])
        await self.people.insert_one(RawBSONDocument(PERSON))
        self.assertEqual(self.wire.last("documents"), written(insert(PERSON), "documents"))

    async def test_a_reply_that_does_not_open(self):
        (stored,) = written(insert(PERSON), "documents")
        self.wire.replies = [batch("firstBatch", 0, stored.replace(b"\x06\x01\x00\x11", b"\x06\x01\x00\x12"))]
        with self.assertRaises(Refused) as refused:
            await self.raw.find().to_list()
        self.assertEqual((refused.exception.reason, refused.exception.fields),
                         (Reason.KeyMissing, "cursor.firstBatch.0.ssn"))

    async def test_another_database(self):
        await self.client.other.people.insert_one(RawBSONDocument(PERSON))
        self.assertEqual(self.wire.last("documents"), [PERSON])

    async def test_many_tasks(self):
        people = [person(number) for number in range(100)]
        await asyncio.gather(*(self.people.insert_one(RawBSONDocument(each)) for each in people))
        came = sorted(command["documents"][0].raw for command in self.wire.came)
        self.assertEqual(came, sorted(written(insert(*people), "documents")))

    async def test_close(self):
        encrypter = self.client._encrypter
        self.assertIsInstance(encrypter, Coroutines)
        await self.people.insert_one(RawBSONDocument(PERSON))
        await self.client.close()
        self.assertRaises(Closed, self.fle.encrypt, insert(PERSON))
        with self.assertRaises(Closed):
            await encrypter.encrypt("hr", {"ping": 1}, DEFAULT_RAW_BSON_OPTIONS)
        with self.assertRaises(InvalidOperation):
            await self.people.insert_one({"ssn": SSN})


class ByProcesses(Cases, WithClient):
    """And what only a process does."""

    async def begun(self, kept, *calls):
        """Tasks of these calls, one of which waits for a process that is stopped; and what lets it go on."""
        child = kept._process._child
        child.send_signal(signal.SIGSTOP)
        self.addCleanup(child.send_signal, signal.SIGCONT)
        tasks = [asyncio.ensure_future(call) for call in calls]
        while not kept._lock.locked():
            await asyncio.sleep(0.01)
        return *tasks, lambda: child.send_signal(signal.SIGCONT)

    async def cancelled(self, *tasks):
        for task in tasks:
            task.cancel()
            with self.assertRaises(asyncio.CancelledError):
                await task

    async def test_tasks_that_are_cancelled_while_commands_are_sealed(self):
        first, second, third, go_on = await self.begun(
            self.fle._sealing, *(self.people.insert_one(RawBSONDocument(person(at))) for at in range(3)))
        await self.cancelled(first, second)
        self.assertEqual(self.wire.came, [])
        go_on()
        await third
        self.assertEqual(self.wire.last("documents"), written(insert(person(2)), "documents"))
        await self.people.insert_one(RawBSONDocument(PERSON))
        self.assertEqual(self.wire.last("documents"), written(insert(PERSON), "documents"))
        self.assertEqual(len(self.wire.came), 2)

    async def test_a_task_that_is_cancelled_while_its_reply_is_opened(self):
        people = [person(1), person(2)]
        self.wire.replies = [batch("firstBatch", 0, stored) for stored in written(insert(*people), "documents")]
        first, go_on = await self.begun(self.fle._opening, self.raw.find_one(FILTER))
        await self.cancelled(first)
        go_on()
        self.assertEqual((await self.raw.find_one(FILTER)).raw, people[1])
        self.assertEqual(self.names(), ["find", "find"])

    async def test_a_lost_process(self):
        children = children_of(self.fle)
        for child in children:
            child.kill()
        (stored,) = written(insert(PERSON), "documents")
        await self.people.insert_one(RawBSONDocument(PERSON))
        self.assertEqual(self.wire.last("documents"), [stored])
        self.wire.replies = [batch("firstBatch", 0, stored)]
        self.assertEqual((await self.raw.find_one()).raw, PERSON)
        numbers = [child.pid for child in (*children, *children_of(self.fle))]
        await self.client.close()
        self.assertFalse(any(map(is_there, numbers)))


if not hasattr(pymongo, "AsyncMongoClient"):
    del WithClient, ByProcesses
