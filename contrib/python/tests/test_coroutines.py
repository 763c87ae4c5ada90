"""The hook of a client of asyncio: the bytes of the blocking one, and an event loop that never waits for a process."""
import asyncio
import os
import shutil
import signal
import threading
import time
import unittest
from unittest import mock

import bson
import pymongo
from bson.raw_bson import DEFAULT_RAW_BSON_OPTIONS, RawBSONDocument
from bson.son import SON
from pymongo.errors import InvalidOperation

from fle_driver import Closed, Ended, Fle, Reason, Refused, TimedOut, Unsupported, enable
from fle_driver.coroutines import AT_ONCE, Coroutines
from fle_driver.process import Process

from .samples import FILES, PERSON, insert, sealed, spelled, string
from .stand_in import AsyncMongoClient
from .test_ends import children_of, is_there
from .test_hook import FILTER, updates, written
from .vaults import LOCAL, MAP, VAULT
from .wire import batch

SSN = "123-45-6789"


def person(number):
    return spelled(string("_id", str(number)), string("ssn", str(number)))


def inserting(*people):
    """The command that pymongo has an encrypter seal."""
    return SON([("insert", "people"), ("documents", [RawBSONDocument(each) for each in people])])


@unittest.skipUnless(shutil.which("fle"), "no fle in PATH")
class WithClient(unittest.IsolatedAsyncioTestCase):
    """A client with the hook, by processes."""

    program = "fle"

    def setUp(self):
        for name, there in (("AsyncMongoClient", AsyncMongoClient), ("version", "4.10.1")):
            patch = mock.patch.object(pymongo, name, there, create=True)
            patch.start()
            self.addCleanup(patch.stop)
        self.fle = Fle(*FILES, program=self.program)
        self.addCleanup(self.fle.close)
        self.assertEqual(self.fle.by_library, self.program is None)
        self.client = AsyncMongoClient()
        enable(self.client, self.fle, others=["other"])

    async def asyncSetUp(self):
        asyncio.get_running_loop().slow_callback_duration = 60  # tests wait for programs themselves

    async def insert(self, *people):
        await self.client.command("hr", inserting(*people))

    def told(self):
        """The people that came, one in a command."""
        return sorted(bson.decode(came, DEFAULT_RAW_BSON_OPTIONS)["documents"][0].raw for came in self.client.came)


class Cases:
    """What processes and the library answer alike."""

    async def test_an_insert_keeps_every_byte(self):
        await self.insert(PERSON)
        self.assertEqual(self.client.last("documents"), written(insert(PERSON), "documents"))
        self.assertNotIn(SSN.encode(), self.client.came[0])

    async def test_a_find_over_three_batches(self):
        (stored,) = written(insert(PERSON), "documents")
        self.client.replies = [bson.encode(batch(*each)) for each in (
            ("firstBatch", 7, stored), ("nextBatch", 7, stored, stored), ("nextBatch", 0, stored))]
        more = SON([("getMore", 7), ("collection", "people")])
        commands = [SON([("find", "people"), ("filter", FILTER)]), more, SON(more)]
        replies = [await self.client.command("hr", each, DEFAULT_RAW_BSON_OPTIONS) for each in commands]
        found = [each.raw for reply in replies for name in ("firstBatch", "nextBatch")
                 for each in reply["cursor"].get(name, ())]
        self.assertEqual(found, [PERSON] * 4)
        filtered = bson.decode(self.client.came[0], DEFAULT_RAW_BSON_OPTIONS)["filter"].raw
        self.assertEqual(filtered, written(bson.encode(commands[0]), "filter"))

    async def test_an_update_and_a_delete(self):
        change = {"$set": {"ssn": "987-65-4321"}}
        for verb, field, item in (("update", "updates", [("q", FILTER), ("u", change)]),
                                  ("delete", "deletes", [("q", FILTER), ("limit", 0)])):
            await self.client.command("hr", SON([(verb, "people"), (field, [SON(item)])]))
            self.assertEqual(self.client.last(field), written(updates(verb, field, item), field))

    async def test_a_command_that_is_raw_already(self):
        await self.client.command("hr", RawBSONDocument(insert(PERSON, PERSON)))  # as those of a bulk write are
        self.assertEqual(self.client.last("documents"), written(insert(PERSON, PERSON), "documents"))

    async def test_a_refusal(self):
        with self.assertRaises(Refused) as refused:
            await self.insert(bson.encode({"ssn": None}))
        self.assertEqual((refused.exception.reason, refused.exception.fields),
                         (Reason.TypeNotAllowed, "documents.0.ssn"))
        for database, collection in (("hr", "People"), ("elsewhere", "people")):
            with self.assertRaises(Unsupported):
                await self.client.command(database, SON([("find", collection)]))
        self.assertEqual(self.client.came, [])
        await self.insert(PERSON)
        self.assertEqual(self.client.last("documents"), written(insert(PERSON), "documents"))

    async def test_a_reply_that_does_not_open(self):
        (stored,) = written(insert(PERSON), "documents")
        of_another_key = stored.replace(b"\x06\x01\x00\x11", b"\x06\x01\x00\x12")
        self.client.replies = [bson.encode(batch("firstBatch", 0, of_another_key))]
        with self.assertRaises(Refused) as refused:
            await self.client.command("hr", SON([("find", "people")]))
        self.assertEqual((refused.exception.reason, refused.exception.fields),
                         (Reason.KeyMissing, "cursor.firstBatch.0.ssn"))

    async def test_another_database(self):
        await self.client.command("other", inserting(PERSON))
        self.assertEqual(self.client.last("documents"), [PERSON])

    async def test_many_tasks(self):
        people = [person(number) for number in range(100)]
        await asyncio.gather(*map(self.insert, people))
        self.assertEqual(self.told(), sorted(written(insert(*people), "documents")))

    async def test_long_documents(self):
        long = spelled(string("_id", "x" * AT_ONCE), string("ssn", SSN))
        await self.insert(long)
        (stored,) = self.client.last("documents")
        self.assertEqual([stored], written(insert(long), "documents"))
        self.client.replies = [bson.encode(batch("firstBatch", 0, stored))]
        reply = await self.client.command("hr", SON([("find", "people")]), DEFAULT_RAW_BSON_OPTIONS)
        self.assertEqual(reply["cursor"]["firstBatch"][0].raw, long)

    async def test_bypass(self):
        (stored,) = written(insert(PERSON), "documents")
        client = AsyncMongoClient()
        with mock.patch.object(Fle, "bypass", True):
            enable(client, self.fle)
        await client.command("hr", inserting(PERSON))
        self.assertEqual(client.last("documents"), [PERSON])
        client.replies = [bson.encode(batch("firstBatch", 0, stored))]
        reply = await client.command("hr", SON([("find", "people")]), DEFAULT_RAW_BSON_OPTIONS)
        self.assertEqual(reply["cursor"]["firstBatch"][0].raw, PERSON)

    async def test_close(self):
        before = threading.active_count()
        await self.insert(spelled(string("_id", "x" * AT_ONCE)))  # by a thread
        for _ in range(2):
            await self.client.close()
        for call in (self.insert(PERSON), self.client._encrypter.decrypt(sealed(insert(PERSON)))):
            with self.assertRaises(Closed):
                await call
        self.assertEqual(len(self.client.came), 1)
        self.assertRaises(Closed, self.fle.encrypt, insert(PERSON))
        while threading.active_count() > before:
            await asyncio.sleep(0.01)

    async def test_the_client_s_own_bulk_write(self):
        with self.assertRaises(Unsupported):
            await self.client.bulk_write([b"plain"])
        with self.assertRaises(InvalidOperation):
            await AsyncMongoClient.bulk_write(self.client, [b"plain"])  # as Motor calls that of a blocking client
        self.assertEqual(self.client.came, [])

    async def test_clients(self):
        self.assertIsInstance(self.client._encrypter, Coroutines)
        with self.assertRaisesRegex(Unsupported, "has an encrypter already"):
            enable(self.client, self.fle)
        with self.assertRaisesRegex(TypeError, "the key vault is read by a pymongo.MongoClient"):
            Fle.of(AsyncMongoClient(), VAULT, schemas=MAP, master=LOCAL)
        with mock.patch("pymongo.version", "4.11"), self.assertRaisesRegex(Unsupported, "4.11 wasn't tried"):
            enable(AsyncMongoClient(), self.fle)


class ByProcesses(Cases, WithClient):
    """Both."""


class Waiting(WithClient):
    """While a process doesn't answer."""

    async def begun(self, kept, *calls):
        """Tasks of these calls, the first of which waits for a process that is stopped; and what lets it go on."""
        child = kept._process._child
        child.send_signal(signal.SIGSTOP)
        self.addCleanup(child.send_signal, signal.SIGCONT)
        tasks = [asyncio.ensure_future(call) for call in calls]
        while not kept._lock.locked():
            await asyncio.sleep(0.01)
        self.assertFalse(any(task.done() for task in tasks))
        return *tasks, lambda: child.send_signal(signal.SIGCONT)

    async def test_the_event_loop_goes_on(self):
        task, go_on = await self.begun(self.fle._sealing, self.insert(PERSON))
        self.client.replies = [bson.encode(batch("firstBatch", 0, *written(insert(PERSON), "documents")))]
        await self.client.command("other", SON([("find", "people")]), DEFAULT_RAW_BSON_OPTIONS)  # the other process
        self.assertEqual((len(self.client.came), task.done()), (1, False))
        go_on()
        await task
        self.assertEqual(self.client.last("documents"), written(insert(PERSON), "documents"))

    async def test_a_task_that_is_cancelled(self):
        asked = self.fle._sealing._answered
        first, second, third, go_on = await self.begun(self.fle._sealing, *map(self.insert, map(person, range(3))))
        first.cancel()  # at work
        second.cancel()  # waiting
        for task in (first, second):
            with self.assertRaises(asyncio.CancelledError):
                await task
        go_on()
        await third
        self.assertEqual(self.told(), written(insert(person(2)), "documents"))
        self.assertEqual(self.fle._sealing._answered - asked, 2)  # the first is answered, the second was never asked
        await self.insert(PERSON)
        self.assertEqual(self.client.last("documents"), written(insert(PERSON), "documents"))

    async def test_a_form_that_is_filled_in_meanwhile(self):
        form = {"_id": 1}
        command = self.client.command("hr", SON([("insert", "people"), ("documents", [form])]))
        task, go_on = await self.begun(self.fle._sealing, command)
        form["ssn"] = SSN
        go_on()
        await task
        self.assertEqual(self.client.last("documents"), [bson.encode({"_id": 1})])

    async def test_a_close_that_is_cancelled(self):
        numbers = [child.pid for child in children_of(self.fle)]
        reply = self.client._encrypter.decrypt(sealed(insert(PERSON)))
        opening, closing, go_on = await self.begun(self.fle._opening, reply, self.client.close())
        closing.cancel()
        with self.assertRaises(asyncio.CancelledError):
            await closing
        with self.assertRaises(Closed):
            await self.insert(PERSON)
        go_on()
        self.assertEqual(await opening, insert(PERSON))
        while any(map(is_there, numbers)):
            await asyncio.sleep(0.01)


class WithADeadline(WithClient):
    async def test_all_that_wait(self):
        self.fle.timeout = self.fle._sealing._timeout = 0.5
        children_of(self.fle)[0].send_signal(signal.SIGSTOP)
        began = time.monotonic()
        with mock.patch.object(Process, "stop", lambda process: time.sleep(1)):
            ended = await asyncio.gather(*[self.insert(PERSON) for _ in range(20)], return_exceptions=True)
        self.assertEqual({type(error) for error in ended}, {TimedOut})
        self.assertTrue(0.5 <= time.monotonic() - began < 5)  # one behind the other would take 10
        self.assertEqual(self.client.came, [])


class Lost(WithClient):
    def lost(self, turns):
        """Has the process that is asked end before its answer, so often."""
        left, answer = [None] * turns, Process.answer

        def answer_of(process, *words):
            if left:
                left.pop()
                os.kill(process._child.pid, signal.SIGKILL)
                process._child.wait()
            return answer(process, *words)

        return mock.patch.object(Process, "answer", answer_of)

    async def test_once_and_each_time(self):
        with self.lost(1):
            await self.insert(PERSON)
        self.assertEqual(self.client.last("documents"), written(insert(PERSON), "documents"))
        with self.lost(9), self.assertRaises(Ended):
            await self.insert(PERSON)
        self.assertEqual(len(self.client.came), 1)
        await asyncio.gather(*[self.insert(PERSON) for _ in range(3)])
        self.assertEqual(len(self.client.came), 4)
