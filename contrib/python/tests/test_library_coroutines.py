"""A client of asyncio by the library: the tests of it by processes, once more, and in which thread a call runs."""
import shutil
import threading
import unittest
from unittest import mock

import bson
import pymongo
from bson.son import SON

from fle_driver.coroutines import AT_ONCE
from fle_driver.hook import Hook
from fle_driver.library import loaded

from . import test_async_client, test_coroutines
from .samples import spelled, string
from .test_hook import FILTER, written


@unittest.skipUnless(loaded() and shutil.which("fle"), "no libfle.so that the system finds, or no fle in PATH")
class ByLibrary(unittest.IsolatedAsyncioTestCase):
    program = None


class StandIn(ByLibrary, test_coroutines.Cases, test_coroutines.WithClient):
    async def test_threads(self):
        threads, judged = [], Hook.judged

        def judged_in(hook, *words):
            threads.append(threading.current_thread())
            return judged(hook, *words)

        with mock.patch.object(Hook, "judged", judged_in):
            for length in (1, AT_ONCE // 2, AT_ONCE, AT_ONCE):
                await self.insert(spelled(string("_id", "x" * length)))
        here, long = threading.current_thread(), threads[-1]
        self.assertEqual(threads, [here, here, long, long])
        self.assertIsNot(long, here)


if hasattr(pymongo, "AsyncMongoClient"):
    class Client(ByLibrary, test_async_client.Cases, test_async_client.WithClient):
        async def test_commands_of_the_library(self):
            await self.people.find_one_and_delete(FILTER)
            found = bson.encode(SON([("find", "people"), ("filter", FILTER)]))
            self.assertEqual(self.wire.last("query"), written(found, "filter"))
            await self.people.create_index("ssn")
            self.assertEqual(self.names(), ["findAndModify", "createIndexes"])
            self.sealed_alone()
