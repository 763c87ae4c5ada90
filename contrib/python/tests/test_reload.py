"""A vault that is read anew while a client calls, by processes."""
import itertools
import os
import signal
import threading
import weakref
from concurrent.futures import ThreadPoolExecutor
from unittest import mock

import bson
from bson.raw_bson import DEFAULT_RAW_BSON_OPTIONS, RawBSONDocument
from bson.son import SON
from pymongo.errors import InvalidOperation, OperationFailure

from fle_driver import Closed, FaultyFile, Fle, Reason, Refused, Unsupported, enable
from fle_driver.vault import reads_keys

from .samples import PERSON, insert, sealed
from .vaults import COMMAND, FIRST, SECOND, VAULT, WithVault
from .wire import batch


class Reloads(WithVault):
    def refused(self, call):
        with self.assertRaises(Refused) as refused:
            call()
        self.assertEqual(refused.exception.reason, Reason.KeyMissing)

    def test_a_key_that_came(self):
        fle = self.made(keys=[SECOND])
        people = self.client_of(fle).hr.people
        self.refused(lambda: people.insert_one({"ssn": "x"}))
        self.reloaded(fle, SECOND, FIRST)
        people.insert_one(RawBSONDocument(PERSON))
        self.assertEqual(insert(*self.wire.last("documents")), sealed(COMMAND))
        self.assertEqual(fle.decrypt(sealed(COMMAND)), COMMAND)

    def test_by_the_client_that_has_the_hook(self):
        client = self.plain_client()
        fle = self.made(client=client)
        enable(client, fle)
        self.reloaded(fle, SECOND)
        self.assertEqual(self.names(), ["find", "find"])
        self.assertEqual(self.wire.came[0]["filter"].raw, self.wire.last("filter"))
        self.refused(lambda: client.hr.people.insert_one({"ssn": "x"}))
        for query in ({"keyAltNames": "x"}, {"_id": None}):
            with self.assertRaisesRegex(Unsupported, "find of the database encryption"):
                list(client.encryption["__keyVault"].find(query))
        with self.assertRaisesRegex(Unsupported, "find of the database encryption"):
            list(client.encryption.other.find({}))

    def test_a_vault_in_a_database_with_rules(self):
        client = self.plain_client()
        fle = self.made(vault="hr.vault", client=client)
        enable(client, fle)
        self.reloaded(fle, FIRST)
        with self.assertRaisesRegex(Unsupported, "no collection vault of hr"):
            client.hr.vault.insert_one({})

    def test_the_command_that_passes(self):
        vault = tuple(VAULT.split("."))
        command = SON([("find", "__keyVault"), ("filter", {}), ("readConcern", {"level": "majority"})])
        self.assertTrue(reads_keys(vault, "encryption", bson.encode(command)))
        for other in ({"find": "__keyVault"}, SON(command, find="other"), SON(command, filter={"a": 1}), {},
                      SON([("insert", "__keyVault"), ("filter", {})]), SON([("filter", {}), ("find", "__keyVault")])):
            self.assertFalse(reads_keys(vault, "encryption", bson.encode(other)))
        self.assertFalse(reads_keys(vault, "other", bson.encode(command)))
        self.assertFalse(reads_keys(None, "encryption", bson.encode(command)))

    def test_a_call_at_work_ends_with_the_old_keys(self):
        fle = self.made()
        people = self.client_of(fle).hr.people
        old = fle.engine("hr")
        asked, begun, may_go = old._sealing.ask, threading.Event(), threading.Event()

        def waiting(document):
            begun.set()
            self.assertTrue(may_go.wait(30))
            return asked(document)

        with ThreadPoolExecutor(1) as thread, mock.patch.object(old._sealing, "ask", waiting):
            call = thread.submit(people.insert_one, RawBSONDocument(PERSON))
            self.assertTrue(begun.wait(30))
            self.reloaded(fle, SECOND)
            self.refused(lambda: people.insert_one({"ssn": "x"}))
            may_go.set()
            call.result(30)
        self.assertEqual(insert(*self.wire.last("documents")), sealed(COMMAND))

    def test_a_reply_that_is_opened_in_parts(self):
        fle = self.made()
        raw = self.client_of(fle).hr.people.with_options(codec_options=DEFAULT_RAW_BSON_OPTIONS)
        old = fle.opening()
        decrypt, person = old.decrypt, bson.decode(sealed(COMMAND), DEFAULT_RAW_BSON_OPTIONS)["documents"][0].raw

        def reloading(document):
            if fle.opening() is old:
                self.reloaded(fle, SECOND)
            return decrypt(document)

        self.wire.replies = [batch("firstBatch", 0, person, person)]
        with mock.patch("fle_driver.replies.MOST", len(person)), mock.patch.object(old, "decrypt", reloading):
            self.assertEqual([one.raw for one in raw.find()], [PERSON, PERSON])
        self.assertEqual(self.names(), ["find", "find", "find"])
        self.wire.replies = [batch("firstBatch", 0, person)]
        self.refused(raw.find_one)

    def test_calls_go_on_while_the_keys_are_read(self):
        fle, begun, may_go = self.made(), threading.Event(), threading.Event()

        def slow(*_):
            begun.set()
            self.assertTrue(may_go.wait(30))
            return SECOND

        with ThreadPoolExecutor(1) as thread, mock.patch("fle_driver.databases.read_keys", slow):
            reload = thread.submit(fle.reload)
            self.assertTrue(begun.wait(30))
            self.assertEqual(fle.encrypt(COMMAND, "hr"), sealed(COMMAND))
            may_go.set()
            reload.result(30)
        self.refused(lambda: fle.encrypt(COMMAND, "hr"))

    def test_old_engines_go(self):
        fle = self.made()
        fle.encrypt(COMMAND, "hr")
        parts = fle.engine("hr")._sealing, fle.engine("hr")._opening, fle.engine("pay")._sealing
        olds = [weakref.ref(part if self.program else part._engine) for part in parts]
        children = [part._process._child.pid for part in parts if self.program]
        del parts
        self.reloaded(fle, FIRST)
        self.assertEqual([old() for old in olds], [None] * 3)
        self.assertFalse(any(os.path.exists(f"/proc/{child}") for child in children))

    def test_a_vault_that_is_at_fault_changes_nothing(self):
        fle = self.made()
        for reply in (batch("firstBatch", 0, FIRST, FIRST), {"ok": 0, "code": 13, "errmsg": "not authorized"}):
            self.wire.replies = [reply]
            with self.assertRaises((FaultyFile, OperationFailure)):
                fle.reload()
            self.assertEqual(fle.encrypt(COMMAND, "hr"), sealed(COMMAND))

    def test_closed(self):
        client = self.plain_client()
        fle = self.made()
        enable(client, fle)
        client.close()
        self.wire.forget()
        for call in (fle.reload, lambda: fle.encrypt(COMMAND, "hr"), lambda: fle.decrypt(COMMAND), fle.listed):
            with self.assertRaises(Closed):
                call()
        with self.assertRaises((Closed, InvalidOperation)):  # pymongo 4 says so itself
            client.hr.people.insert_one({})
        self.assertEqual(self.wire.came, [])

    def test_a_child_that_is_forked_amid_a_reload(self):
        fle = self.made()
        with fle._reading, fle._changing:  # as if another thread were there
            child = os.fork()
            if child == 0:
                signal.alarm(30)
                is_free = False
                try:
                    fle.close()
                    is_free = not fle._reading.locked()
                finally:
                    os._exit(0 if is_free else 1)
        self.assertEqual(os.waitpid(child, 0)[1], 0)
        self.assertEqual(fle.encrypt(COMMAND, "hr"), sealed(COMMAND))

    def test_closed_meanwhile(self):
        fle, made = self.made(), []
        over = Fle.over

        def closing(*words, **more):
            fle.close()
            made.append(over(*words, **more))
            return made[-1]

        with mock.patch("fle_driver.databases.Fle.over", closing), self.assertRaises(Closed):
            self.reloaded(fle, FIRST)
        for one, call in itertools.product(made, (Fle.encrypt, Fle.decrypt)):
            with self.assertRaises(Closed):
                call(one, COMMAND)
        self.assertEqual(len(made), 2)
        self.assertRaises(Closed, fle.reload)
