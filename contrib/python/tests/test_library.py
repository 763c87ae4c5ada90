"""The library in place of processes: the same answers, and the same exceptions."""
import ctypes
import os
import shutil
import sys
import tempfile
import threading
import unittest
from concurrent.futures import ThreadPoolExecutor
from pathlib import Path
from unittest import mock

from fle_driver import Closed, FaultyFile, FileFault, Fle, InputFault, Limit, Reason, Refused
from fle_driver.library import FORMS, FORMS_OF_KEYS, FOUND, SPARE, Answer, Part, loaded
from fle_driver.walk import place_at

from .samples import FILES, KEYS, MASTER, PERSON, SCHEMAS, binary, element, insert, integer, spelled, string

COMMAND, OTHER = insert(PERSON), insert(spelled(string("ssn", "987-65-4321")))
REFUSED = insert(spelled(element(10, "ssn", b"")))
LARGE = 16_000_000


def setUpModule():
    """Where FLE_LIBRARY_WANTED is 1, the library and the program are there: else this fails, in place of a skip."""
    if os.environ.get("FLE_LIBRARY_WANTED") == "1":
        ctypes.CDLL(FOUND)
        if shutil.which("fle") is None:
            raise FileNotFoundError("no fle in PATH")


@unittest.skipUnless(loaded() and shutil.which("fle"), "no libfle.so.0 that the system finds, or no fle in PATH")
class WithBoth(unittest.TestCase):
    def setUp(self):
        self.library, self.program = Fle(*FILES), Fle(*FILES, program="fle")
        self.addCleanup(self.library.close)
        self.addCleanup(self.program.close)
        self.assertIsInstance(self.library._sealing, Part)
        self.assertNotIsInstance(self.program._sealing, Part)

    def told(self, fle, document, opens=False):
        with self.assertRaises(Refused) as refused:
            (fle.decrypt if opens else fle.encrypt)(document)
        error = refused.exception
        return error.status, error.document, error.reason, error.place, error.fields, str(error)

    def same_refusal(self, document, opens=False):
        told = self.told(self.library, document, opens)
        self.assertEqual(told, self.told(self.program, document, opens))
        return told

    def test_answers(self):
        for command in (COMMAND, OTHER, COMMAND):
            sealed = self.library.encrypt(command)
            self.assertEqual(sealed, self.program.encrypt(command))
            self.assertEqual(self.library.decrypt(sealed), command)

    def test_random_values_open_again(self):
        many = [insert(*(spelled(string("salary", str(number))) for number in range(count)))
                for count in (1, 16, 17, 300)]
        for command in many:
            sealed = self.library.encrypt(command)
            self.assertNotEqual(sealed, self.library.encrypt(command))
            self.assertEqual(self.program.decrypt(sealed), command)
            self.assertEqual(self.library.decrypt(sealed), command)

    def test_refusals(self):
        self.assertEqual(self.same_refusal(REFUSED)[2:5], (Reason.TypeNotAllowed, (1, 0, 0), "documents.0.ssn"))
        self.assertEqual(self.same_refusal(spelled())[2:5], (Reason.NotACommand, (), ""))
        self.assertEqual(self.same_refusal(b"\6\0\0\0\0\0")[2:4], (InputFault.Extra, (5,)))
        self.assertEqual(self.same_refusal(spelled(element(1, "x", b"\0")))[2], InputFault.Short)
        spoiled = bytearray(self.library.encrypt(OTHER))
        spoiled[-4] ^= 1
        self.assertEqual(self.same_refusal(bytes(spoiled), True)[2], Reason.TagMismatch)
        self.assertEqual(self.library.encrypt(OTHER), self.program.encrypt(OTHER))

    def test_large_documents(self):
        command = insert(spelled(string("salary", "x" * LARGE)))
        self.assertEqual(self.library.decrypt(self.library.encrypt(command)), command)
        over = insert(spelled(binary("unprotected", 0, bytes(1 << 24))))
        self.assertEqual(self.same_refusal(over)[2], Limit.Document)

    def test_replies_above_the_length_of_a_command(self):
        payload = binary("a", 6, b"\1" + bytes(97))
        person = self.library.encrypt(COMMAND)
        for filling, number in ((16_000_000, 2), (15_000_000, 3)):
            part = element(3, "c", spelled(binary("f", 0, bytes(filling))))
            whole = spelled(element(3, "a", person), part * number, element(3, "b", person))
            opened = spelled(element(3, "a", COMMAND), part * number, element(3, "b", COMMAND))
            self.assertTrue(self.library.decrypt(whole) == self.program.decrypt(whole) == opened)
            whole = spelled(part * number, element(3, "a", spelled(string("b", "c"), payload)))
            self.assertEqual(self.same_refusal(whole, True)[2:5], (Reason.KeyMissing, (number, 1), "a.a"))
        for length in (48_000_000, 48_000_001):
            document = spelled(string("a", "\6\1"), binary("f", 0, bytes(length - 23)))
            self.assertEqual(len(document), length)
            if length > 48_000_000:
                self.assertEqual(self.same_refusal(document, True)[:3], (9, 1, Limit.Document))
            else:
                self.assertTrue(self.library.decrypt(document) == self.program.decrypt(document) == document)

    def test_long_replies_that_are_no_bson(self):
        filling, head = binary("f", 0, bytes(1 << 24)), string("a", "\6\1")
        for broken in (element(5, "a", b"\xff\xff\xff\x7f\0"), element(99, "a", b""),
                       element(3, "b", spelled(head, element(99, "a", b"")))):
            for document in (spelled(head, filling, broken), spelled(filling, broken, head)):
                raised = [self.told(fle, document, True) for fle in (self.library, self.program)]
                self.assertEqual([told[:2] for told in raised], [(3, 1), (3, 1)])
                self.assertEqual(raised[1][2:], (None, (), None, "no BSON"))

    def test_threads(self):
        commands = [insert(spelled(string("ssn", str(number)))) for number in range(64)]
        with ThreadPoolExecutor(8) as threads:
            for command, sealed in zip(commands, threads.map(self.library.encrypt, commands)):
                self.assertEqual(self.library.decrypt(sealed), command)

    def test_a_fork(self):
        sealed = self.library.encrypt(OTHER)
        child = os.fork()
        if child == 0:
            os._exit(0 if self.library.encrypt(OTHER) == sealed else 1)
        self.assertEqual(os.waitpid(child, 0)[1], 0)
        self.assertEqual(self.library.encrypt(OTHER), sealed)

    def test_what_is_no_document(self):
        for document in (b"", b"\5\0\0", COMMAND[:-1], COMMAND + b"\0"):
            with self.assertRaises(ValueError):
                self.library.encrypt(document)

    def test_closed(self):
        self.library.close()
        for call in (self.library.encrypt, self.library.decrypt):
            with self.assertRaises(Closed):
                call(COMMAND)


@unittest.skipUnless(loaded(), "no libfle.so.0 that the system finds")
class Files(unittest.TestCase):
    def told(self, keys=KEYS, schemas=SCHEMAS, master=MASTER):
        with self.assertRaises(FaultyFile) as faulty:
            Fle("hr", keys, schemas, master)
        return faulty.exception.file, faulty.exception.reason, faulty.exception.place

    def test_files_at_fault(self):
        with tempfile.TemporaryDirectory() as folder:
            missing, none = Path(folder) / "missing", Path(folder) / "none"
            none.write_bytes(b"")
            self.assertEqual(self.told(schemas=missing), (str(missing), FileFault.Missing, (0,)))
            self.assertEqual(self.told(keys=MASTER)[0], str(MASTER))
            self.assertEqual(self.told(master=none)[0], str(none))


@unittest.skipUnless(loaded(), "no libfle.so.0 that the system finds")
class Handed(unittest.TestCase):
    def test_random_bytes_are_few_and_then_those_told(self):
        with Fle(*FILES) as fle:
            for count, wanted in ((0, [256]), (16, [256]), (17, [256, 17 * 16]), (300, [256, 300 * 16])):
                command = insert(PERSON, *[spelled(string("salary", "the same"))] * count)
                with mock.patch("os.urandom", wraps=os.urandom) as drawn:
                    sealed = fle.encrypt(command)
                    self.assertEqual([call[0][0] for call in drawn.call_args_list], wanted)
                    self.assertEqual(fle.decrypt(sealed), command)
                    self.assertEqual(drawn.call_count, len(wanted))

    def test_the_database_is_handed_in(self):
        with Fle(*FILES) as fle:
            fle._sealing._engine._db = b"pay"
            with self.assertRaises(Refused) as refused:
                fle.encrypt(COMMAND)
            self.assertEqual((refused.exception.reason, refused.exception.place), (Reason.WrongDb, ()))

    def test_more_room_than_the_first(self):
        command = insert(*(spelled(string("ssn", str(number))) for number in range(400)))
        with Fle(*FILES) as fle:
            sealed = fle.encrypt(command)
            self.assertGreater(len(sealed), 2 * len(command) + SPARE)
            self.assertEqual(fle.decrypt(sealed), command)


class Calls:
    """A library that takes each call with all its arguments, and answers nothing."""

    def __getattr__(self, name):
        _, arguments = FORMS[name]

        def call(*words):
            if len(words) != len(arguments):
                raise AssertionError(f"{name} called with {len(words)} of {len(arguments)} arguments")
            return Answer()
        return call


class Stopped:
    """Stops the thread that traces by it at one line of library.py, the nth that it comes to; there something is done
    by another thread."""

    def __init__(self, number, something):
        self.left, self.something = number, something

    def __call__(self, frame, event, _):
        if os.path.basename(frame.f_code.co_filename) != "library.py":
            return None
        self.left -= event == "line"
        if event == "line" and self.left == 0:
            other = threading.Thread(target=self.something)
            other.start()
            other.join()
        return self


PING = spelled(integer("ping", 1))  # a command that passes, under whatever rules


class ClosedBesideACall(unittest.TestCase):
    def first_call(self, fle, number):
        """A thread's first call, with `close` called by another thread at a line of it; whether it came so far, and
        what it raised."""
        stopped, raised = Stopped(number, fle.close), []

        def call():
            sys.settrace(stopped)
            try:
                fle.encrypt(PING)
            except BaseException as error:
                raised.append(error)
            finally:
                sys.settrace(None)

        thread = threading.Thread(target=call)
        thread.start()
        thread.join()
        return stopped.left <= 0, raised

    def closed_at_each_line(self, made):
        """At each line the call either answers or raises `Closed`, and both are seen."""
        number, seen, comes = 0, set(), True
        while comes:
            number += 1
            comes, raised = self.first_call(made(), number)
            self.assertLessEqual({type(error) for error in raised}, {Closed}, raised)
            seen.add(bool(raised))
        self.assertEqual(seen, {False, True})

    def test_a_call_has_all_its_arguments(self):
        with mock.patch("fle_driver.fle.loaded", return_value=Calls()):
            self.closed_at_each_line(lambda: Fle(*FILES))

    @unittest.skipUnless(loaded(), "no libfle.so.0 that the system finds")
    def test_a_call_of_the_library(self):
        self.closed_at_each_line(lambda: Fle(*FILES))

    @unittest.skipUnless(loaded(), "no libfle.so.0 that the system finds")
    def test_a_call_with_arguments_missing(self):
        calls = loaded()
        for name, (_, arguments) in {**FORMS, **FORMS_OF_KEYS}.items():
            with self.subTest(name), self.assertRaises(TypeError):
                getattr(calls, name)(*[None] * (len(arguments) - 1))


class Places(unittest.TestCase):
    def test_a_value_by_its_offset(self):
        document = spelled(integer("a", 1), element(3, "b", spelled(element(10, "", b""), integer("c", 2))))
        self.assertEqual(place_at(document, 7), (0,))
        self.assertEqual(place_at(document, 14), (1,))
        self.assertEqual(place_at(document, 20), (1, 0))
        self.assertEqual(place_at(document, 23), (1, 1))
        self.assertEqual(place_at(document, 0), ())
