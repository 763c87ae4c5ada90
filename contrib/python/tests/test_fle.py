"""Two kept processes, bytes to bytes: what they answer, and what becomes of calls that come to no answer."""
import contextlib
import itertools
import os
import shutil
import signal
import stat
import subprocess
import sys
import tempfile
import unittest
from concurrent.futures import ThreadPoolExecutor
from pathlib import Path
from unittest import mock

from fle_driver import (Closed, Ended, FaultyFile, FileFault, Fle, FleError, InputFault, KeyFault, Limit, MasterFault,
                        NotStarted, Reason, Refused, Status)
from fle_driver.kept import Kept

from .samples import EXAMPLES, FILES, KEYS, MASTER, PERSON, SCHEMAS, binary, element, insert, sealed, spelled, string

COMMAND, OTHER = insert(PERSON), insert(spelled(string("ssn", "987-65-4321")))
REFUSED = insert(spelled(element(10, "ssn", b"")))
SHORT = spelled(binary("a payload that is too short", 6, b"\1"))
LARGE = 16_000_000
PACKAGE = Path(__file__).parents[1]
NO_STANDARD = """
import os, sys
from fle_driver import Fle
with Fle(*sys.argv[1:], program="fle") as fle:
    os._exit(0 if fle.decrypt(b"\\5\\0\\0\\0\\0") == b"\\5\\0\\0\\0\\0" else 1)
"""


def setUpModule():
    """Processes, also where the system finds the library."""
    found = mock.patch("fle_driver.fle.loaded", return_value=None)
    found.start()
    unittest.addModuleCleanup(found.stop)


def child_of(kept):
    """The process that is kept."""
    return kept._process._child


@unittest.skipUnless(shutil.which("fle"), "no fle in PATH")
class WithFle(unittest.TestCase):
    def setUp(self):
        self.fle = Fle(*FILES)
        self.addCleanup(self.fle.close)


class Answers(WithFle):
    def test_what_a_run_writes(self):
        for command in (COMMAND, OTHER, COMMAND):
            self.assertEqual(self.fle.encrypt(command), sealed(command))
            self.assertEqual(self.fle.decrypt(sealed(command)), command)

    def test_a_refusal_and_what_follows(self):
        for _ in range(3):
            self.assertEqual(self.fle.encrypt(COMMAND), sealed(COMMAND))
            with self.assertRaises(Refused) as refused:
                self.fle.encrypt(REFUSED)
            error = refused.exception
            self.assertEqual((error.status, error.document, error.reason), (1, 1, Reason.TypeNotAllowed))
            self.assertEqual((error.place, error.fields), ((1, 0, 0), "documents.0.ssn"))

    def test_a_reply_that_does_not_open(self):
        spoiled = bytearray(self.fle.encrypt(OTHER))
        spoiled[-4] ^= 1  # the last byte of the tag; three documents end behind it
        with self.assertRaises(Refused) as refused:
            self.fle.decrypt(spoiled)
        self.assertEqual((refused.exception.reason, refused.exception.fields), (Reason.TagMismatch, "documents.0.ssn"))
        self.assertEqual(self.fle.decrypt(sealed(OTHER)), OTHER)

    def test_what_is_no_document(self):
        for document in (b"", b"\5\0\0", COMMAND[:-1], COMMAND + b"\0", COMMAND + COMMAND):
            with self.assertRaises(ValueError):
                self.fle.encrypt(document)
        with self.assertRaises(Refused) as refused:
            self.fle.encrypt(b"\6\0\0\0\0\0")
        self.assertEqual((refused.exception.reason, refused.exception.place), (InputFault.Extra, (5,)))
        self.assertEqual(self.fle.encrypt(OTHER), sealed(OTHER))

    def test_large_documents(self):
        for kept in (self.fle._sealing, self.fle._opening):
            kept._timeout = None
        for field in (binary("unprotected", 0, bytes(LARGE)), string("salary", "x" * LARGE)):
            command = insert(spelled(field))
            answer = self.fle.encrypt(command)
            self.assertEqual(answer == command, field[0] == 5)  # the binary is no protected field
            self.assertEqual(self.fle.decrypt(answer), command)
        with self.assertRaises(Refused) as refused:
            self.fle.encrypt(insert(spelled(binary("unprotected", 0, bytes(1 << 24)))))
        self.assertEqual(refused.exception.reason, Limit.Document)
        self.assertEqual(self.fle.encrypt(OTHER), sealed(OTHER))

    def test_threads(self):
        commands = [insert(spelled(string("ssn", str(number)))) for number in range(64)]
        with ThreadPoolExecutor(8) as threads:
            answers = list(threads.map(self.fle.encrypt, commands))
            self.assertEqual(list(threads.map(self.fle.decrypt, answers)), commands)
        self.assertEqual(answers[::16], list(map(sealed, commands[::16])))


class Descriptors(WithFle):
    """What a process has open, and who else has."""

    def open_in(self, process):
        found = {}
        for name in os.listdir(f"/proc/{process}/fd"):
            with contextlib.suppress(FileNotFoundError):  # what lists them is no longer open
                found[int(name)] = os.readlink(f"/proc/{process}/fd/{name}")
        return found

    def test_a_process_has_its_pipes_and_what_it_was_handed(self):
        for kept, count in ((self.fle._sealing, 3), (self.fle._opening, 2)):
            found = self.open_in(child_of(kept).pid)  # it has answered
            handed = {number for number, name in found.items() if name.startswith("/memfd:fle")}
            self.assertEqual((set(found) - handed, len(handed)), ({0, 1, 2}, count))

    def test_what_a_process_was_handed_is_open_there_alone(self):
        held = [name for name in self.open_in(os.getpid()).values() if name.startswith("/memfd:fle")]
        self.assertEqual(held, [])

    def test_what_a_process_was_handed_stays_as_it_was(self):
        process = child_of(self.fle._opening).pid
        for number, name in self.open_in(process).items():
            if name.startswith("/memfd:fle"):
                with open(f"/proc/{process}/fd/{number}", "r+b", buffering=0) as file, self.assertRaises(OSError):
                    file.write(b"x")

    def test_a_caller_that_has_no_standard_files(self):
        words = [sys.executable, "-c", NO_STANDARD, *map(str, FILES)]
        script = 'exec "$@" <&- >&- 2>&-'
        run = subprocess.run(["sh", "-c", script, "sh", *words], cwd=PACKAGE, timeout=60, check=False)
        self.assertEqual(run.returncode, 0)


class Interrupted(WithFle):
    def test_a_call_that_is_interrupted_between_writing_and_reading(self):
        with mock.patch("fle_driver.process.os.read", side_effect=KeyboardInterrupt):
            with self.assertRaises(KeyboardInterrupt):
                self.fle.encrypt(OTHER)
        self.assertEqual(self.fle.encrypt(COMMAND), sealed(COMMAND))

    def test_a_process_that_is_killed_between_calls(self):
        for kept in (self.fle._sealing, self.fle._opening):
            child_of(kept).kill()
            child_of(kept).wait()
        self.assertEqual(self.fle.decrypt(self.fle.encrypt(COMMAND)), COMMAND)

    def test_a_process_that_took_all_it_takes(self):
        first = child_of(self.fle._sealing).pid
        with mock.patch("fle_driver.kept.STREAM", 1):
            self.assertEqual(self.fle.encrypt(COMMAND), sealed(COMMAND))
        self.assertNotEqual(child_of(self.fle._sealing).pid, first)

    def test_use_after_close(self):
        with Fle(*FILES) as fle:
            processes = child_of(fle._sealing), child_of(fle._opening)
            self.assertEqual(fle.encrypt(COMMAND), sealed(COMMAND))
        for call in (fle.encrypt, fle.decrypt):
            with self.assertRaises(Closed):
                call(COMMAND)
        self.assertTrue(all(process.returncode is not None for process in processes))
        fle.close()

    def test_a_child_has_processes_of_its_own(self):
        source, sink = os.pipe()
        with self.fle._sealing._lock:  # as if another thread were in a call
            child = os.fork()
            if child == 0:
                signal.alarm(30)
                own = False
                try:
                    own = self.fle.encrypt(COMMAND) == sealed(COMMAND)
                    os.read(source, 1)  # lives on until the parent has closed
                finally:
                    os._exit(0 if own else 1)
        self.assertEqual(self.fle.encrypt(OTHER), sealed(OTHER))
        self.fle.close()
        os.write(sink, b".")
        self.assertEqual(os.waitpid(child, 0)[1], 0)
        os.close(source)
        os.close(sink)


class Beginnings(unittest.TestCase):
    def setUp(self):
        folder = tempfile.TemporaryDirectory()
        self.addCleanup(folder.cleanup)
        self.folder = Path(folder.name)

    def written(self, name, contents):
        (self.folder / name).write_bytes(contents)
        return self.folder / name

    def program(self, text):
        path = self.written("program", f"#!/bin/sh\n{text}\n".encode())
        path.chmod(path.stat().st_mode | stat.S_IXUSR)
        return path

    @unittest.skipUnless(shutil.which("fle"), "no fle in PATH")
    def test_faulty_files(self):
        twice = self.written("twice.bson", KEYS.read_bytes() * 2)
        for files, file, reason in (
                ((EXAMPLES / "nowhere", SCHEMAS, MASTER), EXAMPLES / "nowhere", FileFault.Missing),
                ((twice, SCHEMAS, MASTER), twice, KeyFault.IdTwice),
                ((KEYS, self.written("schemas", b"[{]"), MASTER), self.folder / "schemas", FileFault.Syntax),
                ((KEYS, SCHEMAS, self.written("master", bytes(95))), self.folder / "master", MasterFault.Length)):
            with self.assertRaises(FaultyFile) as faulty:
                Fle("hr", *files)
            self.assertEqual((faulty.exception.file, faulty.exception.reason), (str(file), reason))

    @unittest.skipUnless(shutil.which("fle"), "no fle in PATH")
    def test_files_that_change_behind_the_first_reading(self):
        copies = [self.written(file.name, file.read_bytes()) for file in (KEYS, SCHEMAS, MASTER)]
        changes = (lambda copy: copy.write_bytes(b""), lambda copy: copy.write_bytes(copy.read_bytes()[:9]),
                   Path.unlink)
        with Fle("hr", *copies) as fle:
            for copy, change in itertools.product(copies, changes):
                before = copy.read_bytes()
                change(copy)
                for call, refused in ((fle.encrypt, REFUSED), (fle.decrypt, SHORT)):
                    with self.assertRaises(Refused):  # behind a refusal another process begins
                        call(refused)
                self.assertEqual(fle.encrypt(OTHER), sealed(OTHER))
                self.assertEqual(fle.decrypt(sealed(OTHER)), OTHER)
                copy.write_bytes(before)

    @unittest.skipUnless(shutil.which("fle"), "no fle in PATH")
    def test_files_that_are_no_plain_files(self):
        pipes = []
        for file in (KEYS, SCHEMAS, MASTER):
            source, sink = os.pipe()
            self.addCleanup(os.close, source)
            os.write(sink, file.read_bytes())
            os.close(sink)
            pipes.append(f"/dev/fd/{source}")
        with Fle("hr", *pipes) as fle:
            self.assertEqual(fle.decrypt(fle.encrypt(OTHER)), OTHER)
        with self.assertRaises(Ended) as ended:
            Fle("hr", KEYS, self.folder, MASTER)
        self.assertEqual(ended.exception.status, Status.ReadFault)
        self.assertIn(str(self.folder), str(ended.exception))

    @unittest.skipUnless(shutil.which("fle"), "no fle in PATH")
    def test_a_file_that_is_too_long(self):
        with self.assertRaises(FaultyFile) as faulty:
            Fle("hr", "/dev/zero", SCHEMAS, MASTER)
        self.assertEqual((faulty.exception.file, faulty.exception.reason), ("/dev/zero", FileFault.TooLong))

    @unittest.skipUnless(shutil.which("fle"), "no fle in PATH")
    def test_a_database_that_is_no_word(self):
        with self.assertRaises(Ended) as ended:
            Fle("", *FILES[1:])
        self.assertEqual(ended.exception.status, 2)

    def test_no_program(self):
        with mock.patch.dict(os.environ, {"PATH": str(self.folder)}):
            with self.assertRaises(NotStarted):
                Fle(*FILES)

    def test_a_program_that_does_not_start(self):
        path = self.written("program", b"")
        path.chmod(0o700)
        with self.assertRaises(NotStarted):
            Fle(*FILES, program=path)

    def test_programs_that_are_another(self):
        for text in ("yes", "exit 0", "echo no such library >&2; exit 127", "printf '\\5\\0\\0\\0\\0too much'; cat"):
            with self.subTest(text), self.assertRaises(FleError):
                Kept([str(self.program(text))], []).ask(b"\5\0\0\0\0")

    def test_a_program_that_answers_while_it_reads(self):
        kept = Kept([str(self.program("exec cat"))], [])
        self.addCleanup(kept.close)
        document = spelled(binary("b", 0, bytes(LARGE)))
        self.assertEqual(kept.ask(document), document)
