"""Processes that end, that stop, and that nobody names any more."""
import gc
import itertools
import os
import shutil
import signal
import subprocess
import sys
import time
import unittest
from concurrent.futures import ThreadPoolExecutor
from pathlib import Path
from unittest import mock

from fle_driver import Ended, Fle, Refused, TimedOut
from fle_driver.kept import Kept
from fle_driver.process import Process

from .samples import FILES, binary, element, insert, program, sealed, spelled, string

COMMAND = insert(spelled(string("ssn", "987-65-4321")))
REFUSED = insert(spelled(element(10, "ssn", b"")))
LARGE = insert(spelled(binary("unprotected", 0, bytes(4_000_000))))
ALIKE = b"\5\0\0\0\0"
PACKAGE = Path(__file__).parents[1]
AT_ITS_DEFAULT = """
import os, signal, sys
from fle_driver import Ended
from fle_driver.kept import Kept
signal.signal(signal.SIGPIPE, signal.SIG_DFL)
size = 16_000_000
try:
    Kept([sys.argv[1]], []).ask(size.to_bytes(4, "little") + bytes(size - 4))
except Ended:
    os._exit(0)
os._exit(1)
"""
DROPPED_AT_THE_END = """
import os, sys
from fle_driver import Fle
fle = Fle(*sys.argv[1:], program="fle")
print(fle._sealing._process._child.pid, fle._opening._process._child.pid)
"""
FORKED = """
import os, sys
from fle_driver import Fle
fle = Fle(*sys.argv[1:], program="fle")
before = fle._sealing._process
child = os.fork()
if child == 0:
    sys.exit(0)
os.waitpid(child, 0)
sys.exit(0 if before.has_ended() is False and fle._sealing._process is before else 1)
"""


def setUpModule():
    """Processes, also where the system finds the library."""
    found = mock.patch("fle_driver.fle.loaded", return_value=None)
    found.start()
    unittest.addModuleCleanup(found.stop)


def children_of(fle):
    """The processes that are kept."""
    return fle._sealing._process._child, fle._opening._process._child


def is_there(number):
    """Whether a process is there, be it that its end was not waited for."""
    return os.path.exists(f"/proc/{number}")


@unittest.skipUnless(shutil.which("fle"), "no fle in PATH")
class Killed(unittest.TestCase):
    def setUp(self):
        self.fle = Fle(*FILES)
        self.addCleanup(self.fle.close)
        self.asked = []

    def killing(self, turns):
        """Kills the process that is asked, so often."""
        answer = Process.answer

        def answer_of(process, *words):
            self.asked.append(process)
            if len(self.asked) <= turns:
                process._child.kill()
                process._child.wait()
            return answer(process, *words)

        return mock.patch.object(Process, "answer", answer_of)

    def test_once_within_a_call(self):
        with self.killing(1):
            self.assertEqual(self.fle.encrypt(COMMAND), sealed(COMMAND))
        self.assertEqual(len(self.asked), 2)

    def test_each_time(self):
        with self.killing(9), self.assertRaises(Ended) as ended:
            self.fle.encrypt(COMMAND)
        self.assertEqual((ended.exception.status, len(self.asked)), (-signal.SIGKILL, 2))
        self.assertEqual(self.fle.encrypt(COMMAND), sealed(COMMAND))

    def test_a_refusal_is_not_asked_for_again(self):
        with self.killing(0), self.assertRaises(Refused):
            self.fle.encrypt(REFUSED)
        self.assertEqual(len(self.asked), 1)

    def test_a_reader_that_is_gone_ends_no_program(self):
        with program("exec head -c 9") as path:
            words = [sys.executable, "-c", AT_ITS_DEFAULT, path]
            run = subprocess.run(words, cwd=PACKAGE, timeout=60, check=False)
        self.assertEqual(run.returncode, 0)


@unittest.skipUnless(shutil.which("fle"), "no fle in PATH")
class Stopped(unittest.TestCase):
    def setUp(self):
        self.fle = Fle(*FILES)
        self.addCleanup(self.fle.close)

    def stop(self, kept):
        """Stops a process that is kept; its number."""
        kept._timeout = 0.3
        kept._process._child.send_signal(signal.SIGSTOP)
        return kept._process._child.pid

    def test_calls_and_what_follows(self):
        for kept, document in itertools.product((self.fle._sealing, self.fle._opening), (COMMAND, LARGE)):
            number, began = self.stop(kept), time.monotonic()
            with self.subTest(len(document)), self.assertRaisesRegex(TimedOut, "within 0.3 seconds"):
                kept.ask(document)
            self.assertGreaterEqual(time.monotonic() - began, 0.3)
            self.assertFalse(is_there(number))
            kept._timeout = 60
            self.assertEqual(self.fle.decrypt(self.fle.encrypt(COMMAND)), COMMAND)

    def test_threads_wait_no_longer(self):
        self.stop(self.fle._sealing)
        with mock.patch.object(Process, "stop", lambda process: time.sleep(1)), ThreadPoolExecutor(4) as threads:
            raised = [call.exception(10) for call in [threads.submit(self.fle.encrypt, COMMAND) for _ in range(4)]]
        self.assertEqual({type(error) for error in raised}, {TimedOut})


class Others(unittest.TestCase):
    def test_a_program_that_closes_its_output_and_stays(self):
        with program("exec >&-; exec sleep 60") as path, self.assertRaises(TimedOut):
            Kept([path], [], 0.3).ask(ALIKE)

    def test_timeouts_that_are_none(self):
        for timeout in (0, -1, float("nan"), float("inf"), 1e7):
            with self.subTest(timeout), self.assertRaises(ValueError):
                Fle(*FILES, timeout=timeout)

    @unittest.skipUnless(shutil.which("fle"), "no fle in PATH")
    def test_without_a_timeout(self):
        with Fle(*FILES, timeout=None) as fle:
            self.assertEqual(fle.decrypt(fle.encrypt(COMMAND)), COMMAND)


@unittest.skipUnless(shutil.which("fle"), "no fle in PATH")
class Dropped(unittest.TestCase):
    def test_one_that_is_not_closed(self):
        fle = Fle(*FILES)
        fle.decrypt(fle.encrypt(COMMAND))
        numbers = [child.pid for child in children_of(fle)]
        os.kill(numbers[0], signal.SIGSTOP)  # it doesn't see that its input ends
        self.assertTrue(all(map(is_there, numbers)))
        del fle
        gc.collect()
        self.assertFalse(any(map(is_there, numbers)))

    def test_where_the_interpreter_ends(self):
        words = [sys.executable, "-c", DROPPED_AT_THE_END, *map(str, FILES)]
        run = subprocess.run(words, cwd=PACKAGE, stdout=subprocess.PIPE, timeout=60, check=True)
        numbers = run.stdout.split()
        self.assertEqual((len(numbers), [number for number in numbers if is_there(int(number))]), (2, []))

    def test_a_fork_that_ends_leaves_them(self):
        words = [sys.executable, "-c", FORKED, *map(str, FILES)]
        self.assertEqual(subprocess.run(words, cwd=PACKAGE, timeout=60, check=False).returncode, 0)
