"""Runs of the program that make key documents: how they end where it gives no answer."""
import shutil
import unittest
from pathlib import Path

from fle_driver import FaultyFile, MasterFault, NotStarted, TimedOut
from fle_driver.program_keys import KeysByProgram

from .samples import KEYS, program
from .vaults import LOCAL

VAULT = "the keys", KEYS.read_bytes()


class Ends(unittest.TestCase):
    def keys(self, path, master=LOCAL, timeout=60):
        return KeysByProgram(path, VAULT, ("the master key", master), timeout)

    def test_a_program_that_does_not_start(self):
        with self.assertRaises(NotStarted):
            self.keys("/nowhere/fle").make_key([])
        with program("exec sleep 60") as path:
            Path(path).write_text("#!/nowhere/sh\n")
            self.assertRaises(NotStarted, self.keys(path).make_key, [])

    def test_a_program_without_an_answer(self):
        with program("exec sleep 60") as path:
            keys = self.keys(path, timeout=0.3)
            self.assertRaises(TimedOut, keys.make_key, [])
            self.assertRaises(TimedOut, keys.rewrap_keys, VAULT, ("new", LOCAL))

    @unittest.skipUnless(shutil.which("fle"), "no fle in PATH")
    def test_a_master_key_at_fault(self):
        with self.assertRaises(FaultyFile) as faulty:
            self.keys("fle", LOCAL[1:]).make_key([])
        self.assertEqual((faulty.exception.file, faulty.exception.reason), ("the master key", MasterFault.Length))
