"""The enums are the tables of docs/errors.tsv; the line of a process becomes an exception."""
import pickle
import unittest

from fle_driver import (Ended, FaultyFile, FileFault, InputFault, KeyFault, Limit, MasterFault, Reason, Refused,
                        SchemaFault, Status)
from fle_driver.errors import ended
from fle_driver.library import Call

from .samples import TOP, insert, spelled, string

TABLES = {"status": Status, "reason": Reason, "input": InputFault, "limit": Limit, "file": FileFault,
          "master": MasterFault, "key": KeyFault, "schema": SchemaFault, "call": Call}
COMMAND = insert(spelled(string("name", "x"), string("ssn", "y")))


def said(line, status, answered=0):
    return ended(status, line, COMMAND, answered, ["/keys", "/schemas", "/master"])


class Faults(unittest.TestCase):
    def test_each_table_is_an_enum(self):
        rows = [row.split("\t") for row in (TOP / "docs/errors.tsv").read_text().splitlines()[1:]]
        self.assertEqual({row[0] for row in rows}, set(TABLES))
        for table, enum in TABLES.items():
            wanted = {row[2]: int(row[1]) for row in rows if row[0] == table}
            self.assertEqual({member.name: member.value for member in enum}, wanted)

    def test_a_refusal(self):
        error = said("fle: 1 5 5 1.0.1\n", 1, answered=4)
        self.assertIsInstance(error, Refused)
        self.assertEqual((error.status, error.document, error.reason), (Status.Refused, 1, Reason.TypeNotAllowed))
        self.assertEqual((error.place, error.fields), ((1, 0, 1), "documents.0.ssn"))
        self.assertEqual(str(error), "TypeNotAllowed at documents.0.ssn (place 1.0.1)")

    def test_a_refusal_of_the_command_itself(self):
        error = said("fle: 1 1 2 -\n", 1)
        self.assertEqual((error.place, error.fields), ((), ""))

    def test_no_bson_and_limits_are_refusals(self):
        for line, reason, place in (("fle: 3 2 1 12\n", InputFault.Short, (12,)), ("fle: 9 2 2 -\n", Limit.Output, ())):
            error = said(line, int(line[5]), answered=1)
            self.assertIsInstance(error, Refused)
            self.assertEqual((error.document, error.reason, error.place), (1, reason, place))

    def test_a_faulty_file(self):
        for line, file, reason in (("fle: 4 1 25 3\n", "/keys", KeyFault.IdTwice),
                                   ("fle: 4 2 33 0\n", "/schemas", FileFault.Syntax),
                                   ("fle: 4 2 42 1\n", "/schemas", SchemaFault.Shape),
                                   ("fle: 4 3 10 0\n", "/master", MasterFault.Length)):
            error = said(line, 4)
            self.assertIsInstance(error, FaultyFile)
            self.assertEqual((error.file, error.reason, error.document), (file, reason, 0))

    def test_other_ends_are_no_refusals(self):
        for line, status in (("fle: 8 0 0 -\n", 8), ("fle: 7 3 0 -\n", 7), ("", -9), ("no such library\n", 127)):
            error = said(line, status, answered=2)
            self.assertIs(type(error), Ended)
            self.assertEqual((error.status, error.document, error.reason), (status, int(status == 7), None))

    def test_a_number_without_a_name(self):
        error = said("fle: 1 1 99 1\n", 1)
        self.assertEqual((error.reason, str(error)), (None, "number 99 at documents (place 1)"))

    def test_an_error_goes_to_another_process(self):
        for error in (said("fle: 1 1 5 1.0.1\n", 1), said("fle: 4 1 25 3\n", 4)):
            again = pickle.loads(pickle.dumps(error))
            self.assertEqual((type(again), str(again), vars(again)), (type(error), str(error), vars(error)))
