"""Replies of every length, opened: what they hold is what one document after the other gives."""
import shutil
import unittest
from unittest import mock

from bson.raw_bson import DEFAULT_RAW_BSON_OPTIONS, RawBSONDocument

from fle_driver import Fle, Limit, Reason, Refused
from fle_driver.process import LONGEST
from fle_driver.replies import HEADS, MOST, may_hold_payloads, opened
from fle_driver.walk import elements

from .samples import FILES, ODD, PERSON, binary, element, insert, integer, sealed, spelled, string
from .wire import WithClients, batch

LEAST = 82  # bytes of a payload
SHORT = spelled(string("ssn", "123-45-6789"))


def stored(person):
    """A person as the server has it."""
    (field,) = (part for part in elements(sealed(insert(person))) if part.name == "documents")
    (one,) = elements(field.value)
    return one.value


def array(name, *parts):
    return element(4, name, spelled(*(element(3, str(at), part) for at, part in enumerate(parts))))


def reply(*parts):
    """A reply of a cursor with this batch."""
    return spelled(element(3, "cursor", spelled(array("firstBatch", *parts), integer("id", 0))), integer("ok", 1))


def filled(size, *parts):
    """A document of so many bytes that ends with these elements."""
    room = size - len(spelled(binary("filling", 0, b""), *parts))
    return spelled(binary("filling", 0, bytes(room)), *parts)


class Parts(unittest.TestCase):
    """Over a way to open that changes each document, and tells of it."""

    def setUp(self):
        self.asked = []

    def open_one(self, document):
        self.asked.append(document)
        return document.replace(b" ", b"_")

    def opened(self, document, most):
        with mock.patch("fle_driver.replies.MOST", most):
            return opened(document, self.open_one)

    def test_what_holds_no_payload(self):
        for document in (spelled(), reply(PERSON), spelled(binary("m", 6, b"\0" + spelled())), filled(MOST + 1)):
            self.assertIs(self.opened(document, 9), document)
        self.assertEqual(self.asked, [])

    def test_each_kind_of_payload(self):
        for kind in HEADS:
            self.assertTrue(may_hold_payloads(spelled(binary("p", 6, kind[1:] + bytes(LEAST - 1)))))

    def test_one_that_is_not_too_long(self):
        document = reply(spelled(binary("a", 6, b"\1sealed")))
        self.opened(document, len(document))
        self.assertEqual(self.asked, [document])

    def test_one_that_is_too_long(self):
        first, plain, last = spelled(string("a", "\6\1 first")), spelled(string("b", "plain")), string("c", "\6\2 last")
        document = spelled(element(3, "cursor", spelled(array("nextBatch", first, plain, first))), last, ODD[0],
                           b"\x0a\xff\0")
        self.assertEqual(self.opened(document, 40), document.replace(b" ", b"_"))
        self.assertEqual(self.asked, [first, first, spelled(last)])


@unittest.skipUnless(shutil.which("fle"), "no fle in PATH")
class Lengths(unittest.TestCase):
    @classmethod
    def setUpClass(cls):
        cls.person = stored(PERSON)
        cls.fle = Fle(*FILES, program="fle")
        cls.addClassCleanup(cls.fle.close)

    def test_parts_are_put_together_again(self):
        payload = next(part for part in elements(self.person) if part.name == "ssn")
        whole = reply(self.person, spelled(string("b", "\6\1"), array("friends", self.person, self.person)), spelled())
        whole = spelled(payload.spelled(), *(part.spelled() for part in elements(whole)), string("b", "\6\1"))
        wanted = self.fle.decrypt(whole)
        self.assertIn(b"123-45-6789", wanted)
        for most in (len(whole) - 1, len(whole) // 2, len(self.person), len(self.person) - 1):
            with self.subTest(most), mock.patch("fle_driver.replies.MOST", most):
                self.assertEqual(opened(whole, self.fle.decrypt), wanted)

    def test_a_batch_of_a_document_of_the_greatest_length(self):
        tail = [part.spelled() for part in elements(self.person)]
        whole = reply(filled(MOST, *tail), self.person)
        self.assertEqual(opened(whole, self.fle.decrypt),
                         reply(self.fle.decrypt(filled(MOST, *tail)), self.fle.decrypt(self.person)))
        self.assertEqual(self.fle.decrypt(whole), opened(whole, self.fle.decrypt))
        long = spelled(binary("f", 0, bytes(LONGEST - 12)))
        self.assertEqual(len(long), LONGEST + 1)
        with self.assertRaises(Refused) as refused:
            self.fle.decrypt(long)
        self.assertEqual((refused.exception.status, refused.exception.reason), (9, Limit.Document))

    def test_what_is_no_document(self):
        for document in (filled(MOST)[:-1], filled(MOST) + b"\0"):
            self.assertRaises(ValueError, self.fle.decrypt, document)

    def test_refusals_tell_the_same_place(self):
        spoiled = self.person[:-1].replace(b"\x06\x01\x00\x11", b"\x06\x01\x00\x12") + b"\0"
        payload = next(part for part in elements(spoiled) if part.name == "ssn")
        for whole in (reply(self.person, spoiled), spelled(integer("first", 1), payload.spelled())):
            for most in (len(whole), len(whole) - 1, len(spoiled), 40):
                with self.subTest(most), mock.patch("fle_driver.replies.MOST", most):
                    with self.assertRaises(Refused) as refused:
                        opened(whole, self.fle.decrypt)
                error = refused.exception
                place = (0, 0, 1, 1) if whole[4] == 3 else (1,)
                fields = "cursor.firstBatch.1.ssn" if whole[4] == 3 else "ssn"
                self.assertEqual((error.reason, error.place, error.fields), (Reason.KeyMissing, place, fields))
                self.assertEqual(str(error), f"KeyMissing at {fields} (place {'.'.join(map(str, place))})")


class OnTheWire(WithClients):
    def setUp(self):
        super().setUp()
        self.fle = Fle(*FILES, program="fle")
        self.raw = self.client_of(self.fle).hr.people.with_options(codec_options=DEFAULT_RAW_BSON_OPTIONS)

    def test_documents_of_the_greatest_length(self):
        plain = filled(MOST)
        tail = [part.spelled() for part in elements(stored(SHORT))]
        self.wire.replies = [batch("firstBatch", 7, plain), batch("nextBatch", 0, filled(MOST, *tail))]
        first, second = self.raw.find()
        self.assertEqual(first.raw, plain)
        self.assertEqual(second["ssn"], "123-45-6789")

    def test_a_write_whose_reply_holds_nothing_is_not_asked_for(self):
        with mock.patch.object(self.fle, "decrypt", side_effect=AssertionError):
            self.raw.insert_one(RawBSONDocument(PERSON))
            self.raw.update_one({}, {"$inc": {"n": 1}})
        self.assertEqual(len(self.wire.came), 2)

    def test_a_process_that_ended_behind_a_write(self):
        self.wire.replies = [{"ok": 1, "n": 1, "nModified": 1, "was": RawBSONDocument(stored(SHORT))}]
        child = self.fle._opening._process._child
        child.kill()
        child.wait()
        with mock.patch("fle_driver.process.Process.has_ended", return_value=False):
            self.assertEqual(self.raw.update_one({}, {"$inc": {"n": 1}}).modified_count, 1)
        self.assertEqual([next(iter(command)) for command in self.wire.came], ["update"])
