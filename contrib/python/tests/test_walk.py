"""A walk over a document that has a value of each type of BSON."""
import unittest

from fle_driver.walk import elements, field_names

from .samples import binary, element, integer, spelled, string

TEXT = b"\2\0\0\0x\0"
INNER = spelled(string("a", "b"))
VALUES = {1: bytes(8), 2: TEXT, 3: INNER, 4: INNER, 6: b"", 7: bytes(12), 8: b"\1", 9: bytes(8), 10: b"",
          11: b"pattern\0i\0", 12: TEXT + bytes(12), 13: TEXT, 14: TEXT,
          15: (4 + len(TEXT) + len(INNER)).to_bytes(4, "little") + TEXT + INNER, 16: bytes(4), 17: bytes(8),
          18: bytes(8), 19: bytes(16), 127: b"", 255: b""}
WHOLE = spelled(*(element(tag, f"t{tag}", value) for tag, value in VALUES.items()), binary("bytes", 0, b"\0\1\2"),
                element(3, "last", spelled(integer("first", 1), string("señal", "s"))))


class Walk(unittest.TestCase):
    def test_elements(self):
        found = list(elements(WHOLE))
        self.assertEqual([(part.tag, part.name, part.value) for part in found[:len(VALUES)]],
                         [(tag, f"t{tag}", value) for tag, value in VALUES.items()])
        self.assertEqual(found[len(VALUES)].value, b"\3\0\0\0\0\0\1\2")

    def test_names_that_are_no_texts(self):
        for name in (b"\xff", b"a\xed\xa0\x80b", b"\xc3"):
            document = spelled(b"\3" + name + b"\0" + spelled(b"\x0a" + name + b"\0"))
            self.assertEqual(spelled(*(part.spelled() for part in elements(document))), document)
            told = name.decode("utf-8", "replace")
            self.assertEqual(field_names(document, (0, 0)), f"{told}.{told}")

    def test_names(self):
        last = len(VALUES) + 1
        self.assertEqual(field_names(WHOLE, (last, 1)), "last.señal")
        self.assertEqual(field_names(WHOLE, (last,)), "last")
        self.assertEqual(field_names(WHOLE, ()), "")
