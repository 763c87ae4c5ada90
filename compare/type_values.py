"""Values of each type that a rule may allow, for the comparisons of payloads and of values."""
import struct
import subprocess

from reference.bson import ARRAY, DOCUMENT, STRING, array, binary, spell, text
from sides import JUDGE, unframed

LENGTHS = [*range(65), 100_000]


def filler(count):
    return bytes(33 + number % 90 for number in range(count))


def values_of(tag):
    """The bytes of values of a type: libbson's; and all bytes 00 and FF of a fixed width, or every length."""
    documents = unframed(subprocess.run([JUDGE, "write"], stdout=subprocess.PIPE, check=True).stdout)
    value = next(document[7:-1] for document in documents if document[4] == tag)
    if tag in (2, 13, 14):
        return [value, *(text(filler(count).decode()) for count in LENGTHS)]
    if tag == 5:
        return [value, *(binary(subtype, filler(count)) for subtype in (0, 4, 0x80) for count in LENGTHS)]
    if tag in (3, 4):
        inner = array(STRING, [text(filler(count).decode()) for count in (1, 100)])
        return [value, spell([]), spell(inner), spell([(DOCUMENT, "0", inner), (ARRAY, "1", inner)])]
    if tag == 15:
        scope = text("g()") + spell([(STRING, "s", text("t"))])
        return [value, struct.pack("<i", 4 + len(scope)) + scope]
    if tag == 11:
        return [value, b"\0\0", filler(40) + b"\0\0"]
    if tag == 12:
        return [value, text("") + bytes(12)]
    return [value, bytes(len(value)), (b"\1" if tag == 8 else b"\xff") * len(value)]
