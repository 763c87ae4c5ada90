"""Runs of the program fle over commands of one skeleton: the same lengths, types and rules, other values and keys."""
import hashlib
import shutil
import struct
import subprocess

from documents import elements_of, payloads_of
from forge import cbc, data_key, sealed as sealed_blocks

KEY_ID = bytes.fromhex("00112233445546778899aabbccddeeff")  # that of examples/people.schemas.json
ENCRYPT = ["encrypt", "hr", "keys.bson", "schemas.json", "master.key"]
DECRYPT = ["decrypt", "keys.bson", "master.key"]
HEAD, IV, TAG = 18, 16, 32  # how long the parts of a payload are around its blocks
TAG_PLACES = (0, 10, 21, 31)
# Ends of a last block that stand in place of 03 03 03, and are no padding.
WRONG_ENDS = [bytes.fromhex(end) for end in
              ("030300", "030302", "030304", "030310", "030311", "0303ff", "020303", "03fd03")]


def drawn(turn, name, size):
    """So many bytes, others for each turn and name."""
    return hashlib.shake_256(b"%d %s" % (turn, name)).digest(size)


def element(tag, name, value):
    return bytes([tag]) + name + b"\0" + value


def document(*elements):
    body = b"".join(elements)
    return struct.pack("<i", len(body) + 5) + body + b"\0"


def string(text):
    return struct.pack("<i", len(text) + 1) + text + b"\0"


def salaries(turn, more):
    """Values of several types, protected at random, as a tag and a value; `more` bytes are added to one of them."""
    text = drawn(turn, b"text", 100).hex().encode()
    yield 16, drawn(turn, b"int", 4)
    yield 18, drawn(turn, b"long", 8)
    yield 1, drawn(turn, b"double", 8)
    yield 2, string(text[:40])
    yield 2, string(text + b"x" * more)
    yield 5, struct.pack("<iB", 1000, 0) + drawn(turn, b"binary", 1000)
    yield 3, document(element(2, b"per", string(text[:5])), element(16, b"sum", drawn(turn, b"sum", 4)))


def command_of(turn, more=0):
    """An insert of people, each with a value that is protected deterministically and one at random."""
    people = [document(element(2, b"ssn", string(drawn(turn, b"ssn %d" % at, 6).hex().encode()[:11])),
                       element(tag, b"salary", value)) for at, (tag, value) in enumerate(salaries(turn, more))]
    array = document(*(element(3, b"%d" % at, person) for at, person in enumerate(people)))
    return document(element(2, b"insert", string(b"people")), element(4, b"documents", array),
                    element(2, b"$db", string(b"hr")))


def answer(program, words, folder, stdin=b""):
    """What the program writes; it has to end with status 0."""
    run = subprocess.run([program] + words, input=stdin, cwd=folder, stdout=subprocess.PIPE, check=True)
    return run.stdout


def prepare(program, turn, folder, schemas):
    """Writes a master key and a vault of a key that `fle keygen` made under it, under the id that the rules name."""
    with open(f"{folder}/master.key", "wb") as file:
        file.write(drawn(turn, b"master", 96))
    key = answer(program, ["keygen", "master.key", "hr-key"], folder)
    front, mark, rest = key.partition(b"\x05_id\0\x10\0\0\0\x04")
    if not mark:
        raise ValueError("fle keygen wrote no id")
    with open(f"{folder}/keys.bson", "wb") as file:
        file.write(front + mark + KEY_ID + rest[16:])
    shutil.copy(schemas, f"{folder}/schemas.json")


def runs_of(program, turn, folder):
    """A turn's words and inputs, encrypting and decrypting, after what was sealed was seen to open to the command."""
    command = command_of(turn)
    sealed = answer(program, ENCRYPT, folder, command)
    if answer(program, DECRYPT, folder, sealed) != command or drawn(turn, b"binary", 1000) in sealed:
        raise ValueError("the command wasn't sealed, or didn't open")
    return [(ENCRYPT, command), (DECRYPT, sealed)]


def other_runs(command, sealed):
    """Runs whose traces have to be others: a value a block longer, and a tag that is wrong in its last byte."""
    place = sealed.rindex(b"\x02$db\0") - 3
    changed = sealed[:place] + bytes([sealed[place] ^ 1]) + sealed[place + 1:]
    return [("a value a block longer", ENCRYPT, command), ("a wrong tag", DECRYPT, changed)]


def refusal(program, folder, stdin):
    """The reason for which `fle decrypt` refuses the first document; None where it doesn't."""
    run = subprocess.run([program] + DECRYPT, input=stdin, cwd=folder, capture_output=True, check=False)
    return int(run.stderr.split()[3]) if run.returncode == 1 and not run.stdout else None


def with_wrong_tags(sealed):
    """The sealed command with the tag of its last payload changed, at one place after the other."""
    payload = payloads_of(elements_of(sealed))[-1]
    tag = sealed.rindex(payload) + len(payload) - TAG
    return [sealed[:tag + at] + bytes([sealed[tag + at] ^ 0xFF]) + sealed[tag + at + 1:] for at in TAG_PLACES]


def with_wrong_paddings(sealed, folder):
    """The sealed command with other last bytes in the blocks of its last payload, each under its right tag."""
    with open(f"{folder}/master.key", "rb") as master, open(f"{folder}/keys.bson", "rb") as keys:
        key = data_key(master.read(), keys.read())
    payload = payloads_of(elements_of(sealed))[-1]
    head, iv, blocks = payload[:HEAD], payload[HEAD:HEAD + IV], payload[HEAD + IV:-TAG]
    plain = cbc("-d", key[32:64], iv, blocks)
    if not plain.endswith(b"\3\3\3"):
        raise ValueError("the last value has another padding than three bytes")
    return [sealed.replace(payload, head + sealed_blocks(key, head, plain[:-3] + end)) for end in WRONG_ENDS]
