"""Calls of the library of contrib/c from Python, kept as the driver in C reads them, and what they have to answer."""
import ctypes

from reference.bson import spell

NOTHING = b"\xa5"  # what stands at `out` before a call
LETTERS = {"fle_open": b"o", "fle_seal": b"s", "fle_unseal": b"u", "fle_mark": b"m", "fle_keys_wanted": b"k",
           "fle_keys_wanted_open": b"d", "fle_info_wanted": b"i",
           "fle_seal_value": b"v", "fle_value_keys_wanted": b"w",
           "fle_rewrap_key": b"r", "fle_make_key": b"g", "fle_version": b"z",
           "fle_start": b"b", "fle_put_info": b"p", "fle_forget_info": b"f", "fle_forget_infos": b"x",
           "fle_put_key": b"q", "fle_forget_keys": b"y"}
VALUES = "fle_seal_value", "fle_value_keys_wanted"
# Arguments that are numbers, of eight bytes here: by the call and the place among its arguments.
NUMBERS = {("fle_rewrap_key", 1): ctypes.c_int64, ("fle_make_key", 1): ctypes.c_int64,
           ("fle_open", 0): ctypes.c_uint32, ("fle_start", 0): ctypes.c_uint32}
DONE = 0, 0, 0, 0, 0, 0


class Slot(ctypes.Structure):
    _fields_ = [("engine", ctypes.c_void_p), ("full", ctypes.c_bool)]


class Answer(ctypes.Structure):
    _fields_ = [("status", ctypes.c_uint32), ("reason", ctypes.c_uint32), ("file", ctypes.c_uint32),
                ("place", ctypes.c_size_t), ("length", ctypes.c_size_t), ("random", ctypes.c_size_t)]

    def numbers(self):
        return self.status, self.reason, self.file, self.place, self.length, self.random


class Need(ctypes.Structure):
    _fields_ = [("room", ctypes.c_size_t), ("random", ctypes.c_size_t)]


class Library:
    """Calls by ctypes; each is kept, as the driver in C reads it."""

    def __init__(self, path):
        self.calls, self.slot = ctypes.CDLL(path), Slot()
        for name in LETTERS:
            getattr(self.calls, name).restype = Answer
        self.calls.fle_needed.restype = Need
        self.said, self.told = bytearray(), bytearray()

    def call(self, name, arguments, room=None):
        self.said += LETTERS[name]
        words = [] if name == "fle_version" else [ctypes.byref(self.slot)]
        for number, argument in enumerate(arguments):
            self.said += len(argument).to_bytes(8, "little") + argument
            if name in VALUES and number == 0:  # two flags: by a name, random
                words.append(ctypes.c_bool(argument[0]))
                continue
            if (name, number) in NUMBERS:
                words.append(NUMBERS[name, number](int.from_bytes(argument, "little", signed=True)))
                continue
            words += [argument, ctypes.c_size_t(len(argument))]
            if name == "fle_seal_value" and number == 1:
                words.append(ctypes.c_bool(arguments[0][1]))
        out = ctypes.create_string_buffer(NOTHING * (room or 0), room or 1)
        if room is not None:
            self.said += room.to_bytes(8, "little")
            words += [out, ctypes.c_size_t(room)]
        numbers = getattr(self.calls, name)(*words).numbers()
        left = out.raw[:room or 0]
        self.told += b"".join(number.to_bytes(8, "little") for number in numbers) + left
        return numbers, left

    def close(self):
        self.said += b"c"
        self.calls.fle_close(ctypes.byref(self.slot))

    def needed(self, size):
        need = self.calls.fle_needed(ctypes.c_size_t(size))
        self.said += b"n" + size.to_bytes(8, "little")
        self.told += need.room.to_bytes(8, "little") + need.random.to_bytes(8, "little")
        return need


def offset_of(elements, place):
    """Where the value at a place begins in the document; 0 for the document itself."""
    at = 0
    for number in place:
        at += 4
        for tag, name, value in elements[:number]:
            at += len(name.encode("utf-8", "surrogateescape")) + 2 + len(spell(value))
        name, elements = elements[number][1], elements[number][2]
        at += len(name.encode("utf-8", "surrogateescape")) + 2
    return at


def expect(came, numbers, written, room, what):
    wanted = numbers, written + NOTHING * (room - len(written))
    if came != wanted:
        raise AssertionError(f"{what}: wanted {wanted[0]} and {len(written)} bytes, came {came[0]}"
                             + ("" if came[1] == wanted[1] else ", with other bytes at out"))


def refusal(elements, refused):
    place, reason = refused
    return 1, reason, 0, offset_of(elements, place), 0, 0
