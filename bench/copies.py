"""Copies of fle_bench with other keys, for the scripts of this folder."""
import hashlib
import os

CBC_KEY = bytes.fromhex("603deb1015ca71be2b73aef0857d77811f352c073b6108d72d9810a30914dff4")  # SP 800-38A, F.2.5
DATA_KEY = bytes(range(0x80, 0xe0))


def other_part(turn, part):
    """What stands in a copy in place of 16 bytes of a key; in copy 0 these bytes themselves."""
    return hashlib.sha256(bytes([turn]) + part).digest()[:16] if turn else part


def other_key(turn, key):
    """The key of a copy."""
    return b"".join(other_part(turn, key[at:at + 16]) for at in range(0, len(key), 16))


def with_key(program, turn, folder):
    """A copy of the program in which each whole 16 bytes of a key are others, and how many were found."""
    code = bytearray(open(program, "rb").read())
    found = 0
    for key in (CBC_KEY, DATA_KEY):
        for at in range(0, len(key), 16):
            part = key[at:at + 16]
            place = code.find(part)
            while place >= 0:
                found += 1
                code[place:place + 16] = other_part(turn, part)
                place = code.find(part, place + 16)
    # One name for all copies, since the name of a program stands on its stack.
    copy = os.path.join(folder, "traced")
    with open(copy, "wb") as file:
        file.write(code)
    os.chmod(copy, 0o755)
    return copy, found
