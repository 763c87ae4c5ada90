#!/usr/bin/env python3
"""Writes the documents of two files in turn: each command, and behind it the marking reply to it. Where the replies end
first, or are cut, the pairs end there too. Needs no package.

    python3 examples/python/pairs.py COMMANDS REPLIES | fle encrypt-with ..
"""
import os
import struct
import sys


def stated(head):
    return struct.unpack("<i", head)[0] if len(head) == 4 else 0


def document(source):
    """The next document, by its first four bytes; what is left, where that is less; nothing at the end."""
    head = source.read(4)
    return head + source.read(max(0, stated(head) - 4))


def main(commands, replies):
    while command := document(commands):
        reply = document(replies)
        sys.stdout.buffer.write(command + reply)
        if len(reply) < 5 or len(reply) < stated(reply[:4]):
            return
    if replies.read(1):
        sys.exit("pairs.py: there are more replies than commands")


with open(sys.argv[1], "rb") as first, open(sys.argv[2], "rb") as second:
    try:
        main(first, second)
        sys.stdout.flush()
    except BrokenPipeError:  # who reads the pairs has ended, and said why
        os.dup2(os.open(os.devnull, os.O_WRONLY), sys.stdout.fileno())
