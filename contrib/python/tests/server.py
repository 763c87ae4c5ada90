"""A mock server over sockets, for where mockupdb isn't to be had: OP_MSG, and OP_QUERY for the handshake of drivers."""
import socket
import struct
import threading

import bson
from bson.raw_bson import DEFAULT_RAW_BSON_OPTIONS, RawBSONDocument
from bson.son import SON

from fle_driver.walk import elements, spelled

from .samples import element

HEAD = struct.Struct("<iiii")  # length, number of the message, what it answers, kind
REPLY, QUERY, MESSAGE = 1, 2004, 2013
CHECKSUM, MORE_TO_COME = 1, 2
HELLO = {"ok": 1, "ismaster": True, "minWireVersion": 0, "maxWireVersion": 8, "maxBsonObjectSize": 16_777_216,
         "maxMessageSizeBytes": 48_000_000, "maxWriteBatchSize": 100_000, "logicalSessionTimeoutMinutes": 30}


class Server:
    """The commands that came, as raw documents, with the documents that were sent beside them as their last field; the
    bytes of all messages; and the replies to those that will come. To more it says that one document was written."""

    def __init__(self):
        self.forget()
        self._listening = socket.create_server(("127.0.0.1", 0), backlog=128)
        self.uri = f"mongodb://127.0.0.1:{self._listening.getsockname()[1]}/"
        self._accepting = threading.Thread(target=self._accept, daemon=True)
        self._accepting.start()

    def forget(self):
        """What a test begins with."""
        self.came, self.replies, self.received = [], [], bytearray()

    def stop(self):
        self._listening.shutdown(socket.SHUT_RDWR)  # wakes what waits for a connection; to close wouldn't
        self._accepting.join()
        self._listening.close()

    def last(self, field):
        """A field of the last command: the bytes of a document, or of each document of an array."""
        value = self.came[-1][field]
        return value.raw if isinstance(value, RawBSONDocument) else [document.raw for document in value]

    def _accept(self):
        while True:
            try:
                connection, _ = self._listening.accept()
            except OSError:
                return
            threading.Thread(target=self._serve, args=(connection,), daemon=True).start()

    def _serve(self, connection):
        """Answers one message after the other, until the client closes."""
        with connection, connection.makefile("rb") as stream:
            try:
                while head := stream.read(HEAD.size):
                    length, number, _, kind = HEAD.unpack(head)
                    answer = self._answered(kind, stream.read(length - HEAD.size))
                    if answer is not None:
                        of, body = answer
                        connection.sendall(HEAD.pack(HEAD.size + len(body), 1, number, of) + body)
            except OSError:
                return

    def _answered(self, kind, body):
        """The kind and the body of the answer to a message; None to one that wants none."""
        if kind == QUERY:
            return REPLY, struct.pack("<iqii", 8, 0, 0, 1) + bson.encode(HELLO)
        assert kind == MESSAGE
        (flags,) = struct.unpack_from("<I", body)
        command = command_of(body[4:len(body) - 4 * bool(flags & CHECKSUM)])
        reply = self._reply(command, body)
        return None if flags & MORE_TO_COME else (MESSAGE, bytes(5) + bson.encode(SON(reply)))

    def _reply(self, command, body):
        """The next reply; neither the handshake nor the end of sessions is a command of a test."""
        name = next(iter(command)).lower()
        if name in ("ismaster", "hello"):
            return HELLO
        if name == "endsessions":
            return {"ok": 1}
        self.received += body
        self.came.append(command)
        return self.replies.pop(0) if self.replies else {"ok": 1, "n": 1, "nModified": 1}


def command_of(sections):
    """The command of an OP_MSG, with each sequence of documents as an array behind it."""
    at, parts = 0, []
    while at < len(sections):
        length = int.from_bytes(sections[at + 1:at + 5], "little")
        section = sections[at + 1:at + 1 + length]
        parts += array_of(section) if sections[at] else [each.spelled() for each in elements(section)]
        at += 1 + length
    return RawBSONDocument(spelled(parts), DEFAULT_RAW_BSON_OPTIONS)


def array_of(sequence):
    """A sequence of documents as an element, which is an array."""
    behind_name = sequence.index(0, 4) + 1
    documents, at = [], behind_name
    while at < len(sequence):
        length = int.from_bytes(sequence[at:at + 4], "little")
        documents.append(element(3, str(len(documents)), sequence[at:at + length]))
        at += length
    return [element(4, sequence[4:behind_name - 1].decode(), spelled(documents))]
