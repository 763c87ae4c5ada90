"""A mock server that keeps what it receives as bytes, and answers what a test says; and what tests of it begin with."""
import shutil
import unittest

import pymongo
from bson.int64 import Int64
from bson.raw_bson import DEFAULT_RAW_BSON_OPTIONS, RawBSONDocument

from fle_driver import enable

from .server import Server

try:
    import mockupdb
except ImportError:
    mockupdb = None
else:
    # It decodes whatever it receives, and writes it as text: both would change, or refuse, what the tests send.
    mockupdb.CODEC_OPTIONS = DEFAULT_RAW_BSON_OPTIONS
    mockupdb.docs_repr = lambda *documents: "documents"


class Wire:
    """The server: the commands that came, and the replies to those that will come. To more it says that one document
    was written."""

    def __init__(self):
        self.forget()
        self.server = mockupdb.MockupDB(auto_ismaster={"maxWireVersion": 8, "logicalSessionTimeoutMinutes": 30})
        self.server.autoresponds(self.reply)
        self.server.run()
        self.uri, self.stop = self.server.uri, self.server.stop

    def forget(self):
        """What a test begins with."""
        self.came, self.replies = [], []

    def reply(self, request):
        """Answers a command, but for the handshake; the end of sessions is no command of a test."""
        if request.command_name.lower() == "ismaster":
            return None
        if request.command_name == "endSessions":
            return request.ok()
        self.came.append(request.doc)
        if request.flags & mockupdb.OP_MSG_FLAGS["moreToCome"]:  # not acknowledged
            return True
        return request.replies(self.replies.pop(0) if self.replies else {"ok": 1, "n": 1, "nModified": 1})

    def last(self, field):
        """A field of the last command: the bytes of a document, or of each document of an array."""
        value = self.came[-1][field]
        return value.raw if isinstance(value, RawBSONDocument) else [document.raw for document in value]


def begun():
    """A mock server: that of mockupdb where it is installed."""
    return Wire() if mockupdb else Server()


class WithServer(unittest.TestCase):
    """A server, which the tests of a class share, since it takes a second to stop."""

    @classmethod
    def setUpClass(cls):
        cls.wire = begun()
        cls.addClassCleanup(cls.wire.stop)

    def setUp(self):
        self.wire.forget()


@unittest.skipUnless(shutil.which("fle"), "no fle in PATH")
class WithClients(WithServer):
    """Clients of the server, for tests that have `fle` too."""

    def plain_client(self, listeners=(), server=None):
        """A client without the hook, of another server where one is named."""
        client = pymongo.MongoClient((server or self.wire).uri, event_listeners=list(listeners))
        self.addCleanup(client.close)
        return client

    def client_of(self, fle, listeners=(), **names):
        """A client that this `Fle` seals and opens for; what it names is sent as it is."""
        client = self.plain_client(listeners)
        enable(client, fle, **names)
        return client


def batch(of, number, *documents):
    """A reply of a cursor with this number: these documents, as bytes, in its batch of that name."""
    documents = [RawBSONDocument(document) for document in documents]
    return {"ok": 1, "cursor": {"id": Int64(number), "ns": "hr.people", of: documents}}
