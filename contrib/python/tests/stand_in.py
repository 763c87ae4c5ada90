"""A client of asyncio that makes pymongo's own calls of an encrypter, for where pymongo has none: 3.11."""
import bson
from bson.codec_options import CodecOptions
from bson.raw_bson import DEFAULT_RAW_BSON_OPTIONS, RawBSONDocument
from pymongo.client_options import ClientOptions
from pymongo.errors import InvalidOperation


class AsyncMongoClient:
    """What came, as bytes; the replies, as bytes, to the commands that will come. To more it says that one document was
    written. `command` asks the encrypter where, and with what, the one of pymongo 4.10 does."""

    def __init__(self):
        self._encrypter = None
        self._options = ClientOptions(None, None, None, {})
        self.came, self.replies = [], []

    async def command(self, database, spec, codec=CodecOptions()):
        """What a command is answered, decoded."""
        if self._encrypter and not self._encrypter._bypass_auto_encryption:
            spec = await self._encrypter.encrypt(database, spec, codec)
        spec["$db"] = database
        self.came.append(bson.encode(spec, codec_options=codec))
        reply = self.replies.pop(0) if self.replies else bson.encode({"ok": 1, "n": 1})
        if self._encrypter:
            reply = await self._encrypter.decrypt(reply)
        return bson.decode(reply, codec)

    async def bulk_write(self, models):
        """Sends what it is given past the encrypter; pymongo refuses it where its options have an encrypter."""
        if self._options.auto_encryption_opts:
            raise InvalidOperation
        self.came += models

    async def close(self):
        if self._encrypter:
            await self._encrypter.close()

    def last(self, field):
        """A field of the last command: the bytes of a document, or of each document of an array."""
        value = bson.decode(self.came[-1], DEFAULT_RAW_BSON_OPTIONS)[field]
        return value.raw if isinstance(value, RawBSONDocument) else [document.raw for document in value]
