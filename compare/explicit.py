"""libmongocrypt's explicit encryption by ctypes: {v: value} sealed under a key and an algorithm that are named, and
opened again. Of its states only those come that ask for keys, which are looked up in a vault by the filter's lists."""
import ctypes
import ctypes.util

from documents import elements_of
from reference.bson import STRING, spell, text
from reference.schemas import ALGORITHMS
from sides import MASTER, split

ERROR, NEED_KEYS, NEED_KMS, READY = 0, 3, 4, 5
ANSWERS = {"mongocrypt_new": ctypes.c_void_p, "mongocrypt_ctx_new": ctypes.c_void_p,
           "mongocrypt_binary_new": ctypes.c_void_p, "mongocrypt_binary_new_from_data": ctypes.c_void_p,
           "mongocrypt_binary_data": ctypes.c_void_p, "mongocrypt_binary_len": ctypes.c_uint32,
           "mongocrypt_ctx_state": ctypes.c_int, "mongocrypt_status_new": ctypes.c_void_p,
           "mongocrypt_status_message": ctypes.c_char_p, "mongocrypt_version": ctypes.c_char_p}


class Refused(Exception):
    """The library's message."""


class Binary:
    """A view of bytes for the library, or of what it writes."""

    def __init__(self, calls, contents=None):
        self.calls, self.kept = calls, contents
        self.view = (calls("binary_new") if contents is None else
                     calls("binary_new_from_data", ctypes.c_char_p(contents), ctypes.c_uint32(len(contents))))

    def contents(self):
        return ctypes.string_at(self.calls("binary_data", self.view), self.calls("binary_len", self.view))

    def __del__(self):
        self.calls("binary_destroy", self.view)


class Explicit:
    """The library under the local master key of the comparisons, and the vault that its questions are answered from."""

    def __init__(self, vault):
        self.library = ctypes.CDLL(ctypes.util.find_library("mongocrypt"))
        self.keys = split(vault)
        self.handle, master = self.call("new"), Binary(self.call, MASTER)
        if not self.call("setopt_kms_provider_local", self.handle, master.view) or not self.call("init", self.handle):
            raise SystemExit("the library takes no such master key")

    def call(self, name, *words):
        function = getattr(self.library, f"mongocrypt_{name}")
        function.restype = ANSWERS.get(f"mongocrypt_{name}", ctypes.c_bool)
        return function(*(ctypes.c_void_p(word) if isinstance(word, int) else word for word in words))

    def seal(self, document, algorithm, key_id=None, name=None):
        """The document of one value, sealed by the algorithm D or R under the key of an id or a name."""
        spelled = ALGORITHMS[algorithm].encode()
        key = ("key_id", key_id) if name is None else ("key_alt_name", spell([(STRING, "keyAltName", text(name))]))
        return self.run("explicit_encrypt_init", document, [
            (f"ctx_setopt_{key[0]}", Binary(self.call, key[1])),
            ("ctx_setopt_algorithm", ctypes.c_char_p(spelled), ctypes.c_int(len(spelled)))])

    def unseal(self, document):
        return self.run("explicit_decrypt_init", document, [])

    def run(self, begin, document, options):
        """What comes out of a context; a refusal is raised."""
        context, taken = self.call("ctx_new", self.handle), Binary(self.call, document)
        try:
            for name, *words in options:
                words = [word.view if isinstance(word, Binary) else word for word in words]
                self.want(self.call(name, context, *words), context)
            self.want(self.call(f"ctx_{begin}", context, taken.view), context)
            while self.call("ctx_state", context) in (NEED_KEYS, NEED_KMS):
                self.want(self.answer(context), context)
            result = Binary(self.call)
            self.want(self.call("ctx_finalize", context, result.view), context)
            return result.contents()
        finally:
            self.call("ctx_destroy", context)

    def want(self, well, context):
        """Raises the message of a context where a call didn't go well."""
        if well:
            return
        status = self.call("status_new")
        self.call("ctx_status", context, status)
        message = self.call("status_message", status, None)
        self.call("status_destroy", status)
        raise Refused((message or b"no message").decode())

    def answer(self, context):
        """Answers a question for keys; a local key service asks for nothing else."""
        if self.call("ctx_state", context) == NEED_KMS:
            return self.call("ctx_kms_done", context)
        asked = Binary(self.call)
        well = self.call("ctx_mongo_op", context, asked.view)
        for fed in [Binary(self.call, key) for key in filter(matching(asked.contents()), self.keys)]:
            well = well and self.call("ctx_mongo_feed", context, fed.view)
        return well and self.call("ctx_mongo_done", context)


def matching(question):
    """Whether a key document has an id or a name of the lists of a filter."""
    [(_, _, parts)] = elements_of(question)
    ids, names = ([value for _, _, value in lists[0][2]] for _, _, [(_, _, lists)] in parts)

    def has(key):
        fields = {name: value for _, name, value in elements_of(key)}
        own = [value for _, _, value in fields.get("keyAltNames", [])]
        return fields["_id"] in ids or any(name in names for name in own)
    return has
