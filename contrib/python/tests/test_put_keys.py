"""The example that puts a rewrapped vault back into its collection, against a mock server."""
import subprocess
import sys
import tempfile
from pathlib import Path

import bson

from .samples import KEYS, TOP
from .wire import WithServer, batch

NONE = {"ok": 1, "n": 0, "nModified": 0}


def documents_of(vault):
    """The documents of a vault, as bytes."""
    documents = []
    while vault:
        size = int.from_bytes(vault[:4], "little")
        documents.append(vault[:size])
        vault = vault[size:]
    return documents


def material_of(key):
    return bytes(bson.decode(key)["keyMaterial"])


def changed(key):
    """The key document with another byte in its material, as `fle rewrap` would leave it."""
    material = material_of(key)
    return key.replace(material, bytes([material[0] ^ 1]) + material[1:])


OLD = documents_of(KEYS.read_bytes())
NEW = list(map(changed, OLD))


class PutKeys(WithServer):
    def run_with(self, documents, *replies):
        """The exit status and what is printed, where NEW holds these documents and the server answers so."""
        self.wire.forget()
        self.wire.replies = list(replies)
        with tempfile.TemporaryDirectory() as folder:
            new = Path(folder, "new.bson")
            new.write_bytes(b"".join(documents))
            run = subprocess.run([sys.executable, TOP / "examples/python/put_keys.py", self.wire.uri,
                                  "encryption.__keyVault", KEYS, new], stdout=subprocess.PIPE,
                                 stderr=subprocess.STDOUT, text=True, timeout=60)
        return run.returncode, run.stdout

    def test_each_key_takes_the_place_of_its_old_form(self):
        self.assertEqual(self.run_with(NEW), (0, "2 put\n"))
        updates = [command["updates"][0] for command in self.wire.came]
        self.assertEqual([update["u"].raw for update in updates], NEW)
        self.assertEqual([bytes(update["q"]["keyMaterial"]) for update in updates], list(map(material_of, OLD)))
        self.assertEqual([command["writeConcern"]["w"] for command in self.wire.came], ["majority", "majority"])

    def test_it_may_run_again(self):
        replies = [reply for key in NEW for reply in (NONE, batch("firstBatch", 0, key))]
        self.assertEqual(self.run_with(NEW, *replies), (0, "2 new already\n"))

    def test_a_key_that_changed_meanwhile_is_left(self):
        status, printed = self.run_with(NEW, NONE, batch("firstBatch", 0, OLD[0]), NONE, batch("firstBatch", 0))
        self.assertEqual((status, printed.splitlines()[-1]),
                         (1, "1 left: its material is another, 1 left: it isn't in the collection"))

    def test_a_file_that_is_another_vault_puts_nothing(self):
        for documents in (NEW[:1], NEW[::-1], []):
            status, printed = self.run_with(documents)
            self.assertEqual((status, printed.startswith("NEW isn't"), self.wire.came), (1, True, []))
