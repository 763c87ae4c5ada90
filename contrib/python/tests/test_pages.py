"""The Python in README.md and in this package's own page runs as it stands, with `uri` the address of a server."""
import contextlib
import io
import os
import re
import shutil
import tempfile
from pathlib import Path

from fle_driver.listed import documents_of
from fle_driver.walk import elements

from .samples import KEYS, MASTER, SCHEMAS, TOP, insert, sealed, spelled, string
from .wire import WithClients, batch


class Pages(WithClients):
    def printed(self, page, *later):
        """What the Python of a page prints, run in a folder that has its files; a find gets one sealed person, and a
        vault its keys. An insert and a find come, and these later."""
        wire = self.wire
        wire.forget()
        (person,) = [part.value for field in elements(sealed(insert(spelled(string("ssn", "123-45-6789")))))
                     if field.name == "documents" for part in elements(field.value)]
        vault, written = batch("firstBatch", 0, *documents_of(KEYS.read_bytes())), {"ok": 1, "n": 1}
        wire.replies = [written, batch("firstBatch", 0, person), vault, written, vault, vault]
        out, here = io.StringIO(), os.getcwd()
        with tempfile.TemporaryDirectory() as folder, contextlib.redirect_stdout(out):
            for file, name in ((KEYS, "keys.bson"), (SCHEMAS, "schemas.json"), (MASTER, "master.key")):
                shutil.copy(file, Path(folder, name))
            self.addCleanup(os.chdir, here)
            os.chdir(folder)
            for block in re.findall(r"^```python\n(.*?)^```", (TOP / page).read_text(), re.S | re.M):
                names = {"uri": wire.uri}
                exec(block, names)
                if "client" in names:
                    names["client"].close()
            os.chdir(here)
        self.assertTrue(all(plain not in document.raw for command in wire.came
                            for document in command.get("documents", []) for plain in (b"123-45-6789", b"AT48")))
        self.assertEqual([next(iter(command)) for command in wire.came], ["insert", "find", *later])
        return out.getvalue()

    def test_readme(self):
        self.assertEqual(self.printed("README.md"), "[{'ssn': '123-45-6789'}]\n")

    def test_the_page_of_the_package(self):
        self.assertEqual(self.printed("contrib/python/README.md", "find", "insert", "find", "find"),
                         "[{'ssn': '123-45-6789'}]\na note\nTypeNotAllowed documents.0.ssn\n")
