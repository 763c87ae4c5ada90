"""The two sides of a comparison: fle, and libmongocrypt behind driver.c. `compare/run` puts the paths of the programs
into FLE, DRIVER and JUDGE. A comparison prints one line: `passed: ..`, `FAILED: ..` or `skipped: ..`."""
import glob
import os
import signal
import struct
import subprocess
import tempfile

FLE, DRIVER, JUDGE = (os.environ.get(name, "") for name in ("FLE", "DRIVER", "JUDGE"))
MASTER = bytes(range(96))


class Files:
    """A folder of files for one comparison: `files.put("keys", bytes)` answers the path."""

    def __init__(self):
        self.folder = tempfile.TemporaryDirectory()

    def __enter__(self):
        return self

    def __exit__(self, *_):
        self.folder.cleanup()

    def path(self, name):
        return f"{self.folder.name}/{name}"

    def put(self, name, contents):
        with open(self.path(name), "wb") as file:
            file.write(contents)
        return self.path(name)


def fle(*words, stdin=b""):
    """The status, what was written, and the line on standard error."""
    run = subprocess.run([FLE, *words], input=stdin, capture_output=True, check=False)
    return run.returncode, run.stdout, run.stderr.decode("utf-8", "replace").strip()


def library(*words, stdin=b""):
    """The status, what was written, and the messages of refusal by the number of the document; document 1 stands for
    the run where the library ends the process."""
    run = subprocess.run([DRIVER, *words], input=stdin, capture_output=True, check=False)
    said = run.stderr.decode("utf-8", "replace")
    if run.returncode not in (0, 1, -signal.SIGABRT):
        raise SystemExit(f"the driver ended with {run.returncode}: {said}")
    refusals = {1: f"aborts: {said.strip()}"} if run.returncode == -signal.SIGABRT else {}
    for line in said.splitlines():
        if line.startswith("refused "):
            number, _, message = line[8:].partition(": ")
            refusals[int(number)] = message
    return run.returncode, run.stdout, refusals


def asked(path):
    """The lines of --asks: document number, what was asked for, the bytes."""
    with open(path, encoding="ascii") as file:
        return [(int(number), what, bytes.fromhex(text)) for number, what, text in map(str.split, file)]


def has_verb(verb, files):
    """Whether fle has the verb, with so many words behind it: else the words are none of its forms."""
    return fle(verb, *files)[0] != 2


def seals():
    return has_verb("encrypt", ["hr", "no-keys", "no-schemas", "no-master"])


def checks_replies():
    return has_verb("encrypt-with", ["hr", "no-keys", "no-schemas", "no-master"])


def opens():
    return has_verb("decrypt", ["no-keys", "no-master"])


def passed(name):
    print(f"passed: {name}", flush=True)


def failed(name, what):
    print(f"FAILED: {name}: {what}", flush=True)


def skipped(name, why):
    print(f"skipped: {name}: {why}", flush=True)


def compare(name, well, what=""):
    if well:
        passed(name)
    else:
        failed(name, what)
    return well


def known_rows(script):
    """The newest file of a script in bench/results/compare, and its lines, among which the rows of its tables are."""
    newest = max(glob.glob(f"bench/results/compare/*-{script}.md"))
    with open(newest, encoding="utf-8") as page:
        return newest, set(page.read().splitlines())


def frames(documents):
    return b"".join(struct.pack("<I", len(document)) + document for document in documents)


def unframed(stream):
    documents, at = [], 0
    while at < len(stream):
        length = struct.unpack_from("<I", stream, at)[0]
        documents.append(stream[at + 4:at + 4 + length])
        at += 4 + length
    return documents


def split(stream):
    """The documents of a row of them, by their stated lengths."""
    documents, at = [], 0
    while at < len(stream):
        length = struct.unpack_from("<i", stream, at)[0]
        documents.append(stream[at:at + length])
        at += length
    return documents
