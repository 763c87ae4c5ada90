"""Traces of programs by valgrind's lackey: the instructions and data addresses within some of their functions."""
import hashlib
import os
import subprocess
import tempfile

KINDS = (b"I  ", b" L ", b" S ", b" M ")


def ranges(program, is_traced):
    """Where the functions whose names are traced begin and end, and where the program begins, by its own addresses."""
    lines = subprocess.run(["nm", "-n", "--defined-only", program], stdout=subprocess.PIPE, check=True, text=True)
    words = [line.split(" ", 2) for line in lines.stdout.splitlines() if line[17] in "tT"]
    symbols = [(int(at, 16), name) for at, _, name in words]
    begins = [at for at, name in symbols if name == "_start"][0]
    return begins, [(at, nxt[0]) for (at, name), nxt in zip(symbols, symbols[1:]) if is_traced(name)]


def places_in(file):
    """The addresses of all instructions of a trace."""
    file.seek(0)
    return {int(line[3:].split(b",")[0], 16) for line in file if line[:3] == b"I  "}


def within(places, begins, functions):
    """Those of the places that lie within the functions, wherever the program was loaded."""
    bases = {at - begins for at in places if (at - begins) % 4096 == 0 and at >= begins}
    base = max(bases, key=lambda b: sum(b + first in places for first, _ in functions))
    inside = sorted((base + first, base + end) for first, end in functions)
    found = set()
    for first, end in inside:
        found.update(at for at in range(first, end) if at in places)
    return found


def digest_of(file, inside):
    """How many instructions and data accesses lie inside, and the hash of their addresses."""
    kept, counts, digest = False, [0, 0], hashlib.sha256()
    file.seek(0)
    for line in file:
        if line[:3] not in KINDS:
            continue
        if line[:1] == b"I":
            kept = int(line[3:].split(b",")[0], 16) in inside
        if kept:
            counts[line[:1] != b"I"] += 1
            digest.update(line)
    return counts, digest.hexdigest()


def trace(command, begins, functions, stdin=b"", folder=None):
    """What a command answers, how many instructions and data accesses lie within the functions, and their hash."""
    with tempfile.TemporaryFile() as file, tempfile.TemporaryFile() as given:
        given.write(stdin)
        given.seek(0)
        run = subprocess.run(["valgrind", "--tool=lackey", "--trace-mem=yes"] + command, stdin=given, cwd=folder,
                             stdout=subprocess.PIPE, stderr=file, env={"PATH": os.environ["PATH"]}, check=False)
        counts, digest = digest_of(file, within(places_in(file), begins, functions))
    return run.stdout, counts, digest
