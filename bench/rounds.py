"""Runs of programs that go round and round, for the scripts of this folder: a machine whose speed changes within
minutes changes all rows of a table, and the least of many rounds is of its fast ones."""
import os
import statistics
import subprocess
import sys
import time

LEAST = 0.01


def ran(words, path=os.devnull, environment=None):
    """The line that a run writes over a file as its input, and its processor time in seconds (user and system)."""
    with open(path, "rb") as file:
        run = subprocess.Popen(words, stdin=file, stdout=subprocess.PIPE, env={**os.environ, **(environment or {})})
        line = run.stdout.read().decode()
    _, status, used = os.wait4(run.pid, 0)
    run.returncode = os.waitstatus_to_exitcode(status)
    if run.returncode:
        sys.exit(f"{sys.argv[0]}: {' '.join(words)} ended with {run.returncode}")
    return line, used.ru_utime + used.ru_stime


class Subject:
    """A command whose last word is a number of turns. Each round runs it with its turns, of which there are so many
    that a run takes 0.01 s or more, and with none."""

    def __init__(self, *words, path=os.devnull, environment=None):
        self.words, self.path, self.environment = [str(word) for word in words], path, environment
        self.turns = self.enough()
        self.most, self.none, self.rounds = float("inf"), float("inf"), []

    def time(self, turns):
        """The processor time of a run."""
        return ran([*self.words, str(turns)], self.path, self.environment)[1]

    def enough(self):
        """So many turns that a run takes long enough to be timed."""
        turns = 2
        while True:
            seconds = self.time(turns)
            if seconds >= LEAST:
                return turns
            turns = turns * 4 if seconds < LEAST / 8 else int(turns * LEAST / seconds * 1.2) + 1

    def once_more(self):
        """One round."""
        most, none = self.time(self.turns), self.time(0)
        self.most, self.none = min(self.most, most), min(self.none, none)
        self.rounds.append((most - none) / self.turns)

    def seconds(self):
        """Seconds of one turn: the least time of all rounds less the least with no turn, by the turns."""
        return (self.most - self.none) / self.turns


def go_round(rows, rounds):
    """Runs all subjects of all rows once in each round, those of a row behind one another, and says on standard error
    how far it is."""
    began = time.monotonic()
    for number in range(1, rounds + 1):
        for row in rows:
            for subject in row:
                subject.once_more()
        left = (time.monotonic() - began) / number * (rounds - number)
        print(f"\rround {number} of {rounds}, {left:.0f} s left ", end="", file=sys.stderr, flush=True)
    print(file=sys.stderr)


def times_faster(ours, other):
    """How many times faster the first is, by the least times, and by the median of the rounds, each by its own runs."""
    return other.seconds() / ours.seconds(), statistics.median(b / a for a, b in zip(ours.rounds, other.rounds))


def ticks():
    """What the processors did so far: all of it, and what other machines had of them."""
    with open("/proc/stat") as counts:
        spent = [int(word) for word in counts.readline().split()[1:9]]
    return sum(spent), spent[7]


def stolen(before):
    """What other machines had of the processors since then, in percent."""
    spent, others = (now - then for now, then in zip(ticks(), before))
    return 100 * others / spent
