"""Runs the commands that read what another end made on mutated files, and shows that each run ends by itself with an answer.

    python3 mutated.py PROGRAM [--count N] [--seed S] [--jobs J] [--model MODEL --sample N]

The files that are mutated are the words files of `join`, `stripe` and `check`, the lanes of `receive`, `gather`, `inspect` and `damage`, the samples of `oobread` and the events of `resend`,
of the rows of rows/ that end well and have at most 20,000 bytes together. Each command has an equal part of the N runs, 400 by
default. A run is right if it ends within 20 seconds with status 0, or 5 if the file can be one that is refused (every file is
a lane), and nothing came on standard error. With --model, of the first --sample runs, or all, MODEL, which is called as the program
is, gives the same status, text and files. The same seed gives the same runs.
"""

import argparse
import collections
import os
import random
import sys

from lib.machine import each
from rows import ROWS, Row
from lib.runs import left_by
from lib.tally import Tally

# The commands, and the statuses with which they may end.
ANSWERS = {"join": (0, 5), "stripe": (0, 5), "check": (0, 5), "receive": (0,), "gather": (0,), "inspect": (0,), "damage": (0,), "oobread": (0, 5), "resend": (0, 5)}
COMMANDS = list(ANSWERS)
SECONDS = 20
LARGEST = 20000
# A run of a model has to end by then.
MODEL_SECONDS = 600


def bases(program, tally):
    """For each command the words and the files before of its rows that end well. The check ends if the program fails one."""
    found = {command: [] for command in COMMANDS}
    for row in map(Row, sorted(os.listdir(ROWS))):
        if row.words[:1] not in [[command] for command in COMMANDS] or row.status != 0 or os.path.exists(row.at("captures")):
            continue
        before = row.prepared(program).files
        ended = left_by(program, row.words, before)
        if (ended.status, ended.text) != (row.status, row.text):
            tally.give_up(row.name, "status %s, and text %r" % (ended.status, ended.text[:80]))
        if sum(map(len, before.values())) <= LARGEST and any(map(is_mutated, before)):
            found[row.words[0]].append((row.words, before))
    for command in COMMANDS:
        if not found[command]:
            tally.give_up(command, "no row of it can be mutated")
    return found


def invert(r, data):
    at = r.randrange(8 * len(data))
    data[at // 8] ^= 128 >> at % 8


def fill(r, data):
    at = r.randrange(len(data))
    count = min(r.choice([1, 8, 9, 64, 500]), len(data) - at)
    data[at:at + count] = bytes([r.choice([0, 0x55, 0xFF])]) * count


def scramble(r, data):
    at = r.randrange(len(data))
    count = min(r.choice([1, 9, 67, 400]), len(data) - at)
    data[at:at + count] = r.randbytes(count)


def cut(r, data):
    at = r.randrange(len(data))
    del data[at:at + r.choice([1, 8, 9, 67, 1000])]


def repeat(r, data):
    at = r.randrange(len(data))
    data[at:at] = data[at:at + r.choice([1, 8, 9, 67, 1000])]


def end(r, data):
    del data[r.randrange(len(data) + 1):]


CHANGES = [invert, invert, invert, fill, scramble, cut, repeat, end]


def word(r, data):
    """A words file stays one: a payload bit is inverted, a word is told as another kind, lost, repeated, or is any other."""
    at = 9 * r.randrange(len(data) // 9)
    kind = r.randrange(6)
    if kind < 2:
        bit = r.randrange(64)
        data[at + 1 + bit // 8] ^= 128 >> bit % 8
    elif kind == 2:
        data[at] = r.choice([1, 2, 3])
    elif kind == 3:
        del data[at:at + 9]
    elif kind == 4:
        data[at:at] = data[at:at + 9]
    else:
        data[at:at + 9] = bytes([r.choice([1, 2, 3])]) + r.randbytes(8)


def sample(r, data):
    """Samples stay below eight: one is another, lost, repeated, or some are any others."""
    at = r.randrange(len(data))
    kind = r.randrange(5)
    if kind < 2:
        data[at] ^= 1 << r.randrange(3)
    elif kind == 2:
        del data[at:at + r.choice([1, 2, 12])]
    elif kind == 3:
        data[at:at] = data[at:at + r.choice([1, 2, 12])]
    else:
        data[at:at] = bytes(r.randrange(8) for _ in range(r.choice([1, 2, 20])))


def event(r, data):
    """Rows of events stay such: one is moved, lost, repeated, or any other."""
    rows = bytes(data).splitlines(True)
    at = r.randrange(len(rows))
    kind = r.randrange(4)
    if kind == 0:
        rows.insert(r.randrange(len(rows)), rows.pop(at))
    elif kind == 1:
        rows.insert(at, rows[at])
    elif kind == 2:
        del rows[at]
    else:
        name = r.choice([b"send", b"rewind", b"take", b"lose", b"repeat", b"takeback", b"loseback", b"repeatback"])
        rows[at] = b"%s,%d\n" % (name, r.choice([1, 2, 64, 255, 1024, r.randint(1, 2000)]))
    data[:] = b"".join(rows)


# By the ends of their names, the files that are mutated, how they are so that they stay such, and the least that this needs.
STAYING = {".words": (word, 9), ".oob": (sample, 1), "e.csv": (event, 1)}


def is_mutated(name):
    return ".lane." in name or name.endswith(tuple(STAYING))


def mutated(r, words, before):
    """The same words, and the files with what the command reads of another end changed in one to four places."""
    files = dict(before)
    names = [name for name in sorted(files) if is_mutated(name)]
    if len(names) > 1 and r.randrange(6) == 0:
        one, other = r.sample(names, 2)
        files[one], files[other] = (files[other], files[one]) if r.randrange(2) else (files[one], files[one])
    for _ in range(r.randint(1, 4)):
        name = r.choice(names)
        data = bytearray(files[name])
        change, least = next((STAYING[end] for end in STAYING if name.endswith(end)), (None, 0))
        if change and len(data) >= least and r.randrange(10):
            change(r, data)
        elif data:
            r.choice(CHANGES)(r, data)
        files[name] = bytes(data)
    return words, files


def differences(ended, model):
    """What a run of the program and one of the model differ in."""
    parts = [name for name, mine, other in zip(ended._fields, ended, model) if mine != other]
    return "not as the model has it: %s" % ", ".join(parts) if parts else ""


class Trial:
    """What each run needs."""

    def __init__(self, given, from_rows):
        self.given, self.from_rows = given, from_rows

    def __call__(self, number):
        """The command and the status of a run, and what is wrong with it."""
        r = random.Random("%d %d" % (self.given.seed, number))
        command = COMMANDS[number % len(COMMANDS)]
        words, files = mutated(r, *r.choice(self.from_rows[command]))
        ended = left_by(self.given.program, words, files, SECONDS)
        wrong = "" if ended.status in ANSWERS[command] and not ended.error else "status %s, standard error %r" % (ended.status, ended.error[:80])
        if self.given.model and number < self.given.sample and not wrong:
            wrong = differences(ended, left_by(self.given.model, words, files, MODEL_SECONDS))
        return command, ended.status, wrong


def arguments():
    parser = argparse.ArgumentParser()
    parser.add_argument("program", type=os.path.abspath)
    parser.add_argument("--count", type=int, default=400)
    parser.add_argument("--seed", type=int, default=0)
    parser.add_argument("--jobs", type=int, default=1)
    parser.add_argument("--model", type=os.path.abspath)
    parser.add_argument("--sample", type=int, default=sys.maxsize)
    return parser.parse_args()


def main():
    given, tally = arguments(), Tally("mutated")
    trial = Trial(given, bases(given.program, tally))
    answers = collections.Counter()
    for number, (command, status, wrong) in enumerate(each(trial, range(given.count), given.jobs, at_once=10)):
        answers[command, status] += 1
        tally.count("run %d, %s" % (number, command), wrong)
    for (command, status), count in sorted(answers.items(), key=str):
        print("%s: status %s: %d" % (command, status, count))
    return tally.end()


if __name__ == "__main__":
    sys.exit(main())
