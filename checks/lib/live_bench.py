"""What the parts of live.py share: the program, the driver of live/driver.c and its answers, and files of a folder."""

import collections
import os
import subprocess
import sys

from lib.machine import patience

SECONDS = 120


def text_of(rows):
    return "".join(",".join(map(str, row)) + "\n" for row in rows).encode()


def write(folder, name, data):
    with open(os.path.join(folder, name), "wb") as file:
        file.write(data)


def content(folder, name):
    """The bytes of a file; none if there is no such file."""
    if not os.path.exists(os.path.join(folder, name)):
        return b""
    with open(os.path.join(folder, name), "rb") as file:
        return file.read()


def run(words, folder):
    return subprocess.run(words, cwd=folder, stdin=subprocess.DEVNULL, capture_output=True, timeout=patience(SECONDS))


class Bench:
    """What all parts share: the program, the driver, a folder, the count, and what came."""

    def __init__(self, given, tally, folder):
        self.given, self.tally, self.folder = given, tally, folder
        self.seen, self.refused = collections.Counter(), collections.Counter()

    def program(self, words, folder):
        """The status and the text of a run."""
        done = run([self.given.program, *words], folder)
        return done.returncode, done.stdout.decode(errors="replace")

    def driven(self, scripts, folder, driver=None, before=(), words=()):
        """What the driver says of scripts: the lines of each; and what went wrong with it."""
        names = []
        for number, lines in enumerate(scripts):
            write(folder, "script.%d" % number, "".join(line + "\n" for line in lines).encode())
            names += ["script.%d" % number, "said.%d" % number]
        done = run([*before, driver or self.given.driver, *words, *names], folder)
        said = [content(folder, name).decode().splitlines() for name in names[1::2]]
        error = done.stderr.decode(errors="replace")
        return said, "status %d, %s" % (done.returncode, error[:2000]) if done.returncode or error else ""

    def answers(self, said):
        """The lines of calls; the others, on memory, are counted. And what is wrong with these."""
        wrong = ""
        for line in (line for line in said if line.startswith("#")):
            words = line.split()
            if words[1] == "refused":
                self.refused[words[2]] += int(words[3])
            elif words[1] != "blocks" or words[2] != "0":
                wrong = line
        return [line for line in said if not line.startswith("#")], wrong

    def judge(self, what, said, wrong, wanted):
        """Holds what the driver said beside what is wanted of each call: a text, or what makes one of the line that was said. Gives
        whether it passed."""
        found, of_memory = self.answers(said)
        wrong = wrong or of_memory or ("" if len(found) == len(wanted) else "%d lines, and not %d" % (len(found), len(wanted)))
        for number, (line, (call, want)) in enumerate(zip(found, wanted)):
            text = want(line) if callable(want) else want
            if line.split() != text.split():
                wrong = wrong or "call %d, %s: %s" % (number, call, differs(line, text))
                break
        self.count(what, wrong)
        return not wrong

    def count(self, what, wrong):
        self.tally.count(what, wrong)
        if wrong and self.given.first:
            sys.exit(self.tally.end())


def differs(found, wanted):
    """The first part in which two lines differ."""
    at = len(os.path.commonprefix([found, wanted]))
    begin = max(0, at - 60)
    return "%s.. and not %s.., from character %d on" % (found[begin:at + 60], wanted[begin:at + 60], begin)
