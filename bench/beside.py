"""Compares two programs on this computer: what each command writes, its instructions, its processor seconds and its peak memory.

It makes its inputs in two folders of its own, one for each program, and removes both at the end. Instructions are counted by valgrind
(callgrind), over at most 10 MB; they repeat to a thousandth while other programs are running. Seconds and peaks are the
least of five runs, both programs in turn. A row ends in what differs, if something does. The exit status is 1 if a row has a fault, or if
nothing was measured.
"""

import argparse
import hashlib
import os
import shutil
import subprocess
import sys
import tempfile
from dataclasses import dataclass, field

from cases import PLAIN_SIZE, RUNS, SHAPES, count_in, make_ready, needed_for, write_inputs
from measure import measured, row

TOP = os.path.dirname(os.path.dirname(os.path.abspath(__file__)))
RELEASE = "release/interlaken-x86_64-linux"
USAGE = b"usage: interlaken"
# A counted run takes some fifty times its own time.
COUNTED_MB = 10
# A command is done if it takes at most this many times the instructions of the plain program.
TARGET = 1.15
COUNT_HEAD = ["command", "of", "unit", "earlier", "now", "now to earlier", "result"]
PLAIN_HEAD = COUNT_HEAD[:-1] + ["plain", "now to plain", "at most %.2f" % TARGET, "result"]
SECONDS_HEAD = ["command", "of", "s earlier", "s now", "now to earlier", "peak MB earlier", "peak MB now", "result"]


class NotCounted(Exception):
    """The instructions of a run could not be counted, for the reason that is the text."""


@dataclass
class Outcome:
    """What a run did: its status, its text, and the digest of each file that it wrote, by name."""
    status: int
    text: bytes
    written: dict

    def has_no_command(self):
        return self.status == 2 and self.text.startswith(USAGE)


@dataclass
class Side:
    """A program, the folder in which it runs, and what it printed so far, by the arguments."""
    program: str
    folder: str
    texts: dict = field(default_factory=dict)

    def ran(self, run, before=()):
        """The outcome of a run, whose command line begins with these words, and what it wrote to the error output."""
        make_ready(run, self.folder)
        for entry in os.scandir(self.folder):
            os.utime(entry, (0, 0))
        done = subprocess.run([*before, self.program, *run.arguments], cwd=self.folder, capture_output=True)
        self.texts[run.arguments] = done.stdout
        # A file whose time is another one now was written.
        written = {entry.name: digest(entry.path) for entry in os.scandir(self.folder) if entry.stat().st_mtime_ns}
        return Outcome(done.returncode, done.stdout, written), done.stderr.decode(errors="replace").strip()

    def outcome(self, run):
        return self.ran(run)[0]

    def counted(self, run):
        """The outcome of a run and its instructions."""
        with tempfile.TemporaryDirectory() as room:
            words = ["valgrind", "--tool=callgrind", "--callgrind-out-file=" + os.path.join(room, "out")]
            outcome, said = self.ran(run, words)
        lines = [line for line in said.splitlines() if "Collected" in line]
        if not lines:
            raise NotCounted("VALGRIND COUNTED NOTHING: " + said[-200:])
        return outcome, int(lines[-1].split(":")[1].split()[0])

    def units(self, run):
        """For how many words, slots, events or samples a run works."""
        return run.counted if isinstance(run.counted, int) else count_in(self.texts.get(run.counted, b""))


def digest(path):
    sha = hashlib.sha256()
    with open(path, "rb") as file:
        for part in iter(lambda: file.read(1 << 20), b""):
            sha.update(part)
    return sha.hexdigest()


def fault_in(earlier, now):
    """What is wrong with the outcomes of one run of both programs, or nothing."""
    if now.status != 0:
        return "STATUS %d" % now.status
    if not now.written:
        return "NO FILE WRITTEN"
    if earlier.has_no_command():
        return ""
    if earlier.status != now.status:
        return "STATUS %d BEFORE" % earlier.status
    if earlier.text != now.text:
        return "OTHER TEXT"
    files = sorted(name for name in earlier.written.keys() | now.written.keys() if earlier.written.get(name) != now.written.get(name))
    return "OTHER FILE " + files[0] if files else ""


class Table:
    """The rows of one table, which counts those that were measured and those with a fault."""

    def __init__(self, sides, commands, runs):
        self.sides, self.commands, self.runs = sides, commands, runs
        self.measured, self.faults = 0, []

    def fill(self, measure, figures):
        """Prints a row for each run of the commands. What only another run needs is run and not measured."""
        for run in needed_for(self.commands, self.runs):
            if run.command in self.commands:
                a, b, result = self.judged(run, measure)
                row("`%s`" % run.command, run.of, *figures(run, a, b), result)
            else:
                for side in self.sides:
                    side.outcome(run)

    def judged(self, run, measure):
        """The figures of a run of both programs, if they count, and its result."""
        try:
            (earlier, a), (now, b) = measure(run)
            fault = fault_in(earlier, now) or ("" if self.sides[1].units(run) else "NO COUNT OF ITS WORDS")
        except NotCounted as error:
            fault = str(error)
        if fault:
            self.faults.append("%s: %s" % (" ".join(run.arguments), fault))
            return None, None, fault
        self.measured += 1
        return (None, b, "new command") if earlier.has_no_command() else (a, b, "same")

    def counts(self, with_plain):
        head(PLAIN_HEAD if with_plain else COUNT_HEAD)
        self.fill(lambda run: [side.counted(run) for side in self.sides], lambda *it: self.count_figures(with_plain, *it))

    def count_figures(self, with_plain, run, earlier, now):
        units = self.sides[1].units(run)
        a, b = (None if count is None or not units else count / units for count in (earlier, now))
        told = [run.unit, shown(a, "%.1f"), shown(b, "%.1f"), shown(ratio(b, a), "%.3f")]
        if with_plain:
            to_plain = ratio(b, run.plain)
            told += [shown(run.plain, "%d"), shown(to_plain, "%.2f"), verdict(to_plain)]
        return told

    def seconds(self, turns):
        head(SECONDS_HEAD)
        self.fill(lambda run: self.in_turn(run, turns), self.seconds_figures)

    def in_turn(self, run, turns):
        """The outcome of a run of each program, with the least seconds and the least peak of runs in turn."""
        outcomes, figures = [side.outcome(run) for side in self.sides], [[], []]
        for _ in range(turns):
            for own, side in zip(figures, self.sides):
                own.append(measured([side.program, *run.arguments], side.folder)[1:])
        return [(outcome, [min(column) for column in zip(*own)]) for outcome, own in zip(outcomes, figures)]

    def seconds_figures(self, run, earlier, now):
        (a, before), (b, peak) = earlier or (None, None), now or (None, None)
        return [shown(a, "%.2f"), shown(b, "%.2f"), shown(ratio(b, a), "%.2f"), shown(before, "%.0f"), shown(peak, "%.0f")]


def head(names):
    row(*names)
    row(*["---"] * len(names))


def ratio(one, other):
    return one / other if one is not None and other else None


def verdict(to_plain):
    """Whether a ratio is at most TARGET, as it is shown."""
    if to_plain is None:
        return ""
    return "yes" if round(to_plain, 2) <= TARGET else "no"


def shown(number, form):
    return "" if number is None else form % number


def table(programs, asked, megabytes, size, fill):
    """A table in folders of its own."""
    with tempfile.TemporaryDirectory(prefix="beside.") as one, tempfile.TemporaryDirectory(prefix="beside.") as other:
        for folder in (one, other):
            write_inputs(folder, megabytes, size)
        made = Table([Side(programs[0], one), Side(programs[1], other)], asked.commands, asked.runs)
        fill(made)
        return made


def tables(asked, programs):
    """Prints all tables that were asked for."""
    for size in asked.size or [1514, 64]:
        if asked.what != "seconds" and shutil.which("valgrind"):
            megabytes = min(asked.megabytes, COUNTED_MB)
            print("\nInstructions for each unit, %d MB in packets of %d bytes:\n" % (megabytes, size), flush=True)
            yield table(programs, asked, megabytes, size, lambda made: made.counts(size == PLAIN_SIZE and asked.runs is RUNS))
        if asked.what != "instructions":
            print("\nProcessor seconds, %d MB in packets of %d bytes:\n" % (asked.megabytes, size), flush=True)
            yield table(programs, asked, asked.megabytes, size, lambda made: made.seconds(asked.turns))


def program_of(name, room):
    """A program, or the program that a commit has in its release."""
    if os.path.isfile(name):
        return runnable(name)
    if not shutil.which("git"):
        sys.exit("beside: %s is no file, and there is no git (Debian package git) to look for a commit" % name)
    found = subprocess.run(["git", "-C", TOP, "show", "%s:%s" % (name, RELEASE)], capture_output=True)
    if found.returncode:
        sys.exit("beside: %s is no file and no commit with a release" % name)
    path = os.path.join(room, "earlier")
    with open(path, "wb") as file:
        file.write(found.stdout)
    os.chmod(path, 0o755)
    return path


def present_program():
    """The program that INTERLAKEN_PROGRAM names, or the one that the launcher would run."""
    named = os.environ.get("INTERLAKEN_PROGRAM")
    if not named:
        which = {**os.environ, "INTERLAKEN_WHICH": "1"}
        found = subprocess.run([os.path.join(TOP, "interlaken")], env=which, stdout=subprocess.PIPE, text=True)
        named = found.stdout.strip() if found.returncode == 0 else ""
    if not os.path.isfile(named):
        sys.exit("beside: there is no program to measure")
    return runnable(named)


def runnable(name):
    if not os.access(name, os.X_OK):
        sys.exit("beside: %s is no program" % name)
    return os.path.abspath(name)


def commands_in(text):
    """Names of commands, with commas between."""
    known = {run.command for run in RUNS}
    for name in text.split(","):
        if name not in known:
            raise argparse.ArgumentTypeError("no command %s; there are %s" % (name, ", ".join(sorted(known))))
    return set(text.split(","))


def positive(text):
    if int(text) < 1:
        raise argparse.ArgumentTypeError("a number from 1 on")
    return int(text)


def asked_for():
    every = {run.command for run in RUNS}
    parser = argparse.ArgumentParser(prog="bench/beside.sh", description=__doc__, formatter_class=argparse.RawDescriptionHelpFormatter)
    parser.add_argument("earlier", metavar="EARLIER", help="a program, or a commit whose release is taken")
    parser.add_argument("megabytes", metavar="MEGABYTES", type=positive, nargs="?", default=100, help="size of the capture; default 100")
    parser.add_argument("size", metavar="SIZE", type=positive, nargs="*", help="lengths of packets in bytes; default 1514 and 64")
    parser.add_argument("--commands", metavar="NAME,..", type=commands_in, default=every, help="only these commands")
    parser.add_argument("--shapes", dest="runs", action="store_const", const=SHAPES, default=RUNS,
                        help="links of 64 and 1,024 channels, of 64 lanes, and with a dark lane or one of noise")
    parser.add_argument("--instructions", dest="what", action="store_const", const="instructions", help="no seconds")
    parser.add_argument("--seconds", dest="what", action="store_const", const="seconds", help="no instructions")
    parser.add_argument("--turns", metavar="N", type=positive, default=5, help="runs of each program for the seconds; default 5")
    return parser.parse_args()


def main():
    asked = asked_for()
    if asked.what != "seconds" and not shutil.which("valgrind"):
        print("beside: instructions not counted, no valgrind (Debian package valgrind)", flush=True)
    with tempfile.TemporaryDirectory() as room:
        made = list(tables(asked, [program_of(asked.earlier, room), present_program()]))
    faults = [fault for it in made for fault in it.faults]
    if faults:
        sys.exit("beside: %d runs with a fault:\n  %s" % (len(faults), "\n  ".join(faults)))
    if not sum(it.measured for it in made):
        sys.exit("beside: nothing was measured")


if __name__ == "__main__":
    main()
