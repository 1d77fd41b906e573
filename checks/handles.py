"""Tries the inspector, the gatherer and the checker of the C library on random links of 1 to 64 lanes, in random pieces, beside the tables
of `inspect`, `gather` and `check`.

    python3 handles.py PROGRAM DRIVER [--together PROGRAM]... [--cases N] [--first N] [--jobs N]

DRIVER is live/handles.c with the library, and each PROGRAM of --together live/together.c, perhaps with a sanitizer. A case is a plan with its lanes, as live.py makes them: damaged, some of them of something else,
or with the words of another sender. The checker gets the gathered words, and rows of flow control between them.
"""

import argparse
import collections
import os
import sys
import tempfile
from random import Random

from lib.live_bench import content, run, text_of, write
from lib.live_calls import flow_words
from lib.live_links import made_link
from lib.machine import each
from plan import plan_of
from lib.tally import Tally
import fields

WORD = 9  # bytes of a word in a words file
# What has to have come in so many cases.
MANY = 500
KINDS = "bad sync state skip diag balance lock lost-headers lost-sync lost-state unframed".split()
WANTED = ["event " + kind for kind in KINDS] + ["break lost", "break end", "wide plan", "17 entries or more", "flow control", "33 lanes or more"]
LEAST_RULES = 15  # kinds of rules that were broken


class Case:
    """A random link in a folder, and what was found wrong with it."""

    def __init__(self, given, number, folder):
        self.given, self.number, self.folder = given, number, folder
        self.r, self.wrong, self.seen = Random(number), [], collections.Counter()

    def program(self, words, folder):
        done = run([self.given.program, *words], folder)
        return done.returncode, done.stdout.decode(errors="replace")

    def count(self, what, wrong):
        self.wrong.append("%s: %s" % (what, wrong))

    def expect(self, what, found, wanted):
        if found != wanted:
            at = next((n for n, (one, other) in enumerate(zip(found, wanted)) if one != other), min(len(found), len(wanted)))
            self.count(what, "from %d on %r of %d, and not %r of %d" % (at, found[at:at + 2], len(found), wanted[at:at + 2], len(wanted)))

    def lines(self, name):
        return content(self.folder, name).decode().splitlines()

    def table(self, name):
        """The rows of a table, without its heading."""
        return self.lines(name)[1:]

    def made(self, command, plan):
        """What a command prints of the plan."""
        status, told = self.program([command, plan], self.folder)
        if status != 0:
            self.count(command, "status %d, %s" % (status, told[:200]))
        return told.splitlines()

    def flow_rows(self):
        """Random rows of flow control, each with the checksum of only itself."""
        plan, rows = plan_of(content(self.folder, "p.plan")), []
        for slot in sorted(self.r.randrange(len(content(self.folder, "o.words")) // WORD + 1) for _ in range(self.r.choice([0, 1, 3, 9]))):
            rows += ["%d,%016x" % (slot, fields.sealed([], word)) for word in flow_words(self.r, plan)]
        return rows

    def compare(self, lanes):
        plan = plan_of(content(self.folder, "p.plan"))
        inspected, gathered = self.made("inspect", "p.plan"), self.made("gather", "p.plan")
        flow = self.flow_rows()
        write(self.folder, "f.csv", "".join(row + "\n" for row in flow).encode())
        write(self.folder, "c.plan", content(self.folder, "p.plan") + b"flow,f.csv\n")
        self.made("check", "c.plan")
        done = run([self.given.driver, "p.plan", "o", str(lanes), str(self.number), "h", "f.csv"], self.folder)
        if done.returncode:
            return self.count("driver", done.stderr.decode(errors="replace")[:2000])
        found = self.lines("h.inspected")
        events, reports = sorted(found[:-lanes], key=lambda row: int(row.split(",")[0])), found[-lanes:]
        self.expect("events", events, self.table("o.events.csv"))
        self.expect("reports of the inspector", [*reports, "events %d" % len(events)], inspected)
        found = self.lines("h.gathered")
        breaks, words = found[:-lanes], content(self.folder, "h.words")
        self.expect("breaks", breaks, [row for row in self.table("o.places.csv") if not row.endswith(",-")])
        self.expect("words", words, content(self.folder, "o.words"))
        self.expect("reports of the gatherer", found[-lanes:] + ["words %d" % (len(words) // WORD), "epochs %d" % len(breaks)], gathered)
        faults = sorted((row.split(",") for row in self.lines("h.faults")), key=lambda row: (int(row[0]), int(row[1])))
        self.expect("faults", [",".join([row[0], *row[2:]]) for row in faults], self.table("o.faults.csv"))
        self.see(plan, lanes, events, breaks, faults, flow, len(words) // WORD)
        return None

    def see(self, plan, lanes, events, breaks, faults, flow, words):
        self.seen.update("event " + row.split(",")[2] for row in events)
        self.seen.update("break " + row.split(",")[3] for row in breaks)
        self.seen.update("rule " + row[2] for row in faults)
        self.seen["words"] += words
        said = {"wide plan": plan.settings.wide, "17 entries or more": len(plan.entries) >= 17, "flow control": flow, "33 lanes or more": lanes >= 33}
        self.seen.update(name for name, is_so in said.items() if is_so)


def lanes_of(r):
    return r.choice([1, 2, 3, 4, 5, 8, 12, 16, 24, r.randint(1, 64), r.randint(1, 64), 64])


def tried(work):
    """What is wrong with a case, and what came in it."""
    given, number = work
    with tempfile.TemporaryDirectory() as folder:
        case = Case(given, number, folder)
        lanes = lanes_of(case.r)
        if made_link(case, case.r, lanes, folder, lambda folder, plan, out: True):
            case.compare(lanes)
        return number, lanes, case.wrong, case.seen


def try_together(given, tally):
    """Threads with handles of their own, and allocations that fail, on a link of some lanes."""
    with tempfile.TemporaryDirectory() as folder:
        case = Case(given, 5, folder)
        made_link(case, case.r, 5, folder, lambda folder, plan, out: True)
        for path in given.together:
            done = run([path, "p.plan", "o", "5"], folder)
            tally.expect(os.path.basename(path), (done.returncode, done.stdout, done.stderr[:500]), (0, b"4 threads alike\n", b""))


def main():
    parser = argparse.ArgumentParser()
    parser.add_argument("program", type=os.path.abspath)
    parser.add_argument("driver", type=os.path.abspath)
    parser.add_argument("--together", type=os.path.abspath, action="append", default=[])
    parser.add_argument("--cases", type=int, default=1000)
    parser.add_argument("--first", type=int, default=1)
    parser.add_argument("--jobs", type=int, default=1)
    given, tally, seen = parser.parse_args(), Tally("handles"), collections.Counter()
    for number, lanes, wrong, came in each(tried, [(given, given.first + n) for n in range(given.cases)], given.jobs):
        tally.count("case %d of %d lanes" % (number, lanes), "; ".join(wrong))
        seen += came
    try_together(given, tally)
    rules = sum(name.startswith("rule ") for name in seen)
    missing = [name for name in WANTED if not seen[name]] if given.cases >= MANY else [name for name in ("words", "event lock") if not seen[name]]
    tally.count("what came", "nothing of " + ", ".join(missing) if missing else "")
    tally.count("rules that were broken", "" if given.cases < MANY or rules >= LEAST_RULES else "only %d" % rules)
    print("handles: %d words; %s" % (seen["words"], ", ".join("%s %d" % (name, seen[name]) for name in sorted(seen) if name[:5] in ("event", "break", "rule "))))
    return tally.end()


if __name__ == "__main__":
    sys.exit(main())
