"""Makes each allocation, read, write and open of the program fail in turn, and looks at how each run ends.

    python3 faults.py PROGRAM LIBRARY [--seconds N] [CASE..]

LIBRARY is failing.c, built. Each case is a command on a small link: two captures of a few packets, a plan with a flow file and a
local file, what `burst` and `send` make of it, and a schedule; samples and events; and two ends that send to each other. The
undisturbed run has to have status 0 and print a text, and the library has to count calls of each kind in it, writes of a file and of
the text among them. A run in which one call failed has to end by itself

    with status 6 where memory was refused, 1 if an open or a read failed, 1 or 7 if a write failed; then each file that
    is not as it was holds a prefix of what the undisturbed run leaves there, no file is gone, and the text is the line of the
    fault or nothing (after status 7 a prefix of the undisturbed text); if an input cannot be opened or read, no file has changed,
    except for lanes, which receive, gather and inspect read during the work;
    or, where memory was refused, as the undisturbed run does: status, text and files; but not after each refusal of a case;

and with nothing on standard error. The time is bounded: if a case has more calls than its share of the time allows, some of
them, spread over all, are tried, LEAST of them in any case, and a line says how many.
"""

import argparse
import os
import random
import struct
import sys
import tempfile
import time

sys.path.insert(0, os.path.join(os.path.dirname(os.path.abspath(__file__)), ".."))
from lib.captures import capture
from lib.runs import left_by
from lib.tally import Tally

# The case with the most calls comes last: it has all the time that the others left.
CASES = {
    "burst": ["burst", "one.pcap"], "burst with a plan": ["burst", "p.plan"], "join": ["join", "one.pcap.words"],
    "join with a plan": ["join", "p.plan"], "send": ["send", "p.plan"], "receive": ["receive", "p.plan"],
    "stripe": ["stripe", "p.plan"], "check": ["check", "p.plan"], "damage": ["damage", "s.plan"], "gather": ["gather", "p.plan"], "inspect": ["inspect", "p.plan"],
    "link": ["link", "l.plan"], "list": ["list", "one.pcap.words"],
    "list of a lane": ["list", "p.lane.0"], "assemble": ["assemble", "one.txt"], "duplex": ["duplex", "d.csv"],
    "oobwrite": ["oobwrite", "p.plan"], "oobread": ["oobread", "r.plan"], "resend": ["resend", "r.plan"],
    "generate": ["generate", "7", "g"],
}
KINDS = ("malloc", "read", "write", "open")
# What a case reads before it creates an output, besides what made_inputs makes.
INPUTS = {
    "join": ["one.pcap.words"], "join with a plan": ["p.words"], "stripe": ["p.words"], "check": ["p.words"], "damage": ["p.lane.0", "p.lane.1"],
    "list": ["one.pcap.words"], "list of a lane": ["p.lane.0"],
}
FAULT = b"store fault: "
# What each case makes of calls at least: a file is written, and the text.
FEWEST = {"malloc": 1, "read": 1, "write": 2, "open": 1}
STATUSES = {"malloc": (6,), "read": (1,), "write": (1, 7), "open": (1,)}
PLAN = "lanes,2\nmetaframe,32\nwarmup,4\nchannel,1,one.pcap\nchannel,2,two.pcap\n"
# A frame of a calendar of two entries, the second of them off.
SAMPLES = bytes([6, 7, 0, 1, 0, 1, 0, 1, 0, 1, 0, 1])
# A run has to end by then.
SECONDS = 60
# The least number of calls that are tried of a case, whatever time they take.
LEAST = 40


def made_inputs():
    return {
        "one.pcap": capture(["300", "40", "1500"]), "two.pcap": capture(["64", "65", "1", "900"]),
        "p.plan": (PLAN + "flow,p.flow\nlocal,p.local\nout,p\n").encode(), "p.flow": b"0,81FFFF0000188177\n",
        "p.local": b"3,1,off\n", "l.plan": (PLAN + "schedule,l.schedule\nout,l\n").encode(), "s.plan": (PLAN + "schedule,l.schedule\nout,p\n").encode(),
        "l.schedule": b"skew,1,30\nflip,0,9000\n", "one.txt": b"words\nbad 0000000000000000\ndata 0000000000000001\n",
        "d.csv": b"plan,p.plan\ndelay,7\nmark,4\nslots,900\ndrain,2\nback,2,one.pcap\nout,d\n",
        "r.plan": (PLAN + "flow,p.flow\nlocal,p.local\noob,r.oob\nwindow,9\nevents,r.events\nout,r\n").encode(),
        "r.oob": SAMPLES + SAMPLES[:7] + SAMPLES, "r.events": b"send,9\ntake,5\nlose,1\ntake,9\ntakeback,14\nrewind,1\n" + 40 * b"send,9\ntake,9\ntakeback,9\n",
    }


def wrong(got, right, before, kind, inputs):
    """What a run with a failing call of a kind did that it must not, or nothing. It has these inputs."""
    if got.error:
        return "standard error %r" % got.error[:80]
    if (got.status, got.text) == (right.status, right.text):
        if kind != "malloc":
            return "nothing tells of it"
        return "" if got.files == right.files else "it answers, and its files differ"
    if got.status not in STATUSES[kind]:
        return "status %s" % got.status
    if got.status == 1 and not (got.text.startswith(FAULT) and got.text.find(b"\n") == len(got.text) - 1):
        return "text %r" % got.text
    if got.status == 1 and got.text[len(FAULT) : -1].decode() in inputs and got.files != before:
        return "an output was created before %r was read" % got.text[len(FAULT) : -1]
    if got.status == 6 and got.text not in (b"out of memory\n", b""):
        return "text %r" % got.text
    if got.status == 7 and not right.text.startswith(got.text):
        return "text %r" % got.text
    for name, data in got.files.items():
        if data != before.get(name) and not right.files.get(name, b"").startswith(data):
            return "%s holds no prefix" % name
    gone = [name for name in before if name not in got.files]
    return "%s is gone" % gone[0] if gone else ""


class Case:
    def __init__(self, given, tally, name, before):
        self.program, self.library, self.tally = given.program, given.library, tally
        self.name, self.words, self.before = name, CASES[name], before
        self.inputs = [*made_inputs(), *INPUTS.get(name, [])]
        self.refused = self.unread = 0

    def run(self, **more):
        """A run with the library loaded, and these words for it."""
        return left_by(self.program, self.words, self.before, SECONDS, {"LD_PRELOAD": self.library, **more})

    def undisturbed(self):
        """The run without the library; None, and a failure, if it is not one in which something can fail."""
        right = left_by(self.program, self.words, self.before, SECONDS)
        if right.status == 0 and right.text and not right.error:
            return right
        self.tally.count(self.name, "undisturbed it ends with status %s, text %r and standard error %r" % (right.status, right.text[:80], right.error[:80]))
        return None

    def calls(self, right):
        """Each call of the run, as the library counts them: its kind and its number. None if it does not see enough of them."""
        with tempfile.NamedTemporaryFile() as file:
            file.write(bytes(8 * len(KINDS)))
            file.flush()
            counted = self.run(FAIL_COUNTS=file.name)
            with open(file.name, "rb") as counts:
                found = struct.unpack("%dq" % len(KINDS), counts.read())
        if counted != right or any(count < FEWEST[kind] for kind, count in zip(KINDS, found)):
            told = ", ".join("%d of %s" % pair for pair in zip(found, KINDS))
            self.tally.count(self.name, "with the library it ends with status %s and %r, and makes calls: %s" % (counted.status, counted.text[:80], told))
            return None
        return [(kind, at) for kind, count in zip(KINDS, found) for at in range(1, count + 1)]

    def fail_one(self, kind, at, right):
        got = self.run(FAIL_KIND=kind, FAIL_AT=str(at))
        self.refused += got.status == 6
        self.unread += got.files == self.before and got.status == 1
        self.tally.count("%s, %s %d" % (self.name, kind, at), wrong(got, right, self.before, kind, self.inputs))

    def fail_all(self, until):
        right = self.undisturbed()
        calls = right and self.calls(right)
        if not calls:
            return
        # In an order in which those that the time allows are spread over all.
        random.Random(0).shuffle(calls)
        tried = 0
        for kind, at in calls:
            if tried >= LEAST and time.monotonic() > until:
                break
            self.fail_one(kind, at, right)
            tried += 1
        if not self.refused:
            self.tally.count(self.name, "no refusal of memory changes anything")
        if not self.unread and tried == len(calls) and self.words[0] != "generate":
            self.tally.count(self.name, "no input fails before an output is created")
        print("%s: %d of %d calls tried" % (self.name, tried, len(calls)), flush=True)


def arguments():
    parser = argparse.ArgumentParser()
    parser.add_argument("program", type=os.path.abspath)
    parser.add_argument("library", type=os.path.abspath)
    parser.add_argument("--seconds", type=float, default=120)
    parser.add_argument("cases", nargs="*", default=list(CASES), metavar="CASE")
    return parser.parse_intermixed_args()


def main():
    given, tally = arguments(), Tally("faults")
    before = made_inputs()
    for name in ("burst", "burst with a plan", "send"):
        before = left_by(given.program, CASES[name], before, SECONDS).files
    until = time.monotonic() + given.seconds
    for left, name in zip(range(len(given.cases), 0, -1), given.cases):
        if name in CASES:
            Case(given, tally, name, before).fail_all(time.monotonic() + (until - time.monotonic()) / left)
        else:
            tally.count(name, "there is no such case")
    return tally.end()


if __name__ == "__main__":
    sys.exit(main())
