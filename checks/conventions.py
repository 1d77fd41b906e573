"""What checks/conventions.sh does, with the program and the repository as its words, and the first number and the count of the draws."""

import csv
import os
import random
import re
import shlex
import subprocess
import sys
import tempfile

from lib.adapters import try_adapter
from lib.captures import capture
from lib.conventions import CODE, CONTROL, ORDERS, Convention, Fault, Link, send
from lib.devices import text_of
from lib.dumps import FORMS, dump_of, is_of_codes
from lib.machine import patience
from lib.planted import to_bytes
from lib.runs import content, write_files
from lib.tally import Tally

PROGRAM, TOP = os.path.abspath(sys.argv[1]), os.path.abspath(sys.argv[2])
FIRST, COUNT = (int(word) for word in (sys.argv[3:5] or (1, 13)))
SECONDS, CHANNELS = 120, 3
FAULTS = ("none", "crc24", "sop", "sync", "state", "skip", "bit", "header", "health", "crc32")


def tool(folder, *words):
    done = subprocess.run([os.path.join(TOP, "tools", words[0]), *words[1:]], cwd=folder, stdin=subprocess.DEVNULL, capture_output=True, encoding="utf-8",
                          timeout=patience(SECONDS), env={**os.environ, "INTERLAKEN_PROGRAM": PROGRAM})
    return done.returncode, done.stdout, done.stderr


def words_of(data):
    return [(data[at], int.from_bytes(data[at + 1:at + 9], "big")) for at in range(0, len(data), 9)]


class Draw:
    """A link, its words, a convention, a fault, the form of the dump, and the bits of each lane that it lacks in front and at the end."""

    def __init__(self, number, folder):
        draws = random.Random(number)
        self.number, self.folder = number, folder
        self.link = Link(draws.randrange(2, 5), draws.randrange(36, 90), draws.randrange(1, 3))
        self.convention = Convention.drawn(draws)
        self.words = self.sent(draws)
        period, lanes = CODE * self.link.metaframe, self.link.lanes
        cut = draws.randrange(period * 3)
        self.cuts = [cut + draws.randrange(200) for _ in range(lanes)]
        self.fault = self.drawn_fault(draws, draws.choice(FAULTS))
        self.form = FORMS[number % len(FORMS)]
        if draws.random() < 0.25:
            # Only framing words of the first metaframe are missing, or none.
            self.cuts = [period * draws.randrange(3) + CODE * draws.randrange(3 + self.link.skips)] * lanes
        self.end = draws.randrange(2 * CODE)  # bits that are missing at the end of each lane
        if is_of_codes(self.form):
            self.cuts = [cut // CODE * CODE for cut in self.cuts]

    def rows(self, out, named=False):
        rows = ["lanes,%d" % self.link.lanes, "metaframe,%d" % self.link.metaframe, "skips,%d" % self.link.skips]
        return text_of(rows + ["channel,%d%s" % (channel, ",in.%d" % channel if named else "") for channel in range(CHANNELS)] + ["out," + out])

    def sent(self, draws):
        write_files(self.folder, {"in.%d" % channel: capture(["%d" % draws.randrange(60, 500) for _ in range(22)]) for channel in range(CHANNELS)})
        write_files(self.folder, {"sent.plan": self.rows("sent", named=True)})
        subprocess.run([PROGRAM, "burst", "sent.plan"], cwd=self.folder, check=True, capture_output=True)
        return words_of(content(os.path.join(self.folder, "sent.words")))

    def drawn_fault(self, draws, kind):
        group = self.link.lanes * (self.link.metaframe - 3 - self.link.skips)
        frames = len(self.words) // group
        if kind in ("crc24", "sop"):
            slots = [slot for slot, (tag, word) in enumerate(self.words) if tag == CONTROL and 5 * group < slot < (frames - 3) * group and (kind == "crc24" or word >> 61 & 3 == 3)]
            return Fault(kind, draws.choice(slots))
        return Fault(kind, (draws.randrange(self.link.lanes), draws.randrange(5, frames - 2)) if kind != "none" else None)

    def judged(self, convention, name, form="lane files"):
        """What judge finds of the lanes of a convention that come in a form: after the import, and the call that probe names. The rows that
        follow from no other, and what went wrong."""
        lanes = [bits[cut:len(bits) - self.end] for bits, cut in zip(send(self.words, self.link, convention, self.fault), self.cuts)]
        imported = self.imported(lanes, name, form)
        if imported:
            return None, imported
        out, calls = name, self.calls(["%s.lane.%d" % (name, lane) for lane in range(self.link.lanes)])
        if len(calls) > 1:
            return None, "%d calls: %s" % (len(calls), calls)
        for call in calls:
            status, text, error = tool(self.folder, "lanes", *shlex.split(call))
            if status:
                return None, "%s: %s" % (call, error)
            out = re.search(r"--out (\S+)", call)[1]
        write_files(self.folder, {out + ".plan": self.rows(out)})
        status, text, error = tool(self.folder, "judge", out + ".plan")
        if status == 2:
            return None, text + error
        with open(os.path.join(self.folder, out + ".judged.csv"), encoding="utf-8", newline="") as file:
            rows = [(row["what"], row["lane"], row["bit"], row["note"] if row["what"] == "diag" else "") for row in csv.DictReader(file) if "follows from" not in row["note"]]
        return sorted(rows), text

    def imported(self, lanes, name, form):
        """Makes lane files of a dump of a form; what goes wrong."""
        if form == "lane files":
            write_files(self.folder, {"%s.lane.%d" % (name, lane): to_bytes(bits) for lane, bits in enumerate(lanes)})
            return ""
        files, words = dump_of(form, lanes)
        write_files(self.folder, files)
        status, _, error = tool(self.folder, "lanes", "import", "--out", name, *words)
        return "import: status %d, %s" % (status, error) if status else ""

    def calls(self, names):
        return re.findall(r"^mend: tools/lanes (.*)$", tool(self.folder, "probe", *names)[1], re.MULTILINE)


def check_draw(tally, number):
    with tempfile.TemporaryDirectory(prefix="conventions.") as folder:
        draw = Draw(number, folder)
        what = "draw %d, %s, %s, %s, %s" % (number, draw.link, draw.convention, draw.fault, draw.form)
        wanted, _ = draw.judged(Convention(), "own")
        tally.count(what + ", the profile's own sender", "" if (wanted == []) == (draw.fault.kind == "none") else "judge found %s" % wanted)
        found, text = draw.judged(draw.convention, "other", draw.form)
        tally.count(what, "" if found == wanted else "%s, and not %s: %s" % (found and found[:6], wanted, text[:600]))


def check_refused(tally):
    """What adapt refuses: one line, the status 2, and nothing is written."""
    with tempfile.TemporaryDirectory(prefix="conventions.") as folder:
        write_files(folder, {"x.lane.0": bytes(3000), "y.lane.0": b"", "z.lane.0": random.Random(1).randbytes(4000)})
        for words, told in ((["--state", "65", "--out", "n", "x.lane.0"], "--state 65"), (["--crc32", "ones,zeros", "--out", "n", "x.lane.0"], "--crc32: zeros"),
                            (["--crc32", "lowest", "--out", "n", "x.lane.0"], "--crc32: 'lowest'"), (["--out", "n", "x.lane.0"], "nothing to do"),
                            (["--state", "5", "--out", "n", "x.lane.0"], "x.lane.0: no Sync word"), (["--state", "5", "--out", "n", "y.lane.0"], "y.lane.0: no Sync word"),
                            (["--state", "5", "--out", "n", "z.lane.0"], "z.lane.0: no Sync word"), (["--state", "5", "--out", "x", "x.lane.0"], "x.lane.0 exists"),
                            (["--state", "5", "--out", "n", "none.lane.0"], "none.lane.0: No such file"), (["--idle-fields", "set", "--out", "n", "x.lane.0"], "argument --idle-fields")):
            status, text, error = tool(folder, "lanes", "adapt", *words)
            tally.expect("adapt " + " ".join(words), (status, text, error.count("\n"), told in error), (2, "", 1, True))
        tally.expect("files", sorted(os.listdir(folder)), ["x.lane.0", "y.lane.0", "z.lane.0"])


def mutated(data, draws):
    """The bytes of a lane with some lost, doubled, changed or made one value."""
    data = bytearray(data)
    for _ in range(draws.randrange(1, 4)):
        kind, at = draws.randrange(7), draws.randrange(len(data) + 1)
        end = at + draws.choice((1, 9, 300, 4000))
        if kind == 0:
            del data[at:]
        elif kind == 1:
            del data[at:end]
        elif kind == 2:
            data[at:at] = data[at:end]
        elif kind == 3:
            data[at:end] = bytes([draws.choice((0, 255, 0x78))]) * len(data[at:end])
        elif kind == 4:
            data[at:end] = draws.randbytes(len(data[at:end]))
        elif kind == 5:
            data[at:end] = bytes(byte ^ 255 for byte in data[at:end])
        elif draws.random() < 0.2:
            data = bytearray()
    return bytes(data)


def check_mutated(tally, number):
    """Whatever the lanes of a convention become, each tool ends by itself: with its answer, or with one line and the status 2."""
    with tempfile.TemporaryDirectory(prefix="conventions.") as folder:
        draw, draws = Draw(number, folder), random.Random(number)
        lanes = send(draw.words, draw.link, draw.convention, draw.fault)
        names = ["x.lane.%d" % lane for lane in range(draw.link.lanes)]
        struck = set(draws.sample(range(len(names)), draws.randrange(1, len(names) + 1)))
        data = [to_bytes(bits[cut:]) for bits, cut in zip(lanes, draw.cuts)]
        write_files(folder, {name: mutated(data[lane], draws) if lane in struck else data[lane] for lane, name in enumerate(names)})
        write_files(folder, {"x.plan": draw.rows("x"), "y.plan": draw.rows("y")})
        steps = ["--state", str(draw.convention.state)] + ["--crc32", draws.choice(ORDERS[1:])] * draws.randrange(2) + ["--crc24", "zeros", "--multi-use", "clear"] * draws.randrange(2)
        for words in (["probe", *names], ["lanes", "adapt", *steps, "--out", "y", *names], ["judge", "x.plan"]):
            status, text, error = tool(folder, *words)
            is_told = error.count("\n") == 1 and not text if status == 2 else status in (0, 1) and not error
            tally.count("mutated lanes of draw %d: %s" % (number, " ".join(words)), "" if is_told else "status %d, %s" % (status, error[:600]))
            if words[0] == "lanes" and status == 2:
                tally.expect("mutated lanes of draw %d: nothing is written" % number, [name for name in os.listdir(folder) if name.startswith("y.lane")], [])


def main():
    tally = Tally("conventions")
    check_refused(tally)
    for number in range(FIRST, FIRST + COUNT):
        check_draw(tally, number)
        check_mutated(tally, number)
        with tempfile.TemporaryDirectory(prefix="conventions.") as folder:
            try_adapter(tally, TOP, folder, number)
    return tally.end()


sys.exit(main())
