"""Shows how outputs grow, by making each write of a run fail in turn, and then each read of one.

    python3 pieces.py PROGRAM LIBRARY

LIBRARY is faults/failing.c, built. A write that fails adds nothing, so what stands then are the writes before it. Each run without
a failing call has to end with status 0 and leave the files that are looked at:

    burst   of a hundred packets of 1,514 bytes: two pieces of 65,536 bytes, a rest, and the text in one write
    send    of eight lanes of 171,520 bytes: only pieces of 65,536 bytes, then the rests in the order of creation, then the text
    stripe  of the words of this stream: the same
    damage  of these lanes, without a schedule: the same
    gather  of a lane of 4,000 groups: only pieces of the words and of the table, then the rests in the order of creation, then the text
    receive of a lane with a hundred packets: at the last read whose failing ends the run, the capture has a piece already
    gather  of that of 4,000 groups: there the words and the table have a piece already
    inspect of such a lane with a bad word in each: there the table has a piece already
    generate of a case: each of its files is written to its end before the next, pieces and then a rest
    duplex  of a hundred packets both ways: only pieces of both captures, then the rests in the order of creation, then the text
    check, inspect, oobwrite, oobread, resend of one large output each: pieces of it, a rest, and the text in one write
"""

import os
import sys

from lib.captures import capture
from lib.runs import left_by
from lib.tally import Tally

PIECE = 65536
SENT = {"p.plan": b"lanes,8\nmetaframe,2048\nchannel,0,a.pcap\nchannel,1,b.pcap\nout,o\n", "a.pcap": capture(["60", "1514"]), "b.pcap": capture(["60", "590"])}
RECEIVED = {"p.plan": b"lanes,1\nmetaframe,32\nwarmup,4\nchannel,1,a.pcap\nchannel,2\nout,o\n", "a.pcap": capture(["100x1514"])}
LANES = ["o.lane.%d" % lane for lane in range(8)]
# Frames of 12 samples up to slot 150,000 and one more.
STATUS = {"p.plan": b"lanes,1\nmetaframe,32\nchannel,1\nchannel,2\nlocal,p.local\noob,o.oob\nout,o\n", "p.local": b"150000,1,off\n"}
RESENT = {"p.plan": b"lanes,1\nmetaframe,32\nwindow,255\nevents,p.events\nchannel,1,a.pcap\nout,o\n", "a.pcap": capture(["100x1514"]), "p.events": 9 * b"send,255\ntake,255\ntakeback,255\n"}
IDLE = bytes.fromhex("0281FFFF0000188177")
ENDS = {"d.csv": b"plan,p.plan\ndelay,1\nmark,100\nslots,30000\nback,1,a.pcap\nout,o\n", **RESENT}


class Checks:
    def __init__(self, program, library):
        self.program, self.library, self.tally = program, library, Tally("pieces")

    def files(self, words, before, names=()):
        """The files after a run that nothing disturbs; the check ends if it fails, or one of these names is not among them."""
        right = left_by(self.program, words, before)
        lacking = [name for name in names if name not in right.files]
        if right.status != 0 or right.error or lacking:
            told = "undisturbed it ends with status %s and text %r, and these files are missing: %s"
            self.tally.give_up(words[0], told % (right.status, right.text[:80], ", ".join(lacking) or "none"))
        return right.files

    def failing(self, words, before, kind, at):
        return left_by(self.program, words, before, environment={"LD_PRELOAD": self.library, "FAIL_KIND": kind, "FAIL_AT": str(at)})

    def holds(self, what, true):
        self.tally.count(what, "" if true else "not so")

    def lengths(self, words, before, names, at, wanted, line):
        """Write number `at` fails: these files have these lengths, each a prefix, and the text is this line."""
        right, got = self.files(words, before, names), self.failing(words, before, "write", at)
        what = "%s, write %d" % (words[0], at)
        self.holds(what + ": lengths", [len(got.files.get(name, b"")) for name in names] == wanted)
        self.holds(what + ": prefixes", all(right[name].startswith(got.files.get(name, b"")) for name in names))
        self.holds(what + ": status and text", (got.status, got.text) == ((1, line) if line else (7, b"")))

    def one_output(self, words, before, name, length):
        """The one file of a command grows in pieces and a rest, and the text is the write after it."""
        writes = -(-length // PIECE)
        for at in range(1, writes + 1):
            self.lengths(words, before, [name], at, [PIECE * (at - 1)], b"store fault: %s\n" % name.encode())
        self.lengths(words, before, [name], writes + 1, [length], b"")

    def outputs(self, words, before, names, lengths):
        """The files of a command, none of whole pieces, grow in pieces side by side; then come the rests in order, and then the text."""
        pieces, whole = sum(length // PIECE for length in lengths), [length // PIECE * PIECE for length in lengths]
        for at in range(1, pieces + 1):
            got = self.failing(words, before, "write", at)
            found = [len(got.files.get(name, b"")) for name in names]
            self.holds("%s, write %d: pieces" % (words[0], at), all(n % PIECE == 0 for n in found) and sum(found) == PIECE * (at - 1))
        for at, name in enumerate(names):
            self.lengths(words, before, names, pieces + 1 + at, lengths[:at] + whole[at:], b"store fault: %s\n" % name.encode())
        self.lengths(words, before, names, pieces + 1 + len(names), lengths, b"")

    def equal_outputs(self, words, before, names, length):
        """The same of files that are all of one length."""
        self.outputs(words, before, names, [length] * len(names))

    def burst(self):
        self.one_output(["burst", "a.pcap"], {"a.pcap": capture(["100x1514"])}, "a.pcap.words", 176427)

    def send(self):
        self.equal_outputs(["send", "p.plan"], SENT, LANES, 171520)

    def stripe(self):
        before = self.files(["burst", "p.plan"], SENT, ["o.words"])
        self.equal_outputs(["stripe", "p.plan"], before, LANES, 171520)

    def damage(self):
        before = self.files(["send", "p.plan"], SENT, LANES)
        self.equal_outputs(["damage", "p.plan"], before, [name.replace("o.", "o.damaged.") for name in LANES], 171520)

    def gather(self):
        # Idles in 4,000 groups of 28 words; the first group whose words are given is that of the declaring Sync.
        before = self.files(["stripe", "p.plan"], {"p.plan": RECEIVED["p.plan"], "o.words": 4000 * 28 * IDLE}, ["o.lane.0"])
        groups = range(3, 4000)
        # A row has the words before its group, the bit of the group and a stroke; and the last is that of the break.
        rows = ["%d,%d,0,-\n" % (28 * (group - 3), 67 * 32 * group) for group in groups] + ["%d,%d,0,end\n" % (28 * len(groups), 67 * 32 * 4000)]
        lengths = [9 * 28 * len(groups), len("word,group,index,why\n") + sum(map(len, rows))]
        self.outputs(["gather", "p.plan"], before, ["o.words", "o.places.csv"], lengths)
        self.at_last_read(["gather", "p.plan"], before, ["o.words", "o.places.csv"])

    def inspect(self):
        # In each of 4,000 metaframes from the fifth on a header is wrong, of a word that carries payload, in turn by a one less and a one more.
        before = self.files(["stripe", "p.plan"], {"p.plan": RECEIVED["p.plan"], "o.words": 4000 * 28 * IDLE}, ["o.lane.0"])
        lane, words = bytearray(before["o.lane.0"]), [32 * metaframe + 8 for metaframe in range(4, 4000)]
        for bit in (67 * word + 1 + at % 2 for at, word in enumerate(words)):
            lane[bit // 8] ^= 128 >> bit % 8
        rows = ["0,%d,lock\n" % (67 * 32 * 3)] + ["0,%d,bad\n0,%d,diag\n" % (67 * word, 67 * (word + 23)) for word in words]
        length = len("lane,bit,event\n") + sum(map(len, rows))
        before = {**before, "o.lane.0": bytes(lane)}
        self.one_output(["inspect", "p.plan"], before, "o.events.csv", length)
        self.at_last_read(["inspect", "p.plan"], before, ["o.events.csv"])

    def check(self):
        # Each word is bad, and its row has its number.
        length = len("word,rule,channel\n") + sum(len("%d,bad,-\n" % number) for number in range(15000))
        self.one_output(["check", "p.plan"], {"p.plan": SENT["p.plan"], "o.words": 15000 * (b"\3" + bytes(8))}, "o.faults.csv", length)

    def duplex(self):
        self.equal_outputs(["duplex", "d.csv"], ENDS, ["o.a.1.pcap", "o.b.1.pcap"], len(ENDS["a.pcap"]))

    def oobwrite(self):
        self.one_output(["oobwrite", "p.plan"], STATUS, "o.oob", 150012)

    def oobread(self):
        samples = bytes([6, 7, 2, 3, 0, 1, 0, 1, 0, 1, 2, 3]) * 5000
        # A row has the number of a sample, a comma, 16 digits and a line end.
        length = sum(len("%d" % at) + 18 for at in range(11, len(samples), 12))
        self.one_output(["oobread", "p.plan"], {**STATUS, "o.oob": samples}, "o.oob.flow", length)

    def resend(self):
        # The whole stream is accepted, so that its length is that of the words file of `burst`.
        length = len(self.files(["burst", "p.plan"], RESENT, ["o.words"])["o.words"])
        self.one_output(["resend", "p.plan"], RESENT, "o.words", length)

    def receive(self):
        before = self.files(["send", "p.plan"], RECEIVED, ["o.lane.0"])
        self.at_last_read(["receive", "p.plan"], before, ["o.1.pcap"])

    def at_last_read(self, words, before, names):
        """At the last read whose failing ends the run these files have a piece already."""
        right, last, at = self.files(words, before, names), None, 1
        got = self.failing(words, before, "read", at)
        while got.status == 1 and at < 10000:
            last, at = got, at + 1
            got = self.failing(words, before, "read", at)
        self.holds("%s, after its last read: it ends undisturbed" % words[0], (got.status, got.files) == (0, right))
        for name in names:
            held = last.files.get(name, b"") if last else b""
            self.holds("%s, the last read: a piece of %s stands" % (words[0], name), PIECE <= len(held) and right[name].startswith(held))
        self.holds("%s, the last read: its lane is told" % words[0], last and last.text == b"store fault: o.lane.0\n")

    def generate(self):
        right = self.files(["generate", "7", "g"], {}, ["g.schedule", "g.plan"])
        captures = sorted((name for name in right if name.startswith("g.") and name.endswith(".pcap") and ".out." not in name), key=lambda name: int(name.split(".")[1]))
        names = captures + ["g.schedule", "g.plan"]
        at = 1
        for place, name in enumerate(names):
            length = len(right[name])
            for done in range(0, length, PIECE):
                wanted = [len(right[n]) for n in names[:place]] + [done] + [0] * (len(names) - place - 1)
                self.lengths(["generate", "7", "g"], {}, names, at, wanted, b"store fault: %s\n" % name.encode())
                at += 1


def main():
    program, library = (os.path.abspath(name) for name in sys.argv[1:])
    checks = Checks(program, library)
    for command in (checks.burst, checks.send, checks.stripe, checks.damage, checks.gather, checks.inspect, checks.check, checks.receive, checks.generate, checks.duplex, checks.oobwrite, checks.oobread, checks.resend):
        command()
    return checks.tally.end()


if __name__ == "__main__":
    sys.exit(main())
