"""What checks/slots.sh does, with the program and the repository as its words.

Of each link: every slot of the stream stands where `tools/slots` says by its formula (the sent lane has there a control word exactly
if the words file has one); the ends of each span are control words that arrived as they were sent; the lost packets are those that
`link` printed, at the places of their words, and meet the span that is named and none before; the damaged bits differ from the sent
ones, and lie in the spans that are named.
"""

import csv
import io
import os
import random
import re
import subprocess
import sys
import tempfile
from collections import Counter

from lib.captures import capture
from lib.devices import BREAKS, CUT, GROUP, LANES, METAFRAME, PACKETS, PERIOD, SPOILED_SLOTS, Device, changed, spoiled, sums
from lib.machine import copy_examples
from lib.runs import content, write_files
from lib.tally import Tally

PROGRAM, TOP = os.path.abspath(sys.argv[1]), os.path.abspath(sys.argv[2])
sys.path.insert(0, os.path.join(TOP, "tools", "lib"))

from reading.files import Folder, Refused
from reading.lane_bits import bits_of
from reading.plans import CODE, Plan, Schedule

TOOL = os.path.join(TOP, "tools", "slots")
EXAMPLES, LINKS = ("damaged", "two", "wide", "again", "status"), 40
CONTROL, CONTROL_TAG = "10", 2
PLACES = ["%s_%s" % (end, column) for end in ("first", "last") for column in ("slot", "lane", "metaframe", "bit")]

ANEW = "these files are not of one run: `interlaken link` and then `interlaken burst` of this plan with another `out` make new files"
CHANGED = "the schedule was changed after the run; `interlaken link` of this plan with another `out` makes new lanes"
MISSING = ["--missing", "--text", "printed"]
# After a run of examples/damaged.plan: the file that is changed, what in it (None: the file goes), the words, and what the tool says.
REFUSED = [
    ("damaged.schedule", (b"flip,0,9000", b"flip,0,14000"), ["--damage"], "damaged.schedule:3: bit 14000 of lane 0 came as it would without this row: " + CHANGED),
    ("damaged.schedule", (b"flip,0,9000", b"flip,0,14000"), MISSING, "damaged.schedule:3: bit 14000 of lane 0 came as it would without this row: " + CHANGED),
    ("damaged.schedule", (b"skew,0,11", b"skew,0,12"), [], "damaged.spans.csv: group 6443 begins at no bit at which the plan has a Sync word sent on lane 0, and no other does: " + ANEW),
    ("damaged.schedule", (b"skew,1,200", b"skew,1,201"), [], "damaged.lane.1: 1901 bytes, and 7 metaframes of the plan after a skew of 201 bits fill 1902: " + ANEW),
    ("damaged.schedule", (b"skew,1,200", b"skew,1,199"), [], "damaged.lane.1: a Sync word at bit 200, and none begins there after a skew of 199 bits: " + ANEW),
    ("damaged.plan", (b"metaframe,32", b"metaframe,64"), [], "damaged.lane.0: 1878 bytes, and 3 metaframes of the plan after a skew of 11 bits fill 1610: " + ANEW),
    ("damaged.plan", (b"metaframe,32", b"metaframe,64"), MISSING, "damaged.plan: 392 slots were printed, and a metaframe of the plan has 120: " + ANEW),
    ("damaged.plan", (b"metaframe,32", b"metaframe,32\nskips,2"), [], "damaged.spans.csv: word 55 of group 12875, and the groups of the plan have 54: " + ANEW),
    ("damaged.plan", (b"lanes,2", b"lanes,3"), [], "damaged.lane.2 is missing: `interlaken link` of this plan with another `out` makes new files"),
    ("damaged.plan", (b"lanes,2", b"lanes,3"), MISSING, "damaged.plan: 3 lanes, and the run printed 2: " + ANEW),
    ("damaged.lane.1", None, [], "damaged.lane.1 is missing: `interlaken link` of this plan with another `out` makes new files"),
    ("damaged.words", None, ["--packets"], "damaged.words is missing: `interlaken burst damaged.plan` makes it"),
    ("printed", (b"spans 3", b"spans 4"), MISSING, "damaged.spans.csv: 3 spans, and the run printed 4: " + ANEW),
    ("printed", (b"slots 392", b"slots 448"), MISSING, "damaged.lane.0: 1878 bytes, and 8 metaframes of the plan after a skew of 11 bits fill 2146: " + ANEW),
    ("printed", (b"slots", b"SLOTS"), MISSING, "printed has no lines that `link` prints"),
    ("damaged.plan", None, ["--missing"], "damaged.plan: No such file or directory"),
    ("printed", None, ["--missing"], "the packets that did not come are those that `link` printed: --text FILE names its text, --program PROGRAM runs it"),
]
# Files in place of a plan, and what each is.
OTHERS = {"damaged.words": "a words file", "one.pcap": "a capture", "damaged.schedule": "a schedule", "two_ends.duplex": "a settings file of two ends"}


def random_link(chance, name):
    """The files of a link with skews that align, inverted bits and dark stretches."""
    lanes, metaframe, skips = chance.choice((1, 2, 3, 5, 8, 12)), chance.choice((32, 33, 40, 64)), chance.randrange(1, 5)
    files, rows = {}, ["lanes,%d" % lanes, "metaframe,%d" % metaframe, "skips,%d" % skips, "warmup,4", "out,%s" % name, "schedule,%s.schedule" % name]
    for channel in chance.sample(range(256), chance.randrange(1, 5)):
        files["%s.in.%d" % (name, channel)] = capture(["%d" % chance.choice((1, 40, 64, 300, 1500)) for _ in range(chance.randrange(1, 9))])
        rows.append("channel,%d,%s.in.%d" % (channel, name, channel))
    group = CODE * metaframe
    schedule = ["skew,%d,%d" % (lane, chance.randrange(7 * CODE + 1)) for lane in range(lanes)]
    schedule += ["flip,%d,%d" % (chance.randrange(lanes), chance.randrange(3 * group, 9 * group)) for _ in range(chance.randrange(1, 9))]
    schedule += ["dark,%d,%d,%d" % (chance.randrange(lanes), chance.randrange(4 * group, 9 * group), chance.choice((1, 30, 200, 3000))) for _ in range(chance.randrange(3))]
    files[name + ".plan"], files[name + ".schedule"] = ("\n".join(lines + [""]).encode() for lines in (rows, schedule))
    return files


class Link:
    """A link that was run: its plan, the words of its stream, its lanes as they were sent and as they came, and the tables of the tool."""

    def __init__(self, tally, folder, name):
        self.tally, self.folder, self.name = tally, folder, name
        self.plan = plan = Plan(folder, name + ".plan")
        self.schedule = Schedule(folder, plan)
        folder.run("burst", name + ".plan")
        self.tags = [tag for tag, _ in folder.words(plan.out + ".words")]
        folder.run("send", name + ".plan")
        self.sent = self.lanes()
        self.text = folder.run("link", name + ".plan")
        self.came = self.lanes()
        with open(folder.path("printed"), "w", encoding="utf-8") as file:
            file.write(self.text)
        self.spans, self.missing, self.damage, self.packets = (self.table(words) for words in ([], ["--missing", "--text", "printed"], ["--damage"], ["--packets"]))

    def lanes(self):
        return [bits_of(self.folder.content("%s.lane.%d" % (self.plan.out, lane))) for lane in range(self.plan.lanes)]

    def table(self, words):
        """A table of the tool, each row by its columns, with numbers as numbers."""
        done = subprocess.run([TOOL, self.name + ".plan"] + words, cwd=self.folder.folder, capture_output=True, encoding="utf-8")
        self.tally.expect("%s: slots %s" % (self.name, " ".join(words)), (done.returncode, done.stderr), (0, ""))
        return [{key: int(value) if value.isdigit() else value for key, value in row.items()} for row in csv.DictReader(io.StringIO(done.stdout))]

    def expect(self, what, found, wanted):
        self.tally.expect("%s: %s" % (self.name, what), found, wanted)

    def sent_code(self, lane, bit):
        """The code that was sent where the received one begins at a bit."""
        begin = bit - self.schedule.skew[lane]
        return self.sent[lane][begin:begin + CODE]

    def check_formula(self):
        """The kinds of all words of the stream, in the lanes and in the words file."""
        places = (self.plan.place_of(slot) for slot in range(len(self.tags)))
        headers = [self.sent[lane][bit + 1:bit + 3] for lane, _, bit in places]
        self.expect("control words by the formula", [header == CONTROL for header in headers], [tag == CONTROL_TAG for tag in self.tags])
        back = [self.plan.slot_of(lane, bit) for lane, _, bit in map(self.plan.place_of, range(len(self.tags)))]
        self.expect("slots of the places", back, list(range(len(self.tags))))

    def check_spans(self):
        self.expect("spans", len(self.spans), int(re.search(r"^spans (\d+)$", self.text, re.MULTILINE).group(1)))
        for number, row in enumerate(self.spans):
            self.expect("number of a span", row["span"], number)
            for end in ("after", "before"):
                if row[end + "_slot"] != "":
                    lane, bit = row[end + "_lane"], row[end + "_bit"]
                    came = self.came[lane][bit:bit + CODE]
                    self.expect("span %d, %s" % (number, end), (self.tags[row[end + "_slot"]], came[1:3], came == self.sent_code(lane, bit)), (CONTROL_TAG, CONTROL, True))
                    self.expect("span %d, metaframe" % number, row[end + "_metaframe"], (bit - self.schedule.skew[lane]) // self.plan.period)

    def meets(self, span, first, last):
        return (span["after_slot"] == "" or span["after_slot"] < last) and (span["before_slot"] == "" or first < span["before_slot"])

    def check_missing(self):
        printed = [tuple(map(int, line)) for line in re.findall(r"^missing channel=(\d+) packet=(\d+) first=(\d+) last=(\d+) span=(\d+)$", self.text, re.MULTILINE)]
        self.expect("lost packets", [tuple(row[key] for key in ("channel", "packet", "first_slot", "last_slot", "span")) for row in self.missing], printed)
        for row in self.missing:
            met = [number for number, span in enumerate(self.spans) if self.meets(span, row["first_slot"], row["last_slot"])]
            self.expect("the first span of a lost packet", met[:1], [row["span"]])
            codes = [self.sent_code(row[end + "_lane"], row[end + "_bit"])[1:3] for end in ("first", "last")]
            self.expect("the words of a lost packet", codes, [CONTROL, CONTROL])
            lines = [str(strike["line"]) for strike in self.damage if strike["first_slot"] != "" and self.meets(self.spans[row["span"]], strike["first_slot"], strike["last_slot"])]
            self.expect("the lines that strike the span of a lost packet", str(row["damage_lines"]), " ".join(lines))

    def check_packets(self):
        """Packets begin and end with control words, are as many as were sent, and are those of the lines `missing`."""
        sent = {int(channel): int(count) for channel, count in re.findall(r"^sent channel=(\d+) packets=(\d+)", self.text, re.MULTILINE)}
        self.expect("sent packets", Counter(row["channel"] for row in self.packets if row["last_slot"] != ""), Counter({channel: count for channel, count in sent.items() if count}))
        places = {(row["channel"], row["packet"]): row for row in self.packets}
        for row in self.missing:
            found = places.get((row["channel"], row["packet"]), {})
            self.expect("a lost packet", [found.get(column) for column in PLACES], [row[column] for column in PLACES])
        for row in self.packets:
            lane, bit = row["first_lane"], row["sent_bit"]
            self.expect("the SOP word of a packet", (self.sent[lane][bit + 1:bit + 3], row["first_bit"] - bit), (CONTROL, self.schedule.skew[lane]))

    def check_damage(self):
        for row in self.damage:
            lane, first, last = row["lane"], row["first_bit"], row["last_bit"]
            skew = self.schedule.skew[lane]
            if row["key"] == "flip":
                self.expect("the bit of line %d" % row["line"], self.came[lane][first] == self.sent[lane][first - skew], False)
            else:
                self.expect("the dark bits of line %d" % row["line"], set(self.came[lane][first:last + 1]), {"0"})
            self.expect("the slot of line %d" % row["line"], row["first_slot"] == "" and row["key"] == "flip", row["key"] == "flip" and self.plan.slot_of(lane, first - skew) is None)
            if row["first_slot"] != "" and self.came[lane][first:last + 1] != self.sent[lane][first - skew:last - skew + 1]:
                inside = [span["span"] for span in self.spans if self.meets(span, row["first_slot"], row["last_slot"])]
                self.expect("the spans of line %d" % row["line"], (inside[:1], inside[-1:]), ([row["first_span"]], [row["last_span"]]))

    def check(self):
        self.check_formula()
        self.check_spans()
        self.check_missing()
        self.check_damage()
        self.check_packets()
        return len(self.missing), len(self.damage)


def check_refused(tally, folder):
    """Files that are not of one run, and files in place of a plan."""
    def told(name, words):
        done = subprocess.run([TOOL, name] + words, cwd=folder.folder, capture_output=True, encoding="utf-8")
        return done.returncode, done.stdout, done.stderr
    folder.run("burst", "damaged.plan")
    write_files(folder.folder, {"printed": folder.run("link", "damaged.plan").encode()})
    for name, change, words, wanted in REFUSED:
        data = content(folder.path(name))
        os.remove(folder.path(name))
        if change:
            tally.expect("%s has %s" % (name, change[0]), data.count(change[0]), 1)
            write_files(folder.folder, {name: data.replace(*change)})
        tally.expect("%s changed by %s, %s" % (name, change, words), told("damaged.plan", words), (2, "", "slots: %s\n" % wanted))
        write_files(folder.folder, {name: data})
    for name, kind in OTHERS.items():
        tally.expect("%s in place of a plan" % name, told(name, []), (2, "", "slots: %s is %s, and a plan is wanted here\n" % (name, kind)))
    folder.run("join", "damaged.plan")
    joined = "slots: damaged.spans.csv: its spans are of a words file, as `join` writes them, and the text is of lanes: %s\n" % ANEW
    write_files(folder.folder, {"printed": content(folder.path("printed")).replace(b"spans 3", b"spans 2")})
    tally.expect("a table of join and a text of link", told("damaged.plan", MISSING), (2, "", joined))
    tally.expect("a table of join", told("damaged.plan", [])[::2], (0, ""))


class Dump:
    """A device's dump, and the tables of the tool, beside the places of the sent words."""

    def __init__(self, tally, folder, name, breaks):
        self.tally, self.folder, self.name = tally, folder, name
        self.device = Device(PROGRAM, folder, name, breaks, spoil=spoiled)
        self.sent = {self.device.number_of(slot): slot for slot in range(len(self.device.words))}
        # Each number of a gathered word, but of those between epochs.
        self.sent.pop(None)

    def told(self, *words, plan=None):
        """What the tool prints; it changes no file."""
        before = sums(self.folder)
        done = subprocess.run([TOOL, plan or self.name + ".plan", *words], cwd=self.folder, capture_output=True, encoding="utf-8")
        self.expect("changed by slots %s" % (words,), changed(before, sums(self.folder)), [])
        return done.returncode, done.stdout, done.stderr

    def table(self, *words):
        status, text, error = self.told(*words)
        self.expect("slots %s" % (words,), (status, error), (0, ""))
        return list(csv.DictReader(io.StringIO(text)))

    def expect(self, what, found, wanted):
        self.tally.expect("%s: %s" % (self.name, what), found, wanted)

    def place(self, number):
        """The columns lane, metaframe and bit of a gathered word, by the sender's formula: a lane is locked from the fourth of its
        metaframes on that the dump has whole."""
        slot = self.sent.get(int(number))
        if slot is None:
            return None
        lane, bit = self.device.place(slot)
        return ["%d" % lane, "%d" % (slot // GROUP - 4), "%d" % bit]

    def expect_places(self, what, rows, ends=("",), key="slot"):
        """That rows have the places of their words."""
        found = [[row[end + column] for column in (key, "lane", "metaframe", "bit")] for row in rows for end in ends if row[end + key]]
        wanted = [[place[0], *(self.place(place[0]) or ["?"])] for place in found]
        self.expect(what, found, wanted)
        return len(found)

    def check(self):
        self.device.run("receive", "gather", "check", "inspect")
        spans = self.table()
        self.expect("spans", self.expect_places("places of spans", spans, ("after_", "before_")), 2 * len(spans) - 2)
        packets = self.table("--packets")
        self.expect("packets", self.expect_places("places of packets", packets, ("first_", "last_")) > 70, True)
        words = [int.from_bytes(self.device.words[self.sent[int(row["first_slot"])]][1:], "big") for row in packets]
        self.expect("words of packets", ([word >> 61 for word in words], [word >> 32 & 255 for word in words]), ([7] * len(words), [int(row["channel"]) for row in packets]))
        self.expect("sent bits of a lane without a schedule", [row["sent_bit"] for row in packets], [row["first_bit"] for row in packets])
        self.check_faults(self.table("--faults"))
        self.check_events(self.table("--events"))
        self.device.run("join")
        self.expect("spans of join", [row["after_bit"] for row in self.table()], [row["after_bit"] for row in spans])
        self.expect("packets after join", self.table("--packets"), packets)
        self.device.run("receive")

    def check_faults(self, rows):
        """The spoiled words, and the bad words of a break."""
        wrong = ["%d" % self.device.number_of(slot) for slot in SPOILED_SLOTS]
        self.expect("words with a wrong CRC24", [row["word"] for row in rows if row["rule"] == "crc"], wrong)
        self.expect_places("places of faults", [row for row in rows if row["rule"] == "crc"], key="word")
        bad = [[row["lane"], int(row["bit"])] for row in rows if row["rule"] == "bad"]
        # The 16 words of lane 1 whose headers are among the zeros, the last of which ends the lock.
        first = CODE * (METAFRAME * 11 + 7) - CUT[1]
        self.expect("places of bad words", bad, [["1", first + CODE * number] for number in range(16)] if self.device.breaks else [])

    def check_events(self, rows):
        places = {self.device.place(slot): "%d" % number for number, slot in self.sent.items()}
        first = {row["lane"]: int(row["bit"]) for row in reversed(rows) if row["event"] == "lock"}
        self.expect("first locks", first, {"%d" % lane: PERIOD * 4 - CUT[lane] for lane in range(LANES)})
        for row in rows:
            lane, bit = row["lane"], int(row["bit"])
            told = places.get((int(lane), bit)) if row["event"] in ("bad", "balance") else None
            self.expect("metaframe of %s" % row, row["metaframe"], "%d" % ((bit - first[lane]) // PERIOD))
            if told:
                self.expect("word of %s" % row, row["word"], told)
            if row["event"] in ("lock", "sync", "state"):
                self.expect("word of %s" % row, row["word"], "")

    def expect_refused(self, what, words, *told):
        status, text, error = self.told(*words)
        self.expect(what, (status, text, error.count("\n"), [part for part in told if part not in error], "`interlaken link" in error or "`interlaken burst" in error or "`interlaken send" in error), (2, "", 1, [], False))

    def check_program(self):
        """Tables that the program makes apart, only of the lanes."""
        wanted = {words: self.table(*words) for words in ((), ("--packets",), ("--faults",), ("--events",))}
        for name in os.listdir(self.folder):
            if name.startswith(self.name + ".") and ".lane." not in name and not name.endswith(".plan"):
                os.remove(os.path.join(self.folder, name))
        for words, rows in wanted.items():
            self.expect("with --program, %s" % (words,), self.table(*words, "--program", PROGRAM), rows)
        self.expect_refused("--missing of a dump", ["--missing", "--program", PROGRAM], "names no captures")
        for words in ([], ["--packets"], ["--faults"], ["--events"]):
            self.expect_refused("%s of lanes alone" % words, words)

    def check_stale(self, other):
        """Files of another dump, of as many words, and tables that are of an older run."""
        path = os.path.join(self.folder, self.name + ".")
        for ends, words, told in (
                (("words",), ["--packets"], "%s.places.csv is not of these lanes and words" % self.name), (("words", "places.csv"), ["--packets"], "is not of these lanes and words"),
                (("lane.0", "lane.1", "lane.2"), ["--packets"], "is not of these lanes and words"), (("lane.0", "lane.1", "lane.2"), [], "is not of these lanes and words"),
                (("spans.csv",), [], "%s.spans.csv is of an older run: `interlaken receive %s.plan` makes it anew" % (self.name, self.name)),
                (("faults.csv",), ["--faults"], "%s.faults.csv is of an older run: `interlaken check %s.plan` makes it anew" % (self.name, self.name)),
                (("events.csv",), ["--events"], "%s.events.csv is of an older run: `interlaken inspect %s.plan` makes it anew" % (self.name, self.name))):
            kept = {end: content(path + end) for end in ends}
            write_files(self.folder, {"%s.%s" % (self.name, end): other[end] for end in ends})
            self.expect_refused("%s of another dump, %s" % (ends, words), words, told)
            write_files(self.folder, {"%s.%s" % (self.name, end): data for end, data in kept.items()})
        for end, words in (("lane.1", []), ("lane.1", ["--packets"]), ("lane.1", ["--faults"]), ("lane.1", ["--events"]), ("words", ["--packets"]), ("faults.csv", ["--faults"]), ("events.csv", ["--events"]), ("spans.csv", [])):
            data = content(path + end)
            os.remove(path + end)
            self.expect_refused("without %s, %s" % (end, words), words, "%s.%s" % (self.name, end))
            write_files(self.folder, {"%s.%s" % (self.name, end): data})
        done = subprocess.run([TOOL, self.name + ".plan"], cwd=self.folder, capture_output=True, encoding="utf-8", env={**os.environ, "INTERLAKEN_PROGRAM": "./absent"})
        self.expect("without a program", (done.returncode, done.stdout, done.stderr), (2, "", "slots: there is no program ./absent; INTERLAKEN_PROGRAM or --program names it\n"))
        for end, data, words in (("places.csv", b"word,group,index,why\n0,x,0,-\n", []), ("places.csv", b"word\n", []), ("faults.csv", b"word,rule,channel\n1,none,-\n", ["--faults"]), ("events.csv", b"lane,bit,event\n9,9,diag\n", ["--events"])):
            kept = content(path + end)
            write_files(self.folder, {"%s.%s" % (self.name, end): data})
            self.expect_refused("%s spoiled" % end, words)
            write_files(self.folder, {"%s.%s" % (self.name, end): kept})


def check_dumps(tally, folder):
    """A device's lanes from 1,000 bits into a metaframe on, whole, and with a break after which one of them is late."""
    dumps = [Dump(tally, folder, name, breaks) for name, breaks in (("whole", ()), ("broken", BREAKS))]
    for dump in dumps:
        dump.check()
    Device(PROGRAM, folder, "other", packets=PACKETS[::-1]).run("receive", "gather", "check", "inspect")
    ends = ["words", "places.csv", "spans.csv", "faults.csv", "events.csv"] + ["lane.%d" % lane for lane in range(LANES)]
    other = {end: content(os.path.join(folder, "other." + end)) for end in ends}
    tally.expect("words of another dump", len(other["words"]), len(content(os.path.join(folder, "whole.words"))))
    other["spans.csv"] = other["spans.csv"].replace(b",end", b",lost")
    other["events.csv"] += b"2,20000,skip\n"
    dumps[0].check_stale(other)
    for dump in dumps:
        dump.check_program()


def main():
    tally, lost, struck = Tally("slots"), 0, 0
    with tempfile.TemporaryDirectory() as path:
        copy_examples(TOP, path)
        folder = Folder(PROGRAM, path)
        for number in range(LINKS):
            for name, data in random_link(random.Random(number), "random%d" % number).items():
                with open(folder.path(name), "wb") as file:
                    file.write(data)
        for name in EXAMPLES + tuple("random%d" % number for number in range(LINKS)):
            try:
                missing, damage = Link(tally, folder, name).check()
            except Refused as refused:
                tally.count(name, str(refused))
                continue
            lost, struck = lost + missing, struck + damage
        try:
            check_dumps(tally, path)
            check_refused(tally, folder)
        except (Refused, OSError) as refused:
            tally.count("files of two runs", str(refused))
    tally.count("lost packets and damaged bits", "" if lost > 50 and struck > 100 else "too few: %d and %d" % (lost, struck))
    return tally.end()


if __name__ == "__main__":
    sys.exit(main())
