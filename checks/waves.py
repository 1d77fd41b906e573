"""What checks/waves.sh does, with the program and the repository as its words."""

import csv
import os
import random
import re
import shutil
import subprocess
import sys
import tempfile
from bisect import bisect_right
from collections import Counter, namedtuple

from lib.devices import BREAKS, CUT, LANES, METAFRAME, PACKETS, SKIPS, SPOILED_SLOTS, Device, changed, spoiled, sums
from lib.machine import copy_examples, patience
from lib.runs import content, write_files
from lib.tally import Tally

PROGRAM, TOP = os.path.abspath(sys.argv[1]), os.path.abspath(sys.argv[2])
TOOL = os.path.join(TOP, "tools", "waves")
CODE = 67
READERS = ("vcd2fst", "fst2vcd")

# Of each plan: its lanes, metaframe and Skip words.
Shape = namedtuple("Shape", "name lanes metaframe skips")
EXAMPLES = (Shape("damaged", 2, 32, 1), Shape("wide", 2, 32, 1), Shape("two", 1, 32, 1))
# Links that lose locks: the first by headers; the second, lane by lane, by Sync words, by Scrambler State words, since four Sync
# words in a row do not come, and by headers before a lock is declared. Of each its schedule and how its locks end.
HARD = (Shape("dark", 3, 32, 2), Shape("worn", 4, 64, 1))
HARD_ROWS = {"dark": ["skew,0,0", "skew,1,66", "skew,2,400", "dark,0,20000,1500", "dark,1,30000,40000", "flip,2,12864", "flip,2,15010", "flip,2,25728"],
             "worn": ["skew,0,3"] + ["flip,0,%d" % (CODE * 64 * m + 20) for m in range(6, 10)] + ["flip,1,%d" % (CODE * (64 * m + 1) + 50) for m in range(7, 10)]
             + ["flip,2,%d" % (CODE * 64 * 3 + 40), "dark,3,%d,%d" % (CODE * 70, CODE * 20)]}
HARD_ENDS = {"dark": {"lost_headers": 2}, "worn": {"lost_headers": 1, "lost_state": 1, "lost_sync": 1, "unframed": 1}}
# Links whose damage is drawn.
DRAWN = 8


def run(words, folder):
    return subprocess.run(words, cwd=folder, capture_output=True, encoding="utf-8", timeout=patience(120))


def printed(tally, folder, command, name):
    """What the program prints of a plan; nothing more can be tried if it fails."""
    done = run([PROGRAM, command, name + ".plan"], folder)
    if done.returncode != 0 or not done.stdout:
        tally.give_up("%s %s" % (command, name), "status %d: %s" % (done.returncode, done.stdout + done.stderr))
    return done.stdout


class Waves:
    """The signals of a VCD file by their full names, each as the times and the values of its changes; `end` is the last time."""

    def __init__(self, text):
        head, body = text.split("$enddefinitions $end", 1)
        names, scope = {}, []
        for words in (line.split() for line in head.splitlines()):
            if words[:1] == ["$scope"]:
                scope.append(words[2])
            elif words[:1] == ["$upscope"]:
                scope.pop()
            elif words[:1] == ["$var"]:
                names[words[3]] = ".".join(scope + [words[4]])
        self.signals, self.end = {name: ([], []) for name in names.values()}, 0
        for line in body.split("\n"):
            self.take(line, names)

    def take(self, line, names):
        if line.startswith("#"):
            self.end = int(line[1:])
        elif line and not line.startswith("$"):
            value, short = line.split() if line[0] in "bsr" else (line[0], line[1:])
            times, values = self.signals[names[short]]
            if not values or values[-1] != plain(value):
                times.append(self.end)
                values.append(plain(value))

    def at(self, name, time):
        times, values = self.signals["link." + name]
        return values[bisect_right(times, time) - 1]

    def changes(self, name):
        return list(zip(*self.signals["link." + name]))


def plain(value):
    """A value as a text or a number, whatever its width; None if it is unknown."""
    if value[0] == "s":
        return value[1:]
    if value[0] == "r":
        return float(value[1:])
    bits = value[1:] if value[0] == "b" else value
    return None if "x" in bits else int(bits, 2)


def words_of(waves, lane):
    """The declared words of a lane: for each the time and the values by their names."""
    scope = "lane_%d." % lane
    for time, place in waves.changes(scope + "place"):
        if place is not None:
            yield time, {name: waves.at(scope + name, time) for name in ("role", "place", "word", "wrong", "header_bad")}


def report_of(waves, lane):
    """What the program prints of a lane, counted in its waves."""
    locks = waves.changes("lane_%d.lock" % lane)
    declared = [time for time, lock in locks if lock == "declared"]
    ends = [before == "declared" for (_, before), (_, lock) in zip(locks, locks[1:]) if lock.startswith("lost_") or lock == "unframed"]
    words = [word for _, word in words_of(waves, lane)]
    wrong = Counter(word["role"] for word in words if word["wrong"])
    return "lane %d locks=%d first=%s lost=%d unframed=%d bad=%d sync=%d state=%d diag=%d" % (
        lane, len(declared), declared[0] if declared else "-", sum(ends), len(ends) - sum(ends), sum(word["header_bad"] for word in words),
        wrong["sync"], wrong["state"], wrong["diagnostic"])


def words_file(folder, name):
    data = content(os.path.join(folder, name))
    return [int.from_bytes(data[at + 1:at + 9], "big") for at in range(0, len(data), 9)]


def received_slots(waves, shape, front):
    """The payload words of the lanes by their slots, of metaframes that are counted from the first sent bit of each lane."""
    rows = shape.metaframe - 3 - shape.skips
    for lane in range(shape.lanes):
        for time, word in words_of(waves, lane):
            metaframe, place = divmod((time - front[lane]) // CODE, shape.metaframe)
            if word["role"] in ("data", "burst", "idle", "control", "bad"):
                yield (metaframe * rows + place - 2 - shape.skips) * shape.lanes + lane, word["word"]


def check_sent(tally, folder, shape):
    """Lanes as they were sent: the words by their roles, the stream in them, and the disparity."""
    name = shape.name
    slots = int(re.search(r"^slots (\d+)", printed(tally, folder, "send", name), re.MULTILINE)[1])
    printed(tally, folder, "burst", name)
    waves = made(tally, folder, name, "%s, sent" % name)
    metaframes = slots // (shape.lanes * (shape.metaframe - 3 - shape.skips)) - 3
    payload = shape.metaframe - 3 - shape.skips
    for lane in range(shape.lanes):
        roles = Counter(word["role"] for _, word in words_of(waves, lane))
        framing = tuple(roles.pop(role, 0) for role in ("sync", "state", "skip", "diagnostic"))
        found = framing + (sum(roles.values()), set(roles) <= {"data", "burst", "idle"})
        tally.expect("%s, lane %d, words by roles" % (name, lane), found, (metaframes, metaframes, metaframes * shape.skips, metaframes, metaframes * payload, True))
        disparities = [value for _, value in waves.changes("lane_%d.disparity" % lane)]
        tally.expect("%s, lane %d, disparity" % (name, lane), (min(disparities) >= -65, max(disparities) <= 64, len(set(disparities)) > 9), (True, True, True))
    sent = words_file(folder, name + ".words")
    came = dict(received_slots(waves, shape, [0] * shape.lanes))
    tally.expect("%s, payload words" % name, came, dict(list(enumerate(sent))[3 * payload * shape.lanes:]))
    check_stream(tally, waves, shape, sent, 0)


def check_stream(tally, waves, shape, sent, front):
    """The signals of the stream: each slot at its time, with its word."""
    rows = shape.metaframe - 3 - shape.skips
    found = {slot: waves.at("stream.word", time) for time, slot in waves.changes("stream.slot") if slot is not None}
    tally.expect("%s, stream" % shape.name, found, dict(enumerate(sent)))
    times = [time for time, slot in waves.changes("stream.slot") if slot is not None]
    wanted = [front + CODE * (slot // (rows * shape.lanes) * shape.metaframe + 2 + shape.skips + slot // shape.lanes % rows) + CODE * (slot % shape.lanes) // shape.lanes
              for slot in range(len(sent))]
    tally.expect("%s, times of slots" % shape.name, times, wanted)
    named = [(word >> 32 & 255, waves.at("stream.channel", time) & 255) for time, word in zip(times, sent) if waves.at("stream.kind", time) == "burst"]
    tally.expect("%s, channels of bursts" % shape.name, (len(named) > 3, [pair for pair in named if pair[0] != pair[1]]), (True, []))


def check_spans(tally, folder, waves, shape):
    """The spans of the waves, each from after its first end to its last, by the places of the table."""
    with open(os.path.join(folder, shape.name + ".spans.csv"), encoding="utf-8") as file:
        rows = list(csv.reader(file))[1:]
    begun = {value: time for time, value in waves.changes("stream.span") if value is not None}
    tally.expect("%s, spans" % shape.name, sorted(begun), list(range(len(rows))))
    for number, row in enumerate(rows):
        after, before = (None if place[0] == "-" else int(place[0]) + time_in_group(shape, int(place[1])) for place in (row[:2], row[2:4]))
        found = [None if after is None else waves.at("stream.span", after), waves.at("stream.span", begun[number]),
                 None if before is None else waves.at("stream.span", before), number if before is None else waves.at("stream.span", before - 1)]
        tally.expect("%s, span %d" % (shape.name, number), found, [None, number, None, number])


def time_in_group(shape, index):
    row, lane = divmod(index, shape.lanes)
    return CODE * (2 + shape.skips + row) + CODE * lane // shape.lanes


def check_linked(tally, folder, shape, skews):
    """Lanes as they were received: what the program printed of them, and the stream. Returns the waves."""
    name = shape.name
    text = printed(tally, folder, "link", name)
    printed(tally, folder, "burst", name)
    waves = made(tally, folder, name, "%s, linked" % name)
    lines = re.findall(r"^lane .*", text, re.MULTILINE)
    tally.expect("%s, lines of lanes" % name, [report_of(waves, lane) for lane in range(shape.lanes)], lines)
    check_stream(tally, waves, shape, words_file(folder, name + ".words"), skews[0])
    return waves


def check_damaged(tally, folder):
    """The example with one inverted bit: its spans, and the word that came otherwise than sent."""
    shape, skews = EXAMPLES[0], [11, 200]
    waves = check_linked(tally, folder, shape, skews)
    check_spans(tally, folder, waves, shape)
    sent = words_file(folder, shape.name + ".words")
    tally.expect("damaged, differing words", [slot for slot, word in received_slots(waves, shape, skews) if word != sent[slot]], [230])


def check_device(tally, folder, name, breaks):
    """A device's dump from 1,000 bits into a metaframe on: its stream, faults and events at the places of a sender's formula."""
    device = Device(PROGRAM, folder, name, breaks, spoil=spoiled)
    device.run("receive", "gather", "check", "inspect")
    before = sums(folder)
    waves = made(tally, folder, name, name)
    tally.expect(name + ", changed", changed(before, sums(folder)), [name + ".vcd"] + [name + ".vcd.fst"] * os.path.exists(os.path.join(folder, name + ".vcd.fst")))
    sent = {device.number_of(slot): slot for slot in range(len(device.words))}
    sent.pop(None)
    shape, times = Shape(name, LANES, METAFRAME, SKIPS), {slot: time for time, slot in waves.changes("stream.slot") if slot is not None}
    wanted = {number: device.row_bit(slot) + CODE * (slot % LANES) // LANES for number, slot in sent.items()}
    tally.expect(name + ", times of slots", {slot: times.get(slot) for slot in wanted}, wanted)
    tally.expect(name + ", words of slots", [number for number, slot in sent.items() if waves.at("stream.word", times[number]) != int.from_bytes(device.words[slot][1:], "big") and slot not in device.broken_slots()], [])
    for slot in SPOILED_SLOTS:
        tally.expect("%s, rule of sent word %d" % (name, slot), waves.at("stream.rule", times[device.number_of(slot)]), "crc")
    bad = [time for time, kind in waves.changes("stream.kind") if kind == "bad"]
    tally.expect(name + ", bad words", len(bad), 16 if breaks else 0)
    with open(os.path.join(folder, name + ".spans.csv"), encoding="utf-8") as file:
        tally.expect(name + ", spans", len({value for _, value in waves.changes("stream.span") if value is not None}), len(file.readlines()) - 1)
    for lane in range(LANES):
        events = [time for time, event in waves.changes("lane_%d.event" % lane) if event == "lock"]
        tally.expect("%s, first lock of lane %d" % (name, lane), events[:1], [CODE * METAFRAME * 4 - CUT[lane]])
    return shape


def check_tables(tally, folder):
    """Devices' dumps with their tables, and tables and words that are of an older run, or are none."""
    for name, breaks in (("whole", ()), ("broken", BREAKS)):
        check_device(tally, folder, name, breaks)
    other = Device(PROGRAM, folder, "other", packets=PACKETS[::-1])
    other.run("receive", "gather")
    kept = {end: content(os.path.join(folder, "whole." + end)) for end in ("events.csv", "faults.csv", "words", "places.csv", "spans.csv", "lane.1")}
    for end, signal in (("events.csv", "event"), ("faults.csv", "rule")):
        write_files(folder, {"whole." + end: kept[end].split(b"\n")[0] + b"\n" + kept[end].split(b"\n")[1] + b"\n"})
        done = run([TOOL, "--overwrite", "whole.plan"], folder)
        tally.expect("%s of an older run" % end, (done.returncode, done.stderr, "%ss=" % {"event": "event", "rule": "fault"}[signal] in done.stdout), (0, "", False))
        with open(os.path.join(folder, "whole.vcd"), encoding="ascii") as file:
            tally.expect("signals beside %s of an older run" % end, " %s $end" % signal in file.read(), False)
        for data in (b"no,heading\n", kept[end] + b"9,9,dial\n", kept[end] + b"x,crc,-\n"):
            write_files(folder, {"whole." + end: data})
            expect_refused(tally, folder, "%s spoiled" % end, ["whole.plan"], "whole.%s:" % end)
        write_files(folder, {"whole." + end: kept[end]})
    for ends in (("words",), ("words", "places.csv"), ("lane.0", "lane.1", "lane.2"), ("spans.csv",)):
        before = {end: content(os.path.join(folder, "whole." + end)) for end in ends}
        write_files(folder, {"whole." + end: content(os.path.join(folder, "other." + end)).replace(b",end", b",lost") for end in ends})
        expect_refused(tally, folder, "%s of another dump" % (ends,), ["whole.plan"], "whole.%s" % ("spans.csv is of an older run: `interlaken receive" if ends == ("spans.csv",) else "places.csv is not of these lanes and words: "))
        write_files(folder, {"whole." + end: data for end, data in before.items()})
    os.remove(os.path.join(folder, "whole.lane.1"))
    expect_refused(tally, folder, "a dump without a lane", ["whole.plan"], "whole.lane.1 is missing\n")
    write_files(folder, {"whole.lane.1": kept["lane.1"]})
    done = run([TOOL, "whole.plan"], folder)
    tally.expect("waves that are there", (done.returncode, done.stdout, done.stderr), (2, "", "waves: whole.vcd exists; --overwrite writes over it\n"))


def check_losses(tally, folder):
    """Links that lose locks in known ways, and others whose damage is drawn."""
    for shape in HARD:
        waves = check_schedule(tally, folder, shape, HARD_ROWS[shape.name])
        check_spans(tally, folder, waves, shape)
        tally.expect("%s, ends of locks" % shape.name, ends_of(waves, shape), Counter(HARD_ENDS[shape.name]))
    found = Counter()
    for seed in range(DRAWN):
        shape = Shape("drawn%d" % seed, 3, 32 + 8 * seed, 1 + seed % 4)
        found += ends_of(check_schedule(tally, folder, shape, drawn_rows(seed, shape)), shape)
    tally.expect("drawn, locks end for these reasons", sorted(set(found) - {"lost_sync"}), ["lost_headers", "lost_state", "unframed"])


def check_schedule(tally, folder, shape, rows):
    write_plan(folder, shape, rows)
    skews = {int(lane): int(bits) for key, lane, bits in (row.split(",", 2) for row in rows) if key == "skew"}
    return check_linked(tally, folder, shape, [skews.get(lane, 0) for lane in range(shape.lanes)])


def ends_of(waves, shape):
    """How often the locks of all lanes ended for each reason."""
    locks = Counter(lock for lane in range(shape.lanes) for _, lock in waves.changes("lane_%d.lock" % lane))
    return Counter({lock: count for lock, count in locks.items() if lock not in ("search", "words", "declared")})


def made(tally, folder, name, what):
    """The waves that the tool writes, which another reader has to read alike."""
    done = run([TOOL, "--overwrite", name + ".plan"], folder)
    if done.returncode != 0:
        tally.give_up(what, "status %d: %s" % (done.returncode, done.stderr))
    path = os.path.join(folder, name + ".vcd")
    with open(path, encoding="ascii") as file:
        waves = Waves(file.read())
    lanes, locks = (int(number) for number in re.match(r"\S+ lanes=(\d+) locks=(\d+)", done.stdout).groups())
    tally.expect(what + ", locks", sum(lock == "declared" for lane in range(lanes) for _, lock in waves.changes("lane_%d.lock" % lane)), locks)
    if all(shutil.which(reader) for reader in READERS):
        run(["vcd2fst", path, path + ".fst"], folder)
        again = Waves(run(["fst2vcd", path + ".fst"], folder).stdout)
        wrong = [name for name in waves.signals if again.signals.get(name) != waves.signals[name]]
        tally.expect(what + ", by vcd2fst", (wrong, again.end), ([], waves.end))
    return waves


def drawn_rows(seed, shape):
    """A schedule with dark stretches of all lengths up to two metaframes, and so many inverted bits that locks are lost."""
    draws = random.Random(seed)
    bits, period = 18 * CODE * shape.metaframe, CODE * shape.metaframe
    rows = ["skew,%d,%d" % (lane, draws.randrange(900)) for lane in range(shape.lanes)]
    rows += ["dark,%d,%d,%d" % (draws.randrange(shape.lanes), draws.randrange(bits), int(2 * period ** draws.random())) for _ in range(6)]
    return rows + ["flip,%d,%d" % (draws.randrange(shape.lanes), draws.randrange(bits)) for _ in range(400)]


def write_plan(folder, shape, schedule):
    rows = ["lanes,%d" % shape.lanes, "metaframe,%d" % shape.metaframe, "skips,%d" % shape.skips, "warmup,16", "channel,1,one.pcap", "channel,2,two.pcap",
            "schedule,%s.schedule" % shape.name, "out,%s" % shape.name]
    for name, lines in ((shape.name + ".plan", rows), (shape.name + ".schedule", schedule)):
        with open(os.path.join(folder, name), "w", encoding="ascii") as file:
            file.write("\n".join(lines) + "\n")


NOT_OF_ONE_RUN = "these files are not of one run: `interlaken link` and then `interlaken burst` of this plan with another `out` make new files\n"


def check_refused(tally, folder):
    """Calls and files that the tool does not take."""
    printed(tally, folder, "link", "damaged")
    expect_refused(tally, folder, "a words file as the plan", ["damaged.words"], "damaged.words is a words file, and a plan is wanted here")
    schedule = content(os.path.join(folder, "damaged.schedule"))
    write_files(folder, {"damaged.schedule": schedule.replace(b"skew,0,11", b"skew,0,12")})
    expect_refused(tally, folder, "another skew", ["damaged.plan"], "damaged.lane.0: a Sync word at bit 11, and none begins there after a skew of 12 bits: " + NOT_OF_ONE_RUN)
    write_files(folder, {"damaged.schedule": schedule})
    words = os.path.join(folder, "damaged.words")
    data = bytearray(content(words))
    data[9 * 301 - 1] ^= 1
    write_files(folder, {"damaged.words": bytes(data)})
    expect_refused(tally, folder, "words with another word", ["damaged.plan"], "damaged.words: slot 300 is another word than lane 0 has, whose Diagnostic word after it is right: " + NOT_OF_ONE_RUN)
    shutil.copy(os.path.join(folder, "two.words"), words)
    expect_refused(tally, folder, "words of another plan", ["damaged.plan"], "damaged.words: its 252 slots fill 8576 bits of a lane, and damaged.lane.0 has 1878 bytes: " + NOT_OF_ONE_RUN)
    os.remove(os.path.join(folder, "damaged.lane.1"))
    expect_refused(tally, folder, "a lane that is missing", ["damaged.plan"], "damaged.lane.1 is missing: `interlaken link` of this plan with another `out` makes new files")
    expect_refused(tally, folder, "no plan", ["absent.plan"], "absent.plan: No such file")
    expect_refused(tally, folder, "a folder that is not there", ["two.plan", "--to", "no/two.vcd"], "no/two.vcd: No such file")
    expect_refused(tally, folder, "no words", [], "the following arguments are required: plan; `waves --help` shows the words\n")
    expect_refused(tally, folder, "an unknown option", ["damaged.plan", "--from", "7"], "unrecognized arguments: --from 7; `waves --help` shows the words\n")


def expect_refused(tally, folder, what, words, told):
    before, beginning = sums(folder), "waves: " + told
    done = run([TOOL, "--overwrite"] + words, folder)
    tally.expect(what + ", changed", changed(before, sums(folder)), [])
    tally.expect(what, (done.returncode, done.stdout, done.stderr[:len(beginning)], done.stderr.count("\n")), (2, "", beginning, 1))
    tally.expect(what + ", no file", [name for name in os.listdir(folder) if name.endswith(".part")], [])


def main():
    tally = Tally("waves")
    with tempfile.TemporaryDirectory() as folder:
        copy_examples(TOP, folder)
        for shape in EXAMPLES:
            check_sent(tally, folder, shape)
        check_damaged(tally, folder)
        check_tables(tally, folder)
        check_losses(tally, folder)
        check_refused(tally, folder)
    for reader in READERS:
        if not shutil.which(reader):
            tally.not_tried(reader, "gtkwave", "reading the waves by another reader")
            break
    return tally.end()


sys.exit(main())
