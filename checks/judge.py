"""What checks/judge.sh does, with the program and the repository as its words.

The lanes are those of a transmitter of its own (`planted.py`), which sends what the program sends if nothing is planted in it. A dump of
them begins in the middle of a metaframe and of the traffic, and its lanes lie apart.
"""

import csv
import os
import random
import re
import shutil
import subprocess
import sys
import tempfile
from collections import Counter

from lib.captures import capture
from lib.devices import changed, sums, text_of
from lib.planted import BAD, CODE, CONTROL, Bug, Link, reversed_bits, send, to_bytes, with_changed, with_crc24_complemented, with_flow, with_late_reset, with_wrong_crc24
from lib.machine import patience
from lib.runs import content, write_files
from lib.tally import Tally

PROGRAM, TOP = os.path.abspath(sys.argv[1]), os.path.abspath(sys.argv[2])
TOOL = os.path.join(TOP, "tools", "judge")
SECONDS = 300
LANES, METAFRAME, SKIPS, CHANNELS = 4, 64, 1, 4
LINK = Link(LANES, METAFRAME, SKIPS)
PERIOD, GROUP = CODE * METAFRAME, LANES * (METAFRAME - 3 - SKIPS)
ROWS = {"lanes": LANES, "metaframe": METAFRAME, "burst_max": 256, "burst_short": 64}
# The bits that a dump lacks in front, the metaframe whose Sync word it therefore has first, and the ones in front of each lane.
CUT, FIRST, SKEWS = 1000, 1, (0, 13, 77, 250)
# The metaframe from which on `gather` writes words: that of the fourth Sync word, which declares the locks.
DECLARED = FIRST + 3
LINKS = 12
COLUMNS = ["bit", "lane", "metaframe", "word", "what", "channel", "packet", "expected", "found", "note"]


def run(words, folder, environment=None):
    return subprocess.run(words, cwd=folder, stdin=subprocess.DEVNULL, capture_output=True, encoding="utf-8", timeout=patience(SECONDS),
                          env={**os.environ, "INTERLAKEN_PROGRAM": PROGRAM, **(environment or {})})


def judge(folder, *words):
    done = run([TOOL] + list(words), folder)
    return done.returncode, done.stdout, done.stderr


def rows_in(folder, name):
    """The rows of a table by their columns, each with its line."""
    with open(os.path.join(folder, name), encoding="utf-8", newline="") as file:
        return [{"line": line, **row} for line, row in enumerate(csv.DictReader(file), 2)]


def words_of(data):
    return [(data[at], int.from_bytes(data[at + 1:at + 9], "big")) for at in range(0, len(data), 9)]


def plan_rows(out, entries=CHANNELS, more=(), named=True, **changes):
    rows = {**ROWS, **changes}
    channels = ["channel,%d%s" % (channel, ",sent.in.%d" % channel if named else "") for channel in range(CHANNELS)]
    return text_of(["%s,%s" % row for row in rows.items()] + channels + ["entry,%d" % (entry % CHANNELS) for entry in range(entries) if entries != CHANNELS] + list(more) + ["out," + out])


class Sent:
    """What is sent: the captures, and the words that the program makes of them."""

    def __init__(self, tally, folder):
        draws = random.Random(7)
        self.folder = folder
        self.sizes = [["%d" % draws.randrange(60, 700) for _ in range(15)] for _ in range(CHANNELS)]
        write_files(folder, {"sent.in.%d" % channel: capture(sizes) for channel, sizes in enumerate(self.sizes)})
        write_files(folder, {"off.local": b"0,1,off\n", "on.local": b"0,2,off\n"})
        self.words = self.words_by(tally, "sent")
        self.controls = [slot for slot, (tag, _) in enumerate(self.words) if tag == CONTROL]
        self.late = [slot for slot in self.controls if slot >= 9 * GROUP]  # of the traffic
        run([PROGRAM, "send", "sent.plan"], folder)
        lanes = [content(os.path.join(folder, "sent.lane.%d" % lane)) for lane in range(LANES)]
        tally.expect("the transmitter without a fault", [to_bytes(bits) for bits in send(self.words, LINK)], lanes)

    def words_by(self, tally, name, **how):
        write_files(self.folder, {name + ".plan": plan_rows(name, more=["local,off.local"], **how)})
        done = run([PROGRAM, "burst", name + ".plan"], self.folder)
        if done.returncode:
            tally.give_up("burst of " + name, "status %d: %s" % (done.returncode, done.stdout + done.stderr))
        return words_of(content(os.path.join(self.folder, name + ".words")))

    def of(self, is_wanted, number):
        """The slot of a control word of the traffic of which something holds, by its number among those."""
        return [slot for slot in self.late if is_wanted(self.words[slot][1])][number]


def bit_of(slot, lane=None):
    """The bit of a dump at which a sent word begins."""
    frame, index = divmod(slot, GROUP)
    return place_bit(index % LANES, frame, 2 + SKIPS + index // LANES)


def place_bit(lane, frame, place):
    """The bit of a dump at which the word of a metaframe begins."""
    return PERIOD * frame + CODE * place - CUT + SKEWS[lane]


def word_of(slot):
    """The number of a sent word among those that are gathered."""
    return slot - DECLARED * GROUP


class Case:
    """A planted fault: the words, the transmitter's bug, the plan that judges, what is printed, and the rows that are there, as columns
    that they have; `kinds` are all kinds of rows that follow from no other, if they are known."""

    def __init__(self, name, words=None, bug=None, lines=(), rows=(), kinds=None, skews=SKEWS, **plan):
        self.name, self.words, self.bug, self.lines, self.rows, self.kinds, self.skews, self.plan = name, words, bug or Bug(), lines, rows, kinds, skews, plan


def cases_of(sent):
    """The faults that are planted."""
    words, frames = sent.words, len(sent.words) // GROUP - FIRST
    crc = sent.of(lambda word: word >> 62 & 1, 40)
    sop = sent.of(lambda word: word >> 61 & 3 == 3, 20)
    end = sent.of(lambda word: word >> 60 & 1 and word >> 57 & 7 not in (0, 7), 12)
    of_each = "%d of %d of lanes 0 to 3" % (LANES * frames, LANES * frames)
    one, flip = "%d of %d" % (frames, frames), place_bit(2, 12, 30) + CODE - 1 - 5
    yield Case("Skip words not scrambled", bug=Bug(skip_plain=True), kinds=["skip"], lines=["skip: %s are right where they are not scrambled" % of_each],
               rows=[{"what": "skip", "lane": "0", "bit": place_bit(0, FIRST, 2), "expected": "1E" * 8}])
    yield Case("one bit of a Skip word", bug=Bug(skip_bit=(3, 17)), kinds=["skip"],
               lines=["skip: %s differ in bit 17 alone" % one, "skip: %s are on lane 3 alone" % one, "skip: %s are in every metaframe from 0 to %d" % (one, frames - 1)],
               rows=[{"what": "skip", "lane": "3", "bit": place_bit(3, FIRST, 2), "found": "1E1E1E1E1E1C1E1E"}, {"what": "diag", "lane": "3", "metaframe": 0}])
    yield Case("a wrong CRC24", words=with_wrong_crc24(words, crc), kinds=["crc"],
               rows=[{"what": "crc", "word": word_of(crc), "bit": bit_of(crc), "expected": "%06X" % (words[crc][1] & 0xFFFFFF), "found": "%06X" % (words[crc][1] & 0xFFFFFF ^ 0x400)}])
    yield Case("BurstShort", burst_short=128, kinds=["short"], rows=[{"what": "short", "expected": "at least 16 words"}])
    yield Case("BurstMax", burst_max=192, kinds=["max"], rows=[{"what": "max", "expected": "at most 192 bytes", "found": "256 bytes"}])
    yield Case("calendar bits reversed", words=with_flow(words, lambda flow: reversed_bits(flow, 16)), kinds=["calendar"],
               lines=["calendar: %s are right where the 16 flow bits are reversed"], rows=[{"what": "calendar", "expected": "flow=FFFF", "found": "flow=FFFD"}])
    yield Case("calendar bits shifted", words=with_flow(words, lambda flow: (flow & 0xEFFF) >> 3 | 0xE000), kinds=["calendar"],
               lines=["calendar: %s are right where the flow bits are shifted by 3 towards the last entry"], rows=[{"what": "calendar"}])
    yield Case("an SOP missing", words=with_changed(words, sop, lambda word: word & ~(1 << 61)), kinds=["open"],
               rows=[{"what": "open", "word": word_of(sop), "bit": bit_of(sop), "expected": "sop=1", "found": "sop=0", "channel": words[sop][1] >> 32 & 255}, {"what": "missing"}])
    yield Case("valid bytes wrong", words=with_changed(words, end, lambda word: word + (1 << 57)), kinds=["missing"], rows=[{"what": "missing"}])
    for name, bug, told in (("State bits counted", Bug(crc32_counts_state=True), "state-counted"), ("not complemented", Bug(crc32_plain=True), "plain"),
                            ("lowest bit first", Bug(crc32_lowest_first=True), "bytes-lowest-first")):
        yield Case("CRC32, " + name, bug=bug, kinds=["diag"], lines=["diag: %s are right with another CRC32: %s" % (of_each, told)], rows=[{"what": "diag", "lane": "1", "metaframe": 3}])
    yield Case("CRC24 not complemented", words=with_crc24_complemented(words), kinds=["crc"], lines=["crc: %s are right with another CRC24: plain"], rows=[{"what": "missing"}])
    yield Case("a scrambler that runs through", bug=Bug(runs_on=True), lines=["right with a scrambler of this kind: running through Sync and State words"], rows=[{"what": "lost-state"}])
    yield Case("State words reversed", bug=Bug(state_reversed=True), lines=["right with a scrambler of this kind: State words reversed"], rows=[{"what": "state"}])
    yield Case("State words 7 steps on", bug=Bug(state_steps=7), lines=["skip: %s are right with a scrambler of this kind: State words 7 steps on" % of_each], rows=[{"what": "skip"}])
    yield Case("no inversion", bug=Bug(no_inversion=True), kinds=["balance"], lines=["balance=4"], rows=[{"what": "balance", "lane": "0", "expected": "-129 to 129"}])
    yield Case("a health bit", bug=Bug(health=(1, 9)), kinds=["health"], lines=["are on lane 1 alone"],
               rows=[{"what": "health", "lane": "1", "bit": place_bit(1, 9, METAFRAME - 1), "metaframe": 9 - FIRST, "expected": "11", "found": "01"}])
    yield Case("a wrong bit", bug=Bug(wrong_bit=(2, 12, 30, 5)), kinds=["diag"], rows=[{"what": "diag", "lane": "2", "bit": place_bit(2, 12, METAFRAME - 1), "note": "right with bit %d of the lane inverted" % (flip + CODE * 3)}])
    yield Case("a header of 11", bug=Bug(header=(1, 10, 20)), kinds=["bad"], rows=[{"what": "bad", "lane": "1", "bit": place_bit(1, 10, 20 + 2 + SKIPS), "found": "11"}])
    yield Case("a wrong Sync word", bug=Bug(sync_wrong=(1, 10)), kinds=["sync"], rows=[{"what": "sync", "lane": "1", "bit": place_bit(1, 10, 0), "expected": "78F678F678F678F6", "found": "78F678F678F678F7"}])
    yield Case("a metaframe a word short", bug=Bug(short=11), lines=["slip: lane", ": 1 word is missing, by the Sync words at bits"], rows=[{"what": "lost-state"}])
    yield Case("a bit lost", bug=Bug(slip=(2, 60000)), lines=["slip: lane 2: 1 bit is missing, by the Sync words at bits"], rows=[{"what": "lost-headers", "lane": "2"}])
    yield Case("lanes reversed", bug=Bug(order=(3, 2, 1, 0)), lines=["are right with the lanes in the order 3,2,1,0"], rows=[{"what": "crc"}])
    yield Case("a lane inverted", bug=Bug(inverted=2), kinds=["no-lock"], lines=["no-lock: lane 2: inverted, or its header bits are exchanged"], rows=[{"what": "no-lock", "lane": "2"}])
    yield Case("payload bits reversed", bug=Bug(payload_reversed=True), kinds=["no-lock"], lines=["no-lock: lanes 0 to 3: payload reversed"], rows=[{"what": "no-lock", "lane": "3"}])
    yield Case("lanes too far apart", skews=(0, 0, 0, 1500), kinds=["no-group"], lines=["which needs deskew,23"], rows=[{"what": "no-group"}])


def write_dump(folder, name, words, bug, plan, skews=SKEWS, cut=CUT):
    lanes = [to_bytes("1" * skew + bits[cut:]) for skew, bits in zip(skews, send(words, LINK, bug))]
    write_files(folder, {"%s.lane.%d" % (name, lane): data for lane, data in enumerate(lanes)})
    write_files(folder, {name + ".plan": plan})


def has_row(rows, wanted):
    """Whether a row has these columns; a note has it in it."""
    return any(all(str(value) in row[column] if column == "note" else row[column] == str(value) for column, value in wanted.items()) for row in rows)


def check_case(tally, sent, case):
    folder = sent.folder
    write_dump(folder, "dump", case.words or sent.words, case.bug, plan_rows("dump", **case.plan), case.skews)
    before = sums(folder)
    status, text, error = judge(folder, "dump.plan")
    tally.expect(case.name + ", status and errors", (status, error), (1, ""))
    tally.expect(case.name + ", files", [name for name in changed(before, sums(folder)) if name != "dump.judged.csv"], [])
    rows = rows_in(folder, "dump.judged.csv")
    counts = Counter(row["what"] for row in rows)
    told = dict(re.findall(r"^([a-z-]+)=(\d+)", text, re.MULTILINE))
    tally.expect(case.name + ", counts", told, {what: "%d" % count for what, count in counts.items()})
    for line in case.lines:
        line = line % "{0} of {0}".format(max(counts.values())) if line.count("%s") else line
        tally.count("%s, %s" % (case.name, line), "" if line in text else "it is not in\n" + text)
    for wanted in case.rows:
        tally.count("%s, %s" % (case.name, wanted), "" if has_row(rows, wanted) else "no such row")
    if case.kinds is not None:
        tally.expect(case.name + ", kinds that follow from no other", sorted({row["what"] for row in rows if "follows from" not in row["note"]}), case.kinds)
    check_table(tally, case, rows)
    judge(folder, "dump.plan", "--no-lead-in")
    rows = rows_in(folder, "dump.judged.csv")
    check_table(tally, case, rows)
    check_told(tally, case, rows, *told_by_commands(folder))


def check_table(tally, case, rows):
    """The rows are in order, and name rows that they follow from."""
    skews = case.skews if not (case.bug.order or case.name == "lanes too far apart") else None
    keys = [(int(row["bit"]) - skews[int(row["lane"])], int(row["lane"])) for row in rows if row["bit"]] if skews else []
    tally.expect(case.name + ", order", keys, sorted(keys))
    tally.expect(case.name + ", rows without a bit", [row["line"] for row in rows if not row["bit"]], [row["line"] for row in rows][len(rows) - sum(not row["bit"] for row in rows):])
    wrong = []
    for row in rows:
        named = re.search(r"follows from line (\d+), ([a-z-]+)(?: at bit (\d+) of lane (\d+))?$", row["note"])
        if named:
            cause = rows[int(named[1]) - 2]
            if (cause["what"], cause["bit"]) != (named[2], named[3] or "") or cause is row:
                wrong.append(row)
    tally.expect(case.name + ", named rows", wrong, [])


def check_told(tally, case, rows, events, faults):
    """The rows without a lead-in are those that the program's commands tell."""
    found = {(row["lane"], row["bit"], row["what"]) for row in rows}
    tally.expect(case.name + ", events that are no rows", [event for event in events if event not in found], [])
    in_words = {(row["word"], row["what"], row["channel"]) for row in rows}
    tally.expect(case.name + ", faults that are no rows", [fault for fault in faults if fault not in in_words], [])


def told_by_commands(folder):
    """The events of `inspect` but for locks, and the faults of `check` of the gathered words behind one bad word, as the table has them."""
    with tempfile.TemporaryDirectory(prefix="judge.") as room:
        for name in os.listdir(folder):
            if name.startswith(("dump.lane", "dump.plan", "sent.in")):
                shutil.copyfile(os.path.join(folder, name), os.path.join(room, name))
        run([PROGRAM, "inspect", "dump.plan"], room)
        run([PROGRAM, "gather", "dump.plan"], room)
        words = content(os.path.join(room, "dump.words"))
        write_files(room, {"dump.words": bytes([BAD]) + bytes(8) + words})
        run([PROGRAM, "check", "dump.plan"], room)
        events = [(row["lane"], row["bit"], row["event"]) for row in rows_in(room, "dump.events.csv") if row["event"] != "lock"]
        faults = [("%d" % (int(row["word"]) - 1), row["rule"], row["channel"].replace("-", "")) for row in rows_in(room, "dump.faults.csv") if row["word"] != "0"]
        return events, faults


# ---- the first codes of a dump

def check_short(tally, sent):
    """Dumps of less than two metaframes, which begin in the middle of a code on each lane, and lanes that lie apart: all but the codes at
    their ends is judged, and nothing is found but a planted fault, however early it is."""
    folder, draws = sent.folder, random.Random(11)
    traffic = long_traffic(folder, draws)
    for metaframe, cuts in ((2048, (70000, 70013, 70700, 70041)), (300, (20033, 20033, 20033, 20033)), (96, (6431, 6000, 6439, 6466))):
        link, name = Link(LANES, metaframe, SKIPS), "metaframe %d" % metaframe
        words = traffic[:3 * LANES * (metaframe - 3 - SKIPS)]
        plan = plan_rows("short", named=False, metaframe=metaframe, deskew=min(31, metaframe // 2 - 1))
        lanes = [bits[cut:cut + CODE * (metaframe + metaframe // 2)] for bits, cut in zip(send(words, link), cuts)]
        status, text, rows = judged_of(folder, lanes, plan)
        tally.expect(name + ", clean", (status, rows), (0, []))
        told = re.match(r"judged: (\d+) of (\d+) codes \((9\d|100)%\), from bit \d+ on; control words (\d+) of (\d+)\n", text)
        tally.count(name + ", judged", "" if told and int(told[4]) + 1 == int(told[5]) > 30 else text[:200])
        for slot in planted_slots(words, link, cuts, draws):
            wrong = [bits[cut:cut + CODE * (metaframe + metaframe // 2)] for bits, cut in zip(send(with_wrong_crc24(words, slot), link), cuts)]
            _, _, rows = judged_of(folder, wrong, plan)
            lane, bit = sent_bit(slot, link)
            tally.expect("%s, a wrong CRC24 in word %d" % (name, slot), [(row["lane"], row["bit"]) for row in rows if row["what"] == "crc"], [("%d" % lane, "%d" % (bit - cuts[lane]))])
            tally.expect("%s, word %d, rows that follow from no other" % (name, slot), [row["what"] for row in rows if "follows from" not in row["note"]], ["crc"])


def long_traffic(folder, draws):
    """Words of many packets, without the groups of idles before them."""
    write_files(folder, {"long.in.%d" % channel: capture(["%d" % draws.randrange(60, 700) for _ in range(150)]) for channel in range(CHANNELS)})
    write_files(folder, {"long.plan": plan_rows("long").replace(b"sent.in", b"long.in")})
    run([PROGRAM, "burst", "long.plan"], folder)
    words = words_of(content(os.path.join(folder, "long.words")))
    return words[next(slot for slot, (_, word) in enumerate(words) if word >> 62 == 3):]


def judged_of(folder, lanes, plan, *more):
    write_files(folder, {"short.plan": plan, **{"short.lane.%d" % lane: to_bytes(bits) for lane, bits in enumerate(lanes)}})
    status, text, error = judge(folder, "short.plan", *more)
    return status, text + error, rows_in(folder, "short.judged.csv")


def sent_bit(slot, link):
    """The lane and its bit at which a sent word begins."""
    frame, index = divmod(slot, link.lanes * (link.metaframe - 3 - link.skips))
    return index % link.lanes, CODE * (link.metaframe * frame + 2 + link.skips + index // link.lanes)


def planted_slots(words, link, cuts, draws):
    """Control words of a dump: the third one that it has, and others anywhere."""
    def is_there(slot):
        lane, bit = sent_bit(slot, link)
        return bit >= max(cuts) + CODE and bit - cuts[lane] < CODE * (link.metaframe + link.metaframe // 2 - 90)
    controls = [slot for slot, (tag, _) in enumerate(words) if tag == CONTROL and is_there(slot)]
    return [controls[2]] + draws.sample(controls[3:], 2 if link.metaframe < 1000 else 0)


def check_without(tally, sent):
    """Kinds that are left out, by the call and by OUT.judge, with what follows from them."""
    folder = sent.folder
    slot = sent.of(lambda word: word >> 62 & 1, 40)
    write_dump(folder, "left", with_wrong_crc24(sent.words, slot), Bug(health=(1, 9)), plan_rows("left"))
    status, text, _ = judge(folder, "left.plan", "--without", "crc")
    tally.expect("--without crc", (status, {row["what"] for row in rows_in(folder, "left.judged.csv")}, "left out: crc=1, span=1" in text), (1, {"health"}, True))
    write_files(folder, {"left.judge": b"without,health\n"})
    status, text, _ = judge(folder, "left.plan", "--without", "crc,skip")
    tally.expect("--without and OUT.judge", (status, rows_in(folder, "left.judged.csv"), "left out: health=" in text), (0, [], True))
    for content_of, told in ((b"without,health\nwithout,helth\n", "left.judge:2: 'helth' is no kind of findings"), (b"with,skip\n", "left.judge:1: a row is without,KIND")):
        write_files(folder, {"left.judge": content_of})
        status, text, error = judge(folder, "left.plan")
        tally.expect("OUT.judge, %r" % content_of, (status, text, error[:len("judge: " + told)], error.count("\n")), (2, "", "judge: " + told, 1))
    os.remove(os.path.join(folder, "left.judge"))
    status, text, error = judge(folder, "left.plan", "--without", "crc,crd")
    tally.expect("--without a word", (status, text, error[:32], error.count("\n")), (2, "", "judge: --without: 'crd' is no ki", 1))


# ---- lanes without a fault

def check_clean(tally, sent):
    """Dumps from anywhere on have no finding; the channels are told, and the local file is compared."""
    folder = sent.folder
    for number, cut in enumerate((0, 1000, PERIOD * 3 + 17, PERIOD * 10 + 2222, PERIOD * 12 + 67)):
        plan = plan_rows("clean", more=["local,%s" % ("off.local" if number else "on.local")])
        write_dump(folder, "clean", sent.words, Bug(), plan, cut=cut)
        write_files(folder, {"clean.judged.csv": b"older\n"})
        status, text, error = judge(folder, "clean.plan")
        if number:
            told = re.sub(r"\Ajudged: \d+ of \d+ codes \(99%\), from bit \d+ on; control words \d+ of \d+\n", "", text)
            tally.expect("clean from bit %d" % cut, (status, told, error), (0, "channels: on 0, 2, 3; off 1, as off.local says\nclean.judged.csv rows=0\n", ""))
            tally.expect("clean from bit %d, table" % cut, content(os.path.join(folder, "clean.judged.csv")).decode(), ",".join(COLUMNS) + "\n")
        else:
            rows = rows_in(folder, "clean.judged.csv")
            tally.expect("another local file", (status, [row["what"] for row in rows], "channels: on 0, 2, 3; off 1, not as on.local says" in text), (1, ["calendar"], True))


def check_calendars(tally, sent):
    """What breaks no rule shows beside the local file alone: four or sixteen entries in the other order, and a reset bit that is late."""
    folder = sent.folder
    write_files(folder, {"some.local": b"0,1,off\n"})
    for entries, change, told in ((4, lambda words: with_flow(words, lambda flow: reversed_bits(flow >> 12, 4) << 12 | flow & 0xFFF), "where the 4 entries are reversed"),
                                  (16, lambda words: with_flow(words, lambda flow: reversed_bits(flow, 16)), "where the 16 flow bits are reversed"),
                                  (20, lambda words: with_late_reset(words, 1, 2), "where Reset Calendar comes 1 word late")):
        # An entry says the state of a channel of its number, of so many channels.
        channels = ["channel,%d" % channel for channel in range(CHANNELS, entries)]
        rows = ["%s,%s" % row for row in ROWS.items()] + ["channel,%d,sent.in.%d" % (channel, channel) for channel in range(CHANNELS)] + channels
        write_files(folder, {"wide.plan": text_of(rows + ["local,some.local", "out,wide"])})
        run([PROGRAM, "burst", "wide.plan"], folder)
        words = words_of(content(os.path.join(folder, "wide.words")))
        write_dump(folder, "late", change(words), Bug(), text_of(rows + ["local,some.local", "out,late"]))
        status, text, error = judge(folder, "late.plan")
        found = [row for row in rows_in(folder, "late.judged.csv") if "the calendar is not that of some.local, but is %s" % told in row["note"]]
        tally.expect("calendar of %d entries" % entries, (status, error, len(found)), (1, "", 1))


def check_missing(tally, sent):
    """The packets of the captures that did not come, beside those of `receive`."""
    folder = sent.folder
    write_dump(folder, "dump", sent.words, Bug(wrong_bit=(2, 12, 30, 5)), plan_rows("dump"))
    judge(folder, "dump.plan")
    missing = {(int(row["channel"]), int(row["packet"])) for row in rows_in(folder, "dump.judged.csv") if row["what"] == "missing"}
    with tempfile.TemporaryDirectory(prefix="judge.") as room:
        for name in os.listdir(folder):
            if name.startswith(("dump.lane", "dump.plan")):
                shutil.copyfile(os.path.join(folder, name), os.path.join(room, name))
        run([PROGRAM, "receive", "dump.plan"], room)
        wanted = set()
        for channel in range(CHANNELS):
            sent_packets, came = (list(records(content(name))) for name in (os.path.join(folder, "sent.in.%d" % channel), os.path.join(room, "dump.%d.pcap" % channel)))
            first = next(number for number, packet in enumerate(sent_packets) if packet in came)
            wanted |= {(channel, number) for number, packet in enumerate(sent_packets) if number > first and packet not in came}
    tally.expect("missing packets", (missing, bool(wanted)), (wanted, True))


def check_links(tally, sent):
    """Links with drawn damage: the packets that `link` prints as missing are those that are found, and each row follows from damage."""
    folder = sent.folder
    for number in range(LINKS):
        draws = random.Random(number)
        lanes = draws.choice((1, 2, 3))
        rows = ["skew,%d,%d" % (lane, draws.randrange(400)) for lane in range(lanes)]
        rows += ["flip,%d,%d" % (draws.randrange(lanes), draws.randrange(9000, 60000 // lanes)) for _ in range(draws.choice((1, 2, 5)))]
        rows += ["dark,%d,%d,%d" % (draws.randrange(lanes), draws.randrange(9000, 40000 // lanes), draws.randrange(1, 3000))] * (number % 2)
        plan = ["lanes,%d" % lanes, "metaframe,32", "warmup,4"] + ["channel,%d,sent.in.%d" % (channel, channel) for channel in range(3)] + ["schedule,linked.schedule", "out,linked"]
        write_files(folder, {"linked.schedule": text_of(rows), "linked.plan": text_of(plan)})
        printed = run([PROGRAM, "link", "linked.plan"], folder).stdout
        status, text, error = judge(folder, "linked.plan")
        rows = rows_in(folder, "linked.judged.csv")
        missing = sorted((int(row["channel"]), int(row["packet"])) for row in rows if row["what"] == "missing")
        wanted = sorted((int(channel), int(packet)) for channel, packet in re.findall(r"^missing channel=(\d+) packet=(\d+)", printed, re.MULTILINE))
        tally.expect("link %d, missing" % number, (missing, error), (wanted, ""))
        own = {row["what"] for row in rows if "follows from" not in row["note"]}
        tally.expect("link %d, kinds that follow from no other" % number, own - {"bad", "diag", "state", "sync", "skip"}, set())


def records(data):
    at = 24
    while at < len(data):
        size = int.from_bytes(data[at + 8:at + 12], "little")
        yield data[at + 16:at + 16 + size]
        at += 16 + size


# ---- the page, the options and what is refused

FILTERS = (("", None), ("filter=diag", lambda row: "diag" in " ".join(map(str, row.values()))), ("what=skip", lambda row: row["what"] == "skip"),
           ("roots=1", lambda row: "follows from" not in row["note"]), ("filter=lane+3&what=diag", lambda row: row["what"] == "diag"))


def check_page(tally, sent):
    """The page stands for itself, and its filter leaves the rows that it should."""
    folder = sent.folder
    write_dump(folder, "page", sent.words, Bug(skip_bit=(3, 17)), plan_rows("page"))
    before = sums(folder)
    status, _, error = judge(folder, "page.plan", "--html", "page.html")
    tally.expect("page, status", (status, error, changed(before, sums(folder))), (1, "", ["page.html", "page.judged.csv"]))
    text, rows = content(os.path.join(folder, "page.html")).decode(), rows_in(folder, "page.judged.csv")
    tally.expect("page, other files", [found for found in re.findall(r"""(?:src|href)=["']([^"']*)|@import|url\(""", text) if not found.startswith("#line-")], [])
    tally.expect("page, rows", len(re.findall(r"<tr id=", text)), len(rows))
    tally.expect("page, pictures", (text.count("<svg") >= 3, text.count('class="found"') > 0, "Line 2: skip at bit" in text), (True, True, True))
    tally.expect("page, again", judge(folder, "page.plan", "--html", "page.html")[0], 1)
    browser = shutil.which("chromium") or shutil.which("chromium-browser")
    if not browser:
        tally.not_tried("chromium", "chromium", "the filter of a page")
        return
    for fragment, is_wanted in FILTERS:
        shown = shown_in_browser(browser, folder, "page.html#" + fragment)
        tally.expect("filter `%s`" % fragment, shown, [row["line"] for row in rows if is_wanted is None or is_wanted(row)])


def shown_in_browser(browser, folder, address):
    """The lines of the rows that a browser shows."""
    with tempfile.TemporaryDirectory(prefix="judge.") as profile:
        done = subprocess.run([browser, "--headless", "--no-sandbox", "--disable-gpu", "--user-data-dir=" + profile, "--dump-dom", "file://%s/%s" % (folder, address)],
                              stdin=subprocess.DEVNULL, capture_output=True, encoding="utf-8", errors="replace", timeout=patience(SECONDS))
    return [int(line) for line, more in re.findall(r'<tr id="line-(\d+)"([^>]*)>', done.stdout) if "hidden" not in more]


def check_options(tally, sent):
    """Fewer rows, the same counts; a page that judge did not make; a reader that goes away."""
    folder = sent.folder
    whole = judge(folder, "page.plan")
    few = judge(folder, "page.plan", "--most", "5", "--html", "few.html")
    rows = rows_in(folder, "page.judged.csv")
    tally.expect("--most", (few[0], few[1].splitlines()[:-1], len(rows), content(os.path.join(folder, "few.html")).count(b"<tr id=")), (1, whole[1].splitlines()[:-1], 5, 5))
    total = re.search(r"rows=(\d+)$", whole[1])[1]
    tally.expect("--most, rows", few[1].splitlines()[-1], "page.judged.csv rows=5 of %s" % total)
    write_files(folder, {"mine.html": b"<html>mine</html>\n"})
    before = sums(folder)
    tally.expect("a page of the user's", judge(folder, "page.plan", "--html", "mine.html"), (2, "", "judge: mine.html: it is there, and judge did not make it; --overwrite replaces it\n"))
    tally.expect("a page of the user's, files", changed(before, sums(folder)), [])
    tally.expect("a page of the user's, replaced", judge(folder, "page.plan", "--html", "mine.html", "--overwrite")[0], 1)
    closed = subprocess.run(["bash", "-c", '"$1" page.plan | true; exit ${PIPESTATUS[0]}', "bash", TOOL], cwd=folder, capture_output=True, env={**os.environ, "INTERLAKEN_PROGRAM": PROGRAM})
    tally.expect("a reader that goes away", (closed.returncode in (1, 141), closed.stderr), (True, b""))
    help_text = judge(folder, "--help")
    tally.expect("--help", (help_text[0], help_text[1].startswith("usage: judge")), (0, True))


def refused_of(sent):
    """Calls that cannot run: the files of it, the words, and what is said."""
    plan = plan_rows("none")
    yield {}, ["absent.plan"], "absent.plan: No such file or directory"
    yield {"none.plan": plan}, ["none.plan"], "none.lane.0: No such file or directory"
    yield {"none.plan": plan.replace(b"lanes,4", b"lanes,65")}, ["none.plan"], "none.plan:1: lanes: 65 is not in 1 to 64"
    yield {"none.plan": plan_rows("page").replace(b"sent.in.2", b"absent.pcap")}, ["none.plan"], "absent.pcap: No such file or directory"
    yield {"none.plan": plan_rows("page", more=["local,bad.local"]), "bad.local": b"0,1,onn\n"}, ["none.plan"], "bad.local:1: state: 'onn' is neither"
    yield {"none.plan": plan_rows("page", more=["flow,bad.flow"]), "bad.flow": b"0,12\n"}, ["none.plan"], "bad.flow:1: word: '12' is no word"
    yield {}, ["page.lane.0"], "page.lane.0:"
    yield {}, [], "the following arguments are required"
    yield {}, ["page.plan", "--most", "0"], "argument --most"
    yield {}, ["page.plan", "--speed", "3"], "unrecognized arguments"
    yield {}, ["page.plan", "--html", "no/such/folder.html"], "no/such/"
    yield {}, ["page.plan", "--program", "./absent"], "there is no program"
    yield {"same.judged.csv": plan_rows("same")}, ["same.judged.csv"], "same.judged.csv: it is the file same.judged.csv, which judge reads"
    yield {}, ["page.plan", "--html", "./page.lane.0", "--overwrite"], "./page.lane.0: it is the file page.lane.0, which judge reads"
    os.link(os.path.join(sent.folder, "page.lane.1"), os.path.join(sent.folder, "linked.html"))
    yield {}, ["page.plan", "--html", "linked.html", "--overwrite"], "linked.html: it is the file page.lane.1, which judge reads"


def check_refused(tally, sent):
    folder = sent.folder
    for files, words, told in refused_of(sent):
        write_files(folder, files)
        before = sums(folder)
        status, text, error = judge(folder, *words)
        name = "judge " + " ".join(words) + " ".join(files)
        tally.expect(name, (status, text, error.count("\n"), error[:len("judge: " + told)] if error.startswith("judge: " + told) else error), (2, "", 1, "judge: " + told))
        tally.expect(name + ", files", [one for one in changed(before, sums(folder)) if one != "page.judged.csv"], [])


def check_odd_lanes(tally, sent):
    """Lanes that have no words at all: it ends with findings and not with an error."""
    draws = random.Random(3)
    for name, lanes in (("empty", [b""] * LANES), ("short", [b"\x55" * 9] * LANES), ("random", [draws.randbytes(9000) for _ in range(LANES)]), ("zeros", [bytes(5000)] * LANES)):
        write_files(sent.folder, {"odd.lane.%d" % lane: data for lane, data in enumerate(lanes)})
        write_files(sent.folder, {"odd.plan": plan_rows("odd")})
        status, text, error = judge(sent.folder, "odd.plan", "--html", "odd.html")
        tally.expect("%s lanes" % name, (status, error, "no-lock=%d" % LANES in text), (1, "", True))


def main():
    tally = Tally("judge")
    with tempfile.TemporaryDirectory(prefix="judge.") as folder:
        sent = Sent(tally, folder)
        check_clean(tally, sent)
        for case in cases_of(sent):
            check_case(tally, sent, case)
        check_short(tally, sent)
        check_without(tally, sent)
        check_calendars(tally, sent)
        check_missing(tally, sent)
        check_links(tally, sent)
        check_page(tally, sent)
        check_options(tally, sent)
        check_refused(tally, sent)
        check_odd_lanes(tally, sent)
    return tally.end()


sys.exit(main())
