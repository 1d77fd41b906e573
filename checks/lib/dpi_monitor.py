"""The part of checks/dpi.sh on tb_monitor: each planted bug of the device is found while it is sent, at the lane and the bit that the
device says, as `inspect`, `check` and the Monitor of Python find it in the lanes that arrived; and without a bug there is no finding."""

import glob
import os
import random
import re

CODE_BITS = 67
METAFRAMES = 2  # a bug is told in so many
# The bugs of lane_pkg.sv that a lane shows, with the event of `inspect` and the name of interlaken.h.
LANE_BUGS = {1: ("skip", "BAD_SKIP"), 2: ("diag", "BAD_DIAGNOSTIC"), 3: ("health", "HEALTH"), 4: ("balance", "BALANCE"),
             5: ("state", "BAD_STATE"), 6: ("sync", "BAD_SYNC"), 7: ("bad", "BAD_WORD"), 8: ("bad", "BAD_WORD")}
# What is found if a bug is there from the first word on.
START_BUGS = {6: "lane 1 bit N: INTERLAKEN_LANE_EVENT_UNFRAMED", 8: "lane 1: no lock"}
PLAIN_CODES, PLAIN_SKIP, DEAD_LANE, WRONG_CRC24, ERROR_END = 4, 1, 8, 9, 11
# The bugs of words that break a rule, with the rule of `check`, the name of interlaken.h, and whether the rule is on a channel.
RULE_BUGS = {9: ("crc", "CRC", False), 10: ("crc", "CRC", False), 12: ("max", "MAX", True), 13: ("short", "SHORT", True),
             14: ("calendar", "CALENDAR", False), 15: ("idle", "IDLE", False)}
# A bench as verilator builds it: lanes, metaframe, Skip words, and bits of each lane at a clock.
SHAPES = {(2, 32, 1, 1): "obj_monitor", (3, 40, 2, 67): "obj_monitor_other"}
# Where bursts run, benches begin; and a bug begins once they have their locks.
FIRST_BURSTS, LAST_BEGIN, BUG_FROM = 8, 14, 22
BEGINS = 3
SAYS = re.compile(r"^bug \d+: the first wrong word is on lane (\d+), sent from bit (\d+) on$", re.M)
FINDS = re.compile(r"^(.*), after (\d+) bits$", re.M)
PREFIX = re.compile(r"INTERLAKEN_(LANE_EVENT|RULE|DROP|FAULT)_")


def skew_of(lane):
    """How late the wire of tb_monitor.sv has a lane arrive."""
    return 11 + 189 * lane % 400


class Monitored:
    """A bench with the monitor as it was built."""

    def __init__(self, tally, folder, run, program, shape):
        self.tally, self.folder, self.run, self.inspects = tally, folder, run, program
        self.slots = os.path.dirname(folder) + "/tools/slots"
        self.lanes, self.metaframe, skips, self.width = shape
        self.bench, self.library = "dpi/%s/Vtb_monitor" % SHAPES[shape], folder + "/dpi/library/lib/libinterlaken.so"
        rows = ["lanes,%d" % self.lanes, "metaframe,%d" % self.metaframe, "skips,%d" % skips, "burst_max,128", "burst_short,64"]
        rows += ["channel,1", "channel,2"]
        self.plan = "".join(row + "\n" for row in [*rows, "out,seen"])
        with open(folder + "/seen.plan", "w", encoding="utf-8") as file:
            file.write(self.plan)
        self.what = "monitor of %d lanes, %d bits at a clock" % (self.lanes, self.width)

    def call(self, *options):
        """Status and text of a run, whose lanes are in files then."""
        for path in glob.glob(self.folder + "/seen.*.*"):
            os.remove(path)
        return self.run(self.bench, "+lanes=seen", *options, folder=self.folder)

    def arrived(self):
        lanes = []
        for lane in range(self.lanes):
            with open("%s/seen.lane.%d" % (self.folder, lane), "rb") as file:
                lanes.append(file.read())
        return lanes

    def shown(self):
        """The events that `inspect` has of the lanes that arrived, without the locks."""
        self.run(self.inspects, "inspect", "seen.plan", folder=self.folder)
        with open(self.folder + "/seen.events.csv", encoding="utf-8") as file:
            rows = [line.split(",") for line in file.read().split("\n")[1:-1]]
        return [(int(lane), int(bit), event) for lane, bit, event in rows if event != "lock"]

    def broken(self):
        """The rules that `check` finds broken in the lanes that arrived, with the lane and the bit of the word."""
        self.run(self.inspects, "gather", "seen.plan", folder=self.folder)
        self.run(self.inspects, "check", "seen.plan", folder=self.folder)
        text = self.run(self.slots, "seen.plan", "--faults", folder=self.folder)[1]
        rows = [line.split(",") for line in text.split("\n")[1:-1]]
        return [(int(row[3]), int(row[5]), row[1]) for row in rows]

    def found_in_python(self, from_start=False):
        """The first finding in these lanes, a byte of each at a time; None if there is none."""
        from interlaken.monitor import Finding, Monitor

        lanes = self.arrived()
        with Monitor(self.plan.encode(), self.library, from_start) as monitor:
            for at in range(min(map(len, lanes))):
                for lane, data in enumerate(lanes):
                    monitor.feed(lane, data[at:at + 1])
                for event in monitor.events():
                    if isinstance(event, Finding):
                        return str(event)
        return None

    def finding(self, what, *options):
        """What a run says that it sends wrong, with the bit at which that arrives; what it finds, and after how many bits. Python finds the
        same."""
        status, text = self.call(*options)
        says, finds = SAYS.search(text), FINDS.search(text)
        self.tally.expect(what + ": status", status != 0, True)
        self.tally.expect(what + ": a finding", finds is not None, True)
        self.tally.expect(what + ": in Python", self.found_in_python("+from_start" in options), finds and PREFIX.sub("", finds[1]))
        sent = (int(says[1]), int(says[2]) + skew_of(int(says[1]))) if says else None
        return sent, finds[1] if finds else "", int(finds[2]) if finds else 0

    def is_in_time(self, bit, after):
        return bit + CODE_BITS <= after <= bit + METAFRAMES * CODE_BITS * self.metaframe

    def try_lane_bug(self, bug, on):
        """A bug of one lane: the first finding is the word that the device names; if nothing is inverted, the one that `inspect` finds."""
        what, (event, name) = "%s, bug %d on lane %d" % (self.what, bug, on), LANE_BUGS[bug]
        sent, found, after = self.finding(what, "+bug=%d" % bug, "+on=%d" % on, "+packets=400")
        rows = self.shown()
        lane, bit = sent or (0, 0)
        if bug == PLAIN_CODES and rows:
            self.tally.expect(what + ": after what is sent", rows[0][1] > bit, True)
            bit = rows[0][1]
        self.tally.expect(what + ": its finding", (lane, found), (on, "lane %d bit %d: INTERLAKEN_LANE_EVENT_%s" % (on, bit, name)))
        self.tally.expect(what + ": in time", self.is_in_time(bit, after), True)
        self.tally.expect(what + ": by inspect", rows[:1], [(on, bit, event)])

    def try_rule_bug(self, bug, start):
        """A bug of words that breaks a rule: the first finding is the word that the device names, and `check` finds it first."""
        what, (rule, name, on_channel) = "%s, bug %d from metaframe %d" % (self.what, bug, start), RULE_BUGS[bug]
        sent, found, after = self.finding(what, "+bug=%d" % bug, "+from=%d" % start, "+packets=400")
        lane, bit = sent or (0, 0)
        wanted = "lane %d bit %d: INTERLAKEN_RULE_%s" % (lane, bit, name) + (" on channel [12]" if on_channel else "")
        self.tally.expect(what + ": its finding", (bool(re.fullmatch(wanted, found)), found), (True, found))
        self.tally.expect(what + ": in time", self.is_in_time(bit, after), True)
        self.tally.expect(what + ": by check", self.broken()[:1], [(lane, bit, rule)])
        self.tally.expect(what + ": no lane shows it", self.shown(), [])

    def try_error_end(self):
        """Packets that end with an error break no rule: the receiver finds the first of them at its end."""
        what = "%s, bug %d" % (self.what, ERROR_END)
        sent, found, after = self.finding(what, "+bug=%d" % ERROR_END)
        lane, bit = sent or (0, 0)
        wanted = "from lane %d bit %d on: INTERLAKEN_DROP_SENDER_ERROR on channel N" % (lane, bit)
        self.tally.expect(what + ": its finding", re.sub("[12]$", "N", found), wanted)
        self.tally.expect(what + ": in time", self.is_in_time(bit, after), True)
        self.tally.expect(what + ": nothing else shows it", (self.broken(), self.shown()), ([], []))

    def try_flip(self, lane, bit):
        """A bit that is inverted on its way."""
        what = "%s, lane %d, bit %d" % (self.what, lane, bit)
        _, found, after = self.finding(what, "+lane=%d" % lane, "+bit=%d" % bit)
        self.tally.expect(what + ": in time", bit < after <= bit + METAFRAMES * CODE_BITS * self.metaframe, True)

    def try_starts(self):
        """Bugs from the first word on: no lane has a lock, or no control word is verified."""
        for bug, wanted in START_BUGS.items():
            what = "%s, bug %d from the first word on" % (self.what, bug)
            _, found, _ = self.finding(what, "+bug=%d" % bug, "+on=1", "+from=0")
            self.tally.expect(what + ": its finding", re.sub(r"bit \d+", "bit N", found), wanted)
        # The checksum of the first word cannot be judged if it is not the first that was sent: then the next one is on lane 1.
        for lane, options in ((1, ()), (0, ("+from_start",))):
            what = "%s, bug %d from the first word on, %s" % (self.what, WRONG_CRC24, options)
            _, found, _ = self.finding(what, "+bug=%d" % WRONG_CRC24, "+from=0", *options)
            self.tally.expect(what + ": its finding", re.sub(r"bit \d+", "bit N", found), "lane %d bit N: INTERLAKEN_RULE_CRC" % lane)

    def try_begin(self, bug, begin):
        """The bench begins in the middle of the traffic: it finds a bug at the lane and the bit at which one does that saw all."""
        what = "%s, bug %d, from bit %d on" % (self.what, bug, begin)
        options = ["+bug=%d" % bug, "+on=1", "+from=%d" % BUG_FROM, "+packets=400"]
        _, wanted, _ = self.finding(what + ", of all", *options)
        _, found, _ = self.finding(what, *options, "+begin=%d" % begin)
        self.tally.expect(what + ": its finding", re.sub(r"(?<= bit )\d+", lambda bit: str(int(bit[0]) + begin), found), wanted)

    def try_begins(self):
        draw, period = random.Random(4), CODE_BITS * self.metaframe
        for number in range(BEGINS):
            begin = draw.randrange(FIRST_BURSTS * period, LAST_BEGIN * period)
            status, text = self.call("+packets=400", "+begin=%d" % begin, "+bits=%d" % (20 * period))
            told = re.findall(r"^no finding, (\d+) packets$", text, re.M)
            self.tally.expect("%s, from bit %d on" % (self.what, begin), (status, len(told), self.found_in_python()), (0, 1, None))
            self.tally.expect("%s, from bit %d on: packets" % (self.what, begin), int((told or ["0"])[0]) > 0, True)
        for bug in [bug for bug in [*LANE_BUGS, *RULE_BUGS] if bug not in (PLAIN_CODES, DEAD_LANE)]:
            self.try_begin(bug, draw.randrange(FIRST_BURSTS * period, LAST_BEGIN * period))

    def try_plan(self):
        """A plan from a file, findings that are left out, and what is refused."""
        bug = ["+bug=%d" % PLAIN_SKIP, "+on=1"]
        of_file, own = (FINDS.search(self.call(*bug, *more)[1]) for more in (["+plan=seen.plan"], []))
        self.tally.expect(self.what + ": the plan of a file", of_file and of_file[0], own and own[0])
        status, text = self.call(*bug, "+without=skip,diag")
        self.tally.expect(self.what + ": left out", (status, re.findall(r"^left out: (\w+)=\d+$", text, re.M), "no finding" in text), (0, ["diag", "skip"], True))
        with open(self.folder + "/other.plan", "w", encoding="utf-8") as file:
            file.write(self.plan.replace("lanes,%d" % self.lanes, "lanes,%d" % (self.lanes + 1)))
        for option, told in (("+plan=other.plan", "the plan has %d lanes, and the device %d" % (self.lanes + 1, self.lanes)), ("+plan=none.plan", "none.plan: it cannot be read"),
                             ("+without=skip,skips", "there is no kind 'skips'")):
            status, text = self.call(option)
            self.tally.expect("%s, %s" % (self.what, option), (status != 0, told in text), (True, True))

    def try_all(self):
        status, text = self.call()
        self.tally.expect(self.what + ": status without a bug", status, 0)
        self.tally.expect(self.what + ": no finding", re.findall(r"^no finding, (\d+) packets$", text, re.M), ["40"])
        self.tally.expect(self.what + ": nothing shown", (self.shown(), self.broken(), self.found_in_python()), ([], [], None))
        for bug in LANE_BUGS:
            for on in range(self.lanes):
                self.try_lane_bug(bug, on)
        for bug in RULE_BUGS:
            for start in (5, 8):
                self.try_rule_bug(bug, start)
        self.try_error_end()
        self.try_starts()
        self.try_begins()
        self.try_plan()
        draw = random.Random(2)
        for lane in range(self.lanes):
            self.try_flip(lane, draw.randrange(5 * CODE_BITS * self.metaframe, 8 * CODE_BITS * self.metaframe))


def try_monitor(tally, folder, run, build, program):
    """The benches with the monitor: the one of the page, and another link with whole codes at a clock."""
    for shape, name in SHAPES.items():
        if not os.path.exists(folder + "/dpi/" + name):
            build(name, shape)
        Monitored(tally, folder, run, program, shape).try_all()
