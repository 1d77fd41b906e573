"""Calls of the C library for live.py, with what each has to give: those that feed a receiver, those of a transmitter, and random ones,
wrong ones among them.
"""

from random import Random

import lib.live_model as model
from lib.live_model import DONE, NO_DAMAGE, NO_LANE, NO_PACKET, NO_RECEIVER, NO_TRANSMITTER
import random_inputs as drawn

RANDOM = Random(1).randbytes(model.LONGEST + 1)  # what packets and damaged lanes are pieces of


class Feeding:
    """Lanes that are fed in pieces, and what is known of the receiver."""

    def __init__(self, link):
        self.link = link
        self.fed, self.over = [0] * len(link.data), [False] * len(link.data)
        self.used = list(self.fed)  # the bytes that were used when `next` had nothing more

    def rounds(self):
        """A round uses a byte of each lane that is not finished."""
        return min((fed for fed, over in zip(self.fed, self.over) if not over), default=self.link.most + 1)

    def feed(self, lane, count):
        """How many of so many bytes are taken, if the receiver has told all it can."""
        taken = min(count, len(self.link.data[lane]) - self.fed[lane], model.RING - self.fed[lane] + self.used[lane])
        self.fed[lane] += taken
        return taken

    def settle(self):
        """`next` has nothing more."""
        rounds = self.rounds()
        self.used = [min(fed, rounds) for fed in self.fed]

    def report(self, lane):
        return "0 " + " ".join(map(str, self.link.lanes[lane].report(8 * self.used[lane])))

    def state(self, lane):
        return "0 %d" % self.link.lanes[lane].state(8 * self.used[lane])


def flow_words(r, plan):
    """Words of the far end: a calendar or a part of it, whose checksums are anything, and one of another kind before, in or after it."""
    states = [r.randrange(3) > 0 for _ in plan.entries]
    words = [row.number ^ r.choice([0, r.getrandbits(24)]) for row in drawn.calendar_rows(r, 0, states)]
    if r.randrange(6) == 0:
        words = words[r.randrange(len(words)):]
    if r.randrange(6) == 0:
        words = words[:r.randint(0, len(words))]
    if r.randrange(2) == 0:
        other = r.choice([0, r.getrandbits(64), r.getrandbits(63), 1 << 63 | 0b0110 << 57 | r.getrandbits(56)])
        words.insert(r.choice([0, 1, 1, 2]), other)
    return words


def all_on(r, plan):
    return [row.number for row in drawn.calendar_rows(r, 0, [True] * len(plan.entries))]


class Sending:
    """Calls of a transmitter with what each gives. Bytes of lanes are known when all words are made."""

    def __init__(self, plan, handle, buffer):
        self.plan, self.handle, self.buffer = plan, handle, buffer
        self.sender, self.calls = model.Sender(plan), []

    def put(self, call, want):
        self.calls.append((call, want))

    def packet(self, r, channel, length, mark=""):
        begin = r.randrange(0, model.LONGEST + 1 - length + 1)
        result = self.sender.packet(channel, RANDOM[begin:begin + length])
        self.put("%stpacket %d %d %d %d %d" % (mark, self.handle, channel, self.buffer, begin, length), "%d" % result)

    def flow(self, word):
        self.put("tflow %d %d" % (self.handle, word), "%d" % self.sender.flow(word))

    def local(self, channel, on):
        self.put("tlocal %d %d %d" % (self.handle, channel, on), "%d" % self.sender.local(channel, on))

    def take(self, lane, count):
        sender = self.sender
        result, given, begin = sender.take(lane, count)
        self.put("ttake %d %d %d" % (self.handle, lane, count),
                 lambda line: "%d %d %s" % (result, given, sender.lane(lane, begin, begin + given).hex() if given else ""))
        return given

    def sent(self, channel):
        self.put("tsent %d %d" % (self.handle, channel), "%d %d %d %d %d" % self.sender.sent(channel))

    def slots(self):
        self.put("tslots %d" % self.handle, "0 %d" % self.sender.slots())

    def finish(self):
        self.put("tfin %d" % self.handle, "%d" % self.sender.finish())


# ---- right and wrong calls

BAD_PLAN, RANDOM_BYTES = 90, 91  # buffers
NO_HANDLE = {"r": NO_RECEIVER, "t": NO_TRANSMITTER, "d": NO_DAMAGE}
NO_NUMBERS = " 0" * 11


class Numbered:
    """A handle, whether it is open, and the calls that were made on it. `marks` are for calls that take memory."""

    def __init__(self, bench, r, link, handle, calls):
        self.bench, self.r, self.link, self.handle, self.calls = bench, r, link, handle, calls
        self.has = False

    def put(self, call, want):
        self.calls.append((call, want))

    def mark(self):
        return self.r.choice(["", "", "", "! ", "!! "])

    def lane(self):
        """A lane that there is, most often."""
        lanes = len(self.link.data)
        return self.r.choice([self.r.randrange(lanes)] * 5 + [lanes, 64, 0xFFFFFFFF])

    def new(self):
        """Opens the handle by the plan, or by one that is refused."""
        bad = self.r.randrange(4) == 0
        want = "8 1 0 0 0" if self.has else "2 0 4 1 0" if bad else "0 1 0 0 0"
        self.put("%s%snew %d %d" % (self.mark() if not bad else "", self.kind, self.handle, BAD_PLAN if bad else 0), want)
        if not bad and not self.has:
            self.opens()

    def free(self):
        self.put("%sfree %d" % (self.kind, self.handle), "0 0" if self.has else "%d 0" % NO_HANDLE[self.kind])
        self.has = False


class Receiving(Numbered):
    """A receiver."""
    kind = "r"

    def opens(self):
        self.has, self.feeding, self.next, self.last, self.settled = True, Feeding(self.link), 0, None, True
        self.heard = model.Heard(self.link.plan)

    def lane_result(self, lane):
        if not self.has:
            return NO_RECEIVER
        return NO_LANE if lane >= len(self.link.data) else DONE

    def feed(self):
        lane, r = self.lane(), self.r
        buffer, result = 1 + lane % len(self.link.data), self.lane_result(lane)
        if result == DONE and self.feeding.over[lane]:
            result = model.FINISHED
        count, taken = r.choice([r.randrange(20), r.randrange(400), r.randrange(6_000)]), 0
        if result == DONE:
            if not self.settled:  # the room is known to be so much at least
                count = min(count, model.RING - self.feeding.fed[lane] + self.feeding.used[lane])
            taken = self.feeding.feed(lane, count)
        self.put("rfeed %d %d %d %d" % (self.handle, lane, buffer, count), "%d %d" % (result, taken))

    def finish(self):
        lane = self.lane()
        result = self.lane_result(lane)
        if result == DONE:
            if self.feeding.over[lane]:
                result = model.FINISHED
            elif self.feeding.fed[lane] < len(self.link.data[lane]):
                return
            self.feeding.over[lane] = True
        self.put("rfin %d %d" % (self.handle, lane), "%d" % result)

    def is_due(self):
        """Whether the next event is known; None if that is not foretold here, when some lanes are at their ends."""
        over, link = self.feeding.over, self.link
        if all(over):
            return self.next < len(link.events)
        mark, rounds = (link.marks + [link.most + 2])[self.next], self.feeding.rounds()
        return None if any(over) and mark > link.least else mark <= rounds

    def event(self):
        if not self.has:
            return self.put("rnext %d" % self.handle, "7" + NO_NUMBERS)
        due = self.is_due()
        if due is None:
            return None
        self.last = self.link.events[self.next] if due else None
        self.put("rnext %d" % self.handle, model.event_line(self.last) if due else "0" + NO_NUMBERS)
        self.settled = not due
        if due:
            self.next += 1
            self.heard.take(self.last)
        else:
            self.feeding.settle()

    def read(self):
        offset, count = self.r.choice([0, 0, self.r.randrange(300), 0xFFFFFFFF]), self.r.randrange(400)
        want = "%d 0" % (NO_PACKET if self.has else NO_RECEIVER)
        if self.has and self.last is not None and self.last[0] == model.PACKET:
            data = self.last[7][offset:offset + count]
            want = "0 %d %s" % (len(data), data.hex())
        self.put("rread %d %d %d" % (self.handle, offset, count), want)

    def report(self):
        lane = self.lane()
        result = self.lane_result(lane)
        if result != DONE:
            self.put("rreport %d %d" % (self.handle, lane), "%d" % result + " 0" * 9)
            self.put("rstate %d %d" % (self.handle, lane), "%d 0" % result)
        elif self.settled:
            self.put("rreport %d %d" % (self.handle, lane), self.feeding.report(lane))
            self.put("rstate %d %d" % (self.handle, lane), self.feeding.state(lane))

    def is_on(self):
        channel = self.r.choice(self.link.plan.channels)
        self.put("rison %d %d" % (self.handle, channel), "0 " + self.heard.of([channel]) if self.has else "7 0")

    def some(self):
        """A call, or a few."""
        kinds = [self.feed] * 16 + [self.some_events] * 12 + [self.new] * 2 + [self.finish] * 3 + [self.read] * 3 + [self.report] * 2
        self.r.choice(kinds + [self.is_on] * 2 + [self.free] * (self.r.randrange(6) == 0))()

    def some_events(self):
        for _ in range(self.r.choice([1, 2, 9, 40])):
            self.event()


class Transmitting(Numbered):
    """A transmitter."""
    kind = "t"

    def opens(self):
        self.has, self.sending = True, Sending(self.link.plan, self.handle, RANDOM_BYTES)
        self.sending.calls = self.calls

    def channel(self):
        listed = self.link.plan.channels
        return self.r.choice(listed * 4 + [next(n for n in range(256) if n not in listed), 65_535 if 65_535 not in listed else listed[0]])

    def packet(self):
        longest = min(250, self.link.plan.settings.max_packet)
        length = self.r.choice([self.r.randint(1, longest), self.r.randint(1, longest), self.r.randint(1, 20), 0, model.LONGEST + 1])
        if self.has:
            return self.sending.packet(self.r, self.channel(), length, self.mark())
        self.put("tpacket %d %d %d 0 %d" % (self.handle, self.channel(), RANDOM_BYTES, length), "12")

    def flow(self):
        for word in flow_words(self.r, self.link.plan):
            self.sending.flow(word) if self.has else self.put("tflow %d %d" % (self.handle, word), "12")

    def local(self):
        channel, on = self.r.choice(self.link.plan.channels), self.r.choice([0, 0, 1, 2, 256, 0xFFFFFFFF])
        self.sending.local(channel, on) if self.has else self.put("tlocal %d %d %d" % (self.handle, channel, on), "12")

    def take(self):
        lane, count = self.lane(), self.r.randrange(self.r.choice([30, 300, 2_000, 5_000]))
        self.sending.take(lane, count) if self.has else self.put("ttake %d %d %d" % (self.handle, lane, count), "12 0")

    def told(self):
        channel = self.channel()
        if self.has:
            return self.sending.sent(channel), self.sending.slots()
        self.put("tsent %d %d" % (self.handle, channel), "12 0 0 0 0")
        self.put("tslots %d" % self.handle, "12 0")

    def finish(self):
        if not self.has or self.r.randrange(5) == 0:
            self.sending.finish() if self.has else self.put("tfin %d" % self.handle, "12")

    def some(self):
        kinds = [self.new] * 3 + [self.packet] * 6 + [self.flow] * 3 + [self.local, self.told, self.told, self.finish] + [self.take] * 14
        self.r.choice(kinds + [self.free] * (self.r.randrange(6) == 0))()


class Damaging(Numbered):
    """Damage. Rows are accepted when the driver's answers are read, since one whose allocation fails may be or not."""
    kind = "d"

    def new(self):
        lanes = self.r.choice([len(self.link.data)] * 4 + [1, 64, 0, 65, 0xFFFFFFFF])
        result = model.IN_USE if self.has else DONE if 1 <= lanes <= 64 else model.OUT_OF_RANGE
        if result == DONE:
            self.has, self.injured = True, model.Injured(lanes)
        self.put("%sdnew %d %d" % (self.mark(), self.handle, lanes), "%d %d" % (result, self.has))

    def row(self, call, result, add):
        """A row; with an allocation that fails it may be refused."""
        mark = self.r.choice(["", "", "! ", "!! ", "? "])

        def want(line):
            if result == DONE and mark == "? " and line.strip() == str(model.OUT_OF_MEMORY):
                self.bench.refused[call.split()[0]] += 1
                return line
            if result == DONE:
                add()
            return str(result)
        self.put(mark + call, want)

    def bit(self, lane):
        """A bit near the next one of the lane, most often."""
        passed = self.injured.passed[lane] if self.has and lane < len(self.injured.passed) else 0
        if self.r.randrange(12) == 0:
            return self.r.choice([0, model.BITS - 1, model.BITS, (1 << 64) - 1])
        return max(0, passed + self.r.randrange(800) - 40)

    def flip(self):
        lane = self.lane()
        bit, injured = self.bit(lane), self.injured if self.has else None
        result = injured.flip_result(lane, bit) if self.has else NO_DAMAGE
        for _ in range(self.r.choice([1, 1, 2])):
            self.row("dflip %d %d %d" % (self.handle, lane, bit), result, lambda: injured.flips[lane].append(bit))

    def dark(self):
        lane = self.lane()
        first, injured = self.bit(lane), self.injured if self.has else None
        bits = self.r.choice([self.r.randrange(60), self.r.randrange(2_000), 0, (1 << 64) - 1 - self.r.randrange(3)])
        result = injured.dark_result(lane, first, bits) if self.has else NO_DAMAGE
        self.row("ddark %d %d %d %d" % (self.handle, lane, first, bits), result, lambda: injured.darks[lane].append((first, bits)))

    def apply(self):
        lane, begin, count = self.lane(), self.r.randrange(1_000), self.r.choice([self.r.randrange(12), self.r.randrange(300)])
        data, injured = RANDOM[begin:begin + count], self.injured if self.has else None
        result = NO_DAMAGE if not self.has else NO_LANE if lane >= len(injured.passed) else DONE
        start = injured.passed[lane] if result == DONE else 0
        if result == DONE:
            injured.passed[lane] += 8 * count
        self.put("dapply %d %d %d %d %d" % (self.handle, lane, RANDOM_BYTES, begin, count),
                 lambda line: "%d %s" % (result, (injured.damaged(lane, start, data) if result == DONE else data).hex()))

    def some(self):
        self.r.choice([self.new] * 3 + [self.flip] * 7 + [self.dark] * 5 + [self.apply] * 20 + [self.free] * (self.r.randrange(6) == 0))()


def sequence(bench, r, link, count):
    """The calls of a script, with what each gives; at the end no handle is open."""
    calls = []
    handles = [kind(bench, r, link, number, calls) for kind in (Receiving, Transmitting, Damaging) for number in (0, 1)]
    while len(calls) < count:
        r.choice(handles).some()
    for handle in handles:
        handle.free()
    return calls


def sequence_script(link, calls):
    return link.loads() + ["hold %d %s" % (BAD_PLAN, b"lanes,x".hex()), "load %d random" % RANDOM_BYTES] + [call for call, _ in calls]
