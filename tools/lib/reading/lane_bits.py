"""The lanes as files have them: where their Sync words stand, where each is locked first, and which of their bits are damaged."""

import re
from collections import Counter

from reading.agreement import are_sent, must_begin_at
from reading.intervals import merged
from reading.files import must_agree
from reading.lane_words import bits_of, words_of
from reading.metaframes import STATE, STATE_BITS, STATE_MARK, SYNC
from reading.plans import CODE

FIRST_STATE = STATE  # of lane 0; that of lane i is less by i
ROUND = 16  # a Sync word repeats so many bits
# Bit n is 1 if, of a code with the payload of a Sync word, the bits n and n + 1 differ.
SYNC_TURNS = sum((SYNC >> 63 - place ^ SYNC >> 62 - place) % 2 << 3 + place for place in range(ROUND - 1))


def sync_words(bits):
    """The bits at which Sync words begin, inverted ones among them."""
    return syncs_in(int(bits or "0", 2), len(bits))


def syncs_in(number, length):
    """The same of a number of so many bits, the first of them highest: each bit of it is looked at at once."""
    every = (1 << length) - 1
    alike = every & ~(number ^ number << ROUND)
    for reach in (1, 2, 4, 8, ROUND, ROUND):
        alike &= alike << reach  # so 48 bits are those 16 places on
    turns = number ^ number << 1
    # A header 10, a payload that begins with the inversion bit and repeats 16 bits, and these.
    found = alike << 3 & number << 1 & (number ^ every) << 2 & ~(number ^ number << 3)
    for place in range(3, 2 + ROUND):
        found &= (turns if SYNC_TURNS >> place & 1 else turns ^ every) << place
    found = (found & every) >> CODE - 1 << CODE - 1
    data = found.to_bytes(-(-length // 8), "big")
    late = 8 * len(data) - length
    return [8 * some.start() + 8 - some[0][0].bit_length() - late for some in re.finditer(rb"[^\0]", data)]


def first_state(bits):
    """The state that the Scrambler State word after the first Sync word carries, or None."""
    for at in sync_words(bits)[:1]:
        code = bits[at + CODE:at + 2 * CODE]
        payload = int(code[3:] or "0", 2) ^ ((1 << 64) - 1 if code[:1] == "1" else 0)
        if len(code) == CODE and code[1:3] == "10" and payload >> STATE_BITS == STATE_MARK:
            return payload & STATE
    return None


def first_lock(bits, syncs, plan):
    """The bit of the Sync word that declares the first lock, or None."""
    return next((word.bit for word in words_of(bits, syncs, plan) if word.lock == "declared"), None)


class Lane:
    """A lane of a file. `front` are the ones of its skew, `inverted` and `other` its damaged bits, and `dark` (first, last + 1), all in
    bits of the file; `report` is what the program told of its locks."""

    def __init__(self, number, data, plan):
        self.number, self.bits = number, bits_of(data)
        self.syncs = sync_words(self.bits)
        self.lock = first_lock(self.bits, self.syncs, plan)
        self.front, self.inverted, self.dark, self.other, self.changed = 0, [], [], [], None
        self.report, self.note = {}, ""
        self.events = {}  # by bit, but for declared locks, if they were told

    def is_sent(self, skew):
        """Whether the file has the lane as it was sent, without the skew that the schedule gives it."""
        return skew > 0 and 0 in self.syncs and "0" in self.bits[:skew]

    def take_schedule(self, skew, flips, darks):
        if "0" in self.bits[:skew]:
            self.note = "no %d ones of a skew in front" % skew
            return
        self.front, last = skew, len(self.bits)
        self.dark = [(skew + first, min(skew + end, last)) for first, end in merged(darks) if skew + first < last]
        self.inverted = [skew + bit for bit in flips if skew + bit < last and not any(a <= skew + bit < b for a, b in self.dark)]

    def compare(self, sent):
        """Keeps of the schedule's damage what differs from the sent lane, and adds what differs besides."""
        sent = sent[:len(sent) // CODE * CODE]
        here = self.bits[self.front:self.front + len(sent)]
        if len(here) < len(sent):
            self.note = "%d of %d sent bits are there" % (len(here), len(sent))
            sent = sent[:len(here)]
        if not sent:
            self.changed = set()
            return
        differing = bin(1 << len(sent) | int(here, 2) ^ int(sent, 2))[3:]
        self.changed = {self.front + found.start() for found in re.finditer("1", differing)}
        self.inverted = [bit for bit in self.inverted if bit in self.changed]
        known = set(self.inverted)
        self.dark = [(a, b) for a, b in self.dark if differing.find("1", a - self.front, b - self.front) >= 0]
        self.other = sorted(bit for bit in self.changed - known if not any(a <= bit < b for a, b in self.dark))

    def missing_syncs(self, period):
        """The bits where Sync words of the lane's own phase should begin and do not."""
        if not self.syncs:
            return []
        phase = Counter(at % period for at in self.syncs).most_common(1)[0][0]
        begin = self.front + (phase - self.front) % period
        there = set(self.syncs)
        return [at for at in range(begin, len(self.bits) - CODE - 7, period) if at not in there]

    def damaged(self):
        """The damaged bits as (first, last + 1, what they are), in order."""
        return sorted([(bit, bit + 1, "inverted") for bit in self.inverted] + [(a, b, "dark") for a, b in self.dark] + [(bit, bit + 1, "changed") for bit in self.other])

    def damaged_slots(self, places):
        """The slots of the stream whose words are damaged in this lane, each with the first and the last of its damaged bits."""
        changed = None if self.changed is None else {places.slot_of(self.number, bit) for bit in self.changed}
        found = {}
        for first, end, _ in self.damaged():
            for slot, begin in places.words_of(self.number, first, end):
                part = max(first, begin), min(end, begin + CODE) - 1
                least, most = found.get(slot, part)
                found[slot] = min(least, part[0]), max(most, part[1])
        return found if changed is None else {slot: bits for slot, bits in found.items() if slot in changed}


def read_lanes(folder, plan, schedule, sent=None, text=""):
    """The lanes of a plan, and whether they are as they were sent; `sent` names the prefix of the sent lanes, and `text` is what the
    program printed."""
    lanes = [Lane(number, folder.content("%s.lane.%d" % (plan.out, number)), plan) for number in range(plan.lanes)]
    as_sent = are_sent(plan, schedule, lanes, sent is not None)
    for lane in lanes:
        if not as_sent:
            lane.take_schedule(schedule.skew[lane.number], schedule.flips[lane.number], schedule.darks[lane.number])
        if schedule.rows and not lane.note:
            must_begin_at(plan, lane.number, lane.syncs, lane.front)
        if sent is not None:
            lane.compare(bits_of(folder.content("%s.lane.%d" % (sent, lane.number))))
    take_reports(lanes, text)
    return lanes, as_sent


def take_reports(lanes, text):
    """Takes what the program told of each lane, and compares the first locks with it."""
    for found in re.finditer(r"^lane (\d+) (locks=.*)$", text, re.MULTILINE):
        report = dict(field.split("=", 1) for field in found.group(2).split())
        if int(found.group(1)) < len(lanes):
            lane = lanes[int(found.group(1))]
            lane.report = report
            first = report.get("first", "-")
            must_agree("the first lock of lane %d" % lane.number, lane.lock, int(first) if first.isdigit() else None)


def groups_of(lanes, plan):
    """The groups, each the list of its lanes' Sync words: none farther apart than `deskew` words."""
    reach, found = CODE * plan.deskew, []
    places = [sorted(lane.syncs) for lane in lanes]
    at = [0] * len(lanes)
    for name in places[0]:
        group = [name]
        for n in range(1, len(lanes)):
            while at[n] < len(places[n]) and places[n][at[n]] < name - reach:
                at[n] += 1
            if at[n] == len(places[n]) or places[n][at[n]] > name + reach:
                break
            group.append(places[n][at[n]])
        if len(group) == len(lanes) and max(group) - min(group) <= reach:
            found.append(group)
    return found
