"""What the calls of the C library give, by the model of model/: the events of a receiver in their order, and what a transmitter and
damage do call by call. Numbers of results and kinds are those of include/interlaken.h.
"""

from collections import deque

from lib import modeled  # finds the model
import fields
import lanes
import locks
import spans
from epochs import epochs_of_lanes
from fields import CONTROL, ERROR_END, NO_END, Word
from flow import FlowRow, Incoming, LocalRow
from link import CODE_BITS
from reassembly import DROPS
from stream import OpenStream, Source, cut

DONE, OUT_OF_MEMORY, BAD_PLAN, NO_LANE, FINISHED, TOO_MANY, NO_PACKET, NO_RECEIVER, IN_USE, NO_DAMAGE, OUT_OF_RANGE, PASSED, \
    NO_TRANSMITTER, NO_CHANNEL, BAD_LENGTH = range(15)
NONE, PACKET, DROPPED, SPAN, FLOW, ENDED = range(6)
FAULTS = ("start", "bad", "crc", "protocol", "lost", "end")
CAUSES = ("", "text", "key", "fields", "number", "range", "repeat", "missing", "clash")
KEYS = ("", "lanes", "metaframe", "channel", "out")
LONGEST = 262_144
RING = 4_096
WORD_BYTES = 9
BITS = 1 << 44


def refusal(why):
    """The cause, the row and the key of a plan that the model refuses, from its text: `row 3: clash`, or `missing lanes`."""
    first, second = why.replace(": ", " ").split(" ", 1)
    if first == "missing":
        return CAUSES.index("missing"), 0, KEYS.index(second)
    row, name = second.split()
    return CAUSES.index(name), int(row), 0


# ---- a receiver

class Lane:
    """What a lane shows of its first bits."""

    def __init__(self, data, link):
        self.link, bits, begin = link, lanes.bits_of_file(data), 0
        self.locks, self.firsts = [], []  # what each search came to, and the bit at which its word lock begins
        while (first := locks.word_lock(bits, begin)) is not None:
            lock, after = locks.follow(bits, first, link)
            self.locks.append(lock)
            self.firsts.append(first)
            begin = after + (lock.cause is locks.Cause.UNFRAMED)

    def shown(self, bits):
        """The locks that so many bits show: a lock depends on the words that are whole in them."""
        return [cut_lock(lock, bits) for lock, first in zip(self.locks, self.firsts) if first + locks.BLOCK * CODE_BITS <= bits]

    def report(self, bits):
        """The members of interlaken_report."""
        one = locks.report(self.shown(bits), self.link)
        first = (0, 0) if one.first is None else (1, one.first)
        return (one.locks, *first, one.lost, one.unframed, one.bad, one.sync, one.state, one.diag)

    def state(self, bits):
        """0 while it searches, 1 in a word lock, 2 in a declared lock."""
        shown = self.shown(bits)
        if not shown or shown[-1].cause is not None:
            return 0
        return 1 if shown[-1].declared is None else 2


def cut_lock(lock, bits):
    """A lock as so many bits show it."""
    if lock.cause is not None and lock.losing + CODE_BITS <= bits:
        return lock
    if lock.declared is None or lock.declared + CODE_BITS > bits:
        return lock._replace(declared=None, words=[], states=[], cause=None, losing=None)
    return lock._replace(words=lock.words[:(bits - lock.declared) // CODE_BITS], cause=None, losing=None)


class Fragment:
    """A fragment of a packet that is open: whether it began with SOP, the place of that word, and its data words."""

    def __init__(self, sop, first):
        self.sop, self.first, self.words = sop, first, []

    def data(self, end):
        """Its bytes, the last word cut to its valid ones."""
        whole = b"".join(word.to_bytes(8, "big") for word in self.words)
        return whole[:len(whole) - 8 + fields.valid_bytes(end)]


class Told:
    """The events of received words in their order. DEFINITIONS, "What is received": Outputs. An event is a tuple of kind, channel,
    length, reason, two places, word and data."""

    def __init__(self, settings):
        self.settings, self.events = settings, []
        # The last verified word, and why a span is open after it; none if a clean run goes on.
        self.after, self.why = None, "start"
        # Of each channel that had a burst in this run its open fragment, or None after one that has ended.
        self.open = {}

    def put(self, kind, channel=0, length=0, why=0, first=None, last=None, word=0, data=None):
        self.events.append((kind, channel, length, why, first, last, word, data))

    def drop(self, channel, why):
        self.put(DROPPED, channel, why=DROPS.index(why))

    def breaks(self, why):
        """A failing block or a break: the drops of open fragments by channel number."""
        for channel in sorted(channel for channel, fragment in self.open.items() if fragment is not None and fragment.sop):
            self.drop(channel, why)
        self.open = {}
        self.why = self.why or why

    def verified(self, place, number, before, between):
        """A verified word, with the word before its block and the data words between: the span that it closes, the word itself, what
        its end decides, and what its SOP or missing SOP decides."""
        runs_on = self.why is None
        if not runs_on:
            self.put(SPAN, why=FAULTS.index(self.why), first=self.after, last=place)
        self.after, self.why = place, None
        self.put(FLOW, first=place, word=number)
        if runs_on and fields.begins_burst(before):
            self.ends(place, fields.end_format(number), fields.channel_number(before, self.settings.wide), between)
        if fields.begins_burst(number):
            self.begins(place, fields.has_sop(number), fields.channel_number(number, self.settings.wide))

    def ends(self, place, end, channel, between):
        """A burst of a channel ends, and with an end format its fragment."""
        if channel not in self.settings.channels:
            return
        fragment = self.open[channel]
        fragment.words += between
        if end == NO_END:
            return
        self.open[channel] = None
        if fragment.sop and end == ERROR_END:
            self.drop(channel, "sender")
        elif fragment.sop and len(fragment.data(end)) > self.settings.max_packet:
            self.drop(channel, "toolong")
        elif fragment.sop:
            data = fragment.data(end)
            self.put(PACKET, channel, len(data), first=fragment.first, last=place, data=data)

    def begins(self, place, sop, channel):
        """A burst word. A fragment that is cut by SOP, or begins without one after another, breaks the protocol; the first of a run
        may begin without."""
        if channel not in self.settings.channels:
            if sop:
                self.drop(channel, "unlisted")
            return
        is_first, fragment = channel not in self.open, self.open.get(channel)
        if sop:
            if fragment is not None and fragment.sop:
                self.drop(channel, "protocol")
            self.open[channel] = Fragment(True, place)
        elif fragment is None:
            if not is_first:
                self.drop(channel, "protocol")
            self.open[channel] = Fragment(False, place)


def events_of(found, plan, is_over):
    """The events of the locks of each lane. If the lanes go on, an epoch whose bits are over is not yet at its end."""
    epochs = epochs_of_lanes(found, plan.link)
    told, parts = Told(plan.settings), spans.stretches(epochs)
    for number, epoch in enumerate(epochs):
        for part in [part for part in parts if part.epoch == number]:
            if part.fault is not None:
                told.breaks(part.fault)
            else:
                between = [word.number for word in epoch.words[part.begin + 1:part.end]]
                told.verified(epoch.places[part.end], epoch.words[part.end].number, epoch.words[part.begin].number, between)
        if is_over or epoch.ends_for == "lost":
            told.breaks(epoch.ends_for)
    if is_over:
        told.put(SPAN, why=FAULTS.index(told.why), first=told.after)
        told.put(ENDED)
    return told.events


def place_words(place):
    return (0, 0, 0) if place is None else (1, place.index, place.group)


def event_line(event):
    """What the driver says of an event, but the bytes of a packet and the channels."""
    kind, channel, length, why, first, last, word, _ = event
    return "0 %d %d %d %d %d %d %d %d %d %d %x" % (kind, channel, length, why, *place_words(first), *place_words(last), word)


class Heard:
    """Which channels the far end has on, by the events so far."""

    def __init__(self, plan):
        self.state = Incoming(plan.entries)

    def take(self, event):
        """A control word counts whatever its checksum is; a span as a word that is not valid."""
        if event[0] in (FLOW, SPAN):
            self.state.take(fields.sealed([], event[6]))

    def of(self, channels):
        return "".join("01"[self.state.is_on(channel)] for channel in channels)


def event_lines(events, plan, watched):
    """The lines of events with the bytes of packets, and with what the far end has on after each control word and span."""
    heard, lines = Heard(plan), []
    for event in events:
        line = event_line(event)
        heard.take(event)
        if event[0] in (FLOW, SPAN) and watched:
            line += " " + heard.of(watched)
        if event[0] == PACKET:
            line += " 0 %d %s" % (event[2], event[7].hex())
        lines.append(line)
    return lines


# ---- a transmitter

class LiveStream(OpenStream):
    """A stream whose packets are given while it is made. DEFINITIONS, "A stream whose packets are given while it is made"."""

    def __init__(self, plan):
        super().__init__(Source(plan.shape, plan.channels, plan.entries, []))
        self.counts = {channel: [0, 0, 0, 0] for channel in plan.channels}  # packets given and sent, bytes given and sent
        self.closed, self.whole = None, None  # the slot of the close, and how many words there are in the end

    def give(self, channel, packet):
        """What is given counts from the next slot on. The key of the channel stays."""
        self.chunks.setdefault(channel, deque()).extend(cut(packet, self.shape))
        self.counts[channel][0] += 1
        self.counts[channel][2] += len(packet)

    def burst_word(self, channel):
        """A burst is sent once its burst word is made."""
        chunk = self.chunks[channel][0]
        self.counts[channel][1] += chunk.last
        self.counts[channel][3] += len(chunk.data)
        return super().burst_word(channel)

    def put_next(self):
        """The ending is the first control slot from the close on, after the warm-up, at which no channel is ready; the words end two
        groups from its group on."""
        slot, group = len(self.words), self.shape.group
        may_end = self.closed is not None and self.whole is None and slot >= self.shape.warmup * group
        if may_end and not self.in_burst() and not self.ready():
            self.whole = group * (slot // group + 2)
        return super().put_next()


class Sender:
    """A transmitter: the result of each call, and in the end the bytes of its lanes."""

    def __init__(self, plan):
        self.plan, self.link = plan, plan.link
        self.stream = LiveStream(plan)
        self.flow_rows = []
        self.columns, self.ended = 0, False  # the words that each lane made
        self.taken = [0] * plan.link.lanes
        self.bytes = None

    def packet(self, channel, data):
        if self.stream.closed is not None:
            return FINISHED
        if channel not in self.plan.listed:
            return NO_CHANNEL
        if not 1 <= len(data) <= LONGEST:
            return BAD_LENGTH
        self.stream.give(channel, data)
        return DONE

    def flow(self, word):
        """The checksum is not looked at: the word counts as one with the checksum of only itself."""
        if self.stream.closed is not None:
            return FINISHED
        row = FlowRow(len(self.stream.words), fields.sealed([], word))
        self.flow_rows.append(row)
        self.stream.take_rows([row], [])
        return DONE

    def local(self, channel, on):
        if self.stream.closed is not None:
            return FINISHED
        self.stream.take_rows([], [LocalRow(len(self.stream.words), channel, on != 0)])
        return DONE

    def finish(self):
        if self.stream.closed is None:
            self.stream.closed = len(self.stream.words)
        return DONE

    def sent(self, channel):
        """The result, and the four counts."""
        return (DONE, *self.stream.counts[channel]) if channel in self.plan.listed else (NO_CHANNEL, 0, 0, 0, 0)

    def slots(self):
        return len(self.stream.words)

    def waiting(self, lane):
        """The bytes of a lane that are made and not taken; the last one of all is filled up."""
        return (CODE_BITS * self.columns + 7 * self.ended) // 8 - self.taken[lane]

    def has_room(self):
        return all(self.waiting(lane) + WORD_BYTES <= RING for lane in range(self.link.lanes))

    def make(self):
        """A word of each lane."""
        position = self.columns % self.link.metaframe
        if position == 0 and self.stream.whole == len(self.stream.words):
            self.ended = True
            return
        if 2 + self.link.skips <= position < self.link.metaframe - 1:
            for _ in range(self.link.lanes):
                self.stream.put_next()
        self.columns += 1

    def take(self, lane, count):
        """The result, the number of bytes, and where they begin."""
        if lane >= self.link.lanes:
            return NO_LANE, 0, 0
        while self.waiting(lane) < count and not self.ended and self.has_room():
            self.make()
        given, begin = min(count, self.waiting(lane)), self.taken[lane]
        self.taken[lane] += given
        return DONE, given, begin

    def lane(self, number, begin, end):
        """Bytes of a lane, once no further word is made. Words that fill up the last group change none that was made."""
        if self.bytes is None:
            whole = self.link.group * -(-self.columns // self.link.metaframe)
            words = [*self.stream.words, *[Word(CONTROL, 0)] * (whole - len(self.stream.words))]
            self.bytes = [lanes.file_of_bits(lanes.lane_bits(words, self.link, lane)) for lane in range(self.link.lanes)]
        return self.bytes[number][begin:end]


# ---- damage

class Injured:
    """Damage of lanes: the result of each call, and the bytes that come out."""

    def __init__(self, count):
        # The bits that have passed, and the rows that were accepted, of each lane.
        self.passed, self.flips, self.darks = [0] * count, [[] for _ in range(count)], [[] for _ in range(count)]

    def row_result(self, lane, end, fits):
        if lane >= len(self.passed):
            return NO_LANE
        return OUT_OF_RANGE if not fits else PASSED if end <= self.passed[lane] else DONE

    def flip_result(self, lane, bit):
        return self.row_result(lane, bit + 1, bit < BITS)

    def dark_result(self, lane, first, bits):
        return self.row_result(lane, first + bits, first + bits <= BITS)

    def damaged(self, lane, start, data):
        """Bytes of a lane from a bit on, by the rows so far."""
        end = start + 8 * len(data)
        flips = tuple(bit - start for bit in self.flips[lane] if start <= bit < end)
        darks = tuple(lanes.Dark(max(first, start) - start, first + bits - max(first, start))
                      for first, bits in self.darks[lane] if first + bits > start and first < end)
        return lanes.file_of_bits(lanes.received(lanes.bits_of_file(data), lanes.Damage(0, flips, darks)))
