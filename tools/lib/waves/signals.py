"""The signals of a lane and of the stream. A bit of a lane is a nanosecond, and bit 0 of the files is time 0."""

from heapq import merge
from operator import itemgetter

from reading.agreement import anew
from reading.files import Refused
from reading.lane_words import words_of
from reading.plans import CODE
from waves.vcd import Scope, Signal

NONE = "-"
LANE = [Signal("string", 1, "lock"), Signal("string", 1, "role"), Signal("integer", 32, "place"), Signal("wire", 64, "word"), Signal("wire", 1, "wrong"),
        Signal("wire", 1, "header_bad"), Signal("wire", 1, "inverted"), Signal("real", 64, "disparity")]
SEARCH = ("search", NONE, None, None, None, None, None, 0)
STREAM = [Signal("integer", 32, "slot"), Signal("string", 1, "kind"), Signal("wire", 64, "word"), Signal("integer", 32, "channel"), Signal("integer", 32, "span")]
NO_SLOT = (None, NONE, None, None)
EVENT, RULE = Signal("string", 1, "event"), Signal("string", 1, "rule")
KINDS = {"i": "idle", "e": "idle", "b": "burst", "d": "data", "x": "bad"}


def texts_of(kinds):
    """Several in one text of a signal, in which no blank may stand."""
    return "+".join(kinds).replace(" ", "_")


def together(signals, others, before):
    """The changes of signals and those of one other signal, which has the value `before` at first, as changes of all of them."""
    values, other = None, before
    for time, is_other, value in merge(((time, False, values) for time, values in signals), ((time, True, value) for time, value in others), key=itemgetter(0)):
        values, other = (values, value) if is_other else (value, other)
        if values is not None:
            yield time, values + (other,)


class LaneWaves:
    """The signals of a lane; `words` and `locks` count what was read when the changes have been taken. The stream, if there is one,
    has to be that of the lane. `events` are those of the lane by bit, if there is a table of them."""

    def __init__(self, lane, plan, stream, places, events=None):
        self.lane, self.plan, self.stream, self.places = lane, plan, stream, places
        self.words = self.locks = 0
        self.received = []
        told = events is not None
        changes = together(self.changes(), self.event_changes(events), NONE) if told else self.changes()
        self.scope = Scope("lane_%d" % lane.number, LANE + [EVENT] * told, changes)

    def event_changes(self, events):
        """The events of a word from its first bit up to its end."""
        texts = {bit + CODE: NONE for bit in events}
        texts.update((bit, texts_of(kinds)) for bit, kinds in events.items())
        return sorted(texts.items())

    def changes(self):
        """Each word from its first bit on; between locks, and after the last whole word, a search."""
        yield 0, SEARCH
        end, was_declared = 0, False
        for word in words_of(self.lane.bits, self.lane.syncs, self.plan):
            if word.bit > end:
                yield end, SEARCH
            yield word.bit, values_of(word)
            end = word.bit + CODE
            self.words += 1
            self.locks += word.lock == "declared" and not was_declared
            was_declared = word.lock == "declared"
            if self.stream and word.framed:
                self.compare(word.bit, word.framed)
        yield end, SEARCH

    def compare(self, bit, framed):
        """Compares the payload words of a metaframe with the stream where its Diagnostic word is right."""
        if framed.place == 0:
            self.received = []
        slot = self.places.slot_of(self.lane.number, bit)
        if slot is not None and slot < self.stream.count and bit == self.places.place(slot)[2]:
            self.received.append((slot, framed.word))
        if framed.role == "diagnostic" and not framed.wrong:
            wrong = next((slot for slot, word in self.received if word != self.stream.word(slot)), None)
            if wrong is not None:
                raise Refused("%s.words: slot %d is another word than lane %d has, whose Diagnostic word after it is right: %s" % (self.plan.out, wrong, self.lane.number, anew(self.plan)))


def values_of(word):
    """The values of a lane's signals in a word, in their order."""
    framed = word.framed
    said = (framed.role, framed.place, framed.word, framed.wrong) if framed else (NONE, None, None, None)
    return (word.lock,) + said + (word.header in (0, 3), word.inverted, word.disparity)


class StreamWaves:
    """The signals of the sent stream and of the fault spans, at the words of lane 0: the words of a row, one of each lane, share the
    67 bits of lane 0's. `places` says where words stand, and `faults` are the rules that words break, if there are some."""

    def __init__(self, stream, spans, plan, places, faults):
        self.stream, self.spans, self.plan, self.places = stream, spans, plan, places
        changes = together(self.changes(), self.fault_changes(faults), NONE) if faults else self.changes()
        self.scope = Scope("stream", STREAM + [RULE] * bool(faults), changes)

    def fault_changes(self, faults):
        """The rules that a word breaks from where it begins up to where it ends."""
        texts = {self.time(slot, after=1): NONE for slot in faults}
        texts.update((self.time(slot), texts_of(rules)) for slot, rules in faults.items())
        return sorted(texts.items())

    def time(self, slot, after=0):
        """Where a slot begins, or with 1 after it where it ends."""
        return self.places.row_bit(slot) + CODE * (self.places.lane_of(slot) + after) // self.plan.lanes

    def changes(self):
        return together(self.word_changes(), self.span_changes(), None)

    def word_changes(self):
        """Each word; no slot in the framing words of lane 0."""
        yield 0, NO_SLOT
        for slot in range(self.stream.count):
            yield self.time(slot), self.values_at(slot)
            if self.places.ends_piece(slot):
                yield self.time(slot, after=1), NO_SLOT

    def values_at(self, slot):
        kind = self.stream.kinds[slot]
        burst = self.stream.burst_at(slot) if kind in "bd" else None
        return slot, KINDS[kind], self.stream.word(slot), burst[2] if burst else None

    def span_changes(self):
        """A span from the end of its first word up to its last word."""
        for number, span in enumerate(self.spans):
            yield 0 if span.after is None else self.time(span.after, after=1), number
            if span.before is not None:
                yield self.time(span.before), None
