"""Finds faults in the lanes of a device while it runs: a receiver, an inspector, and a gatherer with a checker over the same bytes return
one stream of findings.

    with Monitor(plan) as monitor:
        for event in monitor.feed_all(lanes):
            if isinstance(event, Finding):
                print(event)

If bytes arrive live, call `feed` for each lane, and read `events()` after each call. A Finding names its lane and bit, if it has one. The
other events are the receiver's Packet and Flow. Words are checked from the first group of aligned lanes on, and the lanes may begin
anywhere in the traffic. The lanes do not show which channels the far end turns off: pass its verified control words to `flow`, or no word
breaks the rule OFF.
"""

from __future__ import annotations

from collections import deque
from dataclasses import dataclass, replace
from typing import Iterator, Optional, Sequence

from . import (
    Bytes,
    Checker,
    Drop,
    Dropped,
    Event,
    Fault,
    Flow,
    Gathered,
    GatheredBreak,
    GatheredWord,
    Gatherer,
    Inspector,
    LaneEvent,
    LaneEventKind,
    Packet,
    Place,
    Plan,
    Receiver,
    RuleFault,
    Span,
    WordKind,
    _all_lanes,
    _Bits,
    _bytes,
    _check_bits,
)

_CODE_BITS = 67


@dataclass(frozen=True)
class Word:
    """A word that arrived: its lane, and the bit at which its code begins in the bytes of the lane."""

    lane: int
    bit: int

    def __str__(self) -> str:
        return "lane %d bit %d" % (self.lane, self.bit)


@dataclass(frozen=True)
class Silence:
    """No lock was declared on this lane in time; or, if it is None, no control word was verified."""

    lane: Optional[int]


@dataclass(frozen=True)
class Finding:
    """What is wrong. `first` is the word that shows it if that is a LaneEvent, or breaks the rule of a RuleFault. Otherwise it is the last
    control word that was verified before, and `last` the first one after a Span: what is wrong is between them. Each is None if there is
    none."""

    what: LaneEvent | RuleFault | Span | Dropped | Silence
    first: Optional[Word]
    last: Optional[Word] = None

    def __str__(self) -> str:
        since = "from %s on" % (self.first or "the first word")
        if isinstance(self.what, LaneEvent):
            return "%s: %s" % (self.first, self.what.kind.name)
        if isinstance(self.what, RuleFault):
            on = "" if self.what.channel is None else " on channel %d" % self.what.channel
            return "%s: %s%s" % (self.first, self.what.rule.name, on)
        if isinstance(self.what, Dropped):
            return "%s: %s on channel %d" % (since, self.what.why.name, self.what.channel)
        if isinstance(self.what, Span):
            return "between %s and %s: %s" % (self.first, self.last, self.what.why.name)
        return since + ": no verified control word" if self.what.lane is None else "lane %d: no lock" % self.what.lane


class Monitor:
    """A receiver, an inspector, and a gatherer with a checker of the lanes of a plan. As a context manager it is closed at the end."""

    def __init__(self, plan: Bytes, library: Optional[str] = None, from_start: bool = False):
        """`plan` is the text of a plan file, and `library` the path of the shared library, if it is not the one that is found without. With `from_start` the first word of the lanes is
        the first that the device sends; otherwise nothing is known of those before."""
        self.plan = Plan(plan, library)
        self.receiver, self.inspector = Receiver(plan, library), Inspector(plan, library)
        self.gatherer, self.checker = Gatherer(plan, library), Checker(plan, library)
        self._held = [b""] * self.plan.lanes  # What the gatherer has not taken of a lane,
        self._finished: set[int] = set()  # the lanes that are finished for it once it has,
        self._words: dict[int, Optional[Word]] = {}  # the last two words that were checked, by the checker's numbers,
        self._checked = 0  # how many it has,
        self._ahead = 0 if from_start else 1  # the bad words among them before all others,
        self._gap: Optional[GatheredBreak] = None  # and the end of the last epoch, until a word comes.
        self._due: deque[Finding] = deque()
        self._bits: dict[int, _Bits] = {}
        self._fed = [0] * self.plan.lanes
        self._unlocked = set(range(self.plan.lanes))
        self._verified: Optional[Word] = None
        self._heard = 0
        self._silent = False

    def __enter__(self) -> "Monitor":
        return self

    def __exit__(self, *error: object) -> None:
        self.close()

    def close(self) -> None:
        """Frees them."""
        for each in self.receiver, self.inspector, self.gatherer, self.checker:
            each.close()

    def feed(self, lane: int, data: Bytes) -> int:
        """Feeds a lane with the next of its bytes, as many as the ring of the receiver has room for, and returns how many."""
        data = _bytes(data)
        count = self.receiver.feed(lane, data)
        taken = 0
        while taken < count:
            taken += self.inspector.feed(lane, data[taken:count])
            for event in self.inspector.events():
                self._show(event)
        self._fed[lane] += count
        self._held[lane] += data[:count]
        self._gather()
        return count

    def flow(self, word: int) -> None:
        """Passes on a control word of the far end that was verified; 0 after a fault span. It counts from the next word of the lanes on."""
        self.checker.flow(word)

    def _gather(self) -> None:
        """Has the gatherer take what it has room for, and the checker the words that it knows then."""
        for lane, held in enumerate(self._held):
            if held:
                self._held[lane] = held[self.gatherer.feed(lane, held) :]
            if lane in self._finished and not self._held[lane]:
                self._finished.discard(lane)
                self.gatherer.finish(lane)
        for one in self.gatherer.gathered():
            self._check(one)

    def _check(self, one: Gathered) -> None:
        """Checks a word. If it begins an epoch, a bad word stands for what is missing before it."""
        if isinstance(one, GatheredBreak):
            self._gap = one
        elif isinstance(one, GatheredWord):
            if self._gap is not None or self._checked < self._ahead:
                self._judge(WordKind.BAD, 0, None)
            self._gap = None
            self._judge(one.kind, one.word, Word(one.lane, one.bit))

    def _judge(self, kind: WordKind, word: int, at: Optional[Word]) -> None:
        number = self._checked
        self._words = {number - 1: self._words.get(number - 1), number: at}
        self._checked += 1
        self.checker.word(kind, word)
        for fault in self.checker.faults():
            if (broken := self._words[fault.word]) is not None:
                self._due.append(Finding(replace(fault, word=fault.word - self._ahead), broken))

    def feed_bits(self, lane: int, bits: int, count: int) -> bool:
        """Feeds a lane with its next `count` bits: the low bits of a number, the highest first. Up to seven bits wait for the next. False if the ring of
        the receiver has no room: then nothing was taken; take events and feed these again."""
        _check_bits(lane, bits, count)
        waiting = self._bits.setdefault(lane, _Bits())
        if not self._feed_waiting(lane, waiting):
            return False
        waiting.put(bits, count)
        self._feed_waiting(lane, waiting)
        return True

    def _feed_waiting(self, lane: int, waiting: _Bits) -> bool:
        """Feeds the whole bytes that wait, since what the gatherer lacks is held in bytes. True if it fed all."""
        count = waiting.count // 8
        if count > 0:
            waiting.drop(8 * self.feed(lane, (waiting.value >> waiting.count % 8).to_bytes(count, "big")))
        return waiting.count < 8

    def finish(self, lane: int) -> None:
        """No further byte of this lane comes. Bits that do not fill a byte are left out."""
        self.receiver.finish(lane)
        self.inspector.finish(lane)
        self._finished.add(lane)
        self._gather()

    def __repr__(self) -> str:
        return "<Monitor of %d lanes>" % self.plan.lanes

    def __iter__(self) -> Iterator[Packet | Flow | Finding]:
        return self.events()

    def feed_all(self, lanes: Sequence[Bytes]) -> Iterator[Packet | Flow | Finding]:
        """Feeds all lanes of the plan from first to last byte, and yields packets and findings as they come. If these are not all lanes of the
        plan, it raises ValueError, and nothing is fed."""
        return self._feed_all(_all_lanes(lanes, self.plan.lanes))

    def _feed_all(self, lanes: list[bytes]) -> Iterator[Packet | Flow | Finding]:
        fed, left = [0] * len(lanes), set(range(len(lanes)))
        while left:
            for lane in sorted(left):
                fed[lane] += self.feed(lane, lanes[lane][fed[lane] : fed[lane] + 1024])
                if fed[lane] == len(lanes[lane]):
                    self.finish(lane)
                    left.remove(lane)
            yield from self.events()

    def events(self) -> Iterator[Packet | Flow | Finding]:
        """What there is so far. What the lanes show and the rules that words break come first, and then what the receiver makes of them."""
        self._gather()
        yield from self._taken()
        for event in self.receiver.events():
            yield from self._received(event)
        yield from self._silences()

    def _taken(self) -> Iterator[Finding]:
        while self._due:
            yield self._due.popleft()

    def _show(self, event: LaneEvent) -> None:
        if event.kind is LaneEventKind.LOCK:
            self._unlocked.discard(event.lane)
            self._heard = min(self._fed)
        else:
            self._due.append(Finding(event, Word(event.lane, event.bit)))

    def _received(self, event: Event) -> Iterator[Packet | Flow | Finding]:
        if isinstance(event, Flow):
            self._verified, self._heard = self.arrival(event.at), min(self._fed)
        if isinstance(event, (Packet, Flow)):
            yield event
        elif isinstance(event, Dropped) and event.why is not Drop.END:
            yield Finding(event, self._verified)
        elif isinstance(event, Span) and event.why not in (Fault.START, Fault.END):
            yield Finding(event, event.after and self.arrival(event.after), event.before and self.arrival(event.before))

    def arrival(self, place: Place) -> Word:
        """The word at a place of the receiver, as it arrived: its lane is later or earlier than lane 0 by less than half a metaframe."""
        lane, bit = self.plan.place(place)
        metaframe = _CODE_BITS * self.plan.metaframe
        late = ((self.receiver.report(lane).first or 0) - (self.receiver.report(0).first or 0)) % metaframe
        return Word(lane, bit + (late - metaframe if 2 * late > metaframe else late))

    def _silences(self) -> Iterator[Finding]:
        """A lock of each lane has to be declared in twelve metaframes, and then a control word has to be verified after each burst."""
        fed, lane = 8 * min(self._fed), min(self._unlocked, default=None)
        burst = self.plan.burst_max // 8 * 3 // 2
        limit = 8 * self._heard + _CODE_BITS * (self.plan.metaframe + burst) if lane is None else _CODE_BITS * 12 * self.plan.metaframe
        if fed >= limit and not self._silent:
            yield Finding(Silence(lane), self._verified)
        self._silent = fed >= limit
