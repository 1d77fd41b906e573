"""The rules that a sender's words keep, and the faults of a list of words. DEFINITIONS, "A sender's words"."""

from typing import Callable, NamedTuple, Sequence

import fields
from fields import BAD, CONTROL, DATA, ERROR_END, NO_END, Word
from flow import FlowRow, Incoming
from link import Shape


class Rules(NamedTuple):
    """What words are judged by: the sizes of a plan, its listed channels, its calendar and the rows of its flow file."""
    shape: Shape
    max_packet: int
    wide: bool
    channels: Sequence[int]
    entries: Sequence[int]
    flow: Sequence[FlowRow]


class Fault(NamedTuple):
    """A row: the number of the word, the rule, and the channel of the burst word concerned, if the rule has one."""
    word: int
    rule: str
    channel: int | None


class Burst(NamedTuple):
    """A burst word, the Data words right after it, and, if a Control word closes it, the number of that."""
    number: int
    data: Sequence[int]
    closing: int | None

    @property
    def has_ended(self) -> bool:
        """The closing word is accepted and has an end format."""
        return self.closing is not None and ends(self.closing)

    @property
    def size(self) -> int:
        """Its bytes: those of its Data words, cut at the end to the valid ones."""
        whole = 8 * len(self.data)
        if not self.data or not self.has_ended or fields.end_format(self.closing) == ERROR_END:
            return whole
        return whole - 8 + fields.valid_bytes(fields.end_format(self.closing))


def is_accepted(word: Word) -> bool:
    """A Control word that a receiver accepts."""
    return word.kind == CONTROL and fields.is_control_word(word.number)


def is_burst_word(word: Word) -> bool:
    """An accepted control word with bit 62."""
    return is_accepted(word) and fields.begins_burst(word.number)


def ends(number: int) -> bool:
    """An accepted control word with an end format."""
    return fields.is_control_word(number) and fields.end_format(number) != NO_END


def after_last(words: Sequence[Word], kind: int) -> Sequence[Word]:
    """The words after the last one of a kind; all if there is none."""
    found = [at for at, word in enumerate(words) if word.kind == kind]
    return words[found[-1] + 1:] if found else words


class Place:
    """Word number t of a list, the word after it, and the words before it."""

    def __init__(self, words: Sequence[Word], t: int, rules: Rules):
        self.word, self.rules = words[t], rules
        self.before, self.next = words[:t], words[t + 1] if t + 1 < len(words) else None
        # What stands at or before the last Bad word is unknown.
        self.known = after_last(self.before, BAD)

    @property
    def number(self) -> int:
        return self.word.number

    def channel(self, number: int) -> int:
        return fields.channel_number(number, self.rules.wide)

    @property
    def own(self) -> int:
        """The channel of the word itself."""
        return self.channel(self.number)

    def data(self) -> list[int]:
        """The Data words right before the place."""
        found = []
        for word in reversed(self.before):
            if word.kind != DATA:
                break
            found.insert(0, word.number)
        return found

    def word_before_data(self) -> Word | None:
        """The word right before these."""
        at = len(self.before) - len(self.data()) - 1
        return self.before[at] if at >= 0 else None

    def burst(self) -> Burst | None:
        """The burst that goes up to the place; a Control word closes it there."""
        word = self.word_before_data()
        if word is None or not is_burst_word(word):
            return None
        return Burst(word.number, self.data(), self.number if self.word.kind == CONTROL else None)

    def closed_with_data(self) -> Burst | None:
        """The burst with Data that an accepted control word closes at the place."""
        burst = self.burst()
        return burst if is_accepted(self.word) and burst is not None and burst.data else None

    def bursts_on(self, channel: int) -> list[Burst]:
        """The closed bursts of a channel among the known words, the last of which the word may close."""
        words, found = [*self.known, self.word], []
        for at, word in enumerate(words):
            if is_burst_word(word) and self.channel(word.number) == channel:
                after = [at + 1 + k for k, other in enumerate(words[at + 1:]) if other.kind != DATA]
                if after and words[after[0]].kind == CONTROL:
                    found.append(Burst(word.number, [other.number for other in words[at + 1:after[0]]], words[after[0]].number))
        return found


# ---- each rule: None if it is not broken, and else the channel of its row

Broken = tuple[int | None]


def row(broken: bool, channel: int | None = None) -> Broken | None:
    return (channel,) if broken else None


def bad(p: Place) -> Broken | None:
    """The word is there."""
    return row(p.word.kind == BAD)


def control(p: Place) -> Broken | None:
    """No receiver accepts it."""
    return row(p.word.kind == CONTROL and not is_accepted(p.word))


def crc(p: Place) -> Broken | None:
    """No Bad word stands between it and the Control word before, or the start, and its CRC24 is not that of the Data between and of
    itself."""
    if p.word.kind != CONTROL:
        return None
    between = after_last(p.before, CONTROL)
    return row(all(word.kind == DATA for word in between) and not fields.is_right([word.number for word in between], p.number))


def data(p: Place) -> Broken | None:
    """The word before is a Control word that is not a burst word, or there is none."""
    return row(p.word.kind == DATA and (not p.before or p.before[-1].kind == CONTROL and not is_burst_word(p.before[-1])))


def max_(p: Place) -> Broken | None:
    """It is Data word number BurstMax / 8 of its burst, from 0."""
    burst = p.burst() if p.word.kind == DATA else None
    return None if burst is None else row(len(burst.data) == p.rules.shape.burst_max // 8, p.channel(burst.number))


def empty(p: Place) -> Broken | None:
    """The next word is a Control word."""
    return row(is_burst_word(p.word) and p.next is not None and p.next.kind == CONTROL, p.own)


def short(p: Place) -> Broken | None:
    """Fewer than BurstShort / 8 words stand between the last known burst word and it."""
    bursts = [at for at, word in enumerate(p.known) if is_burst_word(word)]
    return row(is_burst_word(p.word) and bool(bursts) and len(p.known) - bursts[-1] - 1 < p.rules.shape.burst_short // 8, p.own)


def end(p: Place) -> Broken | None:
    """It closes no burst with Data, and no Bad word stands right before it or before the Data before it."""
    before = p.word_before_data()
    after_bad = before is not None and before.kind == BAD
    return row(is_accepted(p.word) and ends(p.number) and p.closed_with_data() is None and not after_bad)


def fill(p: Place) -> Broken | None:
    """It closes a burst with Data whose last word has bytes past the valid ones that are not all 0."""
    burst = p.closed_with_data()
    if burst is None or fields.end_format(p.number) in (NO_END, ERROR_END):
        return None
    past = 8 - fields.valid_bytes(fields.end_format(p.number))
    return row(burst.data[-1] % 256 ** past != 0, p.channel(burst.number))


def part(p: Place) -> Broken | None:
    """With no end format it closes a burst with Data whose number of Data words is not a multiple of 4."""
    burst = p.closed_with_data()
    return None if burst is None else row(not burst.has_ended and len(burst.data) % 4 != 0, p.channel(burst.number))


def min_(p: Place) -> Broken | None:
    """It closes a burst with Data of fewer bytes than BurstMin that has no SOP or no end format."""
    burst = p.closed_with_data()
    if burst is None:
        return None
    whole = fields.has_sop(burst.number) and burst.has_ended
    return row(burst.size < p.rules.shape.burst_min and not whole, p.channel(burst.number))


def is_open(p: Place) -> bool:
    """Of the channel's last known burst the closing word is not accepted or has no end format."""
    bursts = p.bursts_on(p.own)
    return bool(bursts) and not bursts[-1].has_ended


def sop(p: Place) -> Broken | None:
    """Its channel is open."""
    return row(is_burst_word(p.word) and fields.has_sop(p.number) and is_open(p), p.own)


def open_(p: Place) -> Broken | None:
    """Its channel is not open, and has a known burst, or no Bad word stands before."""
    known = bool(p.bursts_on(p.own)) or all(word.kind != BAD for word in p.before)
    return row(is_burst_word(p.word) and not fields.has_sop(p.number) and not is_open(p) and known, p.own)


def channel(p: Place) -> Broken | None:
    """Its channel is not listed."""
    return row(is_burst_word(p.word) and p.own not in p.rules.channels, p.own)


def long(p: Place) -> Broken | None:
    """With the burst that it closes, and not before, the bytes from the channel's last known SOP on are more than the most of a
    packet, and no burst from there on has ended before."""
    closed = p.burst() if is_accepted(p.word) else None
    if closed is None:
        return None
    bursts = p.bursts_on(p.channel(closed.number))
    begins = [at for at, burst in enumerate(bursts) if fields.has_sop(burst.number)]
    if not begins:
        return None
    *earlier, last = bursts[begins[-1]:]
    whole = sum(8 * len(burst.data) for burst in earlier)
    passes = whole <= p.rules.max_packet < whole + last.size
    return row(passes and not any(burst.has_ended for burst in earlier), p.channel(closed.number))


def idle(p: Place) -> Broken | None:
    """It has SOP, a channel that is not 0, or multiple use that is not 0."""
    own = fields.has_sop(p.number) or fields.channel_field(p.number) != 0 or fields.multiple_use(p.number) != 0
    return row(is_accepted(p.word) and not is_burst_word(p.word) and own)


def multi(p: Place) -> Broken | None:
    """Channel numbers are narrow, and its multiple use is not 0."""
    return row(is_burst_word(p.word) and not p.rules.wide and fields.multiple_use(p.number) != 0, p.own)


def calendar(p: Place) -> Broken | None:
    """Reset Calendar is not as is due: after a word with it, exactly if all entries were carried, and before the first such word
    no later than that; or a flow bit past the last entry is 0."""
    if not is_accepted(p.word):
        return None
    period, reset = -(-len(p.rules.entries) // 16), fields.has_reset(p.number)
    accepted = [word.number for word in p.known if is_accepted(word)]
    resets = [at for at, number in enumerate(accepted) if fields.has_reset(number)]
    since = len(accepted) - resets[-1] if resets else None
    due = reset or len(accepted) < period if since is None else reset == (since == period)
    block = 0 if reset else since
    flow = fields.flow_bits(p.number)
    past = block is not None and any(16 * block + i >= len(p.rules.entries) and flow >> 15 - i & 1 == 0 for i in range(16))
    return row(not due or past)


def off(p: Place) -> Broken | None:
    """Its channel is listed and is off by the flow rows at its slot."""
    if not is_burst_word(p.word) or p.own not in p.rules.channels:
        return None
    state = Incoming(p.rules.entries)
    for flow in p.rules.flow:
        if flow.slot <= len(p.before):
            state.take(flow.number)
    return row(not state.is_on(p.own), p.own)


# In the order in which the faults of one word are told.
RULES: dict[str, Callable[[Place], Broken | None]] = {
    "bad": bad, "control": control, "crc": crc, "data": data, "max": max_, "empty": empty, "short": short, "end": end, "fill": fill,
    "part": part, "min": min_, "sop": sop, "open": open_, "channel": channel, "long": long, "idle": idle, "multi": multi,
    "calendar": calendar, "off": off,
}


def faults(words: Sequence[Word], rules: Rules) -> list[Fault]:
    """For each word in order a row for each rule that it breaks, in the order of the rules."""
    found = []
    for t in range(len(words)):
        place = Place(words, t, rules)
        broken = [(name, rule(place)) for name, rule in RULES.items()]
        found += [Fault(t, name, *own) for name, own in broken if own is not None]
    return found
