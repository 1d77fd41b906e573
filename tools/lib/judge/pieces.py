"""What becomes of the packets in the gathered words: which are delivered and which are dropped, from which word to which, and why.

The words before the first control word of an epoch, and the stretch of words up to a control word that breaks a rule of a receiver,
are not trusted; between two trusted control words that do not follow one another what is open is dropped.
"""

from bisect import bisect_left
from collections import namedtuple

# A packet or a part of one, by its channel, its first word and the word at which it was decided; `why` is None where it was delivered.
Piece = namedtuple("Piece", "channel first last why")
# The rules that make a control word's stretch one that a receiver does not trust, in the order of the reasons.
UNTRUSTED = {"bad": "bad", "crc": "crc", "control": "protocol", "data": "protocol", "end": "protocol"}
REASONS = ("bad", "crc", "protocol")
END = "end"


class Pieces:
    """Walks the control words in order. `open_at` has by channel the word of the SOP of a piece that is open, or None of one without
    SOP; `ended` are the channels whose last piece ended in this run of trusted words."""

    def __init__(self, run):
        self.run, self.stream, self.plan, self.found = run, run.stream, run.plan, []
        self.listed, self.breaks = set(self.plan.channels), run.breaks
        self.restart()
        self.walk()

    def restart(self):
        self.open_at, self.ended = {}, set()

    def walk(self):
        before, reason, is_first, faults = None, None, True, self.run.faults
        for word, kind in enumerate(self.stream.kinds):
            if word in self.breaks:
                self.drop_all(word, self.breaks[word].why)
                before, reason, is_first = None, None, True
                continue
            if word in faults:
                reason = least(reason, self.reason_at(word))
            if kind in "bie":
                before = self.control(before, word, "" if is_first else reason)
                reason, is_first = None, False
        end = self.breaks.get(self.stream.count)
        self.drop_all(self.stream.count, end.why if end else END)

    def control(self, before, word, reason):
        """Takes a control word after the trusted one before it, or None; `reason` says why it is not trusted: None where it is, and
        nothing of the first of an epoch. Returns the word where it is trusted."""
        if reason is not None:
            self.drop_all(word, reason)
            return None
        self.take(before, word)
        self.begin(word)
        return word

    def reason_at(self, word):
        """Why the stretch of a word is not trusted, by the word's own faults, or None."""
        reasons = {UNTRUSTED[rule] for rule, _ in self.run.faults[word] if rule in UNTRUSTED}
        return next((reason for reason in REASONS if reason in reasons), None)

    def drop_all(self, word, why):
        for channel in sorted(self.open_at):
            if self.open_at[channel] is not None:
                self.add(channel, self.open_at[channel], word, why)
        self.restart()

    def add(self, channel, first, last, why):
        if channel in self.listed:
            self.found.append(Piece(channel, first, last, why))

    def take(self, before, word):
        """The burst of a trusted control word ends at the next trusted one."""
        if before is None or self.stream.kinds[before] != "b":
            return
        channel, end = self.plan.channel_of(self.stream.word(before)), self.stream.word(word) >> 57 & 15
        if not end:
            return
        first = self.open_at.pop(channel, None)
        self.ended.add(channel)
        if first is not None:
            self.add(channel, first, word, self.end_of(channel, first, word, end))

    def end_of(self, channel, first, word, end):
        """None for a packet that is delivered, or why it is dropped at its end."""
        if not end & 8:
            return "sender"
        return "toolong" if self.length(channel, first, word) > self.plan.max_packet else None

    def length(self, channel, first, last):
        """The bytes of a packet's bursts from its SOP word up to its end word."""
        bursts = self.stream.bursts
        own = bursts[bisect_left(bursts, (first, 0, 0)):bisect_left(bursts, (last, 0, 0))]
        total = sum(8 * words for _, words, its in own if its == channel)
        return total - (8 - (self.stream.word(last) >> 57 & 7 or 8))

    def begin(self, word):
        """A trusted burst word begins a packet or goes on with one."""
        value = self.stream.word(word)
        if self.stream.kinds[word] != "b":
            return
        channel = self.plan.channel_of(value)
        if value >> 61 & 1:
            if self.open_at.get(channel) is not None:
                self.add(channel, self.open_at[channel], word, "protocol")
            if channel not in self.listed:
                self.found.append(Piece(channel, word, word, "unlisted"))
            self.open_at[channel] = word
        elif channel not in self.open_at:
            if channel in self.ended:
                self.add(channel, word, word, "protocol")
            self.open_at[channel] = None


def least(reason, other):
    """The reason that goes first: that of a bad word, then of the checksum, then of the protocol."""
    return min((one for one in (reason, other) if one), key=REASONS.index, default=None)


def dropped_of(pieces):
    """How many pieces were dropped, by reason."""
    counts = {}
    for piece in pieces:
        if piece.why:
            counts[piece.why] = counts.get(piece.why, 0) + 1
    return counts
