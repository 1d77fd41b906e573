"""The metaframes of a lane file of which nothing is known but that its codes are in order: they are found by their Sync words, through
slips, and read one after another.
"""

import os
import struct
from collections import Counter, namedtuple
from functools import lru_cache

from reading.files import Refused, shown_name
from reading.lane_bits import syncs_in
from reading.lane_words import bits_of
from reading.metaframes import STATE, STATE_BITS, STATE_MARK, WORD
from reading.plans import CODE

BLOCK = 1 << 20  # bytes in which Sync words are looked for at once
LEAST, MOST = 5, 8192  # words of a metaframe
LOOKED_AT = 8  # State words by which the first state is chosen
WRONG_STATES = 3  # so many wrong State words in a row are another register

# Metaframes a whole number of them apart: from the bit of the first one up to one at which others begin, or the end.
Run = namedtuple("Run", "first end")


@lru_cache(maxsize=16)
def payloads_of(count):
    """The form of so many codes as characters, of which it takes the payloads."""
    return struct.Struct("3x64s" * count)


class Codes:
    """Codes of a metaframe from one place on: of each its inversion bit and its header, as characters, and the payloads as they were
    meant, as numbers. `bit` is that of place 0, which may be before the lane."""

    def __init__(self, bit, first, text):
        self.bit, self.first, self.count = bit, first, len(text) // CODE
        self.inverted, self.headers = text[0::CODE], [high + low for high, low in zip(text[1::CODE], text[2::CODE])]
        payloads = b"".join(payloads_of(self.count).unpack(text.encode()))
        numbers = struct.unpack(">%dQ" % self.count, int(payloads, 2).to_bytes(8 * self.count, "big"))
        self.payloads = [number ^ WORD if inverted == "1" else number for number, inverted in zip(numbers, self.inverted)]

    @property
    def end(self):
        return self.first + self.count

    def bit_of(self, place):
        return self.bit + CODE * place

    def header(self, place):
        return int(self.headers[place - self.first], 2)

    def payload(self, place):
        return self.payloads[place - self.first]

    def has(self, place):
        return self.first <= place < self.end

    def carried(self):
        """The state of the State word, or None if it is not there or has not its mark."""
        if not self.has(1) or self.headers[1 - self.first] != "10" or self.payload(1) >> STATE_BITS != STATE_MARK:
            return None
        return self.payload(1) & STATE


class LaneOfSyncs:
    """A lane file by its Sync words: `length` words are a metaframe."""

    def __init__(self, name):
        self.name = name
        self.file = open(name, "rb")
        self.size = self.file.seek(0, os.SEEK_END)
        self.count = 8 * self.size
        self.length = self.find_length()
        self.period = CODE * self.length

    def part(self, begin, end):
        """The bytes from one up to another."""
        return os.pread(self.file.fileno(), end - begin, begin)

    def find_length(self):
        """The words of a metaframe, by the distances of Sync words in the first part that has some."""
        distances, before, seen = Counter(), None, 0
        for at in self.syncs():
            if before is not None and (at - before) % CODE == 0 and LEAST <= (at - before) // CODE <= MOST:
                distances[(at - before) // CODE] += 1
            before, seen = at, seen + 1
            if sum(distances.values()) >= 64:
                break
        if not seen:
            raise Refused("%s: no Sync word, so nothing is known of its codes" % shown_name(self.name))
        if not distances:
            raise Refused("%s: no two Sync words of one metaframe, the only one at bit %d" % (shown_name(self.name), before))
        most = max(distances.values())
        return min(length for length, count in distances.items() if 2 * count >= most)

    def syncs(self):
        """The bits of the Sync words, in order."""
        seen = -1
        for begin in range(0, self.size, BLOCK):
            block = self.part(begin, begin + BLOCK + CODE // 8 + 2)
            for at in syncs_in(int.from_bytes(block, "big"), 8 * len(block)):
                if 8 * begin + at > seen:
                    seen = 8 * begin + at
                    yield seen

    def runs(self):
        """The runs of metaframes. The first one also has those that come before its first Sync word."""
        first = None
        for at in self.syncs():
            if first is None:
                first = at % self.period
            elif (at - first) % self.period:
                yield Run(first, at)
                first = at
        yield Run(first, self.count)

    def codes(self, bit, end):
        """The codes of the metaframe at a bit, as far as they are on the lane and before an end."""
        first = max(0, -(bit // CODE)) if bit < 0 else 0
        count = min(self.length, (end - bit) // CODE) - first
        if count <= 0:
            return None
        begin, last = bit + CODE * first, bit + CODE * (first + count)
        return Codes(bit, first, bits_of(self.part(begin // 8, -(-last // 8)))[begin % 8:][:last - begin])

    def metaframes(self):
        """The metaframes in order, as (run, Codes)."""
        for number, run in enumerate(self.runs()):
            first = run.first - self.period if number == 0 else run.first
            for bit in range(first, run.end, self.period):
                codes = self.codes(bit, run.end)
                if codes is not None:
                    yield run, codes
