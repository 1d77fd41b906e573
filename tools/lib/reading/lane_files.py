"""A lane file by its bits, of which no more is read than is asked for; and the declared locks of a lane by the events that `inspect` tells."""

import mmap
from bisect import bisect_right
from collections import namedtuple

from reading.metaframes import WORD
from reading.plans import CODE

# A declared lock: its declaring Sync word, and where its last word ends.
Lock = namedtuple("Lock", "first end")
# A word as the lane has it: whether it is inverted, its header, and its payload as it was meant.
Code = namedtuple("Code", "inverted header payload")
PART = 1 << 20
LOSSES = ("lost-headers", "lost-sync", "lost-state")


class LaneFile:
    """The bits of a lane file, the first in the highest bit of its first byte."""

    def __init__(self, path):
        with open(path, "rb") as file:
            size = file.seek(0, 2)
            self.data = mmap.mmap(file.fileno(), 0, access=mmap.ACCESS_READ) if size else b""
        self.count = 8 * size

    def field(self, bit, count):
        """So many bits from one on, as a number."""
        end = bit + count
        return int.from_bytes(self.data[bit // 8:-(-end // 8)], "big") >> -end % 8 & (1 << count) - 1

    def code(self, bit):
        """The word at a bit."""
        code = self.field(bit, CODE)
        inverted, payload = code >> 66 == 1, code & WORD
        return Code(inverted, code >> 64 & 3, payload ^ WORD if inverted else payload)

    def disparity(self, bit, end):
        """The ones less the zeros from a bit up to an end."""
        ones = sum(self.field(begin, min(PART, end - begin)).bit_count() for begin in range(bit, end, PART))
        return 2 * ones - (end - bit)


class LaneLocks:
    """The declared locks of a lane of so many bits, by its events (bit, event) in order."""

    def __init__(self, events, count, period):
        self.period, self.locks = period, []
        for bit, event in events:
            if event == "lock":
                self.locks.append(Lock(bit, count - (count - bit) % CODE))
            elif event in LOSSES and self.locks:
                self.locks[-1] = Lock(self.locks[-1].first, bit)
        self.firsts = [lock.first for lock in self.locks]

    def lock_at(self, bit):
        """The lock that covers a bit, or of the word that loses it; None if there is none."""
        number = bisect_right(self.firsts, bit) - 1
        return self.locks[number] if number >= 0 and bit <= self.locks[number].end else None
