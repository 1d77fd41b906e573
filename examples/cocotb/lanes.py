"""Bits of lanes as a simulator gives them, into the receiver of the C library, or into a monitor; no simulator is needed here."""

from __future__ import annotations

import os
import sys
from typing import Iterator

sys.path.insert(0, os.path.join(os.path.dirname(os.path.abspath(__file__)), "..", "..", "python"))
from interlaken import Event, Receiver
from interlaken.monitor import Finding, Monitor


class LaneBits:
    """Feeds a receiver or a monitor with a bit of each lane at a time, and yields the events that there are then."""

    def __init__(self, receiver: Receiver | Monitor, lanes: int):
        self.receiver, self.lanes, self.count = receiver, lanes, 0

    def feed(self, bits: int) -> Iterator[Event | Finding]:
        """A bit of each lane: that of lane I is bit I of this number."""
        for lane in range(self.lanes):
            if not self.receiver.feed_bits(lane, bits >> lane & 1, 1):
                raise ValueError("lane %d is more than 4,096 bytes ahead of the others" % lane)
        self.count += 1
        if self.count % 8 == 0:  # both work in bytes
            yield from self.receiver.events()
