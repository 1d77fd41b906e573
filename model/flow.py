"""The calendar: what flow rows say, and what control words show. DEFINITIONS, "What is sent"."""

from typing import NamedTuple, Sequence

import fields


class FlowRow(NamedTuple):
    """From this slot on the far end's control word counts."""
    slot: int
    number: int


class LocalRow(NamedTuple):
    """From this slot on this end's calendar shows the channel on or off."""
    slot: int
    channel: int
    on: bool


def is_valid(number: int) -> bool:
    """A word of a flow row is valid if it is a control word and its CRC24 is the CRC24 of only the word."""
    return fields.is_control_word(number) and fields.is_right([], number)


class Incoming:
    """The calendar state that flow rows give, in order: each channel is on but if the last entry for it is 0."""

    def __init__(self, entries: Sequence[int]):
        self.entries = entries
        self.state = {channel: True for channel in entries}
        # The number of the last valid word from the last reset word on, if it carries entries.
        self.valid: int | None = None

    def take(self, number: int) -> list[tuple[int, int]]:
        """Takes a row's word, whose valid word number d carries entry 16 d + i in bit 55 - i; returns the places of the entries by
        which a channel became on, with the channels."""
        became_on = []
        self.valid = self.numbered(number)
        for bit, place in zip(range(55, 39, -1), self.places()):
            channel, on = self.entries[place], fields.bits(number, bit, bit) == 1
            if on and not self.state[channel]:
                became_on.append((place, channel))
            self.state[channel] = on
        return became_on

    def places(self) -> range:
        """The places of the entries that the last word carries, for entries that there are."""
        if self.valid is None:
            return range(0)
        return range(16 * self.valid, min(16 * self.valid + 16, len(self.entries)))

    def numbered(self, number: int) -> int | None:
        """Valid words are numbered from the last reset word at or before them, as 0, if no invalid word stands
        between."""
        if not is_valid(number):
            return None
        if fields.has_reset(number):
            return 0
        return None if self.valid is None else self.valid + 1

    def is_on(self, channel: int) -> bool:
        """A channel is on unless the last entry for it is 0."""
        return self.state.get(channel, True)


class Outgoing:
    """The calendar entries that control words carry, by local rows."""

    def __init__(self, entries: Sequence[int]):
        self.entries = entries
        self.state = {channel: True for channel in entries}

    def take(self, row: LocalRow) -> None:
        """Of several rows of a channel the last holds; without one it is on."""
        self.state[row.channel] = row.on

    def first_entry(self, index: int) -> int:
        """Control word number j carries the entries from 16 (j mod ceil(C/16)) on."""
        return 16 * (index % -(-len(self.entries) // 16))

    def flow_of(self, index: int) -> tuple[bool, int]:
        """The reset bit and the flow bits of a control word by its number."""
        first = self.first_entry(index)
        return first == 0, packed([self.state[channel] for channel in self.entries[first:first + 16]])


def packed(states: Sequence[bool]) -> int:
    """Up to sixteen states as flow bits, the first in bit 55; bits past the last entry are 1."""
    flow = 0
    for place in range(16):
        flow = flow << 1 | (states[place] if place < len(states) else 1)
    return flow
