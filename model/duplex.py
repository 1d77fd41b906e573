"""Two ends that hold each other back. DEFINITIONS, "Two ends that hold each other back"."""

from typing import NamedTuple, Sequence

import fields
from epochs import epoch_of_words
from fields import DATA, Word
from flow import FlowRow, LocalRow
from plan import DuplexSettings, Plan
from reassembly import Packet, reassembled
from stream import OpenStream, Source


class End(NamedTuple):
    """What an end got: its packets, and for each channel the most words that were queued."""
    packets: list[Packet]
    peaks: dict[int, int]


class Side:
    """One end of a run: the stream that it sends, and the queues of what it gets."""

    def __init__(self, plan: Plan, packets: Sequence[tuple[int, bytes]], settings: DuplexSettings):
        self.stream = OpenStream(Source(plan.shape, plan.channels, plan.entries, packets))
        self.settings = settings
        self.got: list[Word] = []
        # The channel of the burst that arrives, and of each channel its queue and its peak.
        self.current: int | None = None
        self.queue = {channel: 0 for channel in plan.channels}
        self.peaks = dict(self.queue)
        self.has_heard = False

    def hear(self, slot: int, word: Word) -> list[FlowRow]:
        """Takes the word that the other end sent `delay` slots ago. A flow row is a control word, with bits 23:0
        replaced by the CRC24 of only the word; the other end's first control word is left out."""
        self.got.append(word)
        if word.kind == DATA:
            self.queue[self.current] += 1
            self.peaks[self.current] = max(self.peaks[self.current], self.queue[self.current])
            return []
        self.current = fields.channel_number(word.number, True) if fields.begins_burst(word.number) else None
        is_first, self.has_heard = not self.has_heard, True
        return [] if is_first else [FlowRow(slot, fields.sealed([], word.number))]

    def drain(self, slot: int) -> None:
        """Then each queue loses a word if the slot is a multiple of `drain`, unless it is empty."""
        if slot % self.settings.drain == 0:
            self.queue = {channel: max(count - 1, 0) for channel, count in self.queue.items()}

    def local_rows(self, slot: int) -> list[LocalRow]:
        """A local row for each channel: on exactly if the queue is below `mark`."""
        return [LocalRow(slot, channel, count < self.settings.mark) for channel, count in self.queue.items()]


def duplex_run(plan: Plan, packets: Sequence[Sequence[tuple[int, bytes]]], settings: DuplexSettings) -> list[End]:
    """A run of two ends, a and b, slot by slot: what each got of the other. Each stream is an open stream with the rows
    of its end."""
    sides = [Side(plan, of_side, settings) for of_side in packets]
    for slot in range(settings.slots):
        for side, other in zip(sides, reversed(sides)):
            sent = slot - settings.delay
            heard = side.hear(slot, other.stream.words[sent]) if sent >= 0 else []
            side.drain(slot)
            side.stream.take_rows(heard, side.local_rows(slot))
        for side in sides:
            side.stream.put_next()
    return [End(came(side.got, plan), side.peaks) for side in sides]


def came(words: Sequence[Word], plan: Plan) -> list[Packet]:
    """The packets that the words that arrived deliver, as those of a words file."""
    return reassembled([epoch_of_words(words)], plan.settings).packets
