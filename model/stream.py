"""What is sent: the payload stream of a source. DEFINITIONS, "What is sent"."""

from collections import deque
from typing import NamedTuple, Sequence

import fields
from fields import CONTROL, DATA, NO_END, Word
from flow import FlowRow, Incoming, LocalRow, Outgoing
from link import Shape


class Source(NamedTuple):
    """A shape, the listed channels by number, the calendar's entries, the packets with their channels, and the rows."""
    shape: Shape
    channels: Sequence[int]
    entries: Sequence[int]
    packets: Sequence[tuple[int, bytes]]
    flow: Sequence[FlowRow] = ()
    local: Sequence[LocalRow] = ()


class Chunk(NamedTuple):
    """The bytes of one burst, and whether they are the first and the last of their packet."""
    data: bytes
    first: bool
    last: bool


def piece_size(remaining: int, shape: Shape) -> int:
    """The bytes of the next chunk: all where at most BurstMax remain, BurstMax - BurstMin if they are below BurstMax
    + BurstMin, and BurstMax else."""
    if remaining <= shape.burst_max:
        return remaining
    return shape.burst_max - (shape.burst_min if remaining < shape.burst_max + shape.burst_min else 0)


def cut(packet: bytes, shape: Shape) -> list[Chunk]:
    """A packet is cut by taking chunks from its front until nothing remains."""
    chunks, at = [], 0
    while at < len(packet):
        size = piece_size(len(packet) - at, shape)
        chunks.append(Chunk(packet[at:at + size], at == 0, at + size == len(packet)))
        at += size
    return chunks


def data_words(data: bytes) -> list[int]:
    """The first byte of a chunk is the highest of its first data word, and its last word is filled up with zeros."""
    filled = data + bytes(-len(data) % 8)
    return [int.from_bytes(filled[at:at + 8], "big") for at in range(0, len(filled), 8)]


class OpenStream:
    """All that the payload stream asks of its words, without a finish. Words are asked for slot by slot, each with its
    rows."""

    def __init__(self, source: Source):
        self.shape = source.shape
        self.words: list[Word] = []
        self.incoming, self.outgoing = Incoming(source.entries), Outgoing(source.entries)
        # The chunks that are left of each channel that has some.
        self.chunks: dict[int, deque[Chunk]] = {}
        for channel, packet in source.packets:
            self.chunks.setdefault(channel, deque()).extend(cut(packet, self.shape))
        # The key of a channel: at the start by its number, which comes before every row and every burst word.
        self.keys = {channel: (-1, 0, channel, 0) for channel in source.channels}
        self.flow_rows, self.control_words = 0, 0
        # No burst word stands so near below slot 0 that it would matter.
        self.last_burst = -self.shape.burst_short
        # The data words that follow in the burst, those since the last control word, and the end that the next one tells.
        self.coming: deque[int] = deque()
        self.covered: list[int] = []
        self.end = NO_END

    def take_rows(self, flow: Sequence[FlowRow], local: Sequence[LocalRow]) -> None:
        """The rows of the next slot. A key names the row and the place of the entry by which a channel became on."""
        for row in flow:
            for place, channel in self.incoming.take(row.number):
                self.keys[channel] = (len(self.words), 0, self.flow_rows, place)
            self.flow_rows += 1
        for row in local:
            self.outgoing.take(row)

    def left(self) -> list[int]:
        """The listed channels that have bytes left."""
        return list(self.chunks)

    def ready(self) -> list[int]:
        """A channel is ready if it is listed, is on, and has bytes left."""
        return [channel for channel in self.chunks if self.incoming.is_on(channel)]

    def in_burst(self) -> bool:
        """Whether the next slot holds a data word."""
        return bool(self.coming)

    def may_burst(self) -> bool:
        """A burst word stands at no slot of the warm-up, and none of the BurstShort/8 slots below it holds one."""
        slot = len(self.words)
        return slot >= self.shape.warmup * self.shape.group and slot - self.last_burst > self.shape.burst_short // 8

    def put_next(self) -> Word:
        """The word of the next slot, by the rows so far."""
        if self.coming:
            word = Word(DATA, self.coming.popleft())
            self.covered.append(word.number)
        else:
            ready = self.ready() if self.may_burst() else []
            word = Word(CONTROL, self.burst_word(min(ready, key=self.keys.__getitem__)) if ready else self.idle())
        self.words.append(word)
        return word

    def idle(self) -> int:
        """An idle has SOP 0, channel 0 and multiple use 0."""
        return self.control(False, False, 0, NO_END)

    def burst_word(self, channel: int) -> int:
        """A burst word has its channel's number, and SOP exactly where its chunk is the first of its packet."""
        chunk = self.chunks[channel].popleft()
        if not self.chunks[channel]:
            del self.chunks[channel]
        end = fields.end_of_bytes(len(chunk.data)) if chunk.last else NO_END
        number = self.control(True, chunk.first, channel, end)
        self.coming.extend(data_words(chunk.data))
        self.last_burst = len(self.words)
        self.keys[channel] = (len(self.words), 1, 0, 0)
        return number

    def control(self, burst: bool, sop: bool, channel: int, next_end: int) -> int:
        """Every control word carries its calendar entries, its CRC24, and the end of the chunk before it, if that
        was a last one."""
        reset, flow = self.outgoing.flow_of(self.control_words)
        number = fields.control_number(burst, sop, self.end, reset, flow, channel % 256, channel // 256)
        number = fields.sealed(self.covered, number)
        self.control_words += 1
        self.covered, self.end = [], next_end
        return number


class Stream(NamedTuple):
    """The payload stream of a source, its finish slot, and the channels that have bytes left there."""
    words: list[Word]
    finish: int
    left: list[int]

    @property
    def is_held(self) -> bool:
        """The stream is held if some listed channel has bytes left at the finish slot."""
        return bool(self.left)


def payload_stream(source: Source) -> Stream:
    """The list has G (floor(z/G) + 2) words, z being the finish slot: the first control slot from W G on at which no
    channel is ready, and either no listed channel has bytes left or no flow row has a slot above it."""
    stream, group = OpenStream(source), source.shape.group
    flow, local = deque(source.flow), deque(source.local)
    finish, left = None, []
    while finish is None or len(stream.words) < group * (finish // group + 2):
        slot = len(stream.words)
        stream.take_rows(rows_at(flow, slot), rows_at(local, slot))
        if finish is None and slot >= source.shape.warmup * group and not stream.in_burst() and not stream.ready():
            left = stream.left()
            finish = slot if not left or not flow else None
        stream.put_next()
    return Stream(stream.words, finish, left)


def rows_at(rows: deque, slot: int) -> list:
    """Takes the rows of this slot off the front of rows in order of slot."""
    found = []
    while rows and rows[0].slot <= slot:
        found.append(rows.popleft())
    return found


class ListedPacket(NamedTuple):
    """A packet whose SOP word is in a stream: its channel, its number there, and the slots of its SOP word and of its
    end word."""
    channel: int
    number: int
    first: int
    last: int | None


def listed_packets(words: Sequence[Word]) -> list[ListedPacket]:
    """The packets whose SOP word is in a stream, in the order of these words."""
    found: list[ListedPacket] = []
    # The place in the list of the packet of each channel, and the channel of the burst that goes on.
    place: dict[int, int] = {}
    counts: dict[int, int] = {}
    current = None
    for slot, (kind, number) in enumerate(words):
        if kind != CONTROL:
            continue
        if fields.end_format(number) != NO_END:
            found[place[current]] = found[place[current]]._replace(last=slot)
        current = fields.channel_number(number, True) if fields.begins_burst(number) else None
        if current is not None and fields.has_sop(number):
            place[current], counts[current] = len(found), counts.get(current, -1) + 1
            found.append(ListedPacket(current, counts[current], slot, None))
    return found
