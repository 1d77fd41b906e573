"""Out-of-band status. DEFINITIONS, "Out-of-band status"."""

from typing import Iterator, Sequence

import fields
from checksum import checksum
from files import Refusal
from flow import FlowRow, LocalRow, Outgoing, packed

BLOCK, CHECKSUM_BITS, POLYNOMIAL = 64, 4, 0b0011
CLOCK, DATA, SYNC = 1, 2, 4


def blocks(states: Sequence[bool]) -> Iterator[Sequence[bool]]:
    """The states of a calendar's entries in blocks of 64 and a last one of 1 to 64."""
    for at in range(0, len(states), BLOCK):
        yield states[at:at + BLOCK]


def block_checksum(block: Sequence[int]) -> list[int]:
    """The four bits of a block's checksum by the polynomial 3."""
    value = checksum(CHECKSUM_BITS, POLYNOMIAL, block)
    return [fields.bits(value, bit, bit) for bit in reversed(range(CHECKSUM_BITS))]


def frame(states: Sequence[bool]) -> bytes:
    """The samples of a frame: a bit is two samples, clock 0 and then 1; sync is only 1 on the first bit."""
    bits = [bit for block in blocks(states) for bit in [*block, *block_checksum(block)]]
    samples = []
    for place, bit in enumerate(bits):
        sample = DATA * bit + (SYNC if place == 0 else 0)
        samples += [sample, sample + CLOCK]
    return bytes(samples)


def written(entries: Sequence[int], rows: Sequence[LocalRow]) -> bytes:
    """Frames that follow one another; each shows the states by the local rows whose slot is at most the number of its
    first sample, and the last is the first that begins at or after the slot of every row."""
    calendar, left, samples = Outgoing(entries), list(rows), b""
    while True:
        while left and left[0].slot <= len(samples):
            calendar.take(left.pop(0))
        samples += frame([calendar.state[channel] for channel in entries])
        if not left:
            return samples


def samples_of(data: bytes) -> bytes:
    """A sample is a byte below 8: bit 0 is the clock, bit 1 the data, bit 2 sync."""
    for at, sample in enumerate(data):
        if sample >= 8:
            raise Refusal("sample at %d" % at)
    return data


def taken(samples: bytes) -> Iterator[tuple[int, int]]:
    """A bit is taken if the clock was 0 and is 1: the numbers of these samples, and the samples. Before the first
    sample the clock was 0."""
    clock = 0
    for slot, sample in enumerate(samples):
        if sample & CLOCK and not clock:
            yield slot, sample
        clock = sample & CLOCK


def words_of_block(block: Sequence[int], is_first: bool) -> list[int]:
    """The states of a whole block in idle words of 16 each, the first of a frame with the reset bit."""
    idles = [fields.control_number(False, False, fields.NO_END, is_first and at == 0, packed(block[at:at + 16]), 0, 0)
             for at in range(0, len(block), 16)]
    return [fields.sealed([], idle) for idle in idles]


def rows_of_samples(samples: bytes, entries: int) -> list[FlowRow]:
    """The rows that samples give. A sync bit begins a frame. A whole block gives its states at the number of the sample
    that took its last bit; one whose checksum is wrong gives the one word 0, and the rest of its frame nothing."""
    rows: list[FlowRow] = []
    # The entries of the frame that are still to come, none outside of a frame, and the bits of its block so far.
    left, bits = 0, []
    for slot, sample in taken(samples):
        if sample & SYNC:
            left, bits = entries, []
        if left == 0:
            continue
        bits.append(1 if sample & DATA else 0)
        size = min(left, BLOCK)
        if len(bits) < size + CHECKSUM_BITS:
            continue
        block = bits[:size]
        if bits[size:] == block_checksum(block):
            rows += [FlowRow(slot, word) for word in words_of_block(block, left == entries)]
            left, bits = left - size, []
        else:
            rows.append(FlowRow(slot, 0))
            left = 0
    return rows


def flow_file(rows: Sequence[FlowRow]) -> bytes:
    """For each row `slot,word`, the slot in decimal digits and the word in 16 hexadecimal ones."""
    return "".join("%d,%016X\n" % row for row in rows).encode()
