"""Words, and the fields of control words. DEFINITIONS, "Words"."""

from typing import NamedTuple, Sequence

from checksum import crc24

DATA, CONTROL, BAD = 1, 2, 3

NO_END, ERROR_END = 0b0000, 0b0001


class Word(NamedTuple):
    """A word of a stream: data or control of 64 bits, and in a received stream also bad."""
    kind: int
    number: int


def bits(number: int, high: int, low: int) -> int:
    """Bits high:low of a number: a quotient and a remainder by powers of two."""
    return number >> low & (1 << high - low + 1) - 1


def begins_burst(number: int) -> bool:
    """Bit 62 says whether a burst follows."""
    return bits(number, 62, 62) == 1


def has_sop(number: int) -> bool:
    """Bit 61 (SOP) says whether the data that follow begin a packet."""
    return bits(number, 61, 61) == 1


def end_format(number: int) -> int:
    """Bits 60:57 say how the data before the word ended."""
    return bits(number, 60, 57)


def has_reset(number: int) -> bool:
    """Bit 56 says that the calendar starts over."""
    return bits(number, 56, 56) == 1


def flow_bits(number: int) -> int:
    """Bits 55:40 are sixteen calendar entries, the first in bit 55."""
    return bits(number, 55, 40)


def channel_field(number: int) -> int:
    """Bits 39:32 are the channel."""
    return bits(number, 39, 32)


def multiple_use(number: int) -> int:
    """Bits 31:24 are for multiple use."""
    return bits(number, 31, 24)


def crc_field(number: int) -> int:
    """Bits 23:0 are the CRC24."""
    return bits(number, 23, 0)


def is_control_word(number: int) -> bool:
    """A number is a control word exactly where its bit 63 is 1 and its end format is 0000, 0001 or 1xxx."""
    return bits(number, 63, 63) == 1 and (end_format(number) in (NO_END, ERROR_END) or end_format(number) >= 0b1000)


def channel_number(number: int, wide: bool) -> int:
    """If numbers are narrow it is the channel, bits 39:32; if they are wide it is that and 256 times bits
    31:24."""
    return channel_field(number) + (256 * multiple_use(number) if wide else 0)


def valid_bytes(end: int) -> int:
    """An end format 1xxx says that the last word has xxx valid bytes, 000 meaning 8."""
    return end - 0b1000 or 8


def end_of_bytes(length: int) -> int:
    """The end format after a last chunk of this length, by the valid bytes of its last data word."""
    return 0b1000 + length % 8


def control_number(burst: bool, sop: bool, end: int, reset: bool, flow: int, channel: int, multi: int, crc: int = 0) -> int:
    """The number of a control word with these fields."""
    head = 1 << 63 | burst << 62 | sop << 61 | end << 57 | reset << 56
    return head | flow << 40 | channel << 32 | multi << 24 | crc


def right_crc(data: Sequence[int], number: int) -> int:
    """The CRC24 of a control word covers the data words since the last control word, and then the word with zeros in
    bits 23:0."""
    return crc24([*data, number - crc_field(number)])


def sealed(data: Sequence[int], number: int) -> int:
    """A control word after these data words, with its right CRC24."""
    return number - crc_field(number) + right_crc(data, number)


def is_right(data: Sequence[int], number: int) -> bool:
    """Whether a word after these data words has its right CRC24."""
    return crc_field(number) == right_crc(data, number)
