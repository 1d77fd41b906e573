"""Control words: their fields and their CRC24."""

from reading.checksums import CRC24


def sealed_alone(word):
    """A control word with the CRC24 that it has if it covers no data."""
    return word >> 24 << 24 | CRC24.of((word >> 24 << 24).to_bytes(8, "big"))


def is_control(word):
    """Whether a number is a control word: bit 63 is 1, and the end format is none of 0010 to 0111."""
    return word >> 63 == 1 and not 2 <= word >> 57 & 15 <= 7


def is_reset(word):
    return word >> 56 & 1 == 1


def is_valid_alone(word):
    """Whether a flow row's word counts: a control word with the CRC24 of only the word."""
    return is_control(word) and word == sealed_alone(word)


def entries_of(word):
    """The sixteen calendar entries of a control word, whether each is on, the first one first."""
    return [word >> bit & 1 == 1 for bit in range(55, 39, -1)]
