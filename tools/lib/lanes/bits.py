"""Bits as bytes of the characters 0 and 1, in blocks: from hexadecimal digits and bytes, and back."""

from reading.bit_orders import COMPLEMENT, in_order, reordered, undone
from reading.files import Refused, shown_name
from reading.lane_bits import bits_of

DIGIT = 4


def bits_of_bytes(data):
    return bits_of(data).encode()


def bytes_of_bits(bits):
    """The bytes of a multiple of eight bits."""
    return int(bits, 2).to_bytes(len(bits) // 8, "big") if bits else b""


def digits_of(width):
    """The hexadecimal digits of a word."""
    return -(-width // DIGIT)


class Words:
    """Words of a width, and how their bits get in the order of the lane."""

    def __init__(self, places):
        self.width, self.places, self.back = len(places), places, undone(places)
        self.digits = digits_of(self.width)
        self.pad = DIGIT * self.digits - self.width  # bits of the first digit that are 0
        self.is_in_order = places == in_order(self.width)
        self.from_digits = tuple(self.pad + place for place in places)

    def lane_bits(self, bits):
        """The bits on the lane of whole words."""
        return bits if self.is_in_order else reordered(bits, self.places)

    def word_bits(self, bits):
        """The bits of the words that have these bits on the lane."""
        return bits if self.is_in_order else reordered(bits, self.back)

    def are_wide(self, bits):
        """Whether words of whole digits have more bits than the width."""
        return any(b"1" in bits[place::self.pad + self.width] for place in range(self.pad))

    def bits_of_digits(self, digits):
        """The bits on the lane of words of whole digits, or None if one has too many bits."""
        if not digits:
            return b""
        bits = bin(int(b"1" + digits, 16))[3:].encode()
        if self.are_wide(bits):
            return None
        if self.pad == 0:
            return self.lane_bits(bits)
        size = self.pad + self.width
        found = bytearray(len(bits) // size * self.width)
        for place, source in enumerate(self.from_digits):
            found[place::self.width] = bits[source::size]
        return found

    def digits_of_bits(self, bits):
        """The digits of the words that have these bits on the lane."""
        size, count = self.pad + self.width, len(bits) // self.width
        if count == 0:
            return b""
        found = bits
        if not (self.pad == 0 and self.is_in_order):
            found = bytearray(b"0" * (count * size))
            for place, source in enumerate(self.back):
                found[self.pad + place::size] = bits[source::self.width]
        return (b"%%0%dx" % (count * self.digits)) % int(found, 2)


class LaneFile:
    """A lane file that takes bits: it leaves out the first ones and complements all, as options say."""

    def __init__(self, file, name, number, drop, is_inverted):
        self.file, self.name, self.number, self.is_inverted = file, name, number, is_inverted
        self.drop, self.left = drop, drop  # bits to leave out, and those that are still to come
        self.rest, self.bits = b"", 0

    def take(self, bits):
        if self.left:
            out = min(self.left, len(bits))
            bits, self.left = bits[out:], self.left - out
        if self.is_inverted:
            bits = bits.translate(COMPLEMENT)
        self.bits += len(bits)
        bits = self.rest + bits
        whole = len(bits) - len(bits) % 8
        self.file.write(bytes_of_bits(bits[:whole]))
        self.rest = bytes(bits[whole:])

    def end(self):
        """Fills the last byte with zeros."""
        if self.left:
            raise Refused("%s: --drop leaves out %d bits of lane %d, which has %d" % (shown_name(self.name), self.drop, self.number, self.drop - self.left))
        if self.rest:
            self.file.write(bytes_of_bits(self.rest.ljust(8, b"0")))
