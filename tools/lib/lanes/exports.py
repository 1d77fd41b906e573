"""Dumps of lane files: what `imports` makes lanes of."""

import os

from lanes.bits import Words, bits_of_bytes, bytes_of_bits
from lanes.options import BITS, RAW, drop_of, lanes_of, places_of
from lanes.progress import Progress
from reading.bit_orders import COMPLEMENT
from reading.files import Refused, shown_name
from reading.writing import Outputs, must_be_free

BLOCK = 1 << 20  # bits of a lane that are written at once, about
LINE = 64  # bits of a line in the form `bits`


def export_lanes(settings):
    """Writes the dumps, and returns what is said of each."""
    order = lanes_of(settings, len(settings.files))
    names = [settings.out] if settings.columns or len(order) == 1 else ["%s.%d" % (settings.out, number) for number in range(len(order))]
    must_be_free(names, settings.overwrite)
    progress = Progress(settings.files)
    lanes = {dump: LaneWords(settings, number, progress) for number, dump in enumerate(order)}
    lanes = [lanes[dump] for dump in range(len(order))]
    groups = [lanes] if settings.columns else [[lane] for lane in lanes]
    with Outputs() as outputs:
        for name, group in zip(names, groups):
            must_have_equal(group)
            write_dump(settings, outputs.open(name), group)
    progress.end()
    return ["%s %s=%d" % (name, "bits" if settings.form == BITS else "words", group[0].count) for name, group in zip(names, groups)]


def must_have_equal(lanes):
    """A line has a word of each lane."""
    other = next((lane for lane in lanes if lane.count != lanes[0].count), None)
    if other:
        raise Refused("%s: %d words, and %s has %d: columns are of one length" % (shown_name(other.name), other.count, shown_name(lanes[0].name), lanes[0].count))


def write_dump(settings, file, lanes):
    for columns in zip(*(lane.blocks() for lane in lanes)):
        if settings.form == RAW:
            file.write(columns[0])
        else:
            file.write(lines_of(settings, columns, LINE if settings.form == BITS else lanes[0].words.digits))


def lines_of(settings, columns, size):
    """The lines of a block, of words of so many characters, a column for each lane. The last word of bits may be shorter."""
    whole = len(columns[0]) // size
    step = len(columns) * (size + 1)
    text = bytearray(b" " * (whole * step))
    for number, column in enumerate(columns):
        for place in range(size):
            text[number * (size + 1) + place::step] = column[place:whole * size:size]
    text[step - 1::step] = b"\n" * whole
    rest = b" ".join(column[whole * size:] for column in columns)
    return bytes(text) + (rest + b"\n" if len(columns[0]) > whole * size else b"")


class LaneWords:
    """A lane as the words of a dump. `count` is how many it has: so many that the lane is in them whole, and no more than `import` makes
    the same bytes of."""

    def __init__(self, settings, number, progress):
        self.settings, self.number, self.progress = settings, number, progress
        self.name, self.drop = settings.files[number], drop_of(settings, number)
        self.words = Words(places_of(settings, settings.width))
        try:
            bits = 8 * os.path.getsize(self.name)
            self.bits = self.drop + bits - self.spare()
        except OSError as error:
            raise Refused("%s: %s" % (shown_name(self.name), error.strerror)) from None
        self.count = -(-self.bits // self.words.width)

    def spare(self):
        """How many zeros at the end `import` fills in by itself, if words do not end where bytes of the lane do."""
        if 8 % self.words.width == 0 and self.drop % self.words.width == 0:
            return 0
        with open(self.name, "rb") as file:
            if not file.seek(0, os.SEEK_END):
                return 0
            file.seek(-1, os.SEEK_END)
            last = file.read(1)[0]
        return 7 if last == 0 else (last & -last).bit_length() - 1

    def blocks(self):
        """The characters of the words, or their bytes, in blocks of as many words for each lane."""
        unit = LINE if self.settings.form == BITS else 8 * self.words.width if self.settings.form == RAW else self.words.width
        size = max(1, BLOCK // unit) * unit
        rest, left = b"", self.count * self.words.width
        for bits in self.lane_bits():
            rest += bits
            while len(rest) >= size and left > size:
                yield self.written(rest[:size])
                rest, left = rest[size:], left - size
        while left > size:  # a last word may begin after all bits of the lane
            yield self.written(rest[:size].ljust(size, b"0"))
            rest, left = rest[size:], left - size
        yield self.written(rest[:left].ljust(left, b"0"))

    def lane_bits(self):
        """The bits that `import` leaves out, as zeros, and those of the lane."""
        for first in range(0, self.drop, BLOCK):
            yield b"0" * min(BLOCK, self.drop - first)
        with open(self.name, "rb") as file:
            data = file.read(BLOCK // 8)
            while data:
                self.progress.add(len(data))
                yield bits_of_bytes(data)
                data = file.read(BLOCK // 8)

    def written(self, bits):
        """What is written of bits of the lane. A last byte is filled so that it has zeros again on the lane."""
        fill = -len(bits) % 8 if self.settings.form == RAW else 0
        bits = self.words.word_bits(bits) + b"0" * fill if self.settings.form in (BITS, RAW) else bits
        if self.number in self.settings.inverted:
            bits = bits.translate(COMPLEMENT)
        if self.settings.form == BITS:
            return bytes(bits)
        return bytes_of_bits(bytes(bits)) if self.settings.form == RAW else self.words.digits_of_bits(bytes(bits))
