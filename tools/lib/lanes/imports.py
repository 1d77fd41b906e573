"""Lane files of dumps."""

import os
import sys

from lanes.bits import LaneFile, Words, bits_of_bytes
from lanes.options import BITS, HEX67, RAW, VCD, drop_of, lanes_of, places_of
from lanes.progress import Progress
from lanes.tables import Table, lane_words
from lanes.texts import BLOCK, Text
from lanes.vcd import Dump
from reading.files import Refused, shown_name
from reading.plans import CODE, PLAN
from reading.writing import Outputs, lanes_above, must_have_no_lanes

LOW = 8  # bits of a code that a counter or a header may have
SAMPLES = 1 << 12  # words of a lane that are put in order at once


def import_dumps(settings):
    """Writes the lane files, and returns what is said of each."""
    must_have_no_lanes(settings.out, settings.overwrite)
    progress = Progress(settings.files)
    with Outputs() as outputs:
        lanes = take_columns(settings, outputs, progress) if settings.columns or settings.form == VCD else take_dumps(settings, outputs, progress)
        for lane in lanes:
            lane.end()
    if settings.overwrite:
        remove_further(settings.out, len(lanes))
    progress.end()
    return ["%s.lane.%d bits=%d" % (settings.out, lane.number, lane.bits) for lane in lanes]


def remove_further(prefix, count):
    """Removes the lanes of an older import above those that were written, which are no lanes of this interface."""
    for name in lanes_above(prefix, count):
        os.remove(name)
        print("lanes: %s is removed: it was of an older import" % shown_name(name), file=sys.stderr)


def lane_file(settings, outputs, number, dump):
    file = outputs.open("%s.lane.%d" % (settings.out, number))
    return LaneFile(file, dump, number, drop_of(settings, number), number in settings.inverted)


def take_dumps(settings, outputs, progress):
    """A dump for each lane."""
    lanes = []
    for number, dump in enumerate(lanes_of(settings, len(settings.files))):
        name = settings.files[dump]
        lane = lane_file(settings, outputs, number, name)
        for bits in bits_of_dump(settings, name, progress):
            lane.take(bits)
        lanes.append(lane)
    return lanes


def bits_of_dump(settings, name, progress):
    """The bits of a dump of one lane, in blocks."""
    if settings.form == RAW:
        return raw_bits(name, Words(places_of(settings, settings.width)), progress)
    text = Text(name, progress)
    if settings.form == BITS:
        return text.bits()
    return text.words(Words(places_of(settings, settings.width)))


def raw_bits(name, words, progress):
    """The bits of bytes. A last word that is not whole is left out: its bits fill the last byte."""
    size = BLOCK - BLOCK % words.width
    with open(name, "rb") as file:
        data = file.read(size)
        while data:
            progress.add(len(data))
            bits = bits_of_bytes(data)
            yield words.lane_bits(bits[:len(bits) - len(bits) % words.width])
            data = file.read(size)


def take_columns(settings, outputs, progress):
    """One dump of all lanes."""
    name, lanes, order = settings.files[0], None, []
    narrow = set(range(PLAN["lanes"].most))
    for columns in column_bits(settings, name, progress):
        if settings.form == HEX67:
            narrow -= {place for place, column in enumerate(columns) if place in narrow and has_high_bit(column)}
        if lanes is None and columns:
            order = lanes_of(settings, len(columns))
            lanes = [lane_file(settings, outputs, number, name) for number in range(len(order))]
        for lane, column in zip(lanes or (), order if columns else ()):
            lane.take(columns[column])
    if lanes is None:
        raise Refused("%s: there are no words, so no lanes" % shown_name(name))
    for lane, column in zip(lanes, order if settings.form == HEX67 else ()):
        if column in narrow and lane.bits:
            print("lanes: warning: %s: no word of lane %d has a bit above the lowest %d: the table may have other columns" % (shown_name(name), lane.number, LOW), file=sys.stderr)
    return lanes


def has_high_bit(bits):
    """Whether a code has a bit above the lowest eight."""
    return any(b"1" in bits[place::CODE] for place in range(CODE - LOW))


def column_bits(settings, name, progress):
    """The bits of a dump of all lanes: for each block a list by lane."""
    if settings.form == VCD:
        return vcd_bits(settings, name, progress)
    if settings.recipes:
        return table_bits(settings, name, progress)
    text = Text(name, progress)
    if settings.form == BITS:
        return text.column_bits()
    return text.column_words(Words(places_of(settings, settings.width)))


def table_bits(settings, name, progress):
    """The bits of a table, of which recipes say what a lane's word is."""
    table = Table(name, settings.radix, progress)
    for columns in lane_words(table, settings.recipes, settings.texts, settings.width, settings.valid):
        words = Words(places_of(settings, settings.width))
        yield [words.lane_bits(column) for column in columns]


def signals_of(settings):
    """The names of the signals that are sampled, and for each lane the places of its own among them."""
    if not settings.recipes:
        return settings.signals, [[place] for place in range(len(settings.signals))]
    names, places = [], []
    for parts in settings.recipes:
        places.append(range(len(names), len(names) + len(parts)))
        names += [part.name if part.is_whole else "%s[%d:%d]" % (part.name, part.high, part.low) for part in parts]
    return names, places


def vcd_bits(settings, name, progress):
    """The bits of a value change dump, for each block a list by signal."""
    with open(name, "rb") as file:
        dump = Dump(file, name, progress)
        names, places = signals_of(settings)
        parts = [dump.part(signal) for signal in names]
        clock, valid = (bit_of(dump, signal) for signal in (settings.clock, settings.valid))
        words = [words_of(settings, [parts[place] for place in own], names[own[0]]) for own in places]
        block = [[] for _ in places]
        for values in dump.samples(parts, clock, valid):
            for column, own in zip(block, places):
                column.extend(values[place] for place in own)
            if len(block[0]) >= SAMPLES:
                yield [some.lane_bits(b"".join(column)) for some, column in zip(words, block)]
                block = [[] for _ in places]
        yield [some.lane_bits(b"".join(column)) for some, column in zip(words, block)]


def bit_of(dump, name):
    """The part of a name, which has one bit; None without a name."""
    if name is None:
        return None
    part = dump.part(name)
    if part.last - part.first != 1:
        raise Refused("%s: %s has %d bits, and one is expected" % (shown_name(dump.name), name, part.last - part.first))
    return part


def words_of(settings, parts, name):
    width = sum(part.last - part.first for part in parts)
    if settings.bytes_swapped and width % 8:
        raise Refused("--bytes-swapped: %s has %d bits, which are no whole bytes" % (name, width))
    return Words(places_of(settings, width))
