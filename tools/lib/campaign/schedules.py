"""Schedules that are drawn by a number: the same for the same number, rates and lanes, on every machine."""

import random
from bisect import bisect_right
from decimal import Decimal

from reading.intervals import merged

# The longest dark stretch in metaframes: four Sync words in a row that are wrong lose a lock.
DARK_METAFRAMES = 4
MILLION = 1000000


def drawn_rows(number, plan, bits, rates):
    """The rows of a schedule for lanes of this many bits."""
    rows = []
    for lane in range(plan.lanes):
        if rates["skew"]:
            rows.append(("skew", lane, below(rates["skew"] + 1, source(number, "skew", lane))))
        rows += [("dark", lane) + stretch for stretch in drawn_stretches(source(number, "dark", lane), rates["dark"], plan.period, bits)]
        rows += [("flip", lane, bit) for bit in drawn_flips(source(number, "flip", lane), rates["flips_per_million"], bits)]
    return rows


def source(number, kind, lane):
    """Draws of their own for each kind and lane, so that a rate changes what it is the rate of and nothing else."""
    return random.Random("%d %s %d" % (number, kind, lane))


def below(most, draws):
    """A number below `most`. Only `random()` is promised to draw the same in all versions of Python."""
    return int(draws.random() * most)


def drawn_stretches(draws, count, period, bits):
    """Dark stretches (first bit, bits): each power of two is as likely a length, up to four metaframes, and each bit a first one."""
    powers = (DARK_METAFRAMES * period).bit_length()
    for _ in range(count):
        power = below(powers, draws)
        length = min(2 ** power + below(2 ** power, draws), DARK_METAFRAMES * period)
        yield below(bits, draws), length


def drawn_flips(draws, per_million, bits):
    """Inverted bits, each bit by itself with the same chance: how far it is to the next is drawn."""
    chance = Decimal(per_million) / MILLION
    if not chance:
        return
    # Decimal's logarithm, other than that of floating numbers, is the same on every machine.
    scale, bit = (1 - chance).ln(), -1
    while True:
        bit += 1 + int(Decimal(1 - draws.random()).ln() / scale)
        if bit >= bits:
            return
        yield bit


def struck_bits(schedule, lanes, bits):
    """How many sent bits a schedule inverts or makes dark, in lanes of this many bits."""
    count = 0
    for lane in range(lanes):
        darks = merged((first, min(end, bits)) for first, end in schedule.darks[lane] if first < bits)
        begins = [first for first, _ in darks]
        count += sum(end - first for first, end in darks)
        count += sum(bit < bits and not is_within(bit, darks, begins) for bit in schedule.flips[lane])
    return count


def is_within(bit, intervals, begins):
    place = bisect_right(begins, bit) - 1
    return place >= 0 and bit < intervals[place][1]
