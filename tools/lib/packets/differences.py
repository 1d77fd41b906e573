"""What is not equal of two lists of records: which differ, which are missing and which are extra, by their numbers in order."""

from collections import namedtuple

from packets.alignment import equal_runs
from reading.files import NANO

# `equal` are how many records are equal; `differing` are pairs of numbers, `missing` are numbers of the first list and `extra` of the
# second; `stamps` are pairs of numbers whose packets are equal and whose stamps are not.
Differences = namedtuple("Differences", "equal differing missing extra stamps")


def differences_of(one, other, with_stamps=False, ends_at_front=False):
    """The differences of two lists of records. Between two equal records those that are not are taken for pairs from the first on, and
    with `ends_at_front` before the first equal one from the last on."""
    differing, missing, extra, stamps, equal, begin, first = [], [], [], [], 0, 0, 0
    runs = equal_runs([record.data for record in one], [record.data for record in other])
    for place, its, count in runs + [(len(one), len(other), 0)]:
        pairs = min(place - begin, its - first)
        if ends_at_front and begin == first == 0:
            missing += range(begin, place - pairs)
            extra += range(first, its - pairs)
            begin, first = place - pairs, its - pairs
        differing += zip(range(begin, begin + pairs), range(first, first + pairs))
        missing += range(begin + pairs, place)
        extra += range(first + pairs, its)
        if with_stamps:
            stamps += [(place + n, its + n) for n in range(count) if one[place + n].stamp != other[its + n].stamp]
        equal, begin, first = equal + count, place + count, its + count
    return Differences(equal - len(stamps), differing, missing, extra, stamps)


def is_equal(found):
    return not (found.differing or found.missing or found.extra or found.stamps)


def byte_told(one, other):
    """How the bytes of a record differ from those of another: the first that does, or the lengths."""
    at = next((at for at, (byte, its) in enumerate(zip(one, other)) if byte != its), None)
    if at is not None:
        return "byte %d is %02X and not %02X" % (at, other[at], one[at])
    return "%d bytes and not %d" % (len(other), len(one))


def word_told(one, other):
    """The same of two words."""
    return "%s and not %s" % (word_text(other), word_text(one))


def word_text(data):
    return "bad" if data[0] == 3 else "%s %s" % ("control" if data[0] == 2 else "data", data[1:].hex().upper())


def stamp_text(stamp):
    return "%d.%09d" % divmod(stamp, NANO)
