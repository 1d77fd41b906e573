"""The CRC24 of lanes that are adapted: it covers words of all of them, so their metaframes are taken together."""

import struct
from functools import lru_cache
from itertools import chain

from reading.conventions import Crc24Rule, crc24_part
from reading.metaframes import SKIP

CRC24_BITS = (1 << 24) - 1
MOST_SKIPS = 4


def origins_of(firsts, period):
    """For each lane the bit at which metaframe 0 begins, so that they lie as near together as they can."""
    phases = sorted({first % period for first in firsts})
    begin = max(zip(phases, [phases[-1] - period] + phases[:-1]), key=lambda pair: pair[0] - pair[1])[0]
    return [begin + (first - begin) % period for first in firsts]


def parts_together(lanes):
    """The metaframes of lanes in the order in which they were sent, with their CRC24 and fields done: (lane, part)."""
    period = lanes[0].lane.period
    origins = origins_of([next(lane.lane.runs()).first for lane in lanes], period)
    sources = [lane.parts() for lane in lanes]
    current = [next(source, None) for source in sources]
    stream = Stream(lanes[0].changes.crc24)
    while any(current):
        numbers = [None if part is None else (part.codes.bit - origin + period // 2) // period for part, origin in zip(current, origins)]
        number = min(number for number in numbers if number is not None)
        parts = [part if number == its else None for part, its in zip(current, numbers)]
        for lane, part in zip(lanes, parts):
            if part is not None:
                lane.clear_fields(part)
        stream.take(lanes, parts)
        for place, (lane, part) in enumerate(zip(lanes, parts)):
            if part is not None:
                yield lane, part
                current[place] = next(sources[place], None)


class Stream:
    """Takes the words of metaframes of all lanes in the order of the stream."""

    def __init__(self, rule):
        self.rule, self.covered, self.is_known = rule, [], False

    def take(self, lanes, parts):
        length = max(part.length for part in parts if part is not None)
        first, end = 2 + max(1, *(lane.skips for lane in lanes)), length - 1
        columns = [([None] * (end - first),) * 2 if part is None else part.columns(first, end) for part in parts]
        # Words of all lanes that follow one another: each place's, lane by lane.
        headers, words = (chain.from_iterable(zip(*kind)) for kind in zip(*columns))
        for number, (header, word) in enumerate(zip(headers, words)):
            if header == "01":
                self.covered.append(word)
            else:
                place, lane = divmod(number, len(lanes))
                self.closed(lanes[lane], parts[lane], first + place, header)

    def closed(self, lane, part, place, header):
        """A word that is no data word; nothing is known behind one that is bad or not there."""
        if header == "10" and self.is_known:
            self.control(lane, part, place)
        self.covered, self.is_known = [], header == "10"

    def control(self, lane, part, place):
        word = part.word(place)
        data = struct.pack(">%dQ" % (len(self.covered) + 1), *self.covered, word >> 24 << 24)
        wrong = word & CRC24_BITS ^ self.rule.of(data)
        changed = part.words.get(place, word) >> 24 << 24 ^ word >> 24 << 24
        new = word ^ changed ^ crc24_part(changed) ^ crc24_between(self.rule, len(data))
        if new != word:
            part.words[place] = new
        lane.count("--crc24", not wrong)
        if wrong or lane.tells_all:
            lane.tell(part.codes.bit_of(place), "crc24", "%06X" % (word & CRC24_BITS), "%06X" % (new & CRC24_BITS))


@lru_cache(maxsize=4096)
def crc24_between(rule, count):
    """By what the CRC24 of so many bytes differs by a rule and by the profile's."""
    return rule.of(bytes(count)) ^ Crc24Rule().of(bytes(count))


def skips_of(part):
    """How many Skip words a metaframe has, at least one."""
    count = 0
    while count < MOST_SKIPS and part.word(2 + count) == SKIP:
        count += 1
    return max(1, count)
