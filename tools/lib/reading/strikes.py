"""What the rows of a schedule strike: bits of the lanes, slots of the stream, and fault spans."""

from collections import namedtuple

from reading.plans import CODE
from reading.words import covers

# A row of a schedule with the first and the last sent bit that it strikes on a lane, and the first and the last slot whose words have
# such bits, or None if it only strikes framing words.
Strike = namedtuple("Strike", "row key lane first last slots")


def strikes_of(plan, schedule, sent):
    """The rows that strike bits of lanes that have `sent` bits each."""
    flips = [set(bits) for bits in schedule.flips]
    for row, key, numbers in schedule.rows:
        lane, first = numbers[:2]
        last = min(first + (numbers[2] if key == "dark" else 1), sent) - 1
        if key == "skew" or first > last or key == "flip" and (first not in flips[lane] or schedule.is_dark(lane, first)):
            continue
        flips[lane].discard(first)
        yield Strike(row, key, lane, first, last, slots_between(plan, lane, first, last))


def slots_between(plan, lane, first, last):
    """The first and the last slot whose words have one of these sent bits of a lane, or None."""
    near = range(first // CODE, min(last // CODE, first // CODE + plan.metaframe) + 1)
    begin = next((slot for slot in (plan.slot_of(lane, CODE * word) for word in near) if slot is not None), None)
    near = range(last // CODE, max(first // CODE, last // CODE - plan.metaframe) - 1, -1)
    end = next((slot for slot in (plan.slot_of(lane, CODE * word) for word in near) if slot is not None), None)
    return None if begin is None else (begin, end)


def spans_struck(strike, spans):
    """The numbers of the spans that have slots of a strike between their ends, in order."""
    return [number for number, span in enumerate(spans) if covers(span, *strike.slots)] if strike.slots else []
