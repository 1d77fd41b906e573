"""Lanes that are whole metaframes late, which no Sync word tells: they are found by the CRC24."""

from probe.lanes import is_most
from probe.stream import Skews, columns_of, order_of, orders_of, score, with_data
from reading.plans import CODE

MOST_LATE = 16  # metaframes


def late_of(findings, skews):
    """The skews, the columns, the order and the share of lanes of which one is whole metaframes behind or before the others, or those with
    another one as the first; or None."""
    period = CODE * findings[0].found.metaframe
    for lates in lates_of(len(findings), skews):
        columns = columns_of(findings, skews, lates)
        if not columns[0]:
            continue
        parts, lanes = with_data(columns), next(orders_of(len(columns))).lanes
        share = score(parts, lanes)
        if share.tried and is_most(share):
            behind = [own + late * period for own, late in zip(skews.behind, lates)]
            behind = [own - min(behind) for own in behind]
            return Skews(behind, -(-max(behind) // CODE)), columns, *order_of(columns)
    return None


def lates_of(count, skews):
    """By how many metaframes lanes are late: those that are least behind all of one more, since the skews are of a circle; and each lane by
    itself."""
    order = sorted(range(count), key=lambda lane: skews.behind[lane])
    for cut in range(1, count):
        yield [int(lane in order[:cut]) for lane in range(count)]
    for late in range(1, MOST_LATE + 1):
        for sign in (1, -1):
            for lane in range(count):
                yield [sign * late * (lane == other) for other in range(count)]
