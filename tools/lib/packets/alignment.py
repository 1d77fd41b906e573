"""What two lists have in common, in order: the runs of equal items, as (first of the one, first of the other, count)."""

from bisect import bisect_left
from collections import Counter

# Two parts without an item that each has once are aligned by the shortest script up to so many changes, and else by their numbers.
MOST_CHANGES = 600


def equal_runs(one, other):
    """The runs of items that two lists share, in order of both."""
    found, parts = [], [(0, len(one), 0, len(other))]
    while parts:
        begin, end, first, last = parts.pop()
        head = common(one, other, begin, end, first, last, 1)
        found.append((begin, first, head))
        begin, first = begin + head, first + head
        tail = common(one, other, begin, end, first, last, -1)
        end, last = end - tail, last - tail
        found.append((end, last, tail))
        if begin == end or first == last:
            continue
        anchors = anchors_of(one, other, begin, end, first, last)
        if not anchors:
            found += shortest(one[begin:end], other[first:last], begin, first)
            continue
        for place, its in anchors:
            parts.append((begin, place, first, its))
            found.append((place, its, 1))
            begin, first = place + 1, its + 1
        parts.append((begin, end, first, last))
    return joined(found)


def joined(runs):
    """Runs in order, those together that follow one another."""
    found = []
    for begin, first, count in sorted(run for run in runs if run[2]):
        if found and found[-1][0] + found[-1][2] == begin and found[-1][1] + found[-1][2] == first:
            found[-1] = (*found[-1][:2], found[-1][2] + count)
        else:
            found.append((begin, first, count))
    return found


def common(one, other, begin, end, first, last, step):
    """How many items are equal at the front of two parts, or with a step of -1 at their ends."""
    most, count = min(end - begin, last - first), 0
    here, there = (begin, first) if step == 1 else (end - 1, last - 1)
    while count < most and one[here + step * count] == other[there + step * count]:
        count += 1
    return count


def anchors_of(one, other, begin, end, first, last):
    """The places of items that each part has once: the most of them that stand in one order."""
    here, there = Counter(one[begin:end]), Counter(other[first:last])
    places = {item: place for place, item in enumerate(other[first:last], first) if there[item] == 1}
    pairs = [(place, places[one[place]]) for place in range(begin, end) if here[one[place]] == 1 and one[place] in places]
    return longest_rising(pairs)


def longest_rising(pairs):
    """The most pairs whose second numbers rise, of pairs whose first ones do."""
    ends, tops, before = [], [], [None] * len(pairs)
    for number, (_, its) in enumerate(pairs):
        at = bisect_left(ends, its)
        before[number] = tops[at - 1] if at else None
        ends[at:at + 1], tops[at:at + 1] = [its], [number]
    found, number = [], tops[-1] if tops else None
    while number is not None:
        found.append(pairs[number])
        number = before[number]
    return found[::-1]


def shortest(one, other, begin, first):
    """The equal runs of the script with the fewest items left out and added; if these are too many, of those of equal numbers."""
    trace = furthest_by_changes(one, other)
    if trace is None:
        return [(begin + n, first + n, 1) for n, (item, its) in enumerate(zip(one, other)) if item == its]
    found, x, y = [], len(one), len(other)
    for changes in range(len(trace) - 1, -1, -1):
        reach, diagonal = trace[changes], x - y
        is_down = diagonal == -changes or diagonal != changes and reach.get(diagonal - 1, -1) < reach.get(diagonal + 1, -1)
        start = 0 if changes == 0 else reach[diagonal + 1] if is_down else reach[diagonal - 1] + 1
        if x > start:
            found.append((begin + start, first + start - diagonal, x - start))
        if changes:
            x, y = (start, start - diagonal - 1) if is_down else (start - 1, start - diagonal)
    return found


def furthest_by_changes(one, other):
    """For each number of changes how far the scripts of one change less came on each diagonal; None where more are needed."""
    reach, trace = {1: 0}, []
    for changes in range(MOST_CHANGES + 1):
        trace.append(dict(reach))
        for diagonal in range(-changes, changes + 1, 2):
            is_down = diagonal == -changes or diagonal != changes and reach[diagonal - 1] < reach[diagonal + 1]
            x = reach[diagonal + 1] if is_down else reach[diagonal - 1] + 1
            while x < len(one) and x - diagonal < len(other) and one[x] == other[x - diagonal]:
                x += 1
            reach[diagonal] = x
            if x >= len(one) and x - diagonal >= len(other):
                return trace
    return None
