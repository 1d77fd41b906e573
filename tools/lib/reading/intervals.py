"""Intervals of bits or slots, each from its first up to, and not with, its last."""


def merged(intervals, apart=0):
    """Intervals in order, those joined that are at most `apart` from each other."""
    joined = []
    for begin, end in sorted(intervals):
        if joined and begin <= joined[-1][1] + apart:
            joined[-1][1] = max(joined[-1][1], end)
        else:
            joined.append([begin, end])
    return [(begin, end) for begin, end in joined]


def listed(numbers, most=None):
    """Numbers in order as a text, those that follow one another as one stretch, and at most so many stretches: `3, 7 to 9`."""
    found = []
    for number in numbers:
        if found and found[-1][1] == number - 1:
            found[-1][1] = number
        else:
            found.append([number, number])
    texts = ["%d%s%d" % (first, " to " if last > first + 1 else ", ", last) if last > first else "%d" % first for first, last in found[:most]]
    left = sum(last - first + 1 for first, last in found[len(texts):])
    return ", ".join(texts) + (", and %d more" % left if left else "")
