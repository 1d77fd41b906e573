"""An axis of bits or slots that is wrapped into rows and leaves out, or presses together, what is quiet."""

from bisect import bisect_right
from collections import namedtuple

from reading.intervals import merged

# What stands from `first` up to, and not with, `last`, drawn from `x` on.
Piece = namedtuple("Piece", "first last x width folded")


def folded(first, last, keep, least):
    """Cuts an axis into parts (first, last, whether it is folded): all is folded but `keep` and what is shorter than `least`."""
    kept = [(max(begin, first), min(end, last)) for begin, end in keep if begin < last and end > first]
    parts, at = [], first
    for begin, end in merged(kept):
        if begin - at >= least:
            parts += [(at, begin, True), (begin, end, False)]
        elif parts and not parts[-1][2]:
            parts[-1] = (parts[-1][0], end, False)
        else:
            parts.append((at, end, False))
        at = end
    if last - at >= least or not parts and at < last:
        parts.append((at, last, True))
    elif at < last:
        parts[-1] = (parts[-1][0], last, parts[-1][2])
    return parts


class Row:
    """A line of an axis."""

    def __init__(self, pieces):
        self.pieces = pieces
        self.first, self.last = pieces[0].first, pieces[-1].last
        self.left, self.right = pieces[0].x, pieces[-1].x + pieces[-1].width
        self.begins = [piece.first for piece in pieces]

    def piece(self, value):
        return self.pieces[max(0, bisect_right(self.begins, value) - 1)]

    def x(self, value):
        piece = self.piece(value)
        return piece.x + piece.width * (value - piece.first) / (piece.last - piece.first)

    def shows(self, value):
        """Whether the value stands in this row, and not in a folded part of it."""
        return self.first <= value < self.last and not self.piece(value).folded

    def clip(self, begin, end):
        """The part of an interval that is in this row, or None."""
        begin, end = max(begin, self.first), min(end, self.last)
        return (begin, end) if begin < end else None

    def spans(self, intervals):
        """Intervals as (x, width), those joined that are drawn as one."""
        clipped = (self.clip(begin, end) for begin, end in intervals)
        return [(x, to_x - x) for x, to_x in merged([(self.x(part[0]), self.end(part[1])) for part in clipped if part], 0.3)]

    def end(self, value):
        """Where an interval ends that ends before `value`: in the piece before, if a piece begins with `value`."""
        piece = self.piece(value - 1)
        return piece.x + piece.width * (value - piece.first) / (piece.last - piece.first)


STEPS = [step * 10 ** power for power in range(12) for step in (1, 2, 5)]


def ticks_of(row, scale, apart):
    """The round values of a row that are at least so many pixels apart and are not folded, each with its x."""
    step = next(step for step in STEPS if scale * step >= apart)
    values = range(-(-row.first // step) * step, row.last, step)
    return [(value, row.x(value)) for value in values if row.shows(value)]


def rows_of(parts, left, right, scale, fold_width):
    """The rows of an axis with this many pixels for each value; a part that does not fit in a row goes on in the next."""
    rows, pieces, x = [], [], left
    for first, last, is_folded in parts:
        while first < last:
            room = right - x
            width = fold_width if is_folded else scale * (last - first)
            if width > room + 0.01 and (is_folded or room < min(24, width)):
                rows.append(Row(pieces))
                pieces, x = [], left
                continue
            end = last if is_folded or width <= room + 0.01 else min(last, first + max(1, int(room / scale)))
            width = width if end == last else scale * (end - first)
            pieces.append(Piece(first, end, x, width, is_folded))
            first, x = end, x + width
    return rows + [Row(pieces)] if pieces else rows


def best_scale(parts, width, fold_width, least, most_rows):
    """The pixels for each value: those of one row if they are at least `least`, else `least`, or less if there were too many rows."""
    shown = sum(last - first for first, last, is_folded in parts if not is_folded)
    folds = sum(is_folded for _, _, is_folded in parts)
    one_row = (width - fold_width * folds) / max(shown, 1)
    if one_row >= least:
        return one_row
    room = max(width * most_rows, 2 * fold_width * folds) - fold_width * folds
    return min(least, max(room, width) / shown)
