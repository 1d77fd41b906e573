"""Draws the queues of a run of two ends, and the slots in which the bursts that fill them start and their channels are off."""

from bisect import bisect_left, bisect_right

from picture.axis import Piece, Row, best_scale, folded, rows_of
from picture.svg import COLOURS, LINE, Labels, Picture, channel_colours, length_of, wrapped
from picture.two_ends import Link, check, run_of
from reading.intervals import merged

LEFT, RIGHT, WIDTH = 130, 885, 900
FOLD, LEAST_QUIET = 60, 60
FEW, AROUND = 2000, 120  # slots of a run that is drawn whole but for what is quiet; slots around what is drawn of a longer one
TALLEST, LOWEST, BY_WORD = 170, 60, 2.2
MOST_CHANNELS = 6
NAMED = 45  # slots at the end of a row over which the name of a curve stands
STEPS = [step * 10 ** power for power in range(1, 8) for step in (1, 2, 5)]


def busy(link, ends):
    """The slots in which something is sent, queued or off, or a queue has its peak."""
    found = []
    for end in ends:
        found += [(burst.slot, burst.slot + burst.words + 1) for burst in end.starts]
        found += [(end.peak_at[c], end.peak_at[c] + 1) for c in link.channels if end.peak[c]]
        for c in link.channels:
            course = end.course[c] + [(link.slots, 0)]
            found += [(slot, until) for (slot, words), (until, _) in zip(course, course[1:]) if words]
            found += end.off_times(c)
    return merged([(begin - 10, min(end, link.slots) + 10) for begin, end in found], 0)


def parts_of(link, ends, shown):
    """The axis: folded if nothing changes, and in a long run but for the first burst, the peaks, and where a channel is off first and longest."""
    first = max(0, link.first_burst - 20) if link.first_burst < link.slots else 0
    keep = busy(link, ends)
    if sum(max(0, min(b, link.slots) - max(a, first)) for a, b in keep) > FEW:
        places = [link.first_burst + AROUND]
        for end, other in (ends, ends[::-1]):
            places += [end.peak_at[c] for c in shown[end.name][:2]]
            off = [time for c in shown[end.name] for time in other.off_times(c)]
            places += [time[0] for time in (min(off), max(off, key=lambda time: time[1] - time[0]))] if off else []
        last = max(b for _, b in keep)
        keep = [(slot - AROUND, slot + AROUND) for slot in places] + [(last - AROUND, last)]
    parts = folded(first, link.slots, keep or [(first, min(first + 100, link.slots))], LEAST_QUIET)
    # The first slots of the picture are the last before the first burst.
    return [(a, b, is_folded and (a > first or b - a > 200)) for a, b, is_folded in parts]


class Drawing:
    def __init__(self, link, ends):
        self.link, self.ends = link, ends
        self.colours = channel_colours(link.channels)
        self.shown = {}
        for end, sender in (ends, ends[::-1]):
            used = {c for c in link.channels if end.peak[c]} | {burst.channel for burst in sender.starts}
            self.shown[end.name] = sorted(used, key=lambda c: (-end.peak[c], c))[:MOST_CHANNELS]
        self.parts = parts_of(link, ends, self.shown)
        self.scale = best_scale(self.parts, RIGHT - LEFT, FOLD, 0.9, 16)
        self.scale = min(self.scale, 6)
        self.rows = rows_of(self.parts, LEFT, RIGHT, self.scale, FOLD)
        self.is_long = any(is_folded and self.has_change(a, b) for a, b, is_folded in self.parts)
        if self.is_long:
            first, last = self.rows[0].first, self.rows[-1].last
            self.rows.insert(0, Row([Piece(first, last, LEFT, RIGHT - LEFT, True)]))
        greatest = max([end.peak[c] for end in ends for c in link.channels] + [1])
        self.levels = max(greatest * 1.15, link.bound if link.bound <= 3 * greatest else 0, link.mark if link.mark <= 2 * greatest else 0)
        self.by_word = min(max(BY_WORD, LOWEST / self.levels), TALLEST / self.levels)

    def has_change(self, first, last):
        return any(first <= slot < last for end in self.ends for c in self.link.channels for slot, _ in end.course[c][1:])

    def draw(self):
        legend = wrapped(self.legend(), WIDTH - 16)
        blocks = [(row, end, sender) for end, sender in (self.ends[::-1], self.ends) for row in self.rows]
        heights = [self.by_word * self.levels + 64 + 23 * len(self.shown[end.name]) for _, end, _ in blocks]
        self.picture = Picture(WIDTH, sum(heights) + LINE * len(legend) + 20)
        top, last = 0, None
        for (row, end, sender), height in zip(blocks, heights):
            if end is not last:
                self.picture.text(8, top + 18, self.title(end))
            elif self.is_long:
                self.picture.text(8, top + 18, "Slots %d to %d of end %s" % (row.first, row.last - 1, end.name), COLOURS["note"])
            self.draw_row(row, top, end, sender)
            top, last = top + height, end
        for place, text in enumerate(legend):
            self.picture.text(8, top + 18 + LINE * place, text)
        return self.picture

    def title(self, end):
        left_out = [c for c in self.link.channels if end.peak[c] and c not in self.shown[end.name]]
        more = "; %d more channels have lower peaks" % len(left_out) if left_out else ""
        return "The queues of end %s, in words%s%s" % (end.name, ", all slots" if self.is_long else "", more)

    def draw_row(self, row, top, end, sender):
        """The queues of one end over the bursts of the other that fill them, in a row of slots."""
        floor = top + 34 + self.by_word * self.levels
        for piece in row.pieces:
            if piece.folded:
                count = piece.last - piece.first
                self.picture.fold(piece.x, floor - self.by_word * self.levels, piece.width, self.by_word * self.levels, "", "%d slots, pressed together" % count)
        self.draw_axes(row, floor)
        self.draw_queues(row, floor, end)
        top = floor + 24
        for channel in sorted(self.shown[end.name]):
            self.draw_bursts(row, top, sender, channel)
            top += 23

    def draw_axes(self, row, floor):
        """The slots of a row, whose lower edge is at `floor`, and the levels of mark and bound."""
        picture, labels, height = self.picture, Labels(LEFT - 3, WIDTH), self.by_word * self.levels
        is_whole = self.is_long and len(row.pieces) == 1
        by_slot = row.pieces[0].width / (row.last - row.first) if is_whole else self.scale
        step = next(step for step in STEPS if by_slot * step >= 48)
        for piece in row.pieces:
            if piece.folded and not is_whole:
                labels.place(piece.x + piece.width / 2, "\u00d7%d" % (piece.last - piece.first), COLOURS["note"], "middle")
        for slot in range(-(-row.first // step) * step, row.last + 1, step):
            if is_whole or row.shows(min(slot, row.last - 1)):
                x = row.end(slot) if slot == row.last else row.x(slot)
                picture.line(x, floor - height, x, floor, COLOURS["grid"])
                labels.place(x, "%d" % slot, COLOURS["note"], "middle")
        for x, line, text, colour, anchor in labels.texts:
            if line == 0:
                picture.text(x, floor + 15, text, colour, anchor)
        mark, bound = self.link.mark, self.link.bound
        for level, name, colour in ((mark, "mark %d" % mark, COLOURS["note"]), (bound, "bound %d" % bound, COLOURS["lost"])):
            if level <= self.levels:
                y = floor - self.by_word * level
                picture.line(row.left, y, row.right, y, colour, "5 4")
                picture.text(LEFT - 6, y + (10 if level == mark and self.by_word * (bound - mark) < 12 else 4), name, colour, "end")
        picture.line(row.left, floor, row.right, floor, COLOURS["note"])
        picture.text(LEFT - 6, floor + 15, "slots:", COLOURS["note"], "end")

    def draw_queues(self, row, floor, end):
        filled = [c for c in self.shown[end.name] if end.peak[c]]
        for c in reversed(filled):
            for piece in row.pieces:
                (self.draw_envelope if piece.folded else self.draw_course)(piece, floor, end.course[c], self.colours[c])
        placed = []
        for c in filled:
            slot = end.peak_at[c]
            if row.first <= slot < row.last and (row.shows(slot) or len(row.pieces) == 1):
                self.draw_peak("peak %d" % end.peak[c], row.x(slot), floor - self.by_word * end.peak[c] - 6, self.colours[c], placed)
        if len(filled) == 1 and not self.is_long:
            self.draw_crossings(row, floor, end.course[filled[0]], self.colours[filled[0]], placed)
        if row.last == self.link.slots:
            for c in filled:
                most = max(words for slot, words in end.course[c][-NAMED:] if slot >= row.last - NAMED or slot == end.course[c][-1][0])
                self.draw_peak("channel %d" % c, row.right, floor - self.by_word * most - 8, self.colours[c], placed)

    def draw_crossings(self, row, floor, course, colour, placed):
        """The slots in which a queue first reaches the mark, and then first falls below it."""
        up = next((slot for slot, words in course if words >= self.link.mark), None)
        down = next((slot for slot, words in course if up is not None and slot > up and words < self.link.mark), None)
        for slot in (up, down):
            if slot is not None and row.shows(slot):
                y = floor - self.by_word * self.link.mark
                self.picture.line(row.x(slot), y - 4, row.x(slot), y + 4, colour)
                self.draw_peak("slot %d" % slot, row.x(slot) + (-24 if slot == up else 26), y - 6, colour, placed)

    def draw_peak(self, text, x, y, colour, placed):
        """The text of a peak over it, or higher where other texts are in its way."""
        width = length_of(text)
        x = max(LEFT + width / 2, min(x, WIDTH - 2 - width / 2))
        while any(abs(x - other_x) < (width + other_width) / 2 + 3 and abs(y - other_y) < 13 for other_x, other_y, other_width in placed):
            y -= 3
        placed.append((x, y, width))
        self.picture.clear_text(x, y, text, colour, "middle")

    def draw_course(self, piece, floor, course, colour):
        """A queue by slots, each with the words that it has at its end."""
        by_slot = piece.width / (piece.last - piece.first)
        slots = [slot for slot, _ in course]
        at = bisect_right(slots, piece.first) - 1
        points = [(piece.x, floor - self.by_word * course[at][1])]
        for place in range(at + 1, bisect_left(slots, piece.last)):
            slot, words = course[place]
            x = piece.x + by_slot * (slot - piece.first)
            if x - by_slot > points[-1][0] + 0.05:
                points.append((x - by_slot, points[-1][1]))
            points.append((x, floor - self.by_word * words))
        end = piece.x + by_slot * (piece.last - 1 - piece.first)
        self.picture.bent_line(points + ([(end, points[-1][1])] if end > points[-1][0] + 0.05 else []), colour)

    def draw_envelope(self, piece, floor, course, colour):
        """The least and the greatest words of a queue, a step for each pixel of a part that is pressed together."""
        slots, upper, lower = [slot for slot, _ in course], [], []
        width = max(1, int(piece.width))
        for column in range(width):
            first = piece.first + (piece.last - piece.first) * column // width
            last = max(first + 1, piece.first + (piece.last - piece.first) * (column + 1) // width)
            words = [place[1] for place in course[bisect_right(slots, first) - 1:bisect_left(slots, last)]]
            upper.append((piece.x + column + 0.5, floor - self.by_word * max(words)))
            lower.append((piece.x + column + 0.5, floor - self.by_word * min(words)))
        if min(y for _, y in upper) < floor:
            self.picture.area(upper + lower[::-1], colour)
            self.picture.bent_line(upper, colour)

    def draw_bursts(self, row, top, sender, channel):
        """The bursts of a channel, a dark line where each starts, and the slots in which the channel is off."""
        picture = self.picture
        picture.text(LEFT - 6, top + 13, "%s sends, %s %d" % (sender.name, "channel" if channel < 1000 else "ch.", channel), self.colours[channel], "end")
        picture.box(row.left, top, row.right - row.left, 18, COLOURS["lane"])
        for x, width in row.spans(sender.off_times(channel)):
            picture.box(x, top, width, 18, COLOURS["span"], "", "off")
        starts = [burst for burst in sender.starts if burst.channel == channel]
        pressed = [(burst.slot, burst.slot + burst.words + 1) for burst in starts if not row.shows(burst.slot)]
        for x, width in row.spans(pressed):
            picture.box(x, top + 4, max(width, 0.5), 10, self.colours[channel])
        for burst in starts:
            if not row.shows(burst.slot):
                continue
            part = row.clip(burst.slot, burst.slot + burst.words + 1)
            picture.box(row.x(part[0]), top + 4, max(row.end(part[1]) - row.x(part[0]) - 1, 1), 10, self.colours[channel], "slot %d, %d words" % (burst.slot, burst.words), "burst")
            picture.box(row.x(burst.slot), top, 1.4, 18, COLOURS["sync"])

    def legend(self):
        parts = ["a colour for each channel", "bars: bursts of the other end, by the slots in which they are sent", "dark: a burst starts", "red: the channel is off"]
        if self.rows[0].first > 0 and not self.is_long:
            parts.append("slots 0 to %d, before the first burst, are not shown" % (self.rows[0].first - 1))
        if self.is_long:
            parts.append("grey: slots are pressed together, and a queue is drawn from its least to its most words")
        elif any(is_folded for _, _, is_folded in self.parts):
            parts.append("grey: \u00d7n slots without change are left out")
        parts += ["mark %d is above the picture" % self.link.mark] if self.link.mark > self.levels else []
        parts += ["bound %d is above the picture" % self.link.bound] if self.link.bound > self.levels else []
        return "; ".join(parts)


def draw_queues(folder, settings, printed, path):
    """Draws the run of two ends; returns how many slots it has, and the bursts and off times of both ends."""
    link = Link(folder, settings)
    ends = run_of(link)
    check(link, ends, folder, printed)
    Drawing(link, ends).draw().save(path)
    return {"slots": link.slots, "bursts": sum(len(end.starts) for end in ends), "off": sum(len(end.off_times(c)) for end in ends for c in link.channels)}
