"""Draws the samples of a status: the three lines by sample number, with the frames, their entries and checksum bits, and their rows.

The lines are drawn from the file that `oobwrite` left. What the labels say is computed from the rules, and the script ends with an
error if the samples, the flow file that `oobread` left or the counts that were printed say something else.
"""

from picture.svg import COLOURS, Picture
from reading.files import must_agree

PLAN = "status.plan"
BLOCK, CHECK, WORD = 64, 4, 16
LINES = ("clock", "data", "sync")


def checksum(width, polynomial, bits):
    """The register rule: it starts with all ones, takes the bits in order, and its complement is the value."""
    ones = (1 << width) - 1
    register = ones
    for bit in bits:
        turns = register >> (width - 1) ^ bit
        register = register << 1 & ones ^ (polynomial if turns else 0)
    return register ^ ones


def bits_of(number, count):
    return [number >> (count - 1 - i) & 1 for i in range(count)]


class Plan:
    """The calendar, and what the local rows make of it at a sample."""

    def __init__(self, folder):
        rows = folder.rows(PLAN)
        single = {row[0]: row[1] for row in rows}
        self.entries = [int(row[1]) for row in rows if row[0] == "entry"] or sorted(int(row[1]) for row in rows if row[0] == "channel")
        assert len(self.entries) <= BLOCK, "frames of one block are drawn"
        self.samples, self.flow = single["out"] + ".oob", single["out"] + ".oob.flow"
        must_agree("the file that is read", single["oob"], self.samples)
        self.changes = [(int(slot), int(channel), state == "on") for slot, channel, state in folder.rows(single["local"])]
        self.length = 2 * (len(self.entries) + CHECK)

    def states(self, sample):
        last = {channel: on for slot, channel, on in self.changes if slot <= sample}
        return [int(last.get(c, True)) for c in self.entries]

    def row(self, begin):
        """The row of the frame that begins at a sample: its last sample, and a word of all its entries."""
        assert len(self.entries) <= WORD, "rows of one word are drawn"
        shown = self.states(begin) + [1] * (WORD - len(self.entries))
        bare = bits_of(0x81, 8) + shown + bits_of(0, 40)
        word = int("".join(map(str, bare)), 2) | checksum(24, 0x328B63, bare)
        return ["%d" % (begin + self.length - 1), "%016X" % word]


def check(plan, begins, samples, folder, printed):
    """That the program wrote and printed what the rules say."""
    must = []
    for begin in begins:
        states = plan.states(begin)
        for number, bit in enumerate(states + bits_of(checksum(CHECK, 3, states), CHECK)):
            lines = bit << 1 | (number == 0) << 2
            must += [lines, lines | 1]
    must_agree(plan.samples, must, list(samples))
    rows = [plan.row(begin) for begin in begins]
    must_agree(plan.flow, rows, folder.rows(plan.flow))
    must_agree(PLAN, ["samples %d" % len(must), "rows %d" % len(rows)], printed.splitlines())


def draw_lines(picture, samples, x, tops):
    for number, (name, top) in enumerate(zip(LINES, tops)):
        picture.text(x(0) - 10, top + 18, name, anchor="end")
        points = []
        for at, sample in enumerate(samples):
            level = top + (2 if sample >> number & 1 else 26)
            points += [(x(at), level), (x(at + 1), level)]
        picture.bent_line(points, COLOURS["sync"])


def draw_frame(picture, plan, begin, x, top, bottom):
    """The labels of a frame: where it begins, what each of its bits is, and the row that its last sample gives."""
    states, last = plan.states(begin), begin + plan.length - 1
    picture.line(x(begin), top - 18, x(begin), bottom, COLOURS["lost"])
    picture.text(x(begin) + 4, top - 8, "a frame begins at sample %d" % begin, COLOURS["lost"])
    for number, (channel, on) in enumerate(zip(plan.entries, states)):
        picture.box(x(begin + 2 * number) + 1, top, x(2) - x(0) - 2, 34, COLOURS["lane"])
        picture.text(x(begin + 2 * number + 1), top + 14, "ch. %d" % channel, anchor="middle")
        picture.text(x(begin + 2 * number + 1), top + 28, "on" if on else "off", COLOURS[2] if on else COLOURS["lost"], "middle")
    first_check = begin + 2 * len(states)
    picture.box(x(first_check) + 1, top, x(2 * CHECK) - x(0) - 2, 34, COLOURS["grid"])
    picture.text(x(first_check + CHECK), top + 14, "checksum", anchor="middle")
    for number, bit in enumerate(bits_of(checksum(CHECK, 3, states), CHECK)):
        picture.text(x(first_check + 2 * number + 1), top + 28, "%d" % bit, anchor="middle")
    picture.arrow(x(last) + 12, bottom + 18, x(last) + 12, bottom + 36, COLOURS["note"])
    picture.text(x(last + 1), bottom + 50, "row %s" % ",".join(plan.row(begin)), COLOURS["note"], "end")
    picture.text(x(last + 1), bottom + 64, "its digits %s are the states, then ones" % plan.row(begin)[1][2:6], COLOURS["note"], "end")


def draw(folder, path):
    printed = folder.run("oobwrite", PLAN) + folder.run("oobread", PLAN)
    plan = Plan(folder)
    samples = folder.content(plan.samples)
    begins = range(0, max([slot for slot, _, _ in plan.changes], default=0) + plan.length, plan.length)
    check(plan, begins, samples, folder, printed)
    left, step = 60, 820 / len(samples)
    x = lambda sample: left + step * sample
    picture, tops = Picture(900, 290), [74, 114, 154]
    for at in range(len(samples)):
        if samples[at] & 1:
            picture.box(x(at), tops[0] - 4, step, 120, "#f4f6f7")
        picture.text(x(at) + step / 2, 208, "%d" % at, COLOURS["note"], "middle")
    draw_lines(picture, samples, x, tops)
    for begin in begins:
        draw_frame(picture, plan, begin, x, 26, 192)
    picture.text(8, 280, "shaded: the samples at which the clock has gone from 0 to 1, in which a bit is taken")
    picture.save(path)
