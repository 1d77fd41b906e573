"""Draws the events of a link that sends again: the sender on the left, the receiver on the right, and what travels between them.

The paths are computed from the events file by the rules of both ends. The script ends with an error if the line that `resend`
printed and the words that it wrote are not those that come of it.
"""

from picture.svg import COLOURS, Picture, length_of
from reading.files import must_agree

PLAN = "again.plan"
ROOM, CONTROL = 1024, 2
MANY = 8  # a row of more events than these is drawn as one
STEP, TOP = 25, 46
EVENTS, WAY, GAP = 8, 290, 10
LEGEND = "blue: pieces; green, dashed: acknowledgements, each with the number of the piece that the receiver waits for; rows of more than %d events are one line" % MANY
SENDER, RECEIVER = "sender", "receiver"
LOST_AFTER = 0.7  # of the way that a lost thing would have gone


def pieces_of(words):
    """The words cut after each control word."""
    ends = [at + 1 for at, (tag, _) in enumerate(words) if tag == CONTROL]
    return [words[begin:end] for begin, end in zip([0] + ends, ends)]


class Path:
    """One thing that travels: a piece, or an acknowledgement, with the moments at which it sets out and ends; `copied` is what it is a copy of."""

    def __init__(self, number, begins, is_piece, copied=None):
        self.number, self.begins, self.is_piece, self.copied = number, begins, is_piece, copied
        self.ends, self.is_lost = None, False

    def sides(self):
        return (SENDER, RECEIVER) if self.is_piece else (RECEIVER, SENDER)

    def start(self, columns, last):
        """Where it sets out: at its side, or, if it is a copy, on the way of the other."""
        y = height(self.begins)
        if self.copied is None:
            return columns[self.sides()[0]], y
        (from_x, from_y), (to_x, to_y) = self.copied.start(columns, last), self.copied.aim(columns, last)
        return from_x + (to_x - from_x) * (y - from_y) / (to_y - from_y), y

    def aim(self, columns, last):
        """Where it arrives, or would have if it is lost; what is still on its way arrives after the last moment."""
        return columns[self.sides()[1]], height(last + 1 if self.ends is None else self.ends)


class Link:
    """The sender, the receiver and the two ways, by the true numbers of pieces."""

    def __init__(self, pieces, window):
        self.pieces, self.window = pieces, window
        self.first, self.next, self.sends, self.accepted = 0, 0, 0, 0
        self.pieces_on_way, self.answers_on_way = [], []
        self.paths, self.notes = [], []

    def note(self, moment, side, pattern, *numbers):
        self.notes.append((moment, side, pattern, numbers))

    def set_out(self, way, path):
        self.paths.append(path)
        way.append(path)

    def end(self, way, moment, is_lost):
        path = way.pop(0)
        path.ends, path.is_lost = moment, is_lost
        if is_lost:
            self.note(moment, path.sides()[1], "%s is lost" if path.is_piece else "acknowledgement %s is lost", path.number)
        return path.number

    def event(self, name, moment):
        """Does an event; false if it does nothing."""
        way = self.answers_on_way if name.endswith("back") else self.pieces_on_way
        kind = name[:-4] if name.endswith("back") else name
        if name in ("send", "rewind"):
            return getattr(self, name)(moment)
        if not way or kind == "repeat" and len(way) == ROOM:
            return False
        if kind == "lose":
            self.end(way, moment, True)
        elif kind == "repeat":
            copy = Path(way[0].number, moment, way[0].is_piece, way[0])
            self.note(moment, copy.sides()[1], "%s is repeated", copy.number)
            self.paths.append(copy)
            way.insert(1, copy)
        else:
            getattr(self, name)(moment, self.end(way, moment, False))
        return True

    def send(self, moment):
        if self.next in (len(self.pieces), self.first + self.window) or len(self.pieces_on_way) == ROOM:
            return False
        self.note(moment, SENDER, "sends %s", self.next)
        self.set_out(self.pieces_on_way, Path(self.next, moment, True))
        self.next, self.sends = self.next + 1, self.sends + 1
        return True

    def rewind(self, moment):
        if self.next == self.first:
            return False
        self.note(moment, SENDER, "goes back to %s", self.first)
        self.next = self.first
        return True

    def take(self, moment, number):
        is_next = number == self.accepted
        self.accepted += is_next
        if len(self.answers_on_way) < ROOM:
            self.note(moment, RECEIVER, ("accepts" if is_next else "drops") + " %s, acknowledges with %s", number, self.accepted)
            self.set_out(self.answers_on_way, Path(self.accepted, moment, False))
        else:
            self.note(moment, RECEIVER, ("accepts" if is_next else "drops") + " %s", number)

    def takeback(self, moment, number):
        self.note(moment, SENDER, "takes acknowledgement %s", number)
        self.first, self.next = number, max(self.next, number)


def run_of(link, rows):
    """Does the events; returns the moment at which each row begins, and the number of moments."""
    begins, moment = [], 0
    for name, count in rows:
        begins.append((moment, "%s,%s" % (name, count)))
        for _ in range(int(count)):
            if not link.event(name, moment):
                break
            moment += int(count) <= MANY
        moment = max(moment, begins[-1][0] + 1)
    return begins, moment


def check(link, words, folder, printed):
    """That the program printed and wrote what comes of the events."""
    state = (len(link.pieces), link.accepted, link.first, link.sends)
    must_agree(PLAN, "resend pieces=%d accepted=%d acknowledged=%d sent=%d\n" % state, printed)
    must_agree("the words that were accepted", [word for piece in link.pieces[:link.accepted] for word in piece], words)


def height(moment):
    return TOP + STEP * moment + STEP / 2


def span(numbers):
    """One number or several that follow one another, in words."""
    return "%d" % numbers[0] if numbers[0] == numbers[-1] else "%d to %d" % (numbers[0], numbers[-1])


def notes_of(link):
    """What stands beside the two sides, as (moment, side, text)."""
    groups = {}
    for moment, side, pattern, numbers in link.notes:
        groups.setdefault((moment, side, pattern), []).append(numbers)
    return [(moment, side, pattern % tuple(span(numbers) for numbers in zip(*lists))) for (moment, side, pattern), lists in groups.items()]


def columns_of(begins, notes):
    """Where the sender and the receiver stand, and the width of the picture, by the longest texts beside them."""
    longest = {side: max([length_of(text) for _, of, text in notes if of == side], default=0) for side in (SENDER, RECEIVER)}
    sender = EVENTS + max(length_of(row) for _, row in begins) + 2 * GAP + longest[SENDER] + GAP
    width = max(sender + WAY + GAP + longest[RECEIVER] + GAP, EVENTS + length_of(LEGEND) + GAP)
    return {SENDER: sender, RECEIVER: sender + WAY}, width


def draw_notes(picture, columns, notes):
    for moment, side, text in notes:
        colour = COLOURS["lost"] if "drops" in text or "lost" in text else COLOURS["ink"]
        picture.text(columns[side] + (GAP if side == RECEIVER else -GAP), height(moment) + 4, text, colour, "start" if side == RECEIVER else "end")


def draw_path(picture, path, columns, last):
    colour = COLOURS[1] if path.is_piece else COLOURS[2]
    (x, y), (to_x, to_y) = path.start(columns, last), path.aim(columns, last)
    if path.ends is not None and not path.is_lost:
        picture.arrow(x, y, to_x, to_y, colour, "" if path.is_piece else "6 3")
        return
    to_x, to_y = x + LOST_AFTER * (to_x - x), y + LOST_AFTER * (to_y - y)
    picture.line(x, y, to_x, to_y, colour, "3 3" if not path.is_lost else "" if path.is_piece else "6 3")
    for side in (-6, 6) if path.is_lost else ():
        picture.line(to_x - 6, to_y - side, to_x + 6, to_y + side, COLOURS["lost"])


def draw(folder, path):
    folder.run("burst", PLAN)
    plan = {row[0]: row[1] for row in folder.rows(PLAN)}
    link = Link(pieces_of(folder.words(plan["out"] + ".words")), int(plan.get("window", 64)))
    printed = folder.run("resend", PLAN)
    begins, last = run_of(link, folder.rows(plan["events"]))
    check(link, folder.words(plan["out"] + ".words"), folder, printed)
    notes = notes_of(link)
    columns, width = columns_of(begins, notes)
    picture = Picture(width, TOP + STEP * last + 40)
    for moment, row in begins:
        picture.line(EVENTS, height(moment) - STEP / 2, width - EVENTS, height(moment) - STEP / 2, COLOURS["grid"])
        picture.text(EVENTS, height(moment) + 4, row, COLOURS["note"])
    for name, x in columns.items():
        picture.line(x, TOP - 8, x, height(last), COLOURS["sync"])
        picture.text(x, TOP - 16, name, anchor="middle")
    picture.text(EVENTS, TOP - 16, "events", COLOURS["note"])
    seen = set()
    for way in link.paths:
        drawn = (way.start(columns, last), way.aim(columns, last), way.is_lost)
        if drawn not in seen:
            seen.add(drawn)
            draw_path(picture, way, columns, last)
    draw_notes(picture, columns, notes)
    picture.text(EVENTS, height(last) + 22, LEGEND)
    picture.save(path)
