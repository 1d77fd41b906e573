"""A picture of the words around a finding: those of each lane that were sent together with it, and the stream."""

from collections import namedtuple

from picture.svg import COLOURS, Picture, channel_colours
from judge.findings import Finding
from judge.frames import Frames
from reading.metaframes import role_of_payload
from reading.plans import CODE

BEFORE, AFTER = 7, 10  # words that are drawn before the word of a finding, and from it on
LEFT, WIDTH, HEIGHT, ROW, TOP = 92, 50, 24, 42, 20
SHORT = {"sync": "Sync", "state": "State", "skip": "Skip", "diagnostic": "Diag", "data": "data", "burst": "burst", "idle": "idle", "control": "control", "bad": "bad"}
FRAMING = ("sync", "state", "skip", "diagnostic")
KINDS = {"b": "burst", "i": "idle", "e": "idle", "d": "data", "x": "bad"}

# A word that is drawn: where it begins in columns, what it is, what is shown over it, and the kinds of its findings.
Cell = namedtuple("Cell", "column role text title told")


class Around:
    """Draws what is around findings. `told` has by lane and bit, and by word, the kinds of what was found there."""

    def __init__(self, run, findings, skews):
        self.run, self.skews = run, skews
        self.frames = [Frames(lane, locks, run.plan) for lane, locks in zip(run.lanes, run.locks)]
        self.colours = channel_colours(run.plan.channels)
        self.at_bit, self.at_word = {}, {}
        for finding in findings:
            if finding.bit is not None:
                self.at_bit.setdefault((finding.lane, finding.bit), []).append(finding.what)
            if finding.word is not None:
                self.at_word.setdefault(finding.word, []).append(finding.what)

    def picture(self, finding):
        """The picture of a finding that has a bit."""
        lanes = self.run.plan.lanes
        finding, told = self.zoomed(finding), "%s at bit %d of lane %d" % (finding.what, finding.bit, finding.lane)
        word = self.word_of(finding)
        rows = [("lane %d" % lane, list(self.lane_cells(lane, finding))) for lane in range(lanes)]
        if word is not None:
            rows.append(("words", list(self.word_cells(word))))
        picture = Picture(LEFT + WIDTH * (BEFORE + AFTER) + 8, TOP + ROW * len(rows) + 4)
        x = LEFT + WIDTH * BEFORE
        picture.box(x - 2, 2, WIDTH + 2, TOP + ROW * len(rows) - 2, COLOURS["span"], told)
        for number, (name, cells) in enumerate(rows):
            self.draw_row(picture, TOP + ROW * number, name, cells)
        return picture

    def zoomed(self, finding):
        """What is drawn around: the finding, or the word of the bit that its note names."""
        if finding.noted_bit is None:
            return finding
        begin = finding.noted_bit - (finding.noted_bit - self.run.locks[finding.lane].lock_at(finding.bit).first) % CODE
        return Finding(finding.what, bit=begin, lane=finding.lane)

    def draw_row(self, picture, top, name, cells):
        picture.text(8, top + 16, name)
        if not cells:
            picture.text(LEFT, top + 16, "no lock here", COLOURS["lost"])
        for cell in cells:
            x, colour = LEFT + WIDTH * cell.column, self.colour_of(cell)
            picture.box(x, top, WIDTH - 2, HEIGHT, COLOURS["lost"] if cell.told else colour, cell.title, "found" if cell.told else "word")
            if cell.told:
                picture.box(x + 2, top + 2, WIDTH - 6, HEIGHT - 4, colour, cell.title)
                picture.text(x, top + HEIGHT + 12, shortened(cell.told), COLOURS["lost"])
            picture.text(x + 4, top + 16, cell.text, "white" if cell.role in FRAMING or cell.role == "bad" else COLOURS["ink"])

    def colour_of(self, cell):
        if cell.role in FRAMING:
            return COLOURS["sync"] if cell.role == "sync" else COLOURS["note"]
        if cell.role == "bad":
            return COLOURS["dark"]
        return {"data": COLOURS["lane"], "burst": "#a9dfbf", "idle": COLOURS["idle"]}.get(cell.role, COLOURS["edge"])

    # ---- the words of lanes

    def lane_cells(self, lane, finding):
        """The words of a lane that were sent with those around a finding."""
        middle = finding.bit - self.skews[finding.lane] + self.skews[lane]
        first, lock = middle - CODE * BEFORE, self.run.locks[lane].lock_at(max(middle, self.run.begins[lane]))
        if lock is None:
            return
        begin = first + (lock.first - first) % CODE
        for bit in range(begin, middle + CODE * AFTER - CODE // 2, CODE):
            if bit < max(lock.first, self.run.begins[lane]) or bit + CODE > self.run.lanes[lane].count:
                continue
            frame, place = self.frames[lane].of(bit)
            if frame is not None and place < len(frame.words):
                yield self.lane_cell(lane, bit, (bit - first) / CODE, frame, place)

    def lane_cell(self, lane, bit, column, frame, place):
        plan, framed = self.run.plan, frame.words[place]
        framing = {0: "sync", 1: "state", plan.metaframe - 1: "diagnostic"}
        role = framing.get(place) or ("skip" if place < 2 + plan.skips else "bad" if framed.header in (0, 3) else role_of_payload(framed.header, framed.word))
        title = "lane %d, bit %d, place %d of its metaframe: %s %016X" % (lane, bit, place, role, framed.word)
        text = "%s %d" % (SHORT[role], plan.channel_of(framed.word)) if role == "burst" else SHORT[role]
        return Cell(column, role, text, title, self.at_bit.get((lane, bit), ()))

    # ---- the words of the stream

    def word_of(self, finding):
        """The word of a finding, or the first one after it on its lane."""
        if finding.word is not None:
            return finding.word
        places = (self.run.places.slot_of(finding.lane, finding.bit + CODE * on) for on in range(2 * self.run.plan.skips + 4)) if self.run.places.pieces else ()
        return next((word for word in places if word is not None), None)

    def word_cells(self, word):
        stream = self.run.stream
        for at in range(max(0, word - BEFORE), min(stream.count, word + AFTER)):
            role = KINDS[stream.kinds[at]]
            text = "burst %d" % self.run.plan.channel_of(stream.word(at)) if role == "burst" else role
            number = self.run.number_of(at)
            name = "word" if number is None else "word %d" % number
            yield Cell(at - word + BEFORE, role, text, "%s: %s %016X" % (name, role, stream.word(at)), self.at_word.get(at, ()))


def shortened(told):
    """The kinds of some findings in a short text."""
    kinds = list(dict.fromkeys(told))
    return kinds[0] if len(kinds) == 1 else "%s +%d" % (kinds[0], len(kinds) - 1)
