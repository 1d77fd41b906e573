"""Draws lanes from their first bit: the ones of their skews, their Sync words, their first locks, the groups and the damaged bits."""

from picture.axis import best_scale, folded, rows_of, ticks_of
from picture.svg import COLOURS, LINE, Labels, Picture, length_of, wrapped
from reading.intervals import merged
from reading.lane_bits import groups_of
from reading.plans import CODE

LEFT, WIDTH, SCALE = 66, 900, 0.052
FEW_LANES, FEW_FRAMES, MOST_PARTS, FOLD, FRAME = 6, 14, 40, 36, 16
TALL, THIN = 30, 5
MOST_PLACES = 6  # damaged places of a lane that have texts of their own
COUNTS = ("locks", "lost", "unframed", "bad", "sync", "state", "diag")
FILLS = {"inverted": COLOURS["flip"], "dark": COLOURS["dark"], "changed": COLOURS["flip"]}


def interesting(lanes, period):
    """The parts of the bits that are drawn: whole metaframes around the ends, the first locks, and where damage begins and ends."""
    last = max(len(lane.bits) for lane in lanes)
    keep = [(0, max(lane.front for lane in lanes) + period), (last - 2 * period, last)]
    for lane in lanes:
        marks = [lane.lock] if lane.lock is not None else []
        damaged = merged([(first, end) for first, end, _ in lane.damaged()], period)
        for bit in marks + [bit for part in damaged for bit in part] + list(lane.events):
            begin = lane.front + (bit - lane.front) // period * period
            keep.append((begin - period // 2, begin + period + period // 2))
    return keep


def axis_of(lanes, plan):
    """The one row of the picture's axis, and the width that it needs."""
    last = max(len(lane.bits) for lane in lanes)
    if last == 0:
        return rows_of([(0, 1, False)], LEFT, WIDTH - 48, 1, FOLD)[0], WIDTH
    parts, least = [(0, last, False)], 3 * plan.period
    if last > FEW_FRAMES * plan.period:
        keep = interesting(lanes, plan.period)
        parts = folded(0, last, keep, least)
        while len(parts) > MOST_PARTS:
            least *= 2
            parts = folded(0, last, keep, least)
    shown = sum(end - first for first, end, is_folded in parts if not is_folded)
    folds = FOLD * sum(is_folded for _, _, is_folded in parts)
    room = min(2400, max(WIDTH - LEFT - 48, folds + FRAME * shown // plan.period))
    scale = min(best_scale(parts, room, FOLD, 0, 1), SCALE)
    return rows_of(parts, LEFT, LEFT + room + 1, scale, FOLD)[0], LEFT + room + 48


def is_quiet(lane):
    return lane.lock is not None and not lane.damaged() and not lane.events and not lane.note and not counts_text(lane)


def bands_of(lanes):
    """The lanes as rows: one lane each, or several that follow one another and are quiet, which are drawn thin."""
    rows = []
    for lane in lanes:
        is_thin = len(lanes) > FEW_LANES and lane.number > 0 and is_quiet(lane)
        if is_thin and rows and rows[-1].is_thin:
            rows[-1].lanes.append(lane)
        else:
            rows.append(Band(is_thin, [lane]))
    return rows


class Band:
    """A row of lanes."""

    def __init__(self, is_thin, lanes):
        self.is_thin, self.lanes, self.under = is_thin, lanes, None

    def lane_height(self):
        return THIN if self.is_thin else TALL

    def height(self):
        return (THIN + 1) * len(self.lanes) - 1 if self.is_thin else TALL


def places_of(lane, row):
    """The damaged bits in drawn parts as (first, last + 1, count, what), near ones together."""
    damaged, apart = lane.damaged(), 6
    while True:
        places = []
        for first, end, what in damaged:
            if places and what == places[-1][3] and row.x(first) - row.x(places[-1][1] - 1) < apart:
                places[-1] = (places[-1][0], max(end, places[-1][1]), places[-1][2] + 1, what)
            else:
                places.append((first, end, 1, what))
        if len(places) <= MOST_PLACES or apart > row.right:
            return places
        apart *= 2


def place_text(first, end, count, what, skew=0):
    if what == "dark":
        return "bits %d to %d are dark" % (first, end - 1) if count == 1 else "bits of %d to %d are dark" % (first, end - 1)
    names = {"inverted": "inverted", "changed": "changed, not by the schedule"}
    if count == 1:
        return "bit %d is %s%s" % (first, names[what], " (bit %d as sent)" % (first - skew) if skew and what == "inverted" else "")
    if count == 2:
        return "bits %d and %d are %s" % (first, end - 1, names[what])
    return "%d bits of %d to %d are %s" % (count, first, end - 1, names[what])


def events_of(lane, row):
    """The events in drawn parts as (first bit, last bit, count, kinds), near ones together."""
    apart = 6
    while True:
        found = []
        for bit, kinds in sorted(lane.events.items()):
            if found and row.x(bit) - row.x(found[-1][1]) < apart:
                first, _, count, before = found[-1]
                found[-1] = (first, bit, count + len(kinds), before + [kind for kind in kinds if kind not in before])
            else:
                found.append((bit, bit, len(kinds), list(kinds)))
        if len(found) <= MOST_PLACES or apart > row.right:
            return found
        apart *= 2


def event_text(first, last, count, kinds):
    where = "word at bit %d" % first if first == last else "%d events of words at bits %d to %d" % (count, first, last)
    return "%s: %s" % (where, ", ".join(kinds))


def counts_text(lane):
    """What the program counted besides the first lock, if it is not 0."""
    usual = {"locks": "0" if lane.lock is None else "1"}
    odd = [key for key in COUNTS if lane.report.get(key, usual.get(key, "0")) != usual.get(key, "0")]
    return ", ".join("%s=%s" % (key, lane.report[key]) for key in odd)


def lock_text(lane):
    """What is said of the first lock, and of what the program counted besides."""
    text, counts = "no lock" if lane.lock is None else "locked at bit %d" % lane.lock, counts_text(lane)
    return text + (" (%s)" % counts if counts else "")


class Drawing:
    """The picture of lanes: first the texts of each lane are placed, then all is drawn."""

    def __init__(self, lanes, plan, as_sent):
        self.lanes, self.plan, self.as_sent = lanes, plan, as_sent
        self.row, self.width = axis_of(lanes, plan)
        self.groups = groups_of(lanes, plan)
        self.bands = bands_of(lanes)
        self.tops, top = {}, 40
        for band in self.bands:
            for place, lane in enumerate(band.lanes):
                self.tops[lane.number] = top + (THIN + 1) * place
            band.under = self.texts_of_band(band) if band.is_thin else self.texts_of_lane(band.lanes[0])
            top += band.height() + 8 + band.under.height() + LINE
        self.bottom = top

    def texts_of_band(self, band):
        labels, lanes = Labels(LEFT, self.width - 8), band.lanes
        skews, locks = [lane.front for lane in lanes], [lane.lock for lane in lanes]
        if len(lanes) == 1:
            text = "lane %d: skew %d, locked at bit %d, no damage" % (lanes[0].number, skews[0], locks[0])
        else:
            text = "lanes %d to %d: skews %d to %d, locked at bits %d to %d, no damage" % (lanes[0].number, lanes[-1].number, min(skews), max(skews), min(locks), max(locks))
        labels.place(LEFT, text, COLOURS["note"])
        return labels

    def texts_of_lane(self, lane):
        labels, text = Labels(LEFT, self.width - 8), lock_text(lane)
        if lane.front:
            labels.place(LEFT, "%d bits late" % lane.front, COLOURS["note"])
        if lane.lock is None:
            labels.place(LEFT, text, COLOURS["lost"])
        elif self.row.x(lane.lock) - LEFT > length_of(text) + 24:
            labels.place(self.row.x(lane.lock) - 4, text + " \u25b6", anchor="end")
        else:
            labels.place(self.row.x(lane.lock) + 2, "\u25c0 " + text)
        for first, end, count, what in places_of(lane, self.row):
            labels.place(self.row.x(first) + 12, place_text(first, end, count, what, lane.front), FILLS[what])
        for first, last, count, kinds in events_of(lane, self.row):
            labels.place(self.row.x(first) + 12, event_text(first, last, count, kinds), COLOURS["lost"])
        if lane.note:
            labels.place(LEFT, lane.note, COLOURS["note"])
        return labels

    def draw(self):
        legend = wrapped(self.legend(), self.width - LEFT)
        self.picture = Picture(self.width, self.bottom + 8 + LINE * (len(legend) + 1))
        self.draw_groups()
        for band in self.bands:
            for lane in band.lanes:
                self.draw_lane(lane, band.lane_height())
        self.draw_folds()
        for band in self.bands:
            lane = band.lanes[0]
            self.picture.text(8, self.tops[lane.number] + (10 if band.is_thin else 20), "%d lanes" % len(band.lanes) if len(band.lanes) > 1 else "lane %d" % lane.number)
            if not band.is_thin:
                self.draw_damage(lane)
            band.under.draw_backed(self.picture, self.tops[lane.number] + band.height() + LINE)
        self.draw_axis()
        for place, text in enumerate(legend):
            self.picture.text(LEFT, self.bottom + LINE * (place + 1) + 4, text)
        return self.picture

    def draw_axis(self):
        """The numbers of bits below the last lane."""
        scale = next((piece.width / (piece.last - piece.first) for piece in self.row.pieces if not piece.folded), 1)
        self.picture.text(8, self.bottom, "bit", COLOURS["note"])
        for bit, x in ticks_of(self.row, scale, 64):
            self.picture.line(x, self.bottom - 18, x, self.bottom - 13, COLOURS["note"])
            self.picture.text(x, self.bottom, "%d" % bit, COLOURS["note"], "middle")

    def draw_lane(self, lane, height):
        picture, row, top = self.picture, self.row, self.tops[lane.number]
        begin, end = row.x(lane.front), row.x(len(lane.bits))
        picture.box(begin, top, end - begin, height, COLOURS["lane"], "lane %d: skew %d, %d bits" % (lane.number, lane.front, len(lane.bits)), "lane")
        if lane.front:
            picture.box(LEFT, top, max(begin - LEFT, 3), height, COLOURS["skew"], "the %d ones of the skew" % lane.front)
        for at in lane.syncs:
            if row.shows(at):
                picture.box(row.x(at), top, max(row.x(at + CODE) - row.x(at), 1.5), height, COLOURS["sync"])
        for at in lane.missing_syncs(self.plan.period):
            if row.shows(at):
                picture.box(row.x(at), top + height / 4, max(row.x(at + CODE) - row.x(at), 1.5), height / 2, COLOURS["lost"], "no Sync word at bit %d" % at)

    def draw_damage(self, lane):
        picture, row, top = self.picture, self.row, self.tops[lane.number]
        for first, end, count, what in places_of(lane, row):
            if end - first > 1:
                picture.box(row.x(first), top + TALL, max(row.x(end - 1) - row.x(first), 1.5), 3, FILLS[what], place_text(first, end, count, what))
        for first, last, count, kinds in events_of(lane, row):
            picture.box(row.x(first), top + TALL, max(row.x(last + CODE) - row.x(first), 1.5), 5, COLOURS["lost"], event_text(first, last, count, kinds), "event")
        drawn = None
        for first, end, what in lane.damaged():
            if what == "dark":
                picture.box(row.x(first), top + TALL / 2 - 4, max(row.x(end - 1) - row.x(first), 1.5), 8, FILLS[what])
            elif drawn is None or row.x(first) - drawn >= 0.5:
                drawn = row.x(first)
                picture.line(drawn, top, drawn, top + TALL + 4, FILLS[what])

    def draw_groups(self):
        """The names of the groups over lane 0, and dashed lines between the Sync words of each."""
        labels = Labels(0, self.width)
        for group in self.groups:
            if not self.row.shows(group[0]):
                continue
            for upper, lower in zip(self.bands, self.bands[1:]):
                above, below = upper.lanes[-1].number, lower.lanes[0].number
                foot, head = self.tops[above] + upper.lane_height(), self.tops[below]
                if self.row.shows(group[below]):
                    self.picture.line(self.row.x(group[above]) + 2, foot, self.row.x(group[below]) + 2, head, COLOURS["sync"], "3 3")
        named = [at for at in [group[0] for group in self.groups] or self.lanes[0].syncs if self.row.shows(at)]
        for at in named:
            labels.place(self.row.x(at), "group %d" % at if self.groups else "at bit %d" % at)
        for at, (x, line, text, colour, anchor) in zip(named, labels.texts):
            if line == 0:
                place, rest = divmod(at - self.lanes[0].front, self.plan.period)
                self.picture.text(x, self.tops[0] - 6, text, colour, anchor, title="metaframe %d" % place if rest == 0 else "bit %d" % at)

    def draw_folds(self):
        for piece in self.row.pieces:
            if piece.folded:
                count = (piece.last - piece.first) // self.plan.period
                self.picture.fold(piece.x, 36, FOLD, self.bottom - 36 - LINE - 8, "", "%d bits, %d metaframes, in which no damage begins or ends" % (piece.last - piece.first, count))
                self.picture.text(piece.x + FOLD / 2, 54, "\u00d7%d" % count, COLOURS["note"], "middle")

    def legend(self):
        parts = ["grey: the ones of the skew", "dark: Sync words"]
        if self.groups and len(self.lanes) > 1:
            parts.append("dashed: the Sync words of one group")
        if self.groups:
            parts.append("a group is named as in the span table, by the bit of lane 0 at which its Sync word begins")
        if any(piece.folded for piece in self.row.pieces):
            parts.append("\u00d7n: n metaframes are left out, in which no lock or damage begins or ends")
        if any(lane.missing_syncs(self.plan.period) for lane in self.lanes):
            parts.append("red in the middle: no Sync word where one should begin")
        if any(lane.dark for lane in self.lanes):
            parts.append("violet: dark bits")
        if any(lane.events for lane in self.lanes):
            parts.append("red below a lane: what `inspect` tells of it besides locks")
        if not self.groups:
            parts.append("no groups: no Sync words of all lanes are within %d bits, the deskew depth" % (CODE * self.plan.deskew))
        if self.as_sent:
            are = "without" if any(lane.other for lane in self.lanes) else "as sent, without"
            parts.append("the lanes are %s the skews and the damage of the schedule" % are)
        return "; ".join(parts)


def draw_lanes(lanes, plan, as_sent, path):
    """Draws the lanes of a plan; returns how many lanes, groups and damaged places the picture has, and events, if there are some."""
    drawing = Drawing(lanes, plan, as_sent)
    drawing.draw().save(path)
    counts = {"lanes": len(lanes), "groups": len(drawing.groups), "damaged": sum(len(lane.damaged()) for lane in lanes)}
    events = sum(len(kinds) for lane in lanes for kinds in lane.events.values())
    return {**counts, "events": events} if events else counts
