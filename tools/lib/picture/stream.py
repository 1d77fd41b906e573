"""Draws a stream by slots: its words, the fault spans, the damaged words, and the packets of each channel with those that came."""

from picture.axis import best_scale, folded, rows_of
from picture.svg import COLOURS, LINE, Labels, Picture, channel_colours, length_of, wrapped
from reading.words import meets

LEFT, WIDTH, FOLD = 104, 900, 48
ROOM = WIDTH - LEFT - 30
IDLES, DATA = 24, 96  # shorter runs are not left out
FEW = 900  # slots of a stream that is drawn whole but for such runs
MOST_ROWS, LEAST_SCALE = 30, 3
MOST_STRIPS = 6  # channels of a row that have strips of their own if none of their packets is lost
STRIP, EDGE = 36, 5
MOST_FAULTS = 6  # words of a row that break a rule and have texts of their own
MOST_LINES = 3  # of texts of spans over a row
MOST_NAMED = 4  # lanes that are named in the text of damaged slots


def marks_of(stream, spans, damaged, lost, faults=()):
    """The parts of a long stream that are drawn: around the ends of its packets, of fault spans and of packets that did not come."""
    ends = [(stream.packets[0].first - 4, stream.packets[0].first + 60)] if stream.packets else []
    ends += [(slot - 40, slot + 8) for slot in [max(packet.last or packet.first for packet in stream.packets)]] if stream.packets else []
    keep = [(slot - 6, slot + 7) for slot in [*damaged, *faults]]
    keep += [(slot - 6, slot + 10) for span in spans for slot in (span.after, span.before) if slot is not None]
    keep += [(slot - 3, slot + 4) for packet in lost for slot in (packet.first, packet.last)]
    return keep + ends


def parts_of(stream, spans, damaged, lost, faults):
    """The axis, folded if the stream is quiet: long runs of idles and of data, and where it is long all that has no mark."""
    quiet = [(a, b) for a, b in stream.runs("i", IDLES)] + [(a, b) for a, b in stream.runs("d", DATA)]
    shown, at = [], 0
    for first, last in sorted(quiet):
        shown.append((at, first + 4))
        at = last - 4
    shown.append((at, stream.count))
    shown = [(a if a == 0 else max(a, 0), b) for a, b in shown if not (b - a <= 4 and (a == 0 or b == stream.count))]
    marks = marks_of(stream, spans, damaged, lost, faults)
    if sum(b - a for a, b in shown) > FEW:
        shown = []
    shown += [(max(a, 0), min(b, stream.count)) for a, b in marks]
    return folded(0, stream.count, shown or [(0, min(stream.count, 60))], 16)


class Strip:
    """The packets of a channel in a row of the picture, or of several whose packets all came."""

    def __init__(self, name, channels, packets):
        self.name, self.channels, self.packets = name, channels, packets


class Drawing:
    def __init__(self, stream, plan, spans, damaged, came, faults, skews=()):
        self.skews = skews  # by lane; empty where words were gathered
        self.stream, self.spans, self.damaged, self.places, self.came, self.faults = stream, spans, sorted(damaged), damaged, came, faults
        self.lost = [packet for packet in stream.packets if any(meets(span, packet) for span in spans)]
        self.colours = channel_colours(plan.channels)
        self.parts = parts_of(stream, spans, self.damaged, self.lost, faults)
        self.scale = best_scale(self.parts, ROOM, FOLD, LEAST_SCALE, MOST_ROWS)
        self.scale = min(self.scale, 12)
        self.rows = rows_of(self.parts, LEFT, LEFT + ROOM, self.scale, FOLD)
        self.is_lost = set(self.lost)
        self.notes = self.notes_of()
        self.layout = [self.layout_of(row) for row in self.rows]

    def layout_of(self, row):
        """The texts over a row and under its words, and its strips."""
        over, under = self.span_labels(row), Labels(LEFT, WIDTH - 8)
        for first, last, count in self.damaged_places(row):
            few = {1: "slot %d is damaged" % first, 2: "slots %d and %d are damaged" % (first, last)}
            text = few.get(count, "%d of slots %d to %d are damaged" % (count, first, last))
            places = [place for slot in self.damaged if first <= slot <= last for place in self.places[slot]]
            under.place(row.x(first) + 4, "%s: %s" % (text, places_text(places, self.skews)), COLOURS["lost"])
        for slot in self.faults_in(row)[:MOST_FAULTS]:
            under.place(row.x(slot) + 4, "slot %d breaks %s" % (slot, ", ".join(self.faults[slot])), COLOURS["flip"])
        return over, under, self.strips_of(row)

    def faults_in(self, row):
        """The slots of a row whose words break a rule."""
        return [slot for slot in sorted(self.faults) if row.first <= slot < row.last]

    def shown_part(self, row, span):
        """The slots of a row that are in a span, or None."""
        return row.clip(-1 if span.after is None else span.after, self.stream.count if span.before is None else span.before)

    def span_labels(self, row):
        """The texts of a row's spans, each its own if there is room, and else those of near ones together."""
        here = [(number, span) for number, span in enumerate(self.spans) if self.shown_part(row, span)]
        apart = 0
        while True:
            near = []
            for number, span in here:
                x = row.x(self.shown_part(row, span)[0])
                if near and x - near[-1][0] < apart:
                    near[-1][1].append((number, span))
                else:
                    near.append((x, [(number, span)]))
            labels = Labels(8, WIDTH - 8)
            for x, spans in near:
                labels.place(x, spans_text(spans), span_colours([span for _, span in spans])[2])
            if len(labels.lines) <= MOST_LINES or apart > WIDTH:
                return labels
            apart = 2 * apart + 20

    def damaged_places(self, row):
        """The damaged slots of a row as (first, last, count), those together whose marks are near each other."""
        places, apart = [], 6
        slots = [slot for slot in self.damaged if row.first <= slot < row.last]
        while True:
            places = []
            for slot in slots:
                if places and row.x(slot) - row.x(places[-1][1]) < max(apart, self.scale * 1.5):
                    places[-1] = (places[-1][0], slot, places[-1][2] + 1)
                else:
                    places.append((slot, slot, 1))
            if len(places) <= 8:
                return places
            apart *= 2

    def strips_of(self, row):
        here = [packet for packet in self.stream.packets if row.clip(packet.first, (packet.last or packet.first) + 1)]
        by_channel = {}
        for packet in here:
            by_channel.setdefault(packet.channel, []).append(packet)
        plain = [channel for channel in sorted(by_channel) if not self.is_lost.intersection(by_channel[channel])]
        together = plain if len(plain) > MOST_STRIPS else []
        strips = [Strip("channel %d" % channel, [channel], by_channel[channel]) for channel in sorted(by_channel) if channel not in together]
        if together:
            strips.append(Strip("%d channels" % len(together), together, [packet for channel in together for packet in by_channel[channel]]))
        return strips

    def notes_of(self):
        """What came of each channel, if it is not all that was sent, or not what the spans say."""
        notes = []
        for channel in sorted({packet.channel for packet in self.stream.packets} | set(self.came)):
            sent = [packet for packet in self.stream.packets if packet.channel == channel and packet.last is not None]
            met = sum(packet in self.is_lost for packet in sent)
            right = [packet.data for packet in sent if packet not in self.is_lost and packet.end & 8]
            came = self.came.get(channel, [])
            if met or right != came:
                notes.append(("channel %d: %d packets sent, %d lost, %d delivered" % (channel, len(sent), met, len(came)), right == came))
        return notes

    def draw(self):
        legend = wrapped(self.legend(), WIDTH - LEFT)
        heights = [over.height() + 60 + max(under.height(), LINE) + STRIP * len(strips) for over, under, strips in self.layout]
        self.picture = Picture(WIDTH, sum(heights) + 20 * len(heights) + LINE * (len(legend) + len(self.notes)) + 16)
        top = 4
        for row, layout, height in zip(self.rows, self.layout, heights):
            self.draw_row(row, layout, top, height)
            top += height + 20
        for text, agrees in self.notes:
            self.picture.text(LEFT, top + 8, text + ("" if agrees else ", which are others than the spans leave"), COLOURS["ink"] if agrees else COLOURS["lost"])
            top += LINE
        for text in legend:
            self.picture.text(LEFT, top + 8, text)
            top += LINE
        return self.picture

    def draw_row(self, row, layout, top, height):
        over, under, strips = layout
        words = top + over.height() + 20
        for number, span in enumerate(self.spans):
            part = self.shown_part(row, span)
            if part:
                x, deep = row.x(part[0]), height - over.height() - 2
                fill, edge, _ = span_colours([span])
                self.picture.box(x, words - 14, row.end(part[1]) - x, deep, fill, span_text(number, span), "span")
                self.picture.line(x, words - 14, x, words - 14 + deep, edge)
        over.draw(self.picture, top + LINE)
        self.draw_words(row, words)
        self.picture.text(8, words + 20, "words")
        numbers = "%d to %d" % (row.first, row.last - 1)
        for place, text in enumerate([numbers] if length_of(numbers) < LEFT - 12 else ["%d to" % row.first, "%d" % (row.last - 1)]):
            self.picture.text(8, words + 34 + 14 * place, text, COLOURS["note"])
        for slot in self.damaged:
            if row.first <= slot < row.last:
                x = row.x(slot) + (self.scale / 2 if row.shows(slot) else 0)
                self.picture.line(x, words - 6, x, words + 38, COLOURS["lost"])
        for slot in self.faults_in(row):
            x = row.x(slot) + (self.scale / 2 if row.shows(slot) else 0)
            self.picture.line(x, words + 30, x, words + 42, COLOURS["flip"])
        under.draw(self.picture, words + 50)
        at = words + 62 + max(under.height() - LINE, 0)
        for strip in strips:
            self.draw_strip(row, strip, at)
            at += STRIP

    def draw_words(self, row, top):
        for piece in row.pieces:
            if piece.folded:
                self.draw_fold(piece, top)
                continue
            if self.scale >= 2:
                for slot in range(piece.first, piece.last):
                    self.draw_word(row, slot, top)
                continue
            for slot, data, channel in self.stream.bursts:
                part = (max(slot, piece.first), min(slot + 1 + data, piece.last))
                if part[0] < part[1]:
                    self.picture.box(row.x(part[0]), top + 6, self.scale * (part[1] - part[0]), 18, self.colours.get(channel, COLOURS["note"]))
                    if part[0] == slot:
                        self.picture.box(row.x(slot), top, max(self.scale, 0.6), 30, self.colours.get(channel, COLOURS["note"]))

    def draw_word(self, row, slot, top):
        kind, channel = self.stream.kinds[slot], self.channel_at(slot)
        colour = COLOURS["lost"] if kind == "x" else self.colours.get(channel, COLOURS["note"]) if channel is not None else COLOURS["idle"]
        is_control = kind in "bie"
        self.picture.box(row.x(slot), top if is_control else top + 6, max(self.scale - 0.6, 0.6), 30 if is_control else 18, colour)

    def channel_at(self, slot):
        """The channel of the burst that a slot is in, or None."""
        burst = self.stream.burst_at(slot)
        return burst[2] if burst and slot <= burst[0] + burst[1] else None

    def draw_fold(self, piece, top):
        count = piece.last - piece.first
        kinds = set(self.stream.kinds[piece.first:piece.last])
        what = "idles" if kinds == {"i"} else "data words" if kinds == {"d"} else "words"
        packets = sum(piece.first <= packet.first and (packet.last or packet.first) < piece.last for packet in self.stream.packets)
        self.picture.fold(piece.x, top, piece.width, 30, "%d" % count, "slots %d to %d: %d %s%s" % (piece.first, piece.last - 1, count, what, ", %d packets" % packets if packets else ""))

    def draw_strip(self, row, strip, top):
        self.picture.text(8, top + 16, strip.name)
        inside, colour = {}, self.colours.get(strip.channels[0], COLOURS["note"])
        for packet in strip.packets:
            first, last = row.clip(packet.first, (packet.last or packet.first) + 1)
            piece = row.piece(first)
            if piece.folded and piece.first <= packet.first and (packet.last or packet.first) < piece.last:
                inside.setdefault(piece, []).append(packet)
            else:
                self.draw_packet(row, packet, first, last, top)
        for piece, packets in inside.items():
            self.picture.box(piece.x + EDGE, top + 4, piece.width - 2 * EDGE, 14, colour, "%d packets, all of which came" % len(packets), "packets")
            if length_of("%d" % len(packets)) <= piece.width - 2 * EDGE:
                self.picture.text(piece.x + piece.width / 2, top + 15, "%d" % len(packets), "white", "middle")

    def draw_packet(self, row, packet, first, last, top):
        """A packet; if it begins or ends in a folded part, only the edge of that is drawn."""
        lost, begin, end = packet in self.is_lost, row.piece(first), row.piece(last - 1)
        x = begin.x + begin.width - EDGE if begin.folded and first > row.first and first > begin.first else row.x(first)
        to_x = end.x + EDGE if end.folded and last < row.last and last < end.last else row.end(last)
        colour = COLOURS["note"] if packet.last is None else self.colours.get(packet.channel, COLOURS["note"])
        told = "no end word" if packet.last is None else "to %d, %d bytes%s" % (packet.last, len(packet.data), ", did not come" if lost else "")
        title = "channel %d, packet %d: slots %d %s" % (packet.channel, packet.number, packet.first, told)
        part = (x + 0.8, top, max(to_x - x - 1.4, 0.6), 22, colour, title)
        if lost:
            self.picture.frame(*part, "lost packet")
        else:
            self.picture.box(*part, "packet")
        if length_of("%d" % packet.number) + 6 <= to_x - x:
            self.picture.text(x + 3, top + 15, "%d" % packet.number, colour if lost else "white")

    def legend(self):
        parts = ["tall: control words", "outlined: packets that a span meets, which were lost"] if self.lost else ["tall: control words"]
        if any(is_folded for _, _, is_folded in self.parts):
            parts.append("dashed box: so many slots are not shown")
        if self.faults:
            parts.append("marks below words: rules that `check` says they break")
        if any(packet.last is None for packet in self.stream.packets):
            parts.append("grey packets: no end word in the stream")
        if not all(span.exact for span in self.spans):
            parts.append("a span is named by a group that was not sent, and drawn from the one before")
        return "; ".join(parts)


def places_text(places, skews):
    """The lanes of damaged places, (lane, first bit, last bit) each, and their bits where they are of one lane; a single bit also as a
    schedule counts it."""
    lanes = sorted({lane for lane, _, _ in places})
    if len(lanes) > MOST_NAMED:
        return "%d lanes" % len(lanes)
    if len(lanes) > 1:
        return "lanes %s" % ", ".join("%d" % lane for lane in lanes)
    first, last = min(first for _, first, _ in places), max(last for _, _, last in places)
    skew = skews[lanes[0]] if skews else 0
    one = " %d%s" % (first, " (%d as sent)" % (first - skew) if skew else "")
    return "lane %d, bit%s" % (lanes[0], one if first == last else "s %d to %d" % (first, last))


def span_text(number, span):
    if span.after is None and span.before is None:
        return "span %d of all slots: %s" % (number, span.why)
    if span.after is None:
        return "span %d up to slot %d: %s" % (number, span.before, span.why)
    if span.before is None:
        return "span %d from slot %d on: %s" % (number, span.after, span.why)
    return "span %d of slots %d to %d: %s" % (number, span.after, span.before, span.why)


def span_colours(spans):
    """The colours of the area, the edge and the text of spans: grey for what is at the start and at the end of every stream."""
    if all(span.why in ("start", "end") for span in spans):
        return "#e5e8e8", COLOURS["idle"], COLOURS["note"]
    return COLOURS["span"], COLOURS["edge"], COLOURS["flip"]


def spans_text(spans):
    """What is said of one span, or of several that follow one another."""
    if len(spans) == 1:
        return span_text(*spans[0])
    (first, begin), (last, end) = spans[0], spans[-1]
    slots = ["" if slot is None else " %s slot %d" % (word, slot) for word, slot in (("from", begin.after), ("to", end.before))]
    return "spans %d to %d%s: %s" % (first, last, "".join(slots), ", ".join(sorted({span.why for _, span in spans})))


def draw_stream(stream, plan, spans, damaged, came, faults, skews, path):
    """Draws a stream; `damaged` has by slot its damaged places, (lane, first bit, last bit), `came` the packets of the captures by
    channel, `faults` by slot the rules that its word breaks, and `skews` by lane its skew, if the words were sent. Returns how many words, packets, lost packets and spans there are, and
    faults, if there are some."""
    drawing = Drawing(stream, plan, spans, damaged, came, faults, skews)
    drawing.draw().save(path)
    counts = {"words": stream.count, "packets": len(stream.packets), "lost": len(drawing.lost), "spans": len(spans)}
    return {**counts, "faults": sum(map(len, faults.values()))} if faults else counts
