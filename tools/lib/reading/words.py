"""A stream as its words file has it: its packets, its quiet runs, and the fault spans that a receiver told."""

import re
from bisect import bisect_right
from collections import namedtuple

from reading.files import Refused
from reading.tables import table_of


class Packet(namedtuple("Packet", "channel number first last data end")):
    """A packet of a channel by its number there, from the slot of its SOP word to that of its end word, or None; its bytes; and its end
    format."""

    def is_good(self, longest):
        """Whether a receiver delivers it if no span meets it."""
        return self.last is not None and self.end & 8 != 0 and len(self.data) <= longest


# A fault span between two slots, each None at an end of the stream; why; whether its groups are the sender's; and its two places as
# the table has them, (group, index) or None.
Span = namedtuple("Span", "after before why exact places")


def kind_of(tag, first):
    """A letter for a word by its tag and first byte: d data, x bad, b burst word, i idle, e idle that ends a packet."""
    if tag != 2:
        return b"dx"[tag == 3]
    return ord("b") if first & 0x40 else ord("e") if first & 0x1E else ord("i")


REASONS = ("start", "end", "bad", "crc", "protocol", "lost")
NO_DATA = re.compile("[^d]")
KINDS = [[kind_of(tag, first) for first in range(256)] for tag in range(4)]


class Stream:
    """The words of a file. `kinds` has a letter for each, `packets` are in the order of their SOP words."""

    def __init__(self, folder, name, plan):
        self.data = folder.words_bytes(name)
        self.kinds = bytes(KINDS[tag][first] for tag, first in zip(self.data[::9], self.data[1::9])).decode()
        self.count = len(self.kinds)
        self.bursts = []  # the slot, the data words and the channel of each
        self.packets = self.find_packets(plan)

    def word(self, slot):
        return int.from_bytes(self.data[9 * slot + 1:9 * slot + 9], "big")

    def find_packets(self, plan):
        open_at, numbers, found, channel = {}, {}, [], None
        for match in re.finditer("i+|[be]", self.kinds):
            slot = match.start()
            word = self.word(slot)
            if word >> 57 & 15 and channel in open_at:
                found.append(self.packet(channel, numbers, open_at.pop(channel), slot, word >> 57 & 15))
            channel = plan.channel_of(word) if word >> 62 & 1 else None
            if channel is None:
                continue
            end = self.end_of_data(slot + 1)
            self.bursts.append((slot, end - slot - 1, channel))
            if word >> 61 & 1:
                open_at[channel] = (slot, [])
            if channel in open_at:
                open_at[channel][1].append((slot + 1, end))
        found += [self.packet(channel, numbers, begun, None, 8) for channel, begun in sorted(open_at.items())]
        return sorted(found, key=lambda packet: packet.first)

    def end_of_data(self, slot):
        found = NO_DATA.search(self.kinds, slot)
        return found.start() if found else self.count

    def burst_at(self, slot):
        """The last burst that begins at a slot or before it, or None."""
        place = bisect_right(self.bursts, (slot, self.count, 0)) - 1
        return self.bursts[place] if place >= 0 else None

    def packet(self, channel, numbers, begun, last, end_format):
        number = numbers[channel] = numbers.get(channel, -1) + 1
        first, parts = begun
        data = b"".join(self.data[9 * at + 1:9 * at + 9] for begin, end in parts for at in range(begin, end))
        unused = 8 - (end_format & 7 or 8) if end_format & 8 else 0
        return Packet(channel, number, first, last, data[:len(data) - unused], end_format)

    def runs(self, letters, least):
        """The runs of at least this many words of these letters."""
        return [match.span() for match in re.finditer("[%s]{%d,}" % (letters, least), self.kinds)]


SPAN_HEADING = "after_group,after_index,before_group,before_index,why".split(",")


def span_rows(folder, name):
    """The rows of a table of fault spans: where each stands, its two places, and why. A group is named by the bit at which lane 0's Sync
    word begins; all words of a words file are group 0."""
    found = []
    for where, *places, why in table_of(folder, name, SPAN_HEADING):
        if why not in REASONS:
            raise Refused("%s: %r is no reason of a span" % (where, why[:20]))
        found.append((where, [place_of(where, part) for part in (places[:2], places[2:])], why))
    return found


def spans_at(rows, places, count=None):
    """The fault spans of a table's rows, by slots, which are below `count`."""
    return [Span(*(slot_of(where, place, places, count) for place in pair), why, all(not place or places.has_group(place[0]) for place in pair), pair)
            for where, pair, why in rows]


def begin_of(pairs, plan, skew):
    """The bit of lane 0 at which its first Sync word begins: its skew, or 0 if the groups only fit that, since the lanes were
    received as they were sent."""
    groups = [place[0] for pair in pairs for place in pair if place and place[0]]
    return next((begin for begin in (skew, 0) if all(is_sent(group, plan, begin) for group in groups)), skew)


def is_sent(group, plan, begin):
    """Whether a group is named by a bit at which a sent Sync word begins, or is that of a words file."""
    return group == 0 or (group - begin) % plan.period == 0


def place_of(where, fields):
    if fields == ["-", "-"]:
        return None
    if not all(part.isascii() and part.isdigit() for part in fields):
        raise Refused("%s: no place" % where)
    return int(fields[0]), int(fields[1])


def slot_of(where, place, places, count):
    """The slot of a place."""
    if place is None:
        return None
    slot = places.slot_at(*place)
    if slot is None:
        raise Refused("%s: the table of places has no word %d of group %d: these files are not of one run" % (where, place[1], place[0]))
    if count is not None and slot >= count:
        raise Refused("%s: slot %d, and the words file has %d" % (where, slot, count))
    return slot


def are_joined(spans):
    """Whether spans are of a words file, as `join` writes them, and not of lanes."""
    return any(place and not place[0] for span in spans for place in span.places)


def covers(span, first, last):
    """Whether a span has one of these slots between its ends."""
    return (span.after is None or span.after < last) and (span.before is None or first < span.before)


def meets(span, packet):
    """Whether a span costs a packet."""
    return packet.last is not None and covers(span, packet.first, packet.last)


def missing_of(text):
    """The packets that did not come, as `link` printed them, each with the number of its span."""
    for line in re.findall(r"^missing channel=(\d+) packet=(\d+) first=(\d+) last=(\d+) span=(\d+)$", text, re.MULTILINE):
        *places, span = map(int, line)
        yield Packet(*places, None, None), span


def slots_of(text):
    """The slots of the stream, as a run printed them, or None."""
    printed = re.search(r"^slots (\d+)$", text or "", re.MULTILINE)
    return int(printed.group(1)) if printed else None
