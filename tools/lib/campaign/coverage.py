"""What a run hit: an item for each thing that can be, with how often it was."""

import re
from bisect import bisect_left, bisect_right
from collections import Counter
from itertools import groupby

from reading.control_words import is_reset
from reading.plans import CODE

WHYS = ("start", "bad", "crc", "protocol", "lost", "end")
DROPS = ("bad", "crc", "protocol", "lost", "end", "toolong", "unlisted", "sender")
LOSSES = ("lost", "unframed", "bad", "sync", "state", "diag")
ACCIDENTS = ("locks", "groups", "stretches")
# The least words of each class of bursts; the last class has no end.
BURSTS = (1, 2, 4, 8, 16, 32, 64, 128, 256)
BURST_ITEMS = (["burst of 1 word"] + ["burst of %d to %d words" % (least, after - 1) for least, after in zip(BURSTS[1:], BURSTS[2:])]
               + ["burst of %d words or more" % BURSTS[-1]])
SKEW_ITEMS = ["lane skew of 0 bits", "lane skew of 1 to 66 bits", "lane skew of 67 bits or more"]
SPREAD_ITEMS = ["skews within deskew", "skews beyond deskew"]
OFF, HELD = "channel off in mid-packet", "run held"
# What is counted by what the program prints, the span table and the schedule; and what is by the words of the stream.
OF_TEXT = (["span " + why for why in WHYS] + ["dropped " + why for why in DROPS] + ["lane " + why for why in LOSSES] + ["accident " + kind for kind in ACCIDENTS]
           + SKEW_ITEMS + SPREAD_ITEMS + [HELD])
OF_WORDS = ["eop %d" % size for size in range(1, 9)] + ["eop error"] + BURST_ITEMS + [OFF]


# What is not known of lanes that a command made.
NOT_OF_LANES = ["accident " + kind for kind in ACCIDENTS] + [HELD, OFF]


def text_counts(text):
    """What the printed lines count: drops, losses by lanes, accidents."""
    counts = Counter()
    for kind, names, line in (("dropped", DROPS, r"^dropped (.*)$"), ("lane", LOSSES, r"^lane \d+ (.*)$"), ("accident", ACCIDENTS, r"^accidents (.*)$")):
        for found in re.finditer(line, text, re.MULTILINE):
            values = dict(field.split("=") for field in found.group(1).split())
            counts.update({"%s %s" % (kind, name): int(values[name]) for name in names})
    counts[HELD] = len(re.findall(r"^held ", text, re.MULTILINE))
    return counts


def span_counts(rows):
    """The spans of a table by their reasons."""
    return Counter("span " + row[4] for row in rows[1:])


def skew_counts(skews, deskew):
    """The lanes by their skews, and the run by how far these lie apart."""
    counts = Counter(SKEW_ITEMS[0 if skew == 0 else 1 if skew < CODE else 2] for skew in skews)
    counts[SPREAD_ITEMS[max(skews) - min(skews) > CODE * deskew]] += 1
    return counts


def stream_counts(stream, plan, flow):
    """The ends of packets by the bytes of their last words, the bursts by their words, and the channels that go off in a packet by the
    flow rows, whose slots are not known of words that another sender sent: there are none then."""
    counts = Counter(BURST_ITEMS[bisect_right(BURSTS, words) - 1] for _, words, _ in stream.bursts)
    for packet in stream.packets:
        if packet.last is not None:
            end = stream.word(packet.last) >> 57 & 15
            counts["eop %d" % (end & 7 or 8) if end & 8 else "eop error"] += 1
    if flow is not None:
        counts[OFF] = off_in_packets(stream.packets, turned_off(flow, plan.entries))
    return counts


def off_in_packets(packets, changes):
    """How many of the changes (slot, channel) are after a packet's first word and not after its end word."""
    by_channel = {}
    for packet in packets:
        by_channel.setdefault(packet.channel, []).append(packet)
    count = 0
    for slot, channel in changes:
        of_channel = by_channel.get(channel, [])
        place = bisect_left(of_channel, slot, key=lambda packet: packet.first) - 1
        count += place >= 0 and (of_channel[place].last is None or slot <= of_channel[place].last)
    return count


def turned_off(flow, entries):
    """The channels that go off, (slot, channel), by the calendar of the rows of each slot together."""
    states, place = dict.fromkeys(entries, True), 0
    for slot, rows in groupby(flow.effects(), key=lambda effect: effect[0].slot):
        before = dict(states)
        for row, why in rows:
            if why:
                continue
            place = 0 if is_reset(row.word) else place
            for bit, channel in enumerate(entries[place:place + 16]):
                states[channel] = bool(row.word >> 55 - bit & 1)
            place += 16
        yield from ((slot, channel) for channel in states if before[channel] and not states[channel])
