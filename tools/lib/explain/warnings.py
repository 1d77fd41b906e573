"""What is accepted and yet may not be meant: rows that strike nothing, words that do not count, lanes that do not align."""

import re
from collections import Counter

from reading.files import shown_name
from reading.lane_bits import FIRST_STATE, bits_of, first_state
from reading.placing import SentPlaces
from reading.plans import CODE, MOST_SKEW
from reading.strikes import spans_struck, strikes_of
from reading.words import meets, missing_of, slots_of, span_rows, spans_at

# Rows of one kind that have lines of their own; the others are counted.
SHOWN = 5


def warning(name, row, why):
    return "%s:%d: warning: %s" % (shown_name(name), row.line, why)


def some(lines, what):
    """The first of many lines, and how many more there are."""
    return lines if len(lines) <= SHOWN + 1 else lines[:SHOWN] + ["%s and %d more %s" % (lines[0].split(":")[0] + ": warning:", len(lines) - SHOWN, what)]


# ---- before a run

def before(inputs):
    """What the files say by themselves."""
    lines = flow_words(inputs.flow) if inputs.flow else []
    if inputs.schedule:
        # Lanes that are there may have skews of their own, and are received by another plan.
        lines += [] if inputs.command == "damage" else wide_skews(inputs.plan, inputs.schedule)
        lines += even_flips(inputs.schedule) + dark_flips(inputs.schedule)
    return lines


def flow_words(flow):
    lines = [warning(flow.name, row.row, "word: %s changes nothing: %s" % (row.row.fields[1], why)) for row, why in flow.effects() if why]
    return some(lines, "flow rows change nothing")


def wide_skews(plan, schedule):
    skew = schedule.skew
    least, most = (skew.index(value) for value in (min(skew), max(skew)))
    apart, room = skew[most] - skew[least], CODE * plan.deskew
    if apart <= room:
        return []
    told = "skew: lanes %d and %d lie %d bits apart, more than deskew,%d aligns, %d bits (%d words of %d)" % (least, most, apart, plan.deskew, room, plan.deskew, CODE)
    comes = "the lanes will not align" if least_spread(skew, plan.period) > room else "Sync words will be taken together that do not belong together"
    return [warning(schedule.name, schedule.skew_rows[most], "%s: %s" % (told, comes))]


def even_flips(schedule):
    """Flips of a bit that is named an even number of times, and so stays as it was."""
    count = Counter(tuple(numbers) for _, key, numbers in schedule.rows if key == "flip")
    first, lines = {}, []
    for row, key, numbers in schedule.rows:
        place = tuple(numbers)
        if key != "flip" or count[place] % 2:
            continue
        before = first.setdefault(place, row)
        if before is not row:
            told = "flip: bit %d of lane %d is named %d times, first in line %d, and stays as it was"
            lines.append(warning(schedule.name, row, told % (place[1], place[0], count[place], before.line)))
            count[place] = 1  # told once
    return some(lines, "bits are named an even number of times")


def dark_flips(schedule):
    """Flips of dark bits, which stay 0."""
    lines = []
    for row, key, numbers in schedule.rows:
        if key == "flip" and schedule.is_dark(*numbers):
            lines.append(warning(schedule.name, row, "flip: bit %d of lane %d is dark, and stays 0" % (numbers[1], numbers[0])))
    return some(lines, "flips are of dark bits")


# ---- after a run

def after(inputs, text):
    """What needs the number of slots, or is said by the text of the run."""
    slots, lines = slots_of(text), []
    if slots is not None and inputs.plan and not inputs.settings:
        if inputs.schedule:
            lines += beyond_lanes(inputs.schedule, [inputs.plan.sent_bits(slots)] * inputs.plan.lanes) + vain_strikes(inputs, slots, text)
        lines += beyond_stream(inputs.flow, slots) + beyond_stream(inputs.local, slots)
    if inputs.command == "damage" and inputs.schedule:
        names = ["%s.lane.%d" % (inputs.plan.out, lane) for lane in range(inputs.plan.lanes)]
        lines += beyond_lanes(inputs.schedule, [8 * inputs.folder.size(name) for name in names])
    lines += held(inputs, text) + locks(inputs, text) + accidents(text)
    return lines + (exchanged(inputs) if inputs.command in ("receive", "gather", "inspect") and inputs.plan else [])


def beyond_lanes(schedule, lanes):
    """Rows of a schedule that name bits after a lane's last, of lanes with so many bits."""
    lines = []
    for row, key, numbers in schedule.rows:
        lane, first = numbers[:2]
        bits, end = lanes[lane], first + (numbers[2] if key == "dark" else 1)
        if key == "skew" or end <= bits:
            continue
        what = "bits %d to %d go beyond" % (first, end - 1) if key == "dark" else "bit %d is after" % first
        struck = "it has no effect" if first >= bits else "it strikes %d bits of %d" % (bits - first, end - first)
        has = "bits 0 to %d" % (bits - 1) if bits else "no bits"
        lines.append(warning(schedule.name, row, "%s: %s the end of lane %d, which has %s: %s" % (key, what, lane, has, struck)))
    return some(lines, "rows are beyond the ends of lanes")


def vain_strikes(inputs, slots, text):
    """Rows of a schedule that strike words and cost no packet: their spans meet none, or no packet is missing and they have no slots.
    If the run counted accidents nothing is known."""
    plan, schedule, name = inputs.plan, inputs.schedule, inputs.plan.out + ".spans.csv"
    if not schedule.rows or not re.search("^accidents locks=0 groups=0 stretches=0$", text, re.MULTILINE):
        return []
    spans = spans_at(span_rows(inputs.folder, name), SentPlaces(plan, schedule.skew), slots)
    missing, lines = [packet for packet, _ in missing_of(text)], []
    for strike in strikes_of(plan, schedule, plan.sent_bits(slots)):
        struck = [spans[number] for number in spans_struck(strike, spans)]
        is_vain = struck if strike.slots else not missing
        if is_vain and not any(meets(span, packet) for span in struck for packet in missing):
            lines.append(warning(schedule.name, strike.row, "%s: it strikes no packet" % strike_text(strike)))
    return some(lines, "rows strike no packet")


def strike_text(strike):
    """The bits of a row, and the slots or the framing words that they are in."""
    is_one = strike.first == strike.last
    bits = "bit %d of lane %d is" % (strike.first, strike.lane) if is_one else "bits %d to %d of lane %d are" % (strike.first, strike.last, strike.lane)
    if strike.slots is None:
        return "%s: %s in %s" % (strike.key, bits, "a framing word" if is_one else "framing words")
    first, last = strike.slots
    return "%s: %s in %s" % (strike.key, bits, "slot %d" % first if first == last else "slots %d to %d" % (first, last))


def beyond_stream(file, slots):
    """Rows of a flow or local file at slots that the stream does not have."""
    told = "slot: %d is after the last slot of the stream, %d: the row changes nothing"
    rows = [row for row in file.rows if row.slot >= slots] if file else []
    return some([warning(file.name, row.row, told % (row.slot, slots - 1)) for row in rows], "rows are after the last slot")


def held(inputs, text):
    """Channels that the flow file leaves off, so that packets are left."""
    found = re.search(r"^held channel=(\d+)$", text, re.MULTILINE)
    if not found or not inputs.flow:
        return []
    off = inputs.flow.off_rows(inputs.plan.entries)
    lines = []
    for channel, left in re.findall(r"^sent channel=(\d+) .*left=(\d+)$", text, re.MULTILINE):
        if int(left) and int(channel) in off:
            told = "channel %s is turned off here and not turned on again: %s of its packets are left" % (channel, left)
            lines.append(warning(inputs.flow.name, off[int(channel)], told))
    return some(lines, "channels are off at the end")


def locks(inputs, text):
    """Lanes that declared no lock, and locks that lie too far apart for a group, if the command forms some."""
    reports = re.findall(r"^lane (\d+) locks=(\d+) first=(\S+)", text, re.MULTILINE)
    if not reports or not inputs.plan:
        return []
    plan = inputs.plan
    told = "%s.lane.%s: warning: no lock: four Sync words, %d words apart (metaframe,%d), were not found"
    lines = [told % (plan.out, lane, plan.metaframe, plan.metaframe) for lane, count, _ in reports if count == "0"]
    if inputs.command == "inspect":
        return some(lines, "lanes have no lock")
    if lines:
        kept = "%s: warning: a lane without a lock keeps all lanes from aligning: no %s can come"
        return some(lines, "lanes have no lock") + [kept % (plan.out, "word" if inputs.command == "gather" else "packet")]
    if any(count != "1" for _, count, _ in reports):
        return []  # a later lock may align
    apart, room = least_spread([int(first) for _, _, first in reports], plan.period), CODE * plan.deskew
    told = "%s: warning: all lanes are locked, and do not align: the nearest Sync words of all lanes lie %d bits apart, and deskew,%d aligns %d"
    return [told % (plan.out, apart, plan.deskew, room)] if apart > room else []


def exchanged(inputs):
    """Lane files that begin with the scrambler state of another lane."""
    plan, lines = inputs.plan, []
    seen = (MOST_SKEW + 2 * plan.period) // 8
    for lane in range(plan.lanes):
        name = "%s.lane.%d" % (plan.out, lane)
        state = first_state(bits_of(inputs.folder.beginning(name, seen))) if inputs.folder.has(name) else None
        other = lane if state is None else FIRST_STATE - state
        if other != lane and other < plan.lanes:
            lines.append("%s: warning: it begins with the scrambler state of lane %d: are the lane files swapped?" % (name, other))
    return some(lines, "lanes begin with the state of another")


def least_spread(places, period):
    """The least number of bits within which each of these places, repeated with the period, occurs."""
    phases = sorted({place % period for place in places})
    gaps = [second - first for first, second in zip(phases, phases[1:] + [phases[0] + period])]
    return period - max(gaps)


def accidents(text):
    """What the receiver took for the sender's and was not, which `link` counts."""
    found = re.search(r"^accidents locks=(\d+) groups=(\d+) stretches=(\d+)$", text, re.MULTILINE)
    if not found or set(found.groups()) == {"0"}:
        return []
    names = ("false locks", "groups of Sync words that do not belong together", "stretches of other words whose CRC24 is right")
    told = ", ".join("%s %s" % (count, name) for count, name in zip(found.groups(), names) if count != "0")
    return ["explain: warning: accidents: %s: what came may be other than what was sent" % told]
