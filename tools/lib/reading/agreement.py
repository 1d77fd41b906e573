"""Whether the files of a plan are of one run: its schedule, lanes, spans, captures and words, and the text that was printed.

Files of two runs (of the plan or the schedule before it was changed, or of another plan with the same `out`) would be shown as what
never was, so that they are refused.
"""

import re
from bisect import bisect_left
from collections import Counter

from reading.files import Refused, shown_name
from reading.lane_words import bits_between, code_at, has_right_crc
from reading.metaframes import Metaframes
from reading.outputs import names_captures
from reading.plans import CODE
from reading.words import are_joined, is_sent, meets, missing_of, slots_of

HEADER, OTHERS = 3 << 64, (1 << CODE) - 1 & ~(3 << 64)  # the bits of a code


def anew(plan):
    """What is said of files of two runs: they are there, so none of them is written over."""
    told = "these files are not of one run"
    return told + ": `interlaken link` and then `interlaken burst` of this plan with another `out` make new files" * names_captures(plan)


def changed_schedule(plan):
    """What is said of lanes that a schedule did not make."""
    return "the schedule was changed after the run" + "; `interlaken link` of this plan with another `out` makes new lanes" * names_captures(plan)


# ---- the words, the spans, the captures and the text

def must_be_of_run(stream, name, plan, spans, came, text, is_gathered=False):
    """An error if the words of a stream are not those of the printed text, or not those that the spans and the captures are of. Of
    gathered words the text does not tell."""
    if is_gathered:
        must_have_spans(plan, spans, text)
    else:
        must_be_of_text(stream, name, plan, spans, text)
    if re.search(r"^accidents (?!locks=0 groups=0 stretches=0$)", text, re.MULTILINE):
        return  # what came may be other than the spans leave
    for channel in plan.channels:
        left = [packet.data for packet in stream.packets if packet.channel == channel and packet.is_good(plan.max_packet) and not any(meets(span, packet) for span in spans)]
        if left != came[channel]:
            also = "" if "\naccidents " in "\n" + text else "; where `link` counted an accident, --text with what it printed tells"
            raise Refused("%s: no span meets %d packets of channel %d, and %s.%d.pcap has %s: %s%s" % (
                name, len(left), channel, plan.out, channel, "%d" % len(came[channel]) if len(came[channel]) != len(left) else "others", anew(plan), also))


def must_be_of_text(stream, name, plan, spans, text):
    """An error if the stream has not the slots and packets that were sent by the printed text."""
    sent = {packet.channel: 0 for packet in stream.packets}
    places = set()
    for packet in stream.packets:
        if packet.last is not None:
            sent[packet.channel] += 1
            places.add((packet.channel, packet.number, packet.first, packet.last))
    must_be(name, "slots", stream.count, slots_of(text), plan)
    for channel, printed in re.findall(r"^sent channel=(\d+) packets=(\d+)", text, re.MULTILINE):
        must_be(name, "packets of channel %s" % channel, sent.get(int(channel), 0), int(printed), plan)
    must_have_spans(plan, spans, text)
    for packet, _ in missing_of(text):
        if packet[:4] not in places:
            raise Refused("%s: no packet %d of channel %d has the slots %d to %d, as the run printed: %s" % (name, packet.number, packet.channel, packet.first, packet.last, anew(plan)))


def must_have_spans(plan, spans, text):
    """An error if a table has another number of spans than was printed."""
    printed = re.search(r"^spans (\d+)$", text, re.MULTILINE)
    must_be(plan.out + ".spans.csv", "spans", len(spans), printed and int(printed.group(1)), plan)


def must_be_of_link(plan, spans, text):
    """An error if the text of a run is of other lanes, slots or spans than those of the plan and the table."""
    lanes = len(re.findall(r"^lane ", text, re.MULTILINE))
    must_be(plan.name, "lanes", plan.lanes, lanes or None, plan)
    if (slots_of(text) or 0) % plan.group:
        raise Refused("%s: %d slots were printed, and a metaframe of the plan has %d: %s" % (plan.name, slots_of(text), plan.group, anew(plan)))
    must_have_spans(plan, spans, text)
    if lanes and are_joined(spans):
        raise Refused("%s.spans.csv: its spans are of a words file, as `join` writes them, and the text is of lanes: %s" % (plan.out, anew(plan)))


def must_be(name, what, found, printed, plan):
    """An error if a number is not that of the text, which may have none."""
    if printed not in (None, found):
        raise Refused("%s: %d %s, and the run printed %d: %s" % (name, found, what, printed, anew(plan)))


def must_name_sent_groups(plan, spans, begin):
    """An error if no group of a table of spans is one that was sent with the first bit of lane 0 at `begin`, or one has no such word."""
    name = plan.out + ".spans.csv"
    places = [place for span in spans for place in span.places if place and place[0]]
    for group, index in places:
        if index >= plan.group:
            raise Refused("%s: word %d of group %d, and the groups of the plan have %d: %s" % (name, index, group, plan.group, anew(plan)))
    if places and not any(is_sent(group, plan, begin) for group, _ in places):
        raise Refused("%s: group %d begins at no bit at which the plan has a Sync word sent on lane 0, and no other does: %s" % (name, places[0][0], anew(plan)))


# ---- the lanes and the words

def must_be_in_lanes(stream, name, plan, lanes, spans):
    """An error if a word outside of the spans is control or data, and its code in the lanes is not. If a span is named by a
    group that was not sent, or a lane has other bits than its skew in front, nothing is known of the places."""
    if not all(span.exact for span in spans):
        return
    kinds = stream.kinds.translate(str.maketrans("bied", "1110"))
    is_trusted = [True] * stream.count
    for span in spans:
        begin, end = 0 if span.after is None else span.after + 1, stream.count if span.before is None else span.before
        is_trusted[begin:end] = [False] * (end - begin)
    for index in range(plan.group):
        number, _, bit = plan.place_of(index)
        lane, sent = lanes[number], kinds[index::plan.group]
        headers = lane.bits[lane.front + bit + 1::plan.period][:len(sent)]
        if headers == sent or lane.note:
            continue
        for slot, found, wanted in zip(range(index, stream.count, plan.group), headers, sent):
            if found != wanted and is_trusted[slot] and wanted in "01":
                told = "slot %d is a %s word, and in %s.lane.%d it is none" % (slot, "control" if wanted == "1" else "data", plan.out, number)
                raise Refused("%s: %s: %s" % (name, told, anew(plan)))


# The payload words of lanes that are compared with a stream; of more metaframes some, the first and the last among them.
COMPARED = 40000


def must_carry(folder, plan, stream, name, places):
    """An error where lanes carry another word than a stream has, in a metaframe whose CRC32 is right."""
    frames = stream.count // plan.group
    step = -(-max(stream.count, 1) // COMPARED)
    for frame in sorted({*range(0, frames, step), frames - 1} - {-1}):
        for lane in range(plan.lanes):
            begin = frame * plan.period + places.skew[lane]
            lane_name = "%s.lane.%d" % (plan.out, lane)
            wrong = wrong_slot(plan, stream, frame, lane, bits_between(folder, lane_name, begin, begin + plan.period))
            if wrong is not None:
                raise Refused("%s: slot %d is another word than lane %d has, whose Diagnostic word after it is right: %s" % (name, wrong, lane, anew(plan)))


def wrong_slot(plan, stream, frame, lane, bits):
    """The first slot of a metaframe of a lane, given by its bits, that is another word in a stream; None if the CRC32 is wrong."""
    if len(bits) < plan.period:
        return None
    frames = Metaframes(plan)
    framed = [frames.take(*code_at(bits, bit)[1:]) for bit in range(0, plan.period, CODE)]
    if framed[-1].wrong:
        return None
    slots = range(frame * plan.group + lane, (frame + 1) * plan.group, plan.lanes)
    return next((slot for slot, word in zip(slots, framed[2 + plan.skips:-1]) if word.word != stream.word(slot)), None)


def must_fill_lanes(count, name, plan, sizes, skews):
    """An error where lanes of these bytes do not carry as many slots as a stream has, with their skews or as they were sent."""
    bits = plan.sent_bits(count)
    for lane, (size, skew) in enumerate(zip(sizes, skews)):
        if size not in (bytes_of(bits), bytes_of(bits + skew)):
            raise Refused("%s: its %d slots fill %d bits of a lane, and %s.lane.%d has %d bytes: %s" % (name, count, bits, plan.out, lane, size, anew(plan)))


def must_be_whole(plan, sizes, skews, count):
    """An error where lanes of these bytes, with these skews in front, are not of one number of whole metaframes, or not of those that
    `count` slots fill, if that is known."""
    frames = max(0, 8 * sizes[0] - skews[0]) // plan.period if count is None else count // plan.group
    for lane, (size, skew) in enumerate(zip(sizes, skews)):
        wanted = bytes_of(frames * plan.period + skew)
        if size != wanted:
            raise Refused("%s.lane.%d: %d bytes, and %d metaframes of the plan after a skew of %d bits fill %d: %s" % (plan.out, lane, size, frames, skew, wanted, anew(plan)))


def bytes_of(bits):
    """The bytes that these bits are written to."""
    return -(-bits // 8)


# ---- the lanes and the schedule

def must_begin_at(plan, lane, syncs, front):
    """An error where most Sync words of a lane do not stand where they do with its first bit at `front`."""
    phase = Counter((at - front) % plan.period for at in syncs).most_common(1)
    if phase and phase[0][0]:
        at = next(at for at in syncs if (at - front) % plan.period == phase[0][0])
        raise Refused("%s.lane.%d: a Sync word at bit %d, and none begins there after a skew of %d bits: %s" % (plan.out, lane, at, front, anew(plan)))


def are_sent(plan, schedule, lanes, is_compared):
    """Whether lanes are as they were sent, and not as a schedule makes them. That some lack their skews and others not, or lack them
    and are damaged, is an error; if they are compared with the sent lanes, that tells what is damaged."""
    skewed = [lane for lane in lanes if schedule.skew[lane.number]]
    bare = [lane for lane in skewed if lane.is_sent(schedule.skew[lane.number])]
    wrong, is_struck = first_wrong(plan, schedule, lanes)
    if not skewed:
        return is_struck and wrong is None and all(has_right_crc(lane.bits, begin, plan) for lane in lanes for begin in range(0, len(lane.bits) - plan.period + 1, plan.period))
    if not bare:
        return False
    told = "%s:%d: lane %d came as it would without this row" % (shown_name(schedule.name), schedule.skew_rows[bare[0].number].line, bare[0].number)
    if len(bare) < len(skewed):
        other = next(lane.number for lane in skewed if lane not in bare)
        raise Refused("%s, and lane %d not without its own: %s" % (told, other, changed_schedule(plan)))
    if wrong and not is_compared:
        raise Refused("%s, and the lanes are damaged as by line %d: %s" % (told, wrong.line, changed_schedule(plan)))
    return True


def first_wrong(plan, schedule, lanes):
    """The first row of a schedule with a bit in a metaframe whose CRC32 is wrong, of lanes without skews, or None; and whether there is
    a row with a bit in a metaframe."""
    seen = set()
    for row, key, numbers in schedule.rows:
        lane, begin = lanes[numbers[0]], numbers[1] // plan.period * plan.period
        if key == "skew" or begin + plan.period > len(lane.bits) or (lane.number, begin) in seen:
            continue
        seen.add((lane.number, begin))
        if not has_right_crc(lane.bits, begin, plan):
            return row, True
    return None, bool(seen)


def must_be_damaged(plan, schedule, lanes):
    """An error where bits of lanes came as they would without a row of the schedule: a 1 in a dark stretch, or inverted bits in a
    metaframe whose CRC32 is right. Nothing is known of a lane without its skew."""
    flips, is_right = [set(bits) for bits in schedule.flips], {}
    for row, key, numbers in schedule.rows:
        number, bit = numbers[:2]
        lane = lanes[number]
        if key == "skew" or lane.note:
            continue
        if key == "dark":
            sent = (len(lane.bits) - lane.front) // plan.period * plan.period
            bit = lane.bits.find("1", lane.front + bit, lane.front + min(bit + numbers[2], sent)) - lane.front
            is_wrong = bit >= 0
        else:
            frame = number, bit // plan.period
            if frame not in is_right:
                is_right[frame] = is_right_in_spite(plan, schedule, lane, frame[1])
            is_wrong = is_right[frame] and bit in flips[number] and not schedule.is_dark(number, bit)
        if is_wrong:
            raise Refused("%s:%d: bit %d of lane %d came as it would without this row: %s" % (shown_name(schedule.name), row.line, bit, number, changed_schedule(plan)))


def is_right_in_spite(plan, schedule, lane, frame):
    """Whether a metaframe of a lane has a right CRC32, and inverted bits in it would have made that wrong."""
    begin, flips, masks = frame * plan.period, schedule.flips[lane.number], Counter()
    for bit in flips[bisect_left(flips, begin):bisect_left(flips, begin + plan.period)]:
        if not schedule.is_dark(lane.number, bit):
            masks[bit // CODE] |= 1 << CODE - 1 - bit % CODE
    return any(is_seen(mask) for mask in masks.values()) and has_right_crc(lane.bits, lane.front + begin, plan)


def is_seen(mask):
    """Whether a CRC32 shows that these bits of a code are inverted: not if those are both bits of the header, or all others."""
    return mask & HEADER not in (0, HEADER) or mask & OTHERS not in (0, OTHERS)
