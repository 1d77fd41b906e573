"""The calendar in the gathered words: what is due at each control word, what is common to its faults, and the state of each channel in
the last whole calendar, beside that of the plan's local file."""

from bisect import bisect_right
from collections import namedtuple

from reading.control_words import is_control, is_reset
from reading.intervals import listed

BITS = 16

# An accepted control word: its number, its reset bit, its flow bits, and which word of the calendar it is after the last reset word, or
# None where none is known.
Shown = namedtuple("Shown", "word reset flow block")


def shown_words(stream, late=0):
    """The accepted control words of a stream; with `late` the reset bit stands so many words after that which it belongs to."""
    block = None
    for word, kind in enumerate(stream.kinds):
        if kind == "x":
            block = None
        if kind not in "bie":
            continue
        value = stream.word(word)
        if is_control(value):
            block = late if is_reset(value) else None if block is None else block + 1
            yield Shown(word, is_reset(value), value >> 40 & 0xFFFF, block)


def words_of(entries):
    return -(-len(entries) // BITS)


def padding(entries, block):
    """The flow bits of a word of the calendar that are past the last entry."""
    return (1 << min(BITS, max(0, BITS * (block + 1) - len(entries)))) - 1


def told_by_word(run):
    """What was expected and found at each word that breaks the rule of the calendar: the reset bit, or the bits past the last entry."""
    faulty = {word for word, faults in run.faults.items() if any(rule == "calendar" for rule, _ in faults)}
    told, count = {}, words_of(run.plan.entries)
    for shown in shown_words(run.stream) if faulty else ():
        if shown.word in faulty:
            told[shown.word] = word_told(shown, run.plan.entries, count)
    return told


def word_told(shown, entries, count):
    if shown.block is None:
        return "reset=1", "reset=0"
    past = padding(entries, shown.block)
    if shown.reset and shown.flow & past == past:
        return "reset=0", "reset=1"
    if not shown.reset and shown.block >= count:
        return "reset=1", "reset=0"
    return "flow=%04X" % (shown.flow | past), "flow=%04X" % shown.flow


# ---- what is common to the faults

def reversed_bits(flow):
    return int(format(flow, "016b")[::-1], 2)


def reversed_entries(flow, count):
    """Flow bits whose first ones, so many, are in the other order."""
    text = format(flow, "016b")
    return int(text[:count][::-1] + text[count:], 2)


def shifted(flow, count):
    """Flow bits so many places towards the first entry, or away from it, with ones where none came."""
    ones = (1 << abs(count)) - 1
    return (flow << count | ones) & 0xFFFF if count > 0 else flow >> -count | ones << BITS + count


def changes(entries):
    """The ways in which a sender's flow bits differ, each as a name and what turns them into the right ones. A shift by which no bit past
    the last entry is left tells nothing."""
    yield "where the 16 flow bits are reversed", reversed_bits
    if 1 < len(entries) < BITS:
        yield "where the %d entries are reversed" % len(entries), lambda flow: reversed_entries(flow, len(entries))
    for count in range(1, BITS):
        if count < -len(entries) % BITS:
            yield "where the flow bits are shifted by %d towards the last entry" % count, lambda flow, count=count: shifted(flow, count)
        yield "where the flow bits are shifted by %d towards the first entry" % count, lambda flow, count=count: shifted(flow, -count)


def late_name(late):
    return "where Reset Calendar comes %d word%s late" % (late, "s" * (late > 1))


# How a sender's calendar differs: what is said of it, what turns its flow bits into the right ones or None, and how many words its reset
# bit is late.
Way = namedtuple("Way", "name change late", defaults=(None, 0))


def ways(run):
    """The ways by which the bits past the last entry are right in almost all words; those first by which the last calendar is that of the
    local file, if there is one."""
    entries, count = run.plan.entries, words_of(run.plan.entries)
    tried = [Way(name, change) for name, change in changes(entries)] + [Way(late_name(late), None, late) for late in range(1, count)]
    fitting = [way for way in tried if is_almost_all(fits_by_word(run, way).values())]
    return sorted(fitting, key=lambda way: not is_local_by(run, way)) if run.plan.local else fitting


def fits_by_word(run, way):
    """By accepted control word whether its bits past the last entry are right by a way."""
    entries, count = run.plan.entries, words_of(run.plan.entries)
    return {one.word: has_padding(way.change(one.flow) if way.change else one.flow, entries, one.block % count if way.late else one.block)
            for one in shown_words(run.stream, way.late) if one.block is not None}


def common(run, faulty):
    """What makes the words at which the calendar is wrong right, as (how many, of how many, how), or None."""
    way = next(iter(ways(run)), None) if faulty else None
    if way is None:
        return None
    fits = fits_by_word(run, way)
    return sum(fits.get(word, False) for word in faulty), len(faulty), way.name


def is_almost_all(fits):
    """Whether something fits 99 of 100 times."""
    fits = list(fits)
    return bool(fits) and 100 * sum(fits) >= 99 * len(fits)


def has_padding(flow, entries, block):
    past = padding(entries, block)
    return flow & past == past


# ---- the state of each channel

# The last whole calendar: its first word, and for each entry whether its channel is on.
Last = namedtuple("Last", "word states")


def last_calendar(run, change=None, late=0):
    """The last calendar of which all words are there, with their flow bits changed."""
    entries, count, found, begun = run.plan.entries, words_of(run.plan.entries), None, []
    for shown in shown_words(run.stream, late):
        if shown.block is None:
            begun = []
            continue
        place = shown.block % count
        begun = begun + [shown] if place == len(begun) and place else [shown] if place == 0 else []
        if len(begun) == count:
            flows = [change(one.flow) if change else one.flow for one in begun]
            states = [flow >> 15 - bit & 1 == 1 for flow in flows for bit in range(BITS)][:len(entries)]
            found, begun = Last(begun[0].word, states), []
    return found


def states_text(entries, states):
    """The channels that are on and off, as the last of their entries says."""
    by_channel = dict(zip(entries, states))
    texts = []
    for is_on, name in ((True, "on"), (False, "off")):
        channels = [channel for channel in sorted(by_channel) if by_channel[channel] == is_on]
        if channels:
            texts.append("%s %s" % (name, listed(channels)))
    return "; ".join(texts)


def is_local(entries, states, local):
    """Whether entries have states that the rows of a local file give, each by as many rows as those of the entries before it or by more:
    a row may come while a calendar is sent."""
    changes_of = {channel: [(0, True)] for channel in entries}
    for number, row in enumerate(local.rows, 1):
        changes_of.setdefault(row.channel, [(0, True)]).append((number, row.is_on))
    at = sum(row.slot == 0 for row in local.rows)
    for channel, is_on in zip(entries, states):
        of_channel = changes_of[channel]
        current = bisect_right(of_channel, (at, True)) - 1
        if of_channel[current][1] != is_on:
            at = next((number for number, state in of_channel[current + 1:] if state == is_on), None)
        if at is None:
            return False
    return True


def is_local_by(run, way):
    """Whether the last calendar is that of the local file by a way."""
    last = last_calendar(run, way.change, way.late)
    return last is not None and is_local(run.plan.entries, last.states, run.local)


def local_change(run):
    """The way in which the last calendar is that of the local file, where it is not as it stands; or nothing."""
    return next((way.name for way in ways(run) if is_local_by(run, way)), "")
