"""The rows of the plan that fits lanes, and how another plan differs from it."""

from collections import Counter, namedtuple

from probe.stream import ENTRIES
from reading.plans import PLAN

MOST_ROWS = 1024

# What the rows of a plan say: numbers by their keys, the channels, the calendar's entries or none, and the prefix of the lanes.
Settings = namedtuple("Settings", "numbers channels entries out")


def settings_of(findings, skews, stream, is_whole, out):
    """What fits lanes of which some have a metaframe. `skews` and `stream` are None if they are not known, and `is_whole` says whether
    all words of the lanes were looked at."""
    known = [finding for finding in findings if finding.frames]
    metaframe = most_of(finding.found.metaframe for finding in known)
    numbers = {"lanes": len(findings), "metaframe": metaframe, "skips": most_of(finding.skips for finding in known if finding.skips) or 1,
               "deskew": deskew_of(skews, metaframe)}
    if stream is None:
        return Settings(numbers, [0], [], out)
    if stream.is_wide:
        numbers["wide"] = 1
    numbers.update(bursts_of(stream))
    entries = entries_of(stream, is_whole)
    return Settings(numbers, sorted(set(stream.channels) | set(entries))[:MOST_ROWS] or [0], entries, out)


def most_of(values):
    counts = Counter(values)
    return counts.most_common(1)[0][0] if counts else None


def deskew_of(skews, metaframe):
    """The depth that the skews want, and no less than the default, within what a plan can have."""
    wanted = skews.deskew if skews else 0
    return max(1, min(max(wanted, PLAN["deskew"].default), (metaframe - 1) // 2))


def bursts_of(stream):
    """The rows on bursts: the greatest that came whole, up to a multiple of 64 bytes, and the least distance of two."""
    found = {}
    if stream.greatest:
        step = PLAN["burst_max"].step
        found["burst_max"] = min(max(-(-8 * stream.greatest // step) * step, PLAN["burst_max"].least), PLAN["burst_max"].most)
        least = PLAN["burst_short"].default if stream.least is None else 8 * stream.least
        found["burst_short"] = max(min(least, found["burst_max"]), PLAN["burst_short"].least)
    return found


def entries_of(stream, is_whole):
    """The calendar's entries, with channels by the numbers of the entries, since words do not show these; none if that of the channels
    by number fits all words."""
    words, channels = stream.calendar_words, len(stream.channels) or 1
    if words is None:
        return []
    if is_whole and words == -(-channels // ENTRIES) and (stream.last_off is None or stream.last_off < channels):
        return []
    most = 65536 if stream.is_wide else 256
    return [place % most for place in range(min(ENTRIES * words, MOST_ROWS))]


def rows_of(settings):
    """The lines of the plan."""
    rows = ["%s,%d" % pair for pair in settings.numbers.items()]
    rows += ["channel,%d" % channel for channel in settings.channels]
    rows += ["entry,%d" % channel for channel in settings.entries]
    return rows + ["out,%s" % quoted(settings.out)]


def quoted(field):
    return '"%s"' % field.replace('"', '""') if any(mark in field for mark in ',"\r\n') else field


def differences(plan, settings, skews, stream):
    """How a plan differs from what was found: texts."""
    for key in ("lanes", "metaframe", "skips"):
        if getattr(plan, key) != settings.numbers[key]:
            yield "%s %d fits, and %s has %d" % (key, settings.numbers[key], plan.name, getattr(plan, key))
    if skews and skews.deskew > plan.deskew:
        yield "the skews want deskew %d, and %s has %d" % (skews.deskew, plan.name, plan.deskew)
    if stream is None:
        return
    if stream.is_wide and not plan.wide:
        yield "channel numbers are wide, and those of %s are not" % plan.name
    unlisted = sorted(set(stream.channels) - set(plan.channels))
    if unlisted and (plan.wide or not stream.is_wide):
        yield "%s does not list channel %s" % (plan.name, ", ".join(map(str, unlisted[:8])))
    if 8 * stream.greatest > plan.burst_max:
        yield "a burst has %d bytes, and burst_max of %s is %d" % (8 * stream.greatest, plan.name, plan.burst_max)
    if stream.least is not None and 8 * stream.least < plan.burst_short:
        yield "burst words are %d bytes apart, and burst_short of %s is %d" % (8 * stream.least, plan.name, plan.burst_short)
    words = -(-len(plan.entries) // ENTRIES)
    if stream.calendar_words not in (None, words):
        yield "the calendar has %d control words, and that of %s has %d" % (stream.calendar_words, plan.name, words)
