"""How much of a dump is judged, and why not more."""

from reading.intervals import listed
from reading.plans import CODE

ENOUGH = 9, 10  # of the codes


def judged_line(run):
    """The codes of the lanes that are judged, and the control words of the stream; if they are few, why they are."""
    parts = [judged_codes(run, lane) for lane in range(run.plan.lanes)]
    codes, whole = sum(parts), sum(map(whole_codes, run.lanes))
    begins = [begin_of(run, lane) for lane in range(run.plan.lanes) if run.locks[lane].locks]
    text = "judged: %d of %d codes (%d%%)" % (codes, whole, 100 * codes // max(1, whole))
    text += ", from bit %d on" % max(begins) if begins else ""
    text += "; control words %d of %d" % control_words(run)
    if codes * ENOUGH[1] < whole * ENOUGH[0]:
        text += "".join("; " + why for why in reasons(run, parts))
    return text


def whole_codes(lane):
    return lane.count // CODE


def begin_of(run, lane):
    """The bit of the first code of a lane that is judged."""
    return max(run.begins[lane], run.locks[lane].locks[0].first)


def judged_codes(run, lane):
    """How many codes of a lane its locks cover."""
    return sum(max(0, lock.end - max(lock.first, run.begins[lane])) // CODE for lock in run.locks[lane].locks)


def control_words(run):
    """The control words of the stream whose CRC24 is judged, and all: nothing is known before the first one of an epoch."""
    kinds, judged, is_first = run.stream.kinds, 0, True
    for word, kind in enumerate(kinds):
        if word in run.breaks:
            is_first = True
        elif kind in "bie":
            judged, is_first = judged + (not is_first), False
    return judged, sum(kinds.count(kind) for kind in "bie")


def reasons(run, parts):
    """Why few codes are judged, each reason with its lanes."""
    told, longest = {}, max(lane.count for lane in run.lanes)
    for number, lane in enumerate(run.lanes):
        if parts[number] * ENOUGH[1] < whole_codes(lane) * ENOUGH[0]:
            told.setdefault(why_unlocked(run, number), []).append(number)
        if lane.count * ENOUGH[1] < longest * ENOUGH[0]:
            told.setdefault("ends at bit %d:" % lane.count, []).append(number)
    for text, lanes in told.items():
        yield "%s lane%s %s" % (text, "s" if len(lanes) > 1 else "", listed(lanes))


def why_unlocked(run, number):
    """Where most of the codes are that no lock of a lane covers."""
    lane, locks = run.lanes[number], run.locks[number].locks
    if not locks:
        return "no lock on"
    ends = [0] + [lock.end for lock in locks]
    begins = [begin_of(run, number)] + [lock.first for lock in locks[1:]] + [lane.count]
    begin, end = max(zip(ends, begins), key=lambda gap: gap[1] - gap[0])
    if begin == 0:
        return "no lock before bit %d of" % end
    return "no lock from bit %d %s of" % (begin, "on" if end == lane.count else "to bit %d" % end)
