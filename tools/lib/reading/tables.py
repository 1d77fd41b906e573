"""The tables of `inspect` and `check`: the events of lanes, and the faults of words."""

from reading.ending import note
from reading.files import Refused, rows_of
from reading.outputs import EVENTS as EVENTS_END, FAULTS as FAULTS_END

EVENTS = ("bad", "sync", "state", "skip", "diag", "health", "balance", "lock", "lost-headers", "lost-sync", "lost-state", "unframed")
RULES = ("bad", "control", "crc", "data", "max", "empty", "short", "end", "fill", "part", "min", "sop", "open", "channel", "long", "idle", "multi", "calendar", "off")


def read_events(folder, plan, lanes):
    """By lane its events by bit, of a table that `inspect` wrote; None if there is no table. One that the program does not make of
    these lanes is of an older run, and left out with a note."""
    name = plan.out + EVENTS_END
    if not folder.has(name):
        return None
    found, events = events_in(folder, name, len(lanes)), [{} for _ in lanes]
    if not folder.is_made_by(plan, name, "inspect"):
        return note("%s is of an older run, and left out" % name)
    for lane, bit, event in found:
        events[lane].setdefault(bit, []).append(event)
    return events


def events_in(folder, name, lanes):
    """The rows of a table of events of so many lanes: lane, bit and event of each."""
    found = []
    for where, lane, bit, event in table_of(folder, name, ["lane", "bit", "event"]):
        if event not in EVENTS:
            raise Refused("%s: %r is no event" % (where, event[:20]))
        if number_of(where, lane) >= lanes:
            raise Refused("%s: lane %s, and the plan has %d" % (where, lane, lanes))
        found.append((int(lane), number_of(where, bit), event))
    return found


def read_faults(folder, plan):
    """The rules that words break, by word, of a table that `check` wrote; none if there is no table. One that the program does not
    make of these words is of an older run, and left out with a note."""
    name, faults = plan.out + FAULTS_END, {}
    if not folder.has(name):
        return faults
    found = faults_in(folder, name)
    if not folder.is_made_by(plan, name, "check"):
        note("%s is of an older run, and left out" % name)
        return faults
    for word, rule, channel in found:
        faults.setdefault(word, []).append(rule if channel is None else "%s of channel %d" % (rule, channel))
    return faults


def faults_in(folder, name):
    """The rows of a table of faults: word, rule and channel, which may be None."""
    found = []
    for where, word, rule, channel in table_of(folder, name, ["word", "rule", "channel"]):
        if rule not in RULES:
            raise Refused("%s: %r is no rule" % (where, rule[:20]))
        found.append((number_of(where, word), rule, None if channel == "-" else number_of(where, channel)))
    return found


def table_of(folder, name, heading):
    """The rows of a table after its heading, each with its place before its fields."""
    rows = list(rows_of(folder.content(name)))
    if not rows or rows[0].fields != heading:
        raise Refused("%s: no table with the heading %s" % (name, ",".join(heading)))
    for row in rows[1:]:
        where = "%s:%d" % (name, row.line)
        if len(row.fields) != len(heading):
            raise Refused("%s: %d fields" % (where, len(row.fields)))
        yield (where, *row.fields)


def number_of(where, field):
    if not (field.isascii() and field.isdigit()):
        raise Refused("%s: %r is no number" % (where, field[:20]))
    return int(field)
