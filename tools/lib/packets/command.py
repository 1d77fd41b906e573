"""The command `packets`: its options, what it prints, and its errors."""

import os

from packets.differences import byte_told, differences_of, is_equal, stamp_text, word_told
from packets.records import PACKETS, Records, read_records
from reading.ending import Options
from reading.files import Folder, Refused, shown_name
from reading.intervals import listed
from reading.kinds import read_plan

EQUAL, DIFFERENT = 0, 1
# So many stretches of numbers are written.
MOST_STRETCHES = 20


def options_of(words):
    told = "Compares two captures, or two words files: what differs, what is missing in the second and what is extra, in order."
    parser = Options(prog="packets", description=told)
    parser.add_argument("--plan", metavar="PLAN", help="compares each capture that a plan names with OUT.C.pcap, the packets received on its channel")
    parser.add_argument("--stamps", action="store_true", help="also compares time stamps")
    parser.add_argument("files", metavar="FILE", nargs="*", help="the right file, and the file to compare with it")
    options = parser.parse_args(words)
    if len(options.files) != (0 if options.plan else 2):
        parser.error("--plan PLAN alone, or two files" if options.plan else "two files, or --plan PLAN")
    return options


def pairs_of(folder, options):
    """The records that are compared, two by two."""
    if not options.plan:
        one, other = (read_records(folder, name) for name in options.files)
        if one.kind != other.kind:
            raise Refused("%s: it has %s, and %s has %s" % (shown_name(other.name), other.kind, shown_name(one.name), one.kind))
        return [(one, other)]
    plan = read_plan(folder, options.plan)
    named = [(channel, name) for channel, name in sorted(plan.captures.items()) if name is not None]
    if not named:
        raise Refused("%s: no channel names a capture" % shown_name(options.plan))
    return [tuple(Records(name, PACKETS, folder.records(name)) for name in (capture, "%s.%d.pcap" % (plan.out, channel))) for channel, capture in named]


def lines_of(one, other, found):
    """What is said of two files: a line of counts, and below it the numbers."""
    counts = {other.kind: len(other.items), "equal": found.equal, "differing": len(found.differing), "missing": len(found.missing), "extra": len(found.extra)}
    counts.update({"stamps": len(found.stamps)} if found.stamps else {})
    yield "%s %s" % (shown_name(other.name), " ".join("%s=%d" % count for count in counts.items()))
    first = first_line(one, other, found)
    if first:
        yield "  first: " + first
    for what, numbers in (("differing", [number for number, _ in found.differing]), ("missing", found.missing), ("extra", found.extra), ("stamps", [number for number, _ in found.stamps])):
        if numbers:
            yield "  %s: %s" % (what, listed(numbers, MOST_STRETCHES))


def first_line(one, other, found):
    """The first difference in a record that both have, or nothing."""
    pairs = sorted(found.differing + found.stamps)[:1]
    if not pairs:
        return ""
    (number, its), thing = pairs[0], one.kind[:-1]
    ours, theirs = one.items[number], other.items[its]
    name = "%s %d" % (thing, number) + ("" if number == its else ", here %d" % its)
    if ours.data == theirs.data:
        return "%s: its stamp is %s and not %s" % (name, stamp_text(theirs.stamp), stamp_text(ours.stamp))
    return "%s: %s" % (name, (byte_told if one.kind == PACKETS else word_told)(ours.data, theirs.data))


def main(words):
    options, folder, status = options_of(words), Folder(None, os.getcwd()), EQUAL
    for one, other in pairs_of(folder, options):
        found = differences_of(one.items, other.items, options.stamps)
        status = status if is_equal(found) else DIFFERENT
        print("\n".join(lines_of(one, other, found)))
    return status
