#!/usr/bin/env python3
"""Prints what `inspect` prints of the lanes of a plan, and then its table of events, by the inspector of the C library: the lanes are fed
in drawn pieces and in a drawn order of lanes, and some of the events of a lane are left due while others are fed.

    checks/clib/inspected.py MODULE LIBRARY PLAN SEED

MODULE is the folder of the Python module, LIBRARY the shared library."""

import csv
import random
import sys

sys.path.insert(0, sys.argv[1])
import interlaken

NAMES = "bad sync state skip diag health balance lock lost-headers lost-sync lost-state unframed".split()


def feed_some(inspector, lane, data, fed):
    """Feeds a lane with a drawn piece, and returns how many bytes it has taken then."""
    piece = data[fed : fed + random.choice([1, 2, 7, 8, 9, 64, 900, 4096])]
    return fed + inspector.feed(lane, piece)


def events_of(inspector, lanes):
    """The events of each lane, in the order in which they come."""
    found = [[] for _ in lanes]
    fed = [0] * len(lanes)
    while left := [lane for lane, data in enumerate(lanes) if fed[lane] < len(data)]:
        lane = random.choice(left)
        fed[lane] = feed_some(inspector, lane, lanes[lane], fed[lane])
        for _ in range(random.choice([0, 1, 1, 2, 20])):
            if (event := inspector.next()) is None:
                break
            found[event.lane].append(event)
    for event in inspector.events():
        found[event.lane].append(event)
    return found


def line_of(lane, report):
    first = "-" if report.first is None else report.first
    counts = "lost=%d unframed=%d bad=%d sync=%d state=%d diag=%d"
    return "lane %d locks=%d first=%s " % (lane, report.locks, first) + counts % (
        report.lost, report.unframed, report.bad, report.sync, report.state, report.diag)


def main(library, plan, seed):
    random.seed(seed)
    with open(plan, newline="", encoding="utf-8") as file:
        rows = [row for row in csv.reader(file) if row]
    count = int(next(row[1] for row in rows if row[0] == "lanes"))
    out = next(row[1] for row in rows if row[0] == "out")
    lanes = [open("%s.lane.%d" % (out, lane), "rb").read() for lane in range(count)]
    with interlaken.Inspector(open(plan, "rb").read(), library) as inspector:
        found = events_of(inspector, lanes)
        for lane in range(count):
            print(line_of(lane, inspector.report(lane)))
    print("events", sum(map(len, found)))
    print("lane,bit,event")
    for event in (event for events in found for event in events):
        print("%d,%d,%s" % (event.lane, event.bit, NAMES[event.kind - 1]))


main(sys.argv[2], sys.argv[3], int(sys.argv[4]))
