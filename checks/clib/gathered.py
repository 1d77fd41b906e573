#!/usr/bin/env python3
"""Prints what `gather` prints of the lanes of a plan, then the rows of breaks of its table of places, and then the sum of its words file,
by the gatherer of the C library: the lanes are fed in drawn pieces and in a drawn order. Each word has to stand in a lock of its lane, by
the model, at the bit that the gatherer tells.

    checks/clib/gathered.py MODULE LIBRARY MODEL PLAN SEED

MODULE is the folder of the Python module, LIBRARY the shared library, and MODEL the folder of the model."""

import csv
import hashlib
import random
import sys
from types import SimpleNamespace

sys.path[:0] = [sys.argv[1], sys.argv[3]]
import interlaken
import lanes as model_lanes
import locks as model_locks
import words_file as model_words

BAD_WORD = bytes([3]) + bytes(8)


def given_of(gatherer, lanes):
    """What the gatherer gives, the end last."""
    given, fed, going = [], [0] * len(lanes), set(range(len(lanes)))
    while going:
        lane = random.choice(sorted(going))
        data = lanes[lane]
        fed[lane] += gatherer.feed(lane, data[fed[lane] : fed[lane] + random.choice([0, 1, 7, 64, 900, 4096, 9000])])
        if fed[lane] == len(data):
            gatherer.finish(lane)
            going.discard(lane)
        for _ in range(random.choice([0, 1, 2, 500, 5000])):
            if (one := gatherer.next()) is None:
                break
            given.append(one)
    return given + list(gatherer.gathered())


def words_of(given):
    """The words file, and the rows of breaks. A number that is not that of its place in the file is told of."""
    file, rows, broken = [], [], False
    for one in given:
        file += [BAD_WORD] if broken else []
        if one.number != len(file):
            print("number", one.number, "at", len(file))
        broken = isinstance(one, interlaken.GatheredBreak)
        if broken:
            rows.append("%d,%d,%d,%s" % (one.number, one.at.group, one.at.index, one.why.name.lower()))
        else:
            file.append(bytes([one.kind]) + one.word.to_bytes(8, "big"))
    return b"".join(file), rows


def misplaced(given, lanes, metaframe):
    """The words that no lock of their lane shows at their bit."""
    found = [model_locks.searches(model_lanes.bits_of_file(data), SimpleNamespace(metaframe=metaframe)) for data in lanes]
    for one in given:
        if isinstance(one, interlaken.GatheredWord):
            shown = [lock.word_at(one.bit) for lock in found[one.lane] if lock.covers(one.bit)]
            if [(word.kind, 0 if word.kind == interlaken.WordKind.BAD else word.number) for word in shown] != [(one.kind, one.word)]:
                yield one


def line_of(lane, report):
    first = "-" if report.first is None else report.first
    counts = "lost=%d unframed=%d bad=%d sync=%d state=%d diag=%d"
    return "lane %d locks=%d first=%s " % (lane, report.locks, first) + counts % (
        report.lost, report.unframed, report.bad, report.sync, report.state, report.diag)


def main(library, plan, seed):
    random.seed(seed)
    with open(plan, newline="", encoding="utf-8") as file:
        rows = [row for row in csv.reader(file) if row]
    number = {row[0]: row[1] for row in rows}
    lanes = [open("%s.lane.%d" % (number["out"], lane), "rb").read() for lane in range(int(number["lanes"]))]
    with interlaken.Gatherer(open(plan, "rb").read(), library) as gatherer:
        *given, end = given_of(gatherer, lanes)
        print(*(line_of(lane, gatherer.report(lane)) for lane in range(len(lanes))), sep="\n")
    if end != interlaken.Ended():
        print("no end")
    data, breaks = words_of(given)
    print("words", len(data) // model_words.SIZE)
    print("epochs", len(breaks))
    print(*breaks, hashlib.sha256(data).hexdigest(), sep="\n")
    for word in list(misplaced(given, lanes, int(number["metaframe"])))[:5]:
        print("no lock shows", word)


main(sys.argv[2], sys.argv[4], int(sys.argv[5]))
