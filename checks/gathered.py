"""Holds the commands on received lanes beside each other, on the lanes of generated links.

    python3 gathered.py PROGRAM [--cases N] [--first NUMBER]

For each of N numbers, 60 if it is not said, `generate` makes lanes, with damage or not, and then

    join     of the words that `gather` wrote makes the captures that `receive` makes of the lanes
    check    of these words has a row inside each middle span of `receive`: at a word after the word before it, up to the one after it
    inspect  prints the lines of lanes that `receive` prints, and its rows are as many as these count

A middle span has a word on both sides. A span in which no row lies is printed with its reason, and fails.
"""

import argparse
import csv
import io
import os
import re
import sys
from collections import Counter

from lib.runs import left_by
from lib.tally import Tally

# What the line of a lane counts, and the events that it counts.
COUNTED = {"locks": ("lock",), "lost": ("lost-headers", "lost-sync", "lost-state"), "unframed": ("unframed",), "bad": ("bad",), "sync": ("sync",),
           "state": ("state",), "diag": ("diag",)}


def rows_of(data):
    return list(csv.reader(io.StringIO(data.decode())))[1:]


def place_of(fields):
    return None if fields == ["-", "-"] else (int(fields[0]), int(fields[1]))


def places_of_words(rows, count):
    """The place of each gathered word, by the table of places: those of a group one after another, and for the word between two epochs
    the place of the break."""
    places = [None] * count
    for (word, group, index, why), after in zip(rows, rows[1:] + [[count, 0, 0, "-"]]):
        first, last = int(word), int(after[0])
        for word in range(first, last):
            places[word] = (int(group), int(index) + word - first)
    return places


def lane_lines(text):
    return [line for line in text.decode().splitlines() if line.startswith("lane ")]


class Case:
    """The lanes of one number, and what each command makes of them."""

    def __init__(self, program, number, tally):
        self.program, self.name, self.tally = program, "case %d" % number, tally
        made = left_by(program, ["generate", "%d" % number, "p"], {})
        tally.expect(self.name + ", generated", made.status in (0, 3) and made.error == b"", True)
        self.files = made.files

    def run(self, command, more={}):
        ended = left_by(self.program, [command, "p.plan"], {**self.files, **more})
        self.tally.expect("%s, status of %s" % (self.name, command), (ended.status, ended.error), (0, b""))
        return ended

    def named(self, ended, ending):
        """The content of the output with this ending."""
        return next((data for name, data in ended.files.items() if name.endswith(ending)), b"")

    def captures(self, ended):
        return {name: data for name, data in ended.files.items() if re.search(r"\.\d+\.pcap$", name) and name.startswith("p.out")}

    def compare(self):
        """Compares, and returns the number of middle spans."""
        received, gathered = self.run("receive"), self.run("gather")
        words = {name: data for name, data in gathered.files.items() if name.endswith(".words")}
        self.tally.expect(self.name + ", captures of join", self.captures(self.run("join", words)), self.captures(received))
        self.compare_events(received)
        return self.compare_spans(received, gathered, words)

    def compare_spans(self, received, gathered, words):
        places = places_of_words(rows_of(self.named(gathered, ".places.csv")), len(*words.values()) // 9)
        found = [places[int(word)] for word, _, _ in rows_of(self.named(self.run("check", words), ".faults.csv"))]
        spans = [(place_of(row[:2]), place_of(row[2:4]), row[4]) for row in rows_of(self.named(received, ".spans.csv"))]
        middle = [(after, before, why) for after, before, why in spans if after and before]
        lacking = [span for span in middle if not any(span[0] < place <= span[1] for place in found)]
        self.tally.expect(self.name + ", middle spans without a row of check", lacking, [])
        return len(middle)

    def compare_events(self, received):
        inspected = self.run("inspect")
        self.tally.expect(self.name + ", lines of lanes", lane_lines(inspected.text), lane_lines(received.text))
        events = Counter((int(lane), event) for lane, _, event in rows_of(self.named(inspected, ".events.csv")))
        for lane, line in enumerate(lane_lines(inspected.text)):
            told = dict(re.findall(r"(\w+)=(\d+)", line))
            counts = {name: "%d" % sum(events[lane, kind] for kind in kinds) for name, kinds in COUNTED.items()}
            self.tally.expect("%s, events of lane %d" % (self.name, lane), counts, {name: told[name] for name in COUNTED})


def main():
    parser = argparse.ArgumentParser()
    parser.add_argument("program")
    parser.add_argument("--cases", type=int, default=60)
    parser.add_argument("--first", type=int, default=1)
    options = parser.parse_args()
    tally = Tally("gathered")
    program = os.path.abspath(options.program)
    middle = sum(Case(program, number, tally).compare() for number in range(options.first, options.first + options.cases))
    tally.expect("some middle spans", middle > 0, True)
    return tally.end()


sys.exit(main())
