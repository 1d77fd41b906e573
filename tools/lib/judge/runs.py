"""The program reads the lanes of a plan apart from the user's files, and what comes of it."""

import os
import shutil
import tempfile
from collections import namedtuple

from judge.lead_in import LeadIn, LedLane, LedPlaces
from reading.apart import write_rows
from reading.files import Refused, rows_of
from reading.lane_files import LaneFile, LaneLocks
from reading.outputs import EVENTS, FAULTS, PLACES, SPANS, WORDS, capture_names, lane_names
from reading.placing import GatheredPlaces
from reading.plans import MOST_SLOT, Flow, Local
from reading.tables import events_in, faults_in
from reading.words import Stream

BAD_WORD = b"\3" + bytes(8)
# The plan by which words are judged: its name, and that of its outputs.
Judged = namedtuple("Judged", "name out")


class Run:
    """What `receive`, `inspect`, `gather` and `check` made of the lanes, with a lead-in before them or without: the program's text, the
    events by lane, the locks, the words and their places, the breaks by word, the faults by word as (rule, channel), the spans as the
    table has them, and the packets that came.

    All bits are those of the dump, so those of a lead-in are below 0; words count from the first that is the dump's. `begins` has by lane
    the bit of its first code that is judged, and `first_number` the number here of the first word that `gather` writes without a
    lead-in, or None."""

    def __init__(self, folder, plan, has_lead_in=True):
        self.folder, self.plan, self.room = folder, plan, tempfile.TemporaryDirectory(prefix="judge.")
        self.local, self.captures = Local(folder, plan), captures_of(folder, plan)
        Flow(folder, plan)
        for name in lane_names(plan):
            if not folder.has(name):
                raise Refused("%s: No such file or directory" % name)
        self.lanes = [LaneFile(folder.path(name)) for name in lane_names(plan)]
        lead_in = LeadIn(self.lanes, plan) if has_lead_in else None
        self.lead_in = lead_in if lead_in and lead_in.is_known else None
        self.front = self.lead_in.front if self.lead_in else 0
        self.begins = [self.lead_in.begin_of(lane) if self.lead_in else 0 for lane in range(plan.lanes)]
        first_place = self.first_gathered() if self.lead_in else None
        self.lead("lanes", False)
        self.read_events()
        self.lead("stream", True)
        self.text = folder.make("receive", plan)
        self.spans = [self.span_row(row) for row in folder.rows(plan.out + SPANS)[1:]]
        self.came = [folder.records(name) for name in capture_names(plan)]
        self.read_words()
        self.first_number = self.places.slot_at(*first_place) if first_place else None if self.lead_in else 0
        self.faults = faults_without_the_start(folder, plan, self.stream, self.first_number or 0)

    def first_gathered(self):
        """The group and the index of the first word that `gather` writes of the dump as it is, or None."""
        self.folder.make("gather", self.plan)
        rows = self.folder.rows(self.plan.out + PLACES)[1:]
        return (int(rows[0][1]), int(rows[0][2])) if len(rows) > 1 else None

    def lead(self, name, is_stream):
        """Has the program read the lanes with their lead-ins from now on."""
        if self.lead_in is None:
            return
        paths = self.lead_in.write(os.path.join(self.room.name, name), is_stream)
        self.folder.made.update(zip(lane_names(self.plan), paths))
        if not is_stream:
            self.lanes = [LedLane(path, self.front, lane) for path, lane in zip(paths, self.lanes)]

    def read_events(self):
        self.folder.make("inspect", self.plan)
        self.events = [[] for _ in self.lanes]
        for lane, bit, event in events_in(self.folder, self.plan.out + EVENTS, self.plan.lanes):
            self.events[lane].append((bit - self.front, event))
        self.locks = [LaneLocks(events, lane.count, self.plan.period) for events, lane in zip(self.events, self.lanes)]
        self.firsts = [locks.firsts[0] if locks.firsts else None for locks in self.locks]
        if self.lead_in:
            self.firsts = [start.sync if start else first for start, first in zip(self.lead_in.starts, self.firsts)]

    def read_words(self):
        self.folder.make("gather", self.plan)
        name = self.plan.out + WORDS
        if self.lead_in:
            self.places = LedPlaces(self.folder, self.plan, self.firsts, self.lead_in)
            self.folder.made[name] = without_first(self.folder.path(name), self.places.left_out, os.path.join(self.room.name, "words"))
        else:
            self.places = GatheredPlaces(self.folder, self.plan, self.firsts)
        self.stream = Stream(self.folder, name, self.plan)
        self.breaks = {piece.word: piece for piece in self.places.pieces if piece.is_break}

    def span_row(self, row):
        """A row of the table of spans, its groups by the bits of the dump."""
        return [row[0] if row[0] == "-" else "%d" % (int(row[0]) - self.front), row[1], row[2] if row[2] == "-" else "%d" % (int(row[2]) - self.front), *row[3:]]

    def number_of(self, word):
        """The number of a word among those that `gather` writes without a lead-in, or None if that is not there."""
        return None if word is None or self.first_number is None or word < self.first_number else word - self.first_number


def without_first(path, count, name):
    """A words file without its first words."""
    with open(path, "rb") as whole, open(name, "wb") as part:
        whole.seek(9 * count)
        shutil.copyfileobj(whole, part)
    return name


def captures_of(folder, plan):
    """The packets of each capture that a plan names, by channel."""
    return {channel: folder.records(name, plan.max_packet) for channel, name in sorted(plan.captures.items()) if name is not None}


def faults_without_the_start(folder, plan, stream, first):
    """The faults of the words by word, of which `gather` writes the first one as number `first`. They begin in the middle of traffic, so one bad word stands before them when `check` judges them:
    nothing is known of what was sent before."""
    gathered = folder.made[plan.out + WORDS]
    with tempfile.TemporaryDirectory(prefix="judge.") as room:
        with open(os.path.join(room, "words"), "wb") as file:
            file.write(BAD_WORD)
            file.write(stream.data)
        judged = Judged(os.path.join(room, "plan"), plan.out)
        write_rows(judged.name, plan_rows(folder, plan, room, first + 1))
        folder.made[plan.out + WORDS] = os.path.join(room, "words")
        try:
            folder.make("check", judged)
        finally:
            folder.made[plan.out + WORDS] = gathered
    faults = {}
    for word, rule, channel in faults_in(folder, plan.out + FAULTS):
        if word:
            faults.setdefault(word - 1, []).append((rule, channel))
    return faults


def plan_rows(folder, plan, room, late):
    """The rows of a plan whose flow rows count some slots later, as the words are later; `check` reads no other file of it."""
    for row in folder.rows(plan.name):
        if row[0] == "flow":
            flow = [fields.fields for fields in rows_of(folder.content(plan.flow))]
            write_rows(os.path.join(room, "flow"), [[min(int(slot) + late, MOST_SLOT), word] for slot, word in flow])
            row = ["flow", os.path.join(room, "flow")]
        yield row
