"""A run of a plan: what it left and printed, which has to be of one run, and where its words stand in the lanes."""

import os

from reading import agreement, outputs
from reading.apart import Apart
from reading.files import Refused, shown_name
from reading.kinds import read_plan
from reading.lane_bits import bits_of, read_lanes, sync_words
from reading.outputs import is_of_device, lane_names, names_captures
from reading.placing import SentPlaces, gathered_places, must_have_all, not_placed
from reading.plans import MOST_SKEW, Schedule
from reading.strikes import strikes_of
from reading.words import Stream, are_joined, begin_of, slots_of, span_rows, spans_at

SPANS, MISSING, DAMAGE, PACKETS, FAULTS, EVENTS = "spans", "missing", "damage", "packets", "faults", "events"
# The tables that have spans, those of the words file, and those of what `link` sent.
OF_SPANS, OF_WORDS, OF_LINK = (SPANS, MISSING, DAMAGE), (PACKETS, FAULTS), (MISSING, DAMAGE)
# What the program runs for a table, after `link` of captures, or else of the lanes that are there.
AFTER_LINK = {PACKETS: ("burst",), FAULTS: ("burst", "check"), EVENTS: ("inspect",)}
OF_LANES = {SPANS: ("gather", "receive"), PACKETS: ("gather",), FAULTS: ("gather", "check"), EVENTS: ("gather", "inspect")}


class Run:
    """`places` says where words stand, and is None of words of which no lanes are there and that no plan sends; `has_lanes` whether their
    lanes are there."""

    def __init__(self, options):
        self.options, self.table = options, options.table
        self.folder = Apart(options.program and os.path.abspath(options.program), os.getcwd())
        self.plan = plan = read_plan(self.folder, options.plan)
        self.schedule = Schedule(self.folder, plan)
        self.names = lane_names(plan)
        self.text = self.make() if options.program else self.text_read()
        self.rows = span_rows(self.folder, plan.out + outputs.SPANS) if self.table in OF_SPANS else []
        self.stream = self.stream_read() if self.table in OF_WORDS else None
        self.skew, self.has_lanes = self.schedule.skew, any(map(self.folder.has, self.names))
        self.places = self.placed()
        self.spans = spans_at(self.rows, self.places)

    # ---- what is there

    def make(self):
        """Has the program make the files of the table; what `link` or `receive` printed."""
        if not is_of_device(self.folder, self.plan):
            text = self.folder.make("link", self.plan)
            for command in AFTER_LINK.get(self.table, ()):
                self.folder.make(command, self.plan)
            return text
        if self.table in OF_LINK:
            raise Refused("%s names no captures, and its lanes are there: `link` did not make them" % shown_name(self.plan.name))
        must_have_all(self.folder, self.plan, self.names)
        return [self.folder.make(command, self.plan) for command in OF_LANES[self.table]][-1]

    def text_read(self):
        """What the run printed, or nothing."""
        text = self.folder.content(self.options.text).decode("utf-8", "replace") if self.options.text else ""
        if self.table == MISSING and not self.options.text:
            raise Refused("the packets that did not come are those that `link` printed: --text FILE names its text, --program PROGRAM runs it")
        if self.table == MISSING and slots_of(text) is None:
            raise Refused("%s has no lines that `link` prints" % shown_name(self.options.text))
        return text

    def stream_read(self):
        name = self.plan.out + outputs.WORDS
        must_have_all(self.folder, self.plan, [name], "burst" if names_captures(self.plan) else "gather")
        return Stream(self.folder, name, self.plan)

    # ---- where words stand

    def placed(self):
        """The places of words: by the table of `gather`, if it is of what is there, and else by the skews of the schedule."""
        has_words = self.folder.has(self.plan.out + outputs.WORDS)
        places = gathered_places(self.folder, self.plan, has_words) if self.table not in OF_LINK else None
        if places is None:
            return self.sent_places()
        if self.table == SPANS:
            self.folder.must_be_made_by(self.plan, self.plan.out + outputs.SPANS, "receive", "join")
        return places

    def sent_places(self):
        try:
            return self.sums_over_skews()
        except Refused:
            if names_captures(self.plan) or not self.has_lanes or self.table in OF_LINK:
                raise
            must_have_all(self.folder, self.plan, self.names)
            raise not_placed(self.folder, self.plan) from None

    def sums_over_skews(self):
        """The places of words that were sent, whose lanes begin with their skews or, as `send` wrote them, without."""
        plan, pairs = self.plan, [pair for _, pair, _ in self.rows]
        begin = begin_of(pairs, plan, self.schedule.skew[0])
        places = SentPlaces(plan, self.schedule.skew if begin == self.schedule.skew[0] else [0] * plan.lanes)
        if self.rows:
            spans = spans_at(self.rows, places)
            agreement.must_name_sent_groups(plan, spans, begin)
            agreement.must_be_of_link(plan, spans, self.text)
            # Spans of a words file say nothing of lanes.
            self.has_lanes = self.has_lanes and not are_joined(spans)
        if self.has_lanes:
            places = self.checked(places)
        elif self.stream and not names_captures(plan):
            return None
        self.skew = places.skew
        return places

    def checked(self, places):
        """The places, if the lanes have them; if no spans tell of skews, the lanes do."""
        try:
            self.check_lanes(places)
            return places
        except Refused as refused:
            if self.rows or not any(self.schedule.skew):
                raise
            first = refused
        places = SentPlaces(self.plan, [0] * self.plan.lanes)
        try:
            self.check_lanes(places)
        except Refused:
            raise first from None
        return places

    def check_lanes(self, places):
        """Lanes have to be all there, to be of the plan by their lengths and their first bits, and to carry the words."""
        must_have_all(self.folder, self.plan, self.names)
        sizes = [self.folder.size(name) for name in self.names]
        agreement.must_be_whole(self.plan, sizes, places.skew, slots_of(self.text))
        for lane, name in enumerate(self.names):
            seen = bits_of(self.folder.beginning(name, (MOST_SKEW + 2 * self.plan.period) // 8))
            agreement.must_begin_at(self.plan, lane, sync_words(seen), places.skew[lane])
        if self.stream:
            name = self.plan.out + outputs.WORDS
            agreement.must_fill_lanes(self.stream.count, name, self.plan, sizes, places.skew)
            agreement.must_carry(self.folder, self.plan, self.stream, name, places)

    def strikes(self, sent):
        """The rows of the schedule that strike lanes of `sent` bits each; none of lanes as they were sent."""
        if self.has_lanes:
            lanes, as_sent = read_lanes(self.folder, self.plan, self.schedule, text=self.text)
            if as_sent:
                return []
            agreement.must_be_damaged(self.plan, self.schedule, lanes)
        return list(strikes_of(self.plan, self.schedule, sent))

    def skew_in_front(self, lane):
        """The ones that stand in front of the bits of a lane that a schedule counts."""
        skew = self.schedule.skew[lane]
        return 0 if "0" in bits_of(self.folder.beginning(self.names[lane], -(-skew // 8)))[:skew] else skew
