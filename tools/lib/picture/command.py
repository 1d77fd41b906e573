"""The command `picture`: its options, the files that it needs, and its errors."""

import os
import tempfile

from reading.agreement import must_be_damaged, must_be_in_lanes, must_be_of_run, must_carry, must_fill_lanes
from picture.lanes import draw_lanes
from picture.queues import draw_queues
from picture.stream import draw_stream
from reading.apart import Apart
from reading.ending import Options, must_be_new
from reading.files import Refused
from reading.lane_bits import read_lanes
from reading.kinds import read_plan
from reading.outputs import PLACES, SPANS, WORDS, capture_names, is_of_device, lane_names, names_captures
from reading.placing import SentPlaces, gathered_places, must_have_all, not_placed
from reading.plans import Plan, Schedule, Settings, are_settings
from reading.tables import read_events, read_faults
from reading.words import Stream, are_joined, begin_of, span_rows, spans_at


def options_of(words):
    parser = Options(prog="picture", description="Draws the lanes and the stream of a plan, or the queues of a run of two ends, as SVG files.")
    parser.add_argument("plan", help="a plan, or the settings of a run of two ends")
    parser.add_argument("--program", help="the program; it makes missing files, and the lanes as sent, in a temporary folder")
    parser.add_argument("--only", choices=("lanes", "stream"), help="draws one picture of a plan, from only the files that it needs")
    parser.add_argument("--sent", metavar="PREFIX", help="PREFIX.lane.I are the lanes as `send` made them")
    parser.add_argument("--text", metavar="FILE", help="the output of `link`, `receive` or `duplex`; its locks are drawn, and its counts compared")
    parser.add_argument("--to", metavar="PREFIX", help="the prefix of the pictures' names; by default the plan's `out`")
    parser.add_argument("--overwrite", action="store_true", help="replaces existing pictures")
    return parser.parse_args(words)


class Work:
    """One call: what is there, and what the program is asked for, which stands apart from the files that are there."""

    def __init__(self, options):
        self.options = options
        self.folder = Apart(options.program and os.path.abspath(options.program), os.getcwd())
        self.text = self.folder.content(options.text).decode("utf-8", "replace") if options.text else ""

    def lacks(self, names):
        return any(not self.folder.has(name) for name in names)

    def make(self, command, plan):
        """Has the program run a command of a plan, apart."""
        self.keep(self.folder.make(command, plan))

    def keep(self, printed):
        if not self.options.text:
            self.text += printed

    def wants(self, picture):
        return self.options.only in (None, picture)

    def name_of(self, out, kind):
        return "%s.%s.svg" % (self.options.to or out, kind)

    def must_be_new(self, out, *kinds):
        """An error if a picture would be written over a file, before anything is drawn."""
        for name in (self.name_of(out, kind) for kind in kinds):
            must_be_new(self.folder.path(name), name, self.options.overwrite)

    def save(self, draw, out, kind):
        """Draws to a file by a call that takes its name, and tells what is in it."""
        path = self.folder.path(self.name_of(out, kind))
        try:
            counts = draw(path)
        except (OSError, UnicodeError) as error:
            raise Refused("%s: %s" % (path, getattr(error, "strerror", None) or error))
        print("%s %s" % (os.path.relpath(path), " ".join("%s=%d" % count for count in counts.items())))


def draw_settings(work):
    folder, name = work.folder, work.options.plan
    settings = Settings(folder, name)
    plan = Plan(folder, settings.plan)
    work.must_be_new(settings.out, "queues")
    names = ["%s.%s.%d.pcap" % (settings.out, end, channel) for end in "ab" for channel in plan.channels]
    if work.options.program and work.lacks(names):
        work.keep(folder.make_duplex(settings))
    missing = next((other for other in names if not folder.has(other)), None)
    if missing:
        raise Refused("%s is missing: `interlaken duplex %s` makes it" % (missing, name))
    work.save(lambda path: draw_queues(folder, name, work.text or None, path), settings.out, "queues")


def need_plan_files(work, plan):
    """The files of a plan's pictures. With a program it makes what is missing: the words of captures by `burst`, of a plan that names
    none by `gather` of its lanes; lanes, if none is there; and of lanes that are there what was received."""
    folder, lanes, came = work.folder, lane_names(plan), capture_names(plan) + [plan.out + SPANS]
    is_device = is_of_device(folder, plan)
    if work.options.program:
        make_lanes(work, plan, lanes)
    if work.wants("lanes"):
        must_have_all(folder, plan, lanes)
    if not work.wants("stream"):
        return
    maker = "gather" if is_device else "burst"
    if work.options.program and work.lacks([plan.out + WORDS]):
        work.make(maker, plan)
    must_have_all(folder, plan, [plan.out + WORDS], maker)
    if work.options.program and work.lacks(came):
        must_have_all(folder, plan, lanes)
        work.make("receive", plan)
    must_have_all(folder, plan, came, "link" if work.lacks(lanes) else "receive")


def make_lanes(work, plan, lanes):
    """Has lanes made, and all that is received of them, if they are needed and none is there."""
    folder = work.folder
    is_needed = work.wants("lanes") or work.lacks(capture_names(plan) + [plan.out + SPANS])
    if is_needed and not any(folder.has(name) for name in lanes):
        work.make("link", plan)


def sent_prefix(work, plan, folder):
    """The prefix of the lanes as sent: the one that is named, or that of lanes which the program makes in a temporary folder; None if
    nothing tells what was sent."""
    if work.options.sent or not work.options.program or not names_captures(plan):
        return work.options.sent
    for name, path in work.folder.run_apart("send", plan)[1].items():
        os.symlink(path, os.path.join(folder, "sent" + name[len(plan.out):]))
    return os.path.join(folder, "sent")


def damage_of(by_lane):
    """By slot its damaged places, (lane, first bit, last bit)."""
    damaged = {}
    for lane, slots in by_lane.items():
        for slot, bits in slots.items():
            damaged.setdefault(slot, []).append((lane, *bits))
    return damaged


def damage_by_schedule(schedule, places):
    """The same, of the bits that a schedule inverts."""
    damaged = {}
    for lane, flips in enumerate(schedule.flips):
        for bit in flips:
            slot, place = places.slot_of(lane, bit + schedule.skew[lane]), bit + schedule.skew[lane]
            if slot is not None:
                damaged.setdefault(slot, []).append((lane, place, place))
    return damaged


def lanes_of(work, plan, schedule):
    """The lanes, and whether they are as they were sent. If nothing tells which bits were sent, they have to be as the schedule
    makes them."""
    with tempfile.TemporaryDirectory() as temporary:
        sent = sent_prefix(work, plan, temporary)
        lanes, as_sent = read_lanes(work.folder, plan, schedule, sent, work.text)
    if sent is None and not as_sent:
        must_be_damaged(plan, schedule, lanes)
    return lanes, as_sent


def draw_plan(work):
    folder = work.folder
    plan = read_plan(folder, work.options.plan)
    schedule = Schedule(folder, plan)
    work.must_be_new(plan.out, *(kind for kind in ("lanes", "stream") if work.wants(kind)))
    need_plan_files(work, plan)
    lanes, has_lanes = None, not work.lacks(lane_names(plan))
    if work.wants("lanes") or has_lanes:
        lanes, as_sent = lanes_of(work, plan, schedule)
    if work.wants("lanes"):
        take_events(folder, plan, lanes)
        work.save(lambda path: draw_lanes(lanes, plan, as_sent, path), plan.out, "lanes")
    if work.wants("stream"):
        draw_plan_stream(work, plan, schedule, lanes)


def take_events(folder, plan, lanes):
    """The events of a table of the lanes, if there is one, but for the locks that are declared."""
    for lane, events in zip(lanes, read_events(folder, plan, lanes) or []):
        told = {bit: [kind for kind in kinds if kind != "lock"] for bit, kinds in events.items()}
        lane.events = {bit: kinds for bit, kinds in told.items() if kinds}


def places_of(folder, plan, schedule, lanes, rows):
    """Where the words stand in the lanes: by the table of `gather`, if it is of what is there, or by the skews."""
    found = gathered_places(folder, plan, True) if lanes or folder.has(plan.out + PLACES) else None
    if found:
        return found
    if lanes:
        return SentPlaces(plan, [lane.front for lane in lanes])
    begin = begin_of([pair for _, pair, _ in rows], plan, schedule.skew[0])
    return SentPlaces(plan, schedule.skew if begin == schedule.skew[0] else [0] * plan.lanes)


def draw_plan_stream(work, plan, schedule, lanes):
    """The picture of the stream, whose words have to be those of the lanes, if these are there, and of what came."""
    folder, name, spans_name = work.folder, plan.out + WORDS, plan.out + SPANS
    stream, rows = Stream(folder, name, plan), span_rows(folder, spans_name)
    places = places_of(folder, plan, schedule, lanes, rows)
    if lanes and is_of_device(folder, plan) and not places.is_gathered:
        must_be_sent(folder, plan, stream, places)
    if places.is_gathered:
        folder.must_be_made_by(plan, spans_name, "receive", "join")
    spans = spans_at(rows, places, stream.count)
    came = {channel: folder.packets("%s.%d.pcap" % (plan.out, channel)) for channel in plan.channels}
    must_be_of_run(stream, name, plan, spans, came, work.text, places.is_gathered)
    if lanes and not places.is_gathered and (work.wants("lanes") or not are_joined(spans)):
        must_fill_lanes(stream.count, name, plan, [folder.size(lane) for lane in lane_names(plan)], places.skew)
        must_be_in_lanes(stream, name, plan, lanes, spans)
        must_carry(folder, plan, stream, name, places)
    damaged = damage_of({lane.number: lane.damaged_slots(places) for lane in lanes}) if lanes else damage_by_schedule(schedule, places)
    # What came of a words file came of no lanes, but for one that was gathered of these.
    damaged = {slot: found for slot, found in damaged.items() if slot < stream.count and (places.is_gathered or not are_joined(spans))}
    faults = read_faults(folder, plan)
    work.save(lambda path: draw_stream(stream, plan, spans, damaged, came, faults, () if places.is_gathered else places.skew, path), plan.out, "stream")


def must_be_sent(folder, plan, stream, places):
    """An error where words that nobody gathered are not those that the lanes of a device carry."""
    name = plan.out + WORDS
    try:
        must_fill_lanes(stream.count, name, plan, [folder.size(lane) for lane in lane_names(plan)], places.skew)
        must_carry(folder, plan, stream, name, places)
    except Refused:
        raise not_placed(folder, plan) from None


def main(words):
    work = Work(options_of(words))
    (draw_settings if are_settings(work.folder, work.options.plan) else draw_plan)(work)
    return 0
