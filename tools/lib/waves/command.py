"""The command `waves`: its options, the files that it reads, and its errors."""

import os

from reading.agreement import must_fill_lanes
from reading.apart import Apart
from reading.ending import Options, must_be_new
from reading.files import Refused
from reading.kinds import read_plan
from reading.lane_bits import read_lanes
from reading.outputs import SPANS, WORDS, lane_names, names_captures
from reading.placing import SentPlaces, gathered_places, must_have_all, not_placed
from reading.plans import Schedule
from reading.tables import read_events, read_faults
from reading.words import Stream, span_rows, spans_at
from waves.signals import LaneWaves, StreamWaves
from waves.vcd import write_vcd


def options_of(words):
    parser = Options(prog="waves", description="Writes the waves of a plan's lanes and of their stream as a VCD file.")
    parser.add_argument("plan", help="a plan; its lanes must exist, from `link`, `send` or a device")
    parser.add_argument("--to", metavar="FILE", help="the file; by default OUT.vcd, with the plan's `out` as OUT")
    parser.add_argument("--overwrite", action="store_true", help="replaces an existing file")
    return parser.parse_args(words)


def lanes_of(folder, plan):
    """The lanes of a plan; the first that is missing is an error."""
    must_have_all(folder, plan, lane_names(plan))
    return read_lanes(folder, plan, Schedule(folder, plan))[0]


class Shown:
    """The stream of a plan, its spans and its faults, where its words file and their tables are there."""

    def __init__(self, folder, plan, lanes):
        self.stream, self.spans, self.faults, self.places = None, [], {}, None
        words, table = plan.out + WORDS, plan.out + SPANS
        if not folder.has(words):
            return
        self.stream = Stream(folder, words, plan)
        self.places = gathered_places(folder, plan, True) or sent_places(folder, plan, lanes, self.stream)
        if folder.has(table):
            if self.places.is_gathered:
                folder.must_be_made_by(plan, table, "receive", "join")
            self.spans = spans_at(span_rows(folder, table), self.places, self.stream.count)
        self.faults = read_faults(folder, plan)


def sent_places(folder, plan, lanes, stream):
    """The places of words that fill the lanes."""
    try:
        must_fill_lanes(stream.count, plan.out + WORDS, plan, [len(lane.bits) // 8 for lane in lanes], [lane.front for lane in lanes])
    except Refused:
        if names_captures(plan):
            raise
        raise not_placed(folder, plan) from None
    return SentPlaces(plan, [lane.front for lane in lanes])


def write_waves(folder, name, path, overwrite):
    """Writes the file, and returns the line that says what is in it."""
    plan = read_plan(folder, name)
    path = path or plan.out + ".vcd"
    must_be_new(folder.path(path), path, overwrite)
    lanes = lanes_of(folder, plan)
    shown = Shown(folder, plan, lanes)
    events = read_events(folder, plan, lanes)
    waves = [LaneWaves(lane, plan, shown.stream, shown.places, events and events[lane.number]) for lane in lanes]
    scopes = [StreamWaves(shown.stream, shown.spans, plan, shown.places, shown.faults).scope] if shown.stream else []
    write_file(folder, path, scopes + [wave.scope for wave in waves], max(len(lane.bits) for lane in lanes))
    counts = {"lanes": len(lanes), "locks": sum(wave.locks for wave in waves), "words": sum(wave.words for wave in waves)}
    if shown.stream:
        counts.update(slots=shown.stream.count, spans=len(shown.spans))
    if events is not None:
        counts.update(events=sum(len(kinds) for found in events for kinds in found.values()))
    if shown.faults:
        counts.update(faults=sum(map(len, shown.faults.values())))
    return "%s %s" % (path, " ".join("%s=%d" % count for count in counts.items()))


def write_file(folder, name, scopes, end):
    """Writes the file beside its place, so that none stands there that is not whole."""
    part = folder.path("%s.%d.part" % (name, os.getpid()))
    try:
        with open(part, "x", encoding="ascii") as file:
            write_vcd(file, "link", scopes, end)
        os.replace(part, folder.path(name))
    except OSError as error:
        raise Refused("%s: %s" % (name, error.strerror or error))
    finally:
        if os.path.exists(part):
            os.remove(part)


def main(words):
    options = options_of(words)
    print(write_waves(Apart(None, os.getcwd()), options.plan, options.to, options.overwrite))
    return 0
