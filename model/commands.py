"""What each command comes to. REFERENCE, "Commands"; DEFINITIONS, "A run"."""

from typing import NamedTuple, Sequence

import cases
import files
import inputs
import lanes
import listing
import locks
import oob
import pcap
import plan as plans
import texts
import words_file
from accidents import Sent, accidents, missing
from duplex import duplex_run
from epochs import Epoch, epoch_of_words, epochs_of_lanes, gathered
from events import lane_events
from fields import CONTROL, Word
from files import CAPTURES_LIMIT, DONE, HELD, read_input, read_plan
from link import Link, Shape
from plan import Plan
from reassembly import Outcome, Packet, Settings, reassembled
from resend import resent
from rules import RULES, Rules, faults
from stream import ListedPacket, Source, Stream, listed_packets, payload_stream

DEFAULT_SHAPE = Shape(group=1, warmup=1, burst_max=256, burst_short=64, burst_min=0)
LONGEST_PACKET = 262_144
ETHERNET = 1


class Answer(NamedTuple):
    """What a command comes to: its status, the files that it creates in order, and the lines of its text."""
    status: int
    files: Sequence[tuple[str, bytes]]
    lines: Sequence[str]


# ---- inputs

class Captures:
    """Captures that are read one after another. One is too large where its bytes exceed what those before it left of
    the limit."""

    def __init__(self, longest: int):
        self.longest, self.left = longest, CAPTURES_LIMIT

    def packets(self, name: str) -> list[bytes]:
        """The packets of the next capture."""
        def read(data: bytes) -> list[bytes]:
            self.left -= len(data)
            return pcap.capture(data, self.longest)
        return read_input(name, self.left, read)


def packets_of_plan(plan: Plan, captures: Captures) -> list[tuple[int, bytes]]:
    """The packets of a plan's captures, each with its channel, in the order of the channels' rows."""
    named = [(channel, name) for channel, name in plan.listed.items() if name is not None]
    return [(channel, packet) for channel, name in named for packet in captures.packets(name)]


def rows_of_file(name: str | None, read) -> list:
    """What a reader makes of a file of rows, if the plan names one."""
    return [] if name is None else read_input(name, files.ROWS_LIMIT, read)


def local_rows(plan: Plan) -> list:
    """The rows of a plan's local file."""
    return rows_of_file(plan.file("local"), lambda data: inputs.local_rows(data, plan))


def source_of_plan(plan: Plan) -> Source:
    """The shape, the channels in order of number, the calendar, and the inputs: captures first, then the flow file,
    then the local file."""
    packets = packets_of_plan(plan, Captures(plan.settings.max_packet))
    flow = rows_of_file(plan.file("flow"), inputs.flow_rows)
    return Source(plan.shape, plan.channels, plan.entries, packets, flow, local_rows(plan))


def source_of_capture(name: str) -> Source:
    """A capture without a plan is the source of channel 0, with a calendar of this one entry."""
    packets = Captures(LONGEST_PACKET).packets(name)
    return Source(DEFAULT_SHAPE, [0], [0], [(0, packet) for packet in packets])


def is_plan(name: str) -> bool:
    """`burst` and `join` take a FILE that ends in `.plan` as a plan."""
    return name.endswith(".plan")


# ---- streams

def stream_lines(source: Source, stream: Stream, listed: Sequence[ListedPacket]) -> list[str]:
    """For each channel the sent packets, their bytes and the packets left, then the slots."""
    lines = []
    for channel in source.channels:
        packets = [packet for of, packet in source.packets if of == channel]
        sent = [packets[packet.number] for packet in listed if packet.channel == channel and packet.last is not None]
        lines.append(texts.sent_line(channel, sent, len(packets) - len(sent)))
    return [*lines, texts.slots_line(len(stream.words))]


def held_lines(stream: Stream) -> list[str]:
    """If the stream is held, the line with the least listed channel that has bytes left."""
    return [texts.held_line(min(stream.left))] if stream.is_held else []


def stream_answer(source: Source, stream: Stream, made: Sequence[tuple[str, bytes]]) -> Answer:
    """The answer of `burst` and `send`."""
    lines = stream_lines(source, stream, listed_packets(stream.words))
    return Answer(HELD if stream.is_held else DONE, made, lines + held_lines(stream))


def burst(name: str) -> Answer:
    """The words of the payload stream of a plan, or of a capture without one."""
    plan = read_plan(name, plans.plan_of) if is_plan(name) else None
    source = source_of_capture(name) if plan is None else source_of_plan(plan)
    stream = payload_stream(source)
    made = words_file.file_of_words(stream.words)
    return stream_answer(source, stream, [("%s.words" % (name if plan is None else plan.out), made)])


def sent_lanes(plan: Plan, words: Sequence[Word]) -> list[str]:
    """The bits of the lanes that carry the words of a stream."""
    return [lanes.lane_bits(words, plan.link, lane) for lane in range(plan.link.lanes)]


def lane_files(out: str, bits: Sequence[str]) -> list[tuple[str, bytes]]:
    """A lane file for each lane by number."""
    return [(lane_name(out, lane), lanes.file_of_bits(part)) for lane, part in enumerate(bits)]


def lane_name(out: str, lane: int) -> str:
    """The name of a lane file."""
    return "%s.lane.%d" % (out, lane)


def lanes_of_plan(plan: Plan, limit: int) -> list[bytes]:
    """The bytes of all lanes of a plan. The first lane that is absent or too large is refused."""
    return [read_input(lane_name(plan.out, lane), limit, bytes) for lane in range(plan.link.lanes)]


# An idle that resets the calendar, with all flow bits 1 and the CRC24 of only itself.
FILLER = Word(CONTROL, 0x81FFFF0000188177)


def stripe(name: str) -> Answer:
    """The bits of the lanes that carry the words of a plan's words file, whose last group is filled with idles."""
    plan = read_plan(name, plans.plan_of)
    words = read_input(plan.out + ".words", files.WORDS_LIMIT, words_file.sent_words_of_file)
    words += [FILLER] * (-len(words) % plan.link.group)
    return Answer(DONE, lane_files(plan.out, sent_lanes(plan, words)), [texts.slots_line(len(words))])


def check(name: str) -> Answer:
    """The faults of the words of a plan's words file, in a table and counted."""
    plan = read_plan(name, plans.plan_of)
    flow = rows_of_file(plan.file("flow"), inputs.flow_rows)
    words = read_input(plan.out + ".words", files.WORDS_LIMIT, words_file.words_of_file)
    found = faults(words, Rules(plan.shape, plan.settings.max_packet, plan.wide, plan.channels, plan.entries, flow))
    counts = {rule: sum(fault.rule == rule for fault in found) for rule in RULES}
    lines = ["words %d" % len(words), "faults %d" % len(found), *(texts.rule_line(rule, n) for rule, n in counts.items() if n)]
    return Answer(DONE, [(plan.out + ".faults.csv", texts.faults_table(found))], lines)


def send(name: str) -> Answer:
    """The bits of the lanes that carry the stream of a plan."""
    plan = read_plan(name, plans.plan_of)
    source = source_of_plan(plan)
    stream = payload_stream(source)
    return stream_answer(source, stream, lane_files(plan.out, sent_lanes(plan, stream.words)))


# ---- received words

def packets_on(packets: Sequence[Packet], channel: int) -> list[Packet]:
    """The packets that came on a channel."""
    return [packet for packet in packets if packet.channel == channel]


def capture_of(packets: Sequence[Packet], link_type: int) -> bytes:
    """The capture of packets that came."""
    return pcap.written([packet.data for packet in packets], link_type)


def outcome_files(out: str, outcome: Outcome, settings: Settings, link_type: int) -> list[tuple[str, bytes]]:
    """The capture of each listed channel by number, and the table of the spans."""
    captures = [("%s.%d.pcap" % (out, channel), capture_of(packets_on(outcome.packets, channel), link_type))
                for channel in settings.channels]
    return [*captures, ("%s.spans.csv" % out, texts.span_table(outcome.spans))]


def outcome_lines(outcome: Outcome, settings: Settings) -> list[str]:
    """The packets and bytes of each channel, the spans, and the drops for each of the eight reasons."""
    got = [texts.got_line(channel, packets_on(outcome.packets, channel)) for channel in settings.channels]
    return [*got, texts.spans_line(outcome.spans), texts.dropped_line(outcome.drops)]


def join(name: str) -> Answer:
    """What the words of a words file come to, by a plan, or only on channel 0."""
    if is_plan(name):
        plan = read_plan(name, plans.plan_of)
        out, settings, link_type, words_name = plan.out, plan.settings, plan.link_type, plan.out + ".words"
    else:
        out, settings, link_type, words_name = name, Settings([0], LONGEST_PACKET, False), ETHERNET, name
    words = read_input(words_name, files.WORDS_LIMIT, words_file.words_of_file)
    outcome = reassembled([epoch_of_words(words)], settings)
    return Answer(DONE, outcome_files(out, outcome, settings, link_type), outcome_lines(outcome, settings))


class Front(NamedTuple):
    """What the bits of lanes show: what the searches of each lane came to, and the epochs."""
    locks: list[list[locks.Lock]]
    epochs: list[Epoch]


def front_of(lane_files: Sequence[bytes], link: Link) -> Front:
    """What lane files show."""
    found = [locks.searches(lanes.bits_of_file(data), link) for data in lane_files]
    return Front(found, epochs_of_lanes(found, link))


def receive(name: str) -> Answer:
    """What the words of the lanes of a plan come to."""
    plan = read_plan(name, plans.plan_of)
    front = front_of(lanes_of_plan(plan, files.LANE_LIMIT), plan.link)
    outcome = reassembled(front.epochs, plan.settings)
    made = outcome_files(plan.out, outcome, plan.settings, plan.link_type)
    return Answer(DONE, made, received_lines(plan, front, outcome))


def lane_lines(plan: Plan, found: Sequence[Sequence[locks.Lock]]) -> list[str]:
    """A line for each lane, the report of its bits."""
    return [texts.lane_line(lane, locks.report(part, plan.link)) for lane, part in enumerate(found)]


def received_lines(plan: Plan, front: Front, outcome: Outcome) -> list[str]:
    """The lines of the lanes before those of what came."""
    return lane_lines(plan, front.locks) + outcome_lines(outcome, plan.settings)


def gather(name: str) -> Answer:
    """The words that the lanes of a plan carry, and where they come from."""
    plan = read_plan(name, plans.plan_of)
    front = front_of(lanes_of_plan(plan, files.LANE_LIMIT), plan.link)
    words, rows = gathered(front.epochs, plan.link)
    made = [(plan.out + ".words", words_file.file_of_words(words)), (plan.out + ".places.csv", texts.places_table(rows))]
    counts = [texts.count_line("words", len(words)), texts.count_line("epochs", len(front.epochs))]
    return Answer(DONE, made, lane_lines(plan, front.locks) + counts)


def inspect(name: str) -> Answer:
    """What each lane of a plan does, and at which bit."""
    plan = read_plan(name, plans.plan_of)
    bits = [lanes.bits_of_file(data) for data in lanes_of_plan(plan, files.LANE_LIMIT)]
    found = [locks.searches(part, plan.link) for part in bits]
    shown = [lane_events(part, own, plan.link) for part, own in zip(bits, found)]
    lines = [*lane_lines(plan, found), texts.count_line("events", sum(map(len, shown)))]
    return Answer(DONE, [(plan.out + ".events.csv", texts.events_table(shown))], lines)


def damages_of_plan(plan: Plan) -> list[lanes.Damage]:
    """What the schedule says of each lane; without one nothing happens to any."""
    name = plan.file("schedule")
    if name is None:
        return [lanes.Damage()] * plan.link.lanes
    return read_input(name, files.ROWS_LIMIT, lambda data: inputs.schedule(data, plan.link.lanes))


def link(name: str) -> Answer:
    """A stream over its lanes, each damaged by the schedule, and what the receiver makes of them."""
    plan = read_plan(name, plans.plan_of)
    source = source_of_plan(plan)
    damages = damages_of_plan(plan)
    stream = payload_stream(source)
    made = lane_files(plan.out, [lanes.received(bits, damage) for bits, damage in zip(sent_lanes(plan, stream.words), damages)])
    front = front_of([data for _, data in made], plan.link)
    outcome = reassembled(front.epochs, plan.settings)
    sent = Sent(stream.words, plan.link, [damage.skew for damage in damages])
    listed = listed_packets(stream.words)
    lines = [
        *stream_lines(source, stream, listed),
        *received_lines(plan, front, outcome),
        texts.accidents_line(accidents(sent, front.locks, front.epochs)),
        *map(texts.missing_line, missing(sent, listed, outcome.packets, outcome.spans)),
        *held_lines(stream),
    ]
    made += outcome_files(plan.out, outcome, plan.settings, plan.link_type)
    return Answer(HELD if stream.is_held else DONE, made, lines)


def damage(name: str) -> Answer:
    """A schedule applied to the lanes of a plan, and what of it struck. All bits of a lane file are sent bits."""
    plan = read_plan(name, plans.plan_of)
    damages = damages_of_plan(plan)
    sent = [lanes.bits_of_file(data) for data in lanes_of_plan(plan, files.DAMAGED_LIMIT)]
    came = [lanes.received(bits, damage) for bits, damage in zip(sent, damages)]
    lines = [texts.damaged_line(lane, own.skew, lanes.changed(bits, own), lanes.unused(bits, own))
             for lane, (bits, own) in enumerate(zip(sent, damages))]
    return Answer(DONE, lane_files(plan.out + ".damaged", came), lines)


def generate(number: str, prefix: str) -> Answer:
    """The files of the case of the number, each written to its end before the next, and then what `link` of its plan
    comes to."""
    for name, data in cases.files_of_case(cases.case(int(number)), prefix):
        files.create(name, data)
    return link(prefix + ".plan")


# ---- two ends, out-of-band status, and what is sent again

def duplex(name: str) -> Answer:
    """What each of two ends got of the other. Inputs are the settings, the plan, the captures of end a as the plan
    names them, and those of end b."""
    settings = read_plan(name, plans.settings_of)
    plan = read_input(settings.plan, files.PLAN_LIMIT, plans.plan_of)
    for place, channel, _ in settings.back:
        if channel not in plan.listed:
            raise files.plan_refused("row %d: clash" % place)
    captures = Captures(plan.settings.max_packet)
    of_a = packets_of_plan(plan, captures)
    of_b = [(channel, packet) for _, channel, capture in settings.back for packet in captures.packets(capture)]
    made, lines = [], []
    for side, end in zip("ab", duplex_run(plan, [of_a, of_b], settings)):
        for channel in plan.channels:
            packets = packets_on(end.packets, channel)
            made.append(("%s.%s.%d.pcap" % (settings.out, side, channel), capture_of(packets, plan.link_type)))
            lines.append(texts.end_line(side, channel, packets, end.peaks[channel]))
    return Answer(DONE, made, [*lines, texts.slots_line(settings.slots)])


def oobwrite(name: str) -> Answer:
    """The samples that are written of a plan's calendar and its local rows."""
    plan = read_plan(name, plans.plan_of)
    samples = oob.written(plan.entries, local_rows(plan))
    return Answer(DONE, [(plan.out + ".oob", samples)], [texts.count_line("samples", len(samples))])


def oobread(name: str) -> Answer:
    """The flow file that the samples of a plan give."""
    plan = read_plan(name, plans.plan_of_oobread)
    samples = read_input(plan.file("oob"), files.SAMPLES_LIMIT, oob.samples_of)
    rows = oob.rows_of_samples(samples, len(plan.entries))
    return Answer(DONE, [(plan.out + ".oob.flow", oob.flow_file(rows))], [texts.count_line("rows", len(rows))])


def resend(name: str) -> Answer:
    """The words accepted over a link that loses, repeats and delays."""
    plan = read_plan(name, plans.plan_of_resend)
    source = source_of_plan(plan)
    events = rows_of_file(plan.file("events"), inputs.events)
    words, counts = resent(payload_stream(source).words, plan.window, events)
    return Answer(DONE, [(plan.out + ".words", words_file.file_of_words(words))], [texts.resend_line(counts)])


# ---- listings

def list_file(name: str) -> Answer:
    """The listing of a words file or of a lane file."""
    lines = read_input(name, files.LISTED_LIMIT, lambda data: listing.listing(name, data))
    return Answer(DONE, [(name + ".txt", listing.text_of(lines))], [texts.count_line("lines", len(lines))])


def assemble(name: str) -> Answer:
    """The file of which a text is the listing."""
    data = read_input(name, files.LISTING_LIMIT, listing.assembled)
    return Answer(DONE, [(name + ".bin", data)], [texts.count_line("bytes", len(data))])


COMMANDS = {
    "burst": burst, "join": join, "send": send, "receive": receive, "link": link, "generate": generate, "duplex": duplex,
    "oobwrite": oobwrite, "oobread": oobread, "resend": resend, "stripe": stripe, "gather": gather, "inspect": inspect,
    "damage": damage, "check": check, "list": list_file, "assemble": assemble,
}
