"""The rows of each table."""

from reading.outputs import EVENTS as EVENTS_END, FAULTS as FAULTS_END
from reading.placing import must_have_all
from reading.strikes import spans_struck
from reading.tables import events_in, faults_in
from reading.words import missing_of, slots_of
from slots.run import DAMAGE, EVENTS, FAULTS, MISSING, PACKETS, SPANS

PLACE = ("slot", "lane", "metaframe", "bit")


def columns_of(ends, columns=PLACE):
    return ["%s_%s" % (end, column) for end in ends for column in columns]


def shown(value):
    return "" if value is None else value


def place(run, slot):
    """The columns of a slot: itself, the lane of its word, the metaframe, and the first bit of the word in the received lane."""
    if run.places is None:
        return [slot] + [""] * (len(PLACE) - 1)
    lane, metaframe, bit = run.places.place(slot)
    return [slot, lane, shown(metaframe), bit]


def place_of_span(run, slot, found):
    """The columns of an end of a span: none if it is open, or in a group that was not sent. A words file has no lanes, but for one
    that was gathered of these."""
    if found is None or not run.places.has_group(found[0]):
        return [""] * len(PLACE)
    return place(run, slot) if found[0] or run.places.is_gathered else [slot] + [""] * (len(PLACE) - 1)


def span_rows(run):
    yield ["span", "why"] + columns_of(("after", "before"), ("group", "index") + PLACE)
    for number, span in enumerate(run.spans):
        row = [number, span.why]
        for slot, found in zip((span.after, span.before), span.places):
            row += list(found or ("", "")) + place_of_span(run, slot, found)
        yield row


def missing_rows(run):
    """Each packet that did not come, with the lines of the schedule that strike its span."""
    yield ["channel", "packet", "span", "why"] + columns_of(("first", "last")) + ["damage_lines"]
    lines = {}
    for strike in run.strikes(run.plan.sent_bits(slots_of(run.text))):
        for number in spans_struck(strike, run.spans):
            lines.setdefault(number, []).append("%d" % strike.row.line)
    for packet, span in missing_of(run.text):
        why = run.spans[span].why if span < len(run.spans) else ""
        yield [packet.channel, packet.number, span, why] + place(run, packet.first) + place(run, packet.last) + [" ".join(lines.get(span, []))]


def damage_rows(run):
    plan, folder = run.plan, run.folder
    yield ["line", "key"] + "lane first_bit last_bit first_metaframe last_metaframe first_slot last_slot first_span last_span".split()
    must_have_all(folder, plan, run.names)
    sent = max(0, 8 * folder.size(run.names[0]) - run.skew[0]) // plan.period * plan.period
    for strike in run.strikes(sent):
        skew, spans = run.skew[strike.lane], spans_struck(strike, run.spans)
        bits = [strike.first + skew, strike.last + skew, strike.first // plan.period, strike.last // plan.period]
        yield [strike.row.line, strike.key, strike.lane] + bits + list(strike.slots or ("", "")) + [spans[0] if spans else "", spans[-1] if spans else ""]


def packet_rows(run):
    """Each packet of the stream, and the bit by which a schedule names the first of its SOP word."""
    yield ["channel", "packet"] + columns_of(("first", "last")) + ["sent_bit"]
    for packet in run.stream.packets:
        first = place(run, packet.first)
        last = [""] * len(PLACE) if packet.last is None else place(run, packet.last)
        yield [packet.channel, packet.number] + first + last + [sent_bit(run, *first[1::2])]


def sent_bit(run, lane, bit):
    """The bit of a lane as a schedule counts it."""
    if run.places is None:
        return ""
    return bit - (run.skew_in_front(lane) if run.places.is_gathered else run.skew[lane])


def fault_rows(run):
    """Each word that breaks a rule."""
    yield ["word", "rule", "channel", "lane", "metaframe", "bit"]
    name = run.plan.out + FAULTS_END
    must_have_all(run.folder, run.plan, [name], "check")
    faults = faults_in(run.folder, name)
    run.folder.must_be_made_by(run.plan, name, "check")
    for word, rule, channel in faults:
        yield [word, rule, shown(channel)] + (place(run, word)[1:] if run.has_lanes else [""] * 3)


def event_rows(run):
    """Each event of a lane."""
    yield ["lane", "bit", "event", "metaframe", "word"]
    name = run.plan.out + EVENTS_END
    must_have_all(run.folder, run.plan, [name], "inspect")
    must_have_all(run.folder, run.plan, run.names)
    events = events_in(run.folder, name, run.plan.lanes)
    run.folder.must_be_made_by(run.plan, name, "inspect")
    for lane, bit, event in events:
        yield [lane, bit, event, shown(run.places.metaframe_of(lane, bit)), shown(run.places.slot_of(lane, bit))]


TABLES = {SPANS: span_rows, MISSING: missing_rows, DAMAGE: damage_rows, PACKETS: packet_rows, FAULTS: fault_rows, EVENTS: event_rows}
