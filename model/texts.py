"""Lines of text. REFERENCE, "Output", "Files"."""

from collections import Counter
from typing import Sequence

from accidents import Accidents, Missing
from epochs import GroupRow, Place
from events import Event
from locks import Report
from reassembly import DROPS, Packet
from resend import Counts
from rules import Fault
from spans import Span

USAGE = "usage: interlaken COMMAND FILE, or interlaken generate NUMBER PREFIX"
SPANS_HEADING = "after_group,after_index,before_group,before_index,why"
FAULTS_HEADING = "word,rule,channel"
PLACES_HEADING = "word,group,index,why"
EVENTS_HEADING = "lane,bit,event"


def sent_line(channel: int, packets: Sequence[bytes], left: int) -> str:
    """The packets sent on a channel, their bytes, and the packets not sent."""
    return "sent channel=%d packets=%d bytes=%d left=%d" % (channel, len(packets), sum(map(len, packets)), left)


def slots_line(slots: int) -> str:
    """The words of the stream, or the slots of the run."""
    return "slots %d" % slots


def held_line(channel: int) -> str:
    """The least listed channel with bytes left at the finish."""
    return "held channel=%d" % channel


def lane_line(lane: int, report: Report) -> str:
    """The report of a lane; `first=-` without a lock."""
    first = "-" if report.first is None else report.first
    return "lane %d locks=%d first=%s lost=%d unframed=%d bad=%d sync=%d state=%d diag=%d" % (
        lane, report.locks, first, report.lost, report.unframed, report.bad, report.sync, report.state, report.diag)


def got_line(channel: int, packets: Sequence[Packet]) -> str:
    """The packets that came on a channel, and their bytes."""
    return "got channel=%d packets=%d bytes=%d" % (channel, len(packets), sum(len(packet.data) for packet in packets))


def spans_line(spans: Sequence[Span]) -> str:
    """The fault spans."""
    return "spans %d" % len(spans)


def dropped_line(drops: Counter) -> str:
    """Pieces of packets that were dropped, by reason."""
    return "dropped " + " ".join("%s=%d" % (why, drops[why]) for why in DROPS)


def damaged_line(lane: int, skew: int, bits: int, unused: int) -> str:
    """Of a lane its skew, the bits that were changed, and the rows that name no bit."""
    return "damaged lane=%d skew=%d bits=%d unused=%d" % (lane, skew, bits, unused)


def rule_line(rule: str, count: int) -> str:
    """The faults of a rule."""
    return "rule %s=%d" % (rule, count)


def accidents_line(accidents: Accidents) -> str:
    """The count of accidents."""
    return "accidents locks=%d groups=%d stretches=%d" % accidents


def missing_line(missing: Missing) -> str:
    """A sent packet that did not come."""
    return "missing channel=%d packet=%d first=%d last=%d span=%d" % (*missing.packet, missing.span)


def end_line(end: str, channel: int, packets: Sequence[Packet], peak: int) -> str:
    """What an end of a duplex run got on a channel, and the most words of its queue."""
    size = sum(len(packet.data) for packet in packets)
    return "end %s channel=%d packets=%d bytes=%d peak=%d" % (end, channel, len(packets), size, peak)


def resend_line(counts: Counts) -> str:
    """What a run that sends again says."""
    return "resend pieces=%d accepted=%d acknowledged=%d sent=%d" % counts


def count_line(name: str, count: int) -> str:
    """A count of `samples`, `rows`, `lines`, `bytes`, `words`, `epochs` or `events`."""
    return "%s %d" % (name, count)


def span_table(spans: Sequence[Span]) -> bytes:
    """The heading and a row for each span in order; an end that is absent is `-` in both its columns."""
    rows = [",".join((*columns(span.after), *columns(span.before), span.why)) for span in spans]
    return "".join(row + "\n" for row in [SPANS_HEADING, *rows]).encode()


def faults_table(faults: Sequence[Fault]) -> bytes:
    """A row for each fault: the number of its word, its rule, and its channel or a stroke."""
    rows = ["%d,%s,%s" % (fault.word, fault.rule, "-" if fault.channel is None else fault.channel) for fault in faults]
    return "".join(row + "\n" for row in [FAULTS_HEADING, *rows]).encode()


def places_table(rows: Sequence[GroupRow]) -> bytes:
    """A row for each group, with a stroke, and one for each break, with its cause."""
    lines = ["%d,%d,%d,%s" % (row.words, row.group, row.index, row.why or "-") for row in rows]
    return "".join(line + "\n" for line in [PLACES_HEADING, *lines]).encode()


def events_table(shown: Sequence[Sequence[Event]]) -> bytes:
    """A row for each event of each lane, by lane."""
    rows = ["%d,%d,%s" % (lane, event.bit, event.name) for lane, events in enumerate(shown) for event in events]
    return "".join(row + "\n" for row in [EVENTS_HEADING, *rows]).encode()


def columns(place: Place | None) -> tuple[str, str]:
    """The two columns of an end."""
    return ("-", "-") if place is None else (str(place.group), str(place.index))
