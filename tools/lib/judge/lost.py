"""What was lost: the fault spans, the dropped pieces of packets, and the packets of the plan's captures that did not come."""

import re
from collections import namedtuple

from packets.differences import byte_told, differences_of
from judge.faults import place_finding
from judge.findings import Finding
from judge.hidden import Hidden
from judge.pieces import END, Pieces, dropped_of
from probe.lanes import MOST_BYTES, mend_of, probe_lane, said_of
from reading.files import Record
from reading.plans import CODE

SENDER = "sender"
NO_FINDING = ("start", "end")  # spans of the ends of a dump
# A packet as the words have it, whether it is right or not; its bytes; and the piece that a receiver made of it.
Seen = namedtuple("Seen", "first last data piece")
# The packets of a capture between two that came, by their numbers; whether none came before them, or after; and the words between.
Gap = namedtuple("Gap", "channel numbers is_front is_back ends")


class Lost:
    """The findings of spans, drops and missing packets; and the lines that say more of them."""

    def __init__(self, run):
        self.run, self.pieces, self.lines = run, Pieces(run).found, []
        self.spans = [finding for finding in map(self.span_finding, run.spans) if finding]
        self.drops = [self.drop_finding(piece) for piece in self.pieces if piece.why not in (None, END)] + list(self.others())
        self.missing = [finding for channel, packets in run.captures.items() for finding in self.missing_of(channel, packets)]

    def all(self):
        return self.spans + self.drops + self.missing

    # ---- spans

    def span_finding(self, row):
        """A span that is for a fault: from its first word that is not trusted on."""
        *ends, why = row
        if why in NO_FINDING:
            return None
        after, before = (None if end[0] == "-" else self.run.places.slot_at(int(end[0]), int(end[1])) for end in (ends[:2], ends[2:]))
        finding = Finding("span", found=why, last=self.run.stream.count if before is None else before)
        first = 0 if after is None else after + 1
        if first < self.run.stream.count:
            place_finding(self.run, finding, first)
        elif after is not None:
            place_finding(self.run, finding, after)
        finding.note = self.words_told(first, finding.last - 1)
        return finding

    def words_told(self, first, last):
        """Words by their numbers among those that `gather` writes; if it does not write the first, how many there are."""
        if self.run.number_of(first) is None:
            return "%d word%s" % (last + 1 - first, "s" * (last > first))
        numbers = self.run.number_of(first), self.run.number_of(last)
        return "words %d to %d" % numbers if first < last else "word %d" % numbers[0]

    # ---- drops

    def drop_finding(self, piece):
        """The finding of a drop is at its first word; if the sender says that the packet is wrong, at the word that says so."""
        finding = Finding("dropped", channel=piece.channel, found=piece.why, first=piece.first, last=piece.last)
        place_finding(self.run, finding, piece.last if piece.why == SENDER else piece.first)
        return finding

    def others(self):
        """The drops that the program counts and that are not found in the words; none are known to be."""
        told = re.search(r"^dropped (.*)$", self.run.text, re.MULTILINE)
        found = dropped_of(self.pieces)
        for why, count in (field.split("=") for field in told[1].split()):
            for _ in range(int(count) - found.get(why, 0) if why != END else 0):
                yield Finding("dropped", found=why)

    # ---- missing packets

    def missing_of(self, channel, packets):
        """The packets of a capture that did not come, or came as other bytes."""
        seen = self.seen_on(channel)
        came = [one for one in seen if one.piece and not one.piece.why]
        found = differences_of(packets, [Record(0, one.data) for one in came], ends_at_front=True)
        anchors = sorted(found.differing + equal_pairs(len(packets), len(came), found))
        hidden = Hidden(self.run, self.spans, channel, came)
        marks = [(-1, None)] + anchors + [(len(packets), None)]
        for (number, its), (after, next_its) in zip(marks, marks[1:]):
            if its is not None and came[its].data != packets[number].data:
                yield self.missing_finding(channel, number, packets[number], came[its], "it came as other bytes: " + byte_told(packets[number].data, came[its].data))
            ends = (0 if its is None else came[its].first, self.run.stream.count if next_its is None else came[next_its].first)
            gap = Gap(channel, range(number + 1, after), its is None, next_its is None, ends)
            lost = [one for one in seen if one not in came and ends[0] <= one.first < ends[1]]
            yield from self.gap_findings(gap, packets, lost, hidden)
        if found.extra:
            self.lines.append("channel %d: %d packets came that its capture does not have" % (channel, len(found.extra)))

    def gap_findings(self, gap, packets, lost, hidden):
        """The packets of a capture between two that came. At the ends of the dump those are cut that the words do not show, and that they
        have no room for."""
        own = [packets[number] for number in gap.numbers]
        found = differences_of(own, [Record(0, one.data) for one in lost], ends_at_front=gap.is_front)
        places = {gap.numbers[number]: lost[its] for number, its in found.differing + equal_pairs(len(own), len(lost), found)}
        wanted = set(gap.numbers)
        if gap.is_front or gap.is_back:
            wanted = {number for number, one in places.items() if one.last is not None} | set(hidden_numbers(gap, own, hidden))
        for number in sorted(wanted):
            if number in places:
                yield self.missing_finding(gap.channel, number, packets[number], places[number])
            else:
                yield Finding("missing", channel=gap.channel, packet=number, expected="%d bytes" % len(packets[number].data), last=gap.ends)

    def missing_finding(self, channel, number, packet, one, note=None):
        finding = Finding("missing", channel=channel, packet=number, expected="%d bytes" % len(packet.data), note=note, last=one.last)
        if note:
            finding.found = "%d bytes" % len(one.data)
        place_finding(self.run, finding, one.first)
        return finding

    def seen_on(self, channel):
        """The packets of a channel in the words, also those that are not right, in order of their SOP words. One that begins with the first
        control word is cut by the beginning, since a receiver trusts none before another."""
        pieces = {piece.first: piece for piece in self.pieces if piece.channel == channel}
        first = next((word for word, kind in enumerate(self.run.stream.kinds) if kind in "bie"), None)
        return [Seen(packet.first, packet.last, packet.data, pieces.get(packet.first)) for packet in self.run.stream.packets
                if packet.channel == channel and packet.first != first]


def hidden_numbers(gap, own, hidden):
    """The numbers of the packets next to one that came which faults hide at an end of the dump."""
    if gap.is_back and hidden.ends_quiet() and (not gap.is_front or hidden.begins_quiet()):
        return gap.numbers[:hidden.count(*gap.ends, own)]
    if gap.is_front and not gap.is_back and hidden.begins_quiet():
        return gap.numbers[len(own) - hidden.count(*gap.ends, own[::-1]):]
    return ()


def equal_pairs(ours, theirs, found):
    """The pairs of records that are equal, which are those that no list of differences has."""
    not_ours, not_theirs = {number for number, _ in found.differing} | set(found.missing), {number for _, number in found.differing} | set(found.extra)
    return list(zip((number for number in range(ours) if number not in not_ours), (number for number in range(theirs) if number not in not_theirs)))


def no_lock_findings(run):
    """Lanes without a lock, with what their bits tell; and lanes that have their locks and form no group."""
    without = [number for number, locks in enumerate(run.locks) if not locks.locks]
    for number in without:
        yield Finding("no-lock", lane=number, note="; ".join(probed(run, number)))
    if not without and not run.places.pieces:
        phases = sorted(locks.firsts[0] % run.plan.period for locks in run.locks)
        gaps = [after - before for before, after in zip(phases, phases[1:] + [phases[0] + run.plan.period])]
        apart = run.plan.period - max(gaps)
        yield Finding("no-group", expected="at most %d bits" % (CODE * run.plan.deskew), found="%d bits" % apart,
                      note="the Sync words of the lanes lie %d bits apart, which needs deskew,%d" % (apart, -(-apart // CODE)))


def probed(run, number):
    """What the bits of a lane tell: what has to be changed, or all if nothing has."""
    said = list(said_of(probe_lane(run.lanes[number].data[:MOST_BYTES], run.plan.metaframe)))
    changed = [one for one in said if one.mend is not None]
    return ["%s%s" % (one.text, "" if one.mend is None else ": " + mend_of(one.mend, number)) for one in changed or said]


def follow_no_lock(by_lane, without):
    """Searches that were given up on a lane without a lock follow from that."""
    for finding in without:
        for other in by_lane[finding.lane] if finding.lane is not None else ():
            other.cause = finding
