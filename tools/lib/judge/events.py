"""The events of lanes as findings: where they stand, what was expected there, and what was found."""

from judge.findings import Finding
from judge.frames import Frames, inverted_bit
from probe.variants import RIGHT, crc32_variant, skip_variant
from reading.metaframes import CONTROL, SKIP, SYNC
from reading.plans import CODE

LOCK, UNFRAMED, BALANCE = "lock", "unframed", "balance"
MOST_BALANCE = 129
WELL = 3  # both health bits
MOST_TRIED = 200000  # words of all lanes in which variants of the CRC32 are tried


def event_findings(run):
    """A finding for each event but the declared locks, by lane in order of bit."""
    return [list(of_lane(run, number)) for number in range(len(run.lanes))]


def of_lane(run, number):
    """The findings of a lane. Its metaframes are read one after another, for all of their events."""
    frames = Frames(run.lanes[number], run.locks[number], run.plan)
    frames.tries = MOST_TRIED // len(run.lanes)
    locks = run.locks[number]
    for bit, event in run.events[number]:
        if event == LOCK or bit < run.begins[number]:
            continue
        lock = locks.lock_at(bit)
        finding = Finding(event, bit=bit, lane=number, metaframe=run.places.metaframe_of(number, bit))
        if lock and bit >= lock.first and event != UNFRAMED:
            finding.word = word_at(run, number, bit)
            tell(finding, event, frames, lock)
        yield finding


def word_at(run, lane, bit):
    """The gathered word that begins at a bit of a lane, or None."""
    word = run.places.slot_of(lane, bit)
    return word if word is not None and run.places.place(word)[2] == bit and word not in run.breaks else None


def tell(finding, event, frames, lock):
    """Puts what was expected and found into the finding of an event of a lock."""
    frame, place = frames.of(finding.bit)
    if event == BALANCE:
        finding.expected, finding.found = "-%d to %d" % (MOST_BALANCE, MOST_BALANCE), frames.lane.disparity(lock.first, finding.bit + CODE)
    elif frame is None or place >= len(frame.codes):
        return
    elif event in ("bad", "lost-headers"):
        finding.expected, finding.found = "01 or 10", format(frame.codes[place].header, "02b")
    elif event in TOLD:
        finding.expected, finding.found = TOLD[event](frame, place)
        if event == "diag":
            tell_diagnostic(finding, frames, frame)
        elif event == "skip":
            raw, word = frame.words[place].raw, frame.words[place].word
            variant = skip_variant(raw, raw ^ word)
            finding.variant = None if variant == RIGHT else variant


def payload_text(header, payload):
    """A payload in digits, with what its header says where that is not control."""
    return {1: "data ", CONTROL: ""}.get(header, "bad ") + "%016X" % payload


def sync_told(frame, place):
    return payload_text(CONTROL, SYNC), payload_text(frame.words[place].header, frame.words[place].raw)


def state_told(frame, place):
    carried = frame.carried()
    found = payload_text(frame.words[place].header, frame.words[place].raw) if carried is None else "%015X" % carried
    return "%015X" % frame.state, found


def skip_told(frame, place):
    return payload_text(CONTROL, SKIP), payload_text(frame.words[place].header, frame.words[place].word)


def diagnostic_told(frame, place):
    found, word = frame.found_crc(), frame.words[place]
    return "%08X" % frame.crc(), payload_text(word.header, word.word) if found is None else "%08X" % found


def health_told(frame, place):
    return format(WELL, "02b"), format(frame.words[place].word >> 32 & WELL, "02b")


def tell_diagnostic(finding, frames, frame):
    """Says whether a wrong CRC32 is right by the Sync and Skip words as they should be, by a known variant, or with one bit inverted."""
    found = frame.found_crc()
    if found is None or any(code.header in (0, 3) for code in frame.codes):
        return
    finding.is_mended = found == frame.crc(is_mended=True)
    bit = None if finding.is_mended else inverted_bit(frame)
    if bit is not None:
        finding.noted_bit, finding.note = bit, "right with bit %d of the lane inverted" % bit
        place = (bit - frame.begin) // CODE
        if (bit - frame.begin) % CODE == 0:
            finding.note += ", the inversion bit of word %d of the metaframe: that word came complemented" % place
    elif not finding.is_mended and frames.tries > 0:
        frames.tries -= len(frame.codes)
        finding.variant = crc32_variant([word.word for word in frame.words])


TOLD = {"sync": sync_told, "lost-sync": sync_told, "state": state_told, "lost-state": state_told, "skip": skip_told, "diag": diagnostic_told, "health": health_told}
