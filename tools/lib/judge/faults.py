"""The faults of words as findings: where the word stands on its lane, what was expected, and what was found."""

from bisect import bisect_left

from judge.calendars import told_by_word
from judge.findings import Finding
from probe.variants import crc24_variant
from reading.checksums import CRC24

NO_END = 0


class Words:
    """The gathered words by kind, for what a rule expects."""

    def __init__(self, run):
        self.run, self.stream, self.plan = run, run.stream, run.plan

    def before(self, word):
        """The data words right before a control word: the first of them."""
        kinds, first = self.stream.kinds, word
        while first > 0 and kinds[first - 1] == "d":
            first -= 1
        return first

    def bytes_of(self, first, last):
        """The payloads of words from one on up to another."""
        return b"".join(self.stream.data[9 * at + 1:9 * at + 9] for at in range(first, last))

    def burst_bytes(self, word):
        """The bytes of the burst that a control word closes, cut to the valid ones of its end."""
        count, end = 8 * (word - self.before(word)), self.stream.word(word) >> 57 & 15
        return count - (8 - (end & 7 or 8)) * (end >> 3)


def place_finding(run, finding, word):
    """Puts a word of the gathered ones into a finding, and where it stands on its lane."""
    finding.word = word
    finding.lane, finding.metaframe, finding.bit = run.places.place(word)


def fault_findings(run):
    """A finding for each fault, in order of word and rule."""
    words, found = Words(run), []
    calendar = told_by_word(run)
    for word, faults in sorted(run.faults.items()):
        for rule, channel in faults:
            finding = Finding(rule, channel=channel)
            place_finding(run, finding, word)
            if rule == "calendar":
                finding.expected, finding.found = calendar.get(word, (None, None))
            elif rule in TOLD:
                finding.expected, finding.found = TOLD[rule](words, word)
            if rule == "crc":
                finding.variant = crc24_variant(words.bytes_of(words.before(word), word), run.stream.word(word))
            found.append(finding)
    tell_ends(words, found)
    return found


def tell_ends(words, found):
    """Notes of bursts of which no end came, and of those that may be another channel's."""
    by_channel = {}
    for slot, count, channel in words.stream.bursts:
        by_channel.setdefault(channel, []).append((slot, slot + 1 + count))
    opened = [finding for finding in found if finding.what == "open"]
    for finding in found:
        if finding.what != "sop":
            continue
        own = by_channel.get(finding.channel, [])
        at = bisect_left(own, (finding.word, 0)) - 1
        if at < 0:
            continue
        last, end = own[at]
        other = next((one for one in opened if last < one.word < finding.word and one.channel != finding.channel), None)
        if other is not None and other.note is None:
            other.note = "it may be a burst of channel %d, which is open and has none before its next SOP" % finding.channel
        elif end < words.stream.count:
            ending = Finding("")
            place_finding(words.run, ending, end)
            finding.note = "the burst before on channel %d, which ends at bit %d of lane %d, has no EOP" % (finding.channel, ending.bit, ending.lane)


def crc_told(words, word):
    value = words.stream.word(word)
    covered = words.bytes_of(words.before(word), word) + (value >> 24 << 24).to_bytes(8, "big")
    return "%06X" % CRC24.of(covered), "%06X" % (value & CRC24.ones)


def control_told(words, word):
    value = words.stream.word(word)
    return "bit 63 is 1" if not value >> 63 else "an end format", "%016X" % value


def max_told(words, word):
    first, end = words.before(word), words.stream.end_of_data(word)
    return "at most %d bytes" % words.plan.burst_max, "%d bytes" % (8 * (end - first))


def short_told(words, word):
    """The words between the burst word before and this one."""
    burst = words.stream.burst_at(word - 1)
    return "at least %d words" % (words.plan.burst_short // 8), "" if burst is None else "%d words" % (word - burst[0] - 1)


def end_told(words, word):
    return format(NO_END, "04b"), format(words.stream.word(word) >> 57 & 15, "04b")


def fill_told(words, word):
    value, valid = words.stream.word(word - 1), words.stream.word(word) >> 57 & 7 or 8
    unused = 8 * (8 - valid)
    return "%016X" % (value >> unused << unused), "%016X" % value


def part_told(words, word):
    return "a multiple of 4 words", "%d words" % (word - words.before(word))


def min_told(words, word):
    return "at least %d bytes" % words.plan.burst_min, "%d bytes" % words.burst_bytes(word)


def channel_told(words, word):
    return "a listed channel", "%d" % words.plan.channel_of(words.stream.word(word))


def idle_told(words, word):
    value = words.stream.word(word)
    return "sop=0 channel=0 multi=0", "sop=%d channel=%d multi=%d" % (value >> 61 & 1, value >> 32 & 255, value >> 24 & 255)


def multi_told(words, word):
    return "multi=0", "multi=%d" % (words.stream.word(word) >> 24 & 255)


def long_told(words, word):
    return "at most %d bytes" % words.plan.max_packet, ""


TOLD = {"crc": crc_told, "control": control_told, "max": max_told, "short": short_told, "end": end_told, "fill": fill_told, "part": part_told, "min": min_told,
        "channel": channel_told, "idle": idle_told, "multi": multi_told, "long": long_told,
        "sop": lambda words, word: ("sop=0", "sop=1"), "open": lambda words, word: ("sop=1", "sop=0"), "off": lambda words, word: ("no burst", "a burst")}
