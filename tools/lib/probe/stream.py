"""What fits all lanes together: their order, skews, CRC24, calendar, channels and bursts."""

from collections import Counter, namedtuple
from itertools import permutations

from probe.lanes import Share
from probe.variants import RIGHT, crc24_variant
from reading.control_words import entries_of, is_control, is_reset
from reading.metaframes import CONTROL
from reading.plans import CODE

ALL_ORDERS = 6  # lanes up to which all orders are tried
DATA = 1
PARTS, PART_WORDS, LEAST_ROWS = 2, 2048, 16  # by so many parts of so many words orders are told apart
EARLY = 16  # checksums after which an order of which none fits is given up
ENTRIES = 16  # of a control word
FEW_IDLES = 8

# An order of lanes: what is said of it, and for each place the lane that stands there.
LaneOrder = namedtuple("LaneOrder", "said lanes")
# How far the lanes lie apart: for each lane the bits by which it is behind the first of them.
Skews = namedtuple("Skews", "behind deskew")


# ---- rows

def skews_of(findings):
    """How many bits each lane is behind the first, by their first Sync words, modulo a metaframe: so that they lie as near together as
    they can."""
    period = CODE * findings[0].found.metaframe
    phases = [finding.found.first % period for finding in findings]
    marks = sorted(set(phases))
    # The lanes begin after the widest gap between neighbours on the circle of a metaframe.
    begin = max(zip(marks, [marks[-1] - period] + marks[:-1]), key=lambda pair: pair[0] - pair[1])[0]
    behind = [(phase - begin) % period for phase in phases]
    return Skews(behind, -(-max(behind) // CODE))


def columns_of(findings, skews, lates=None):
    """By lane its payload words, (header, word), from the first metaframe that all lanes have: one of each lane makes a row."""
    period, skips = CODE * findings[0].found.metaframe, findings[0].skips or 1
    begins = [(finding.found.first - behind) // period for finding, behind in zip(findings, skews.behind)]
    begins = [begin - late for begin, late in zip(begins, lates or [0] * len(begins))]
    late = [max(begins) - begin for begin in begins]
    count = max(0, min(len(finding.frames) - after for finding, after in zip(findings, late)))
    return [payload_of(finding, range(after, after + count), skips) for finding, after in zip(findings, late)]


def payload_of(finding, numbers, skips):
    """The payload words of a lane's metaframes."""
    return [pair for number in numbers for pair in zip(finding.frames[number].headers[2 + skips:-1], finding.words[number][2 + skips:-1])]


def words_of(columns, lanes):
    """The words of rows in an order of lanes: (header, word)."""
    for row in zip(*(columns[lane] for lane in lanes)):
        yield from row


# ---- the order of lanes

def orders_of(count):
    """The orders of lanes in the order in which they are tried."""
    lanes = list(range(count))
    yield LaneOrder("as it is", lanes)
    if count <= ALL_ORDERS:
        for order in list(permutations(lanes))[1:]:
            yield LaneOrder("", list(order))
        return
    yield LaneOrder("reversed", lanes[::-1])
    for step in lanes[1:]:
        yield LaneOrder("rotated by %d" % step, lanes[step:] + lanes[:step])
    for second in lanes:
        for first in lanes[:second]:
            order = list(lanes)
            order[first], order[second] = second, first
            yield LaneOrder("lanes %d and %d exchanged" % (first, second), order)


def closing(words):
    """The control words that close data, each with the bytes of these: (bytes, word)."""
    data, is_open = [], False
    for header, word in words:
        if header == DATA:
            data.append(word)
            continue
        if header == CONTROL and is_open and data:
            yield bytes_of(data), word
        data, is_open = [], header == CONTROL


def bytes_of(words):
    return b"".join(word.to_bytes(8, "big") for word in words)


def with_data(columns):
    """Parts of some rows each, those with the most data words, in the order of the rows."""
    rows = max(LEAST_ROWS, PART_WORDS // len(columns))
    parts = [[column[at:at + rows] for column in columns] for at in range(0, len(columns[0]), rows)]
    counts = [sum(header == DATA for column in part for header, _ in column) for part in parts]
    chosen = sorted(range(len(parts)), key=lambda place: -counts[place])[:PARTS]
    return [parts[place] for place in sorted(chosen) if counts[place]]


def score(parts, lanes):
    """How many control words that close data have a known CRC24, of how many; given up early if none has."""
    names, tried = Counter(), 0
    for part in parts:
        for data, word in closing(words_of(part, lanes)):
            tried += 1
            names[crc24_variant(data, word)] += 1
            if tried == EARLY and names[None] == tried:
                return Share(0, tried)
    names.pop(None, None)
    return Share(max(names.values(), default=0), tried)


def order_of(columns):
    """The order of lanes in which the most control words that close data have a known CRC24, and its share; None if no lane has data
    words, or no such word fits in any order."""
    parts = with_data(columns)
    best, best_share = None, Share(0, 0)
    for order in orders_of(len(columns)) if parts else ():
        share = score(parts, order.lanes)
        if share.fits * max(1, best_share.tried) > best_share.fits * share.tried:
            best, best_share = order, share
        if share.fits and 20 * share.fits >= 19 * share.tried:
            break
    if parts and not 2 * best_share.fits > best_share.tried:
        lanes = order_by_short_bursts(columns)
        share = score(parts, lanes) if lanes else best_share
        if share.fits > best_share.fits:
            return LaneOrder("", lanes), share
    return best, best_share


# ---- the order of lanes by short bursts

MOST_CONTROLS = 6000  # control words that are tried


def order_by_short_bursts(columns):
    """The order of lanes in which control words stand behind bursts of one data word: each tells of two lanes that follow one another, and
    whether a row ends between them. None if they do not tell all."""
    edges, tried = Counter(), 0
    for row in range(1, len(columns[0])):
        for lane, column in enumerate(columns):
            header, word = column[row]
            if header != CONTROL or crc24_variant(b"", word) is not None:
                continue
            tried += 1
            edges.update((other, lane, is_row) for other, is_row in befores(columns, row, lane, word))
        if tried > MOST_CONTROLS:
            break
    return chain_of(edges, len(columns))


def befores(columns, row, lane, word):
    """The lanes whose data word, in a row or the one before, a control word has the CRC24 of."""
    for other, column in enumerate(columns):
        for at in (row, row - 1) if other != lane else (row - 1,):
            header, data = column[at]
            if header == DATA and crc24_variant(data.to_bytes(8, "big"), word) is not None:
                yield other, at == row - 1


def chain_of(edges, count):
    """The order of so many lanes by pairs of which one follows the other; or None. The last is that behind which a row ends."""
    after, ends = {}, Counter()
    for (lane, other, is_row), times in edges.items():
        if is_row:
            ends[lane, other] += times
        elif times > after.get(lane, (0, 0))[0]:
            after[lane] = times, other
    firsts = [pair[1] for pair, _ in ends.most_common(1)] or sorted(set(range(count)) - {other for _, other in after.values()})
    lanes = firsts[:1]
    while lanes and len(lanes) < count and lanes[-1] in after and after[lanes[-1]][1] not in lanes:
        lanes.append(after[lanes[-1]][1])
    if len(lanes) == count - 1:
        lanes += set(range(count)) - set(lanes)
    return lanes if len(lanes) == count else None


# ---- the words

class Words:
    """What words of a stream show: `crc24` counts how their CRC24 fits; and of those control words whose CRC24 fits as most do:
    `channels` the bursts by their number (wide, if `is_wide`), `greatest` the most words of a burst, `least` the least distance of
    burst words or None, `resets` the distances of Reset Calendar in control words, `last_off` the last entry that is off after a
    Reset Calendar, or None."""

    def __init__(self, words, variant=RIGHT):
        self.variant = variant
        self.crc24, self.channels, self.resets = Counter(), Counter(), Counter()
        self.is_wide, self.greatest, self.least, self.last_off = False, 0, None, None
        self.idles = self.idles_used = self.idles_filled = self.idles_held = 0
        self.last_channel = None
        self.data, self.is_known, self.is_burst = [], False, False
        self.burst_at, self.since_reset = None, None
        for slot, (header, word) in enumerate(words):
            self.take(slot, header, word)
        if self.has_other_use:
            self.is_wide, wide, self.channels = False, self.channels, Counter()
            for channel, count in wide.items():
                self.channels[channel & 255] += count

    @property
    def has_other_use(self):
        """Whether the multiple-use bits are no channel numbers, since most idle words have some of them, too."""
        return 2 * self.idles_used > self.idles

    @property
    def has_idle_fields(self):
        """Whether idle words have a channel or SOP bit by a convention, and not by a fault: many do, or they have the last burst's channel."""
        return self.idles_filled >= FEW_IDLES and (5 * self.idles_filled >= self.idles or 10 * self.idles_held >= 9 * self.idles_filled)

    def adapted(self):
        """The options of `lanes adapt` that mend these words."""
        if self.variant != RIGHT:
            yield "--crc24 " + self.variant
        if self.has_idle_fields:
            yield "--idle-fields clear"
        if self.has_other_use:
            yield "--multi-use clear"

    def take(self, slot, header, word):
        if header == DATA:
            self.data.append(word)
        elif header == CONTROL:
            self.control(slot, word)
            self.data = []
        else:
            self.lose()

    def lose(self):
        """Nothing before this word is known."""
        self.data, self.is_known, self.is_burst, self.burst_at, self.since_reset = [], False, False, None, None

    def control(self, slot, word):
        if not self.is_known:
            self.is_known, self.is_burst = True, False
            return
        name = crc24_variant(bytes_of(self.data), word)
        self.crc24[name] += 1
        if name != self.variant or not is_control(word):
            self.lose()
            self.is_known = True
            return
        if self.is_burst:
            self.greatest = max(self.greatest, len(self.data))
        self.is_burst = word >> 62 & 1 == 1
        self.calendar(word)
        if self.is_burst:
            self.burst(slot, word)
        else:
            self.idles += 1
            self.idles_used += word >> 24 & 255 != 0
            self.idles_filled += word >> 61 & 1 or word >> 32 & 255 != 0
            self.idles_held += word >> 61 & 1 == 0 and word >> 32 & 255 == self.last_channel != 0

    def burst(self, slot, word):
        if self.burst_at is not None:
            between = slot - self.burst_at - 1
            self.least = between if self.least is None else min(self.least, between)
        self.burst_at = slot
        self.is_wide = self.is_wide or word >> 24 & 255 != 0
        self.last_channel = word >> 32 & 255
        self.channels[word >> 32 & 255 | (word >> 24 & 255) << 8] += 1

    def calendar(self, word):
        if is_reset(word):
            if self.since_reset is not None:
                self.resets[self.since_reset] += 1
            self.since_reset = 0
        if self.since_reset is not None:
            off = [place for place, is_on in enumerate(entries_of(word)) if not is_on]
            if off:
                self.last_off = max(self.last_off or 0, ENTRIES * self.since_reset + off[-1])
            self.since_reset += 1

    @property
    def calendar_words(self):
        """The control words of a calendar by the distance of most Reset Calendars, or None."""
        return self.resets.most_common(1)[0][0] if self.resets else None


def stream_of(columns, lanes):
    """What the words of rows show in an order of lanes, by the CRC24 that fits most."""
    found = Words(words_of(columns, lanes))
    name = next((name for name, _ in found.crc24.most_common() if name is not None), RIGHT)
    return found if name == RIGHT else Words(words_of(columns, lanes), name)
