"""`lanes adapt`: lanes of another convention as lanes of the profile, each bit at its place.

A metaframe is read with the scrambler of the device's own register. What is wrong by the device's rule is told before anything is
rewritten, and what is written then is wrong by as much: by the same wrong bit of the metaframe, or else in the same bits of the field.
"""

import os
import shutil
import struct
import tempfile
from collections import Counter, namedtuple
from functools import lru_cache
from itertools import chain

from lanes.adapt_stream import parts_together, skips_of
from lanes.metaframes import LOOKED_AT, WRONG_STATES, LaneOfSyncs
from probe.variants import after, jump, steps_on
from reading.control_words import is_control
from reading.conventions import Crc32Rule, crc24_part, crc32_part, key_bits, profile_parts
from reading.lane_words import bits_of
from reading.metaframes import DIAGNOSTIC_MARK, HALF, SKIP, STATE_BITS, STATE_MARK, SYNC, WORD
from reading.writing import Outputs, must_be_free, must_have_no_lanes

IDLE_FIELDS, MULTI_USE = 0xFF << 32 | 1 << 61, 0xFF << 24
TYPE = 1 << 62
INVERTED_ONES = 65  # of the inversion bit and of a payload and its complement
HEADING = b"lane,bit,what,was,is\n"

# What is adapted: `steps` of the State words, whether the scrambler runs through, the rules of the checksums or None, and whether the
# fields of idles and the multiple-use bits are cleared.
Changes = namedtuple("Changes", "steps runs crc32 crc24 idle_fields multi_use")


@lru_cache(maxsize=None)
def steps_of(steps):
    """The states some steps on after each state of one bit."""
    return tuple(steps_on(1 << bit, steps) for bit in range(STATE_BITS))


class Metaframe:
    """A metaframe of a lane: its codes, the device's state and the profile's behind its State word, and its words, descrambled."""

    def __init__(self, codes, length, state, state_of_profile):
        self.codes, self.length, self.state, self.new_state = codes, length, state, state_of_profile
        count = codes.end - 2
        self.keys = [] if count <= 0 else words_of(key_bits(state, 64 * count), count)
        self.words = {}  # by place, those that are changed

    def word(self, place):
        """A word as it came, descrambled."""
        return self.codes.payload(place) ^ self.keys[place - 2]

    def columns(self, first, end):
        """The headers and the words from a place up to another; of one that is not on the lane both are None."""
        codes = self.codes
        begin, last = max(first, codes.first), min(end, codes.end)
        here = slice(begin - codes.first, max(begin, last) - codes.first)
        words = [payload ^ key for payload, key in zip(codes.payloads[here], self.keys[begin - 2:])]
        before, behind = [None] * (min(begin, end) - first), [None] * (end - max(begin, last))
        return before + codes.headers[here] + behind, before + words + behind

    def scrambled(self, keys):
        """By place the words behind the State word as they are with other keys, but for bad ones."""
        begin = max(2, self.codes.first)
        headers, words = self.columns(begin, self.codes.end)
        return [(place, word ^ key) for place, header, word, key in zip(range(begin, self.codes.end), headers, words, keys[begin - 2:]) if header in ("01", "10")]

    @property
    def is_whole(self):
        return self.codes.first == 0 and self.codes.count == self.length

    def has_diagnostic(self):
        """Whether the last word is a Diagnostic word."""
        last = self.length - 1
        return self.codes.has(last) and self.codes.headers[-1] == "10" and self.word(last) >> STATE_BITS == DIAGNOSTIC_MARK

    def controls(self):
        """The places of the words with a control header behind the State word and before the Diagnostic word."""
        first = self.codes.first
        for place in range(max(2, first), min(self.length - 1, self.codes.end)):
            if self.codes.headers[place - first] == "10":
                yield place

    def is_told(self, skips):
        """Whether the CRC32 can be judged: no word is missing but framing words in front, which all metaframes have."""
        return self.codes.end == self.length and self.codes.first <= 2 + skips

    def covered(self, is_new, skips):
        """The bytes that a CRC32 covers, as they came or as they are written: bad words are zeros, and so are the state and the CRC32."""
        first, payloads = self.codes.first, self.codes.payloads
        plain = max(0, 2 - first)
        words = ([SYNC, STATE_MARK << STATE_BITS] + [SKIP] * skips)[:first] + payloads[:plain]
        words += [payload ^ key for payload, key in zip(payloads[plain:], self.keys[max(0, first - 2):])]
        for place, header in enumerate(self.codes.headers, first):
            if header in ("00", "11"):
                words[place] = 0
        if is_new:
            for place, word in self.words.items():
                words[place] = word
        words[1], words[-1] = words[1] >> STATE_BITS << STATE_BITS, words[-1] >> 32 << 32
        return struct.pack(">%dQ" % len(words), *words)


def words_of(bits, count):
    return struct.unpack(">%dQ" % count, bits.to_bytes(8 * count, "big"))


class LaneOut:
    """A lane that is adapted. `counts` has by option (rewritten, right, wrong), and `table`, a file, the rows of what
    was wrong, or of all that was rewritten."""

    def __init__(self, number, name, changes, tells_all):
        self.number, self.changes, self.tells_all = number, changes, tells_all
        self.lane = LaneOfSyncs(name)
        self.counts, self.table = {}, tempfile.TemporaryFile()
        self.excess = 0  # of the running disparity as it is written over the device's
        self.steps = changes.steps
        self.skips = 0  # the Skip words of a metaframe, as soon as they are known
        self.words = self.lane.length - (0 if changes.runs else 2)  # by which the device's register goes on in a metaframe

    def start(self, carried):
        """The state with which the device's words behind a State word begin that carries this one."""
        return after(steps_of(-self.steps), carried)

    # ---- the metaframes

    def states(self):
        """By metaframe its codes, and the device's state behind its State word, of the register that most State words tell."""
        run, waiting, state, wrong = None, [], None, 0
        source = self.lane.metaframes()
        while True:
            while len(waiting) <= LOOKED_AT:
                pair = next(source, None)
                if pair is None:
                    break
                waiting.append(pair)
            if not waiting:
                return
            here, codes = waiting[0]
            if here != run or wrong >= WRONG_STATES:
                run, wrong = here, 0
                state = self.state_by(codes for other, codes in waiting if other == here)
                is_new = True
            else:
                is_new = False
            carried = codes.carried()
            wrong = wrong + 1 if carried is not None and state is not None and self.start(carried) != state else 0
            yield codes, state, is_new
            waiting.pop(0)
            state = None if state is None else after(jump(self.words), state)

    def state_by(self, codes):
        """The state behind the first of some State words that most of these lead to, or None."""
        found = Counter()
        for number, some in enumerate(codes):
            carried = some.carried()
            if carried is not None:
                found[after(jump(-number * self.words), self.start(carried))] += 1
        return found.most_common(1)[0][0] if found else None

    def parts(self):
        """The metaframes of which the state is known, as soon as one tells how many Skip words they have."""
        new_state, held = None, []
        for codes, state, is_new in self.states():
            if state is None:
                new_state = None
                continue
            if not self.changes.runs or new_state is None or is_new:
                new_state = state
            part = Metaframe(codes, self.lane.length, state, new_state)
            if part.is_whole and not self.skips:
                self.skips = skips_of(part)
            held.append(part)
            if self.skips or len(held) > LOOKED_AT:
                yield from held
                held = []
            new_state = after(jump(self.lane.length - 2), new_state)
        yield from held

    # ---- what is changed

    def clear_fields(self, part):
        """Clears the fields of control words that an option names, and moves their CRC24."""
        changes = self.changes
        for place in part.controls() if changes.idle_fields or changes.multi_use else ():
            word = part.words.get(place, part.word(place))
            if not is_control(word):
                continue
            for option, mask in (("--idle-fields", 0 if word & TYPE or not changes.idle_fields else IDLE_FIELDS), ("--multi-use", MULTI_USE if changes.multi_use else 0)):
                delta = word & mask
                if delta:
                    word ^= delta ^ crc24_part(delta)
                    part.words[place] = word
                    self.count(option, True)
                    if self.tells_all:
                        self.tell(part.codes.bit_of(place), option[2:], "%016X" % part.word(place), "%016X" % word)

    def adapt(self, part):
        """The payloads that are written, by place; the CRC24 of the words is done."""
        new = {}
        if part.codes.has(1):
            self.adapt_state(part, new)
        if part.has_diagnostic():
            self.adapt_crc32(part)
        keys = part.keys
        if self.changes.runs:
            count = part.codes.end - 2
            keys = words_of(key_bits(part.new_state, 64 * count), count) if count > 0 else []
            new.update(part.scrambled(keys))
        for place, word in part.words.items():
            new[place] = word ^ keys[place - 2]
        return new

    def adapt_state(self, part, new):
        carried = part.codes.carried()
        if carried is None or not (self.changes.runs or self.changes.steps):
            return
        start = self.start(carried)
        written = part.new_state ^ start ^ part.state
        self.count("--state", start == part.state)
        if written != carried:
            new[1] = STATE_MARK << STATE_BITS | written
        if start != part.state or self.tells_all:
            self.tell(part.codes.bit_of(1), "state", "%015X" % carried, "%015X" % written)

    def adapt_crc32(self, part):
        """Writes the CRC32: by the profile's rule with the wrong bits that it has by the device's; or what other changes add to it."""
        last = part.length - 1
        word = part.word(last)
        found = word & HALF
        if part.is_told(self.skips) and self.changes.crc32:
            covered, written_over, states = part.covered(False, self.skips), part.covered(True, self.skips), after(steps_of(self.steps), part.state)
            expected = self.changes.crc32.of(covered, states)
            if found != expected and found == self.changes.crc32.of(self.mended(covered), states):
                written = Crc32Rule().of(self.mended(written_over), 0)
            else:
                written = Crc32Rule().of(written_over, 0) ^ self.difference(part, found ^ expected)
            self.count("--crc32", found == expected)
            if found != expected or self.tells_all:
                self.tell(part.codes.bit_of(last), "crc32", "%08X" % found, "%08X" % written)
        else:
            written = found
            for place, changed in part.words.items():
                written ^= crc32_part(part.word(place) ^ changed, last - place)
        if written != found:
            part.words[last] = word ^ found ^ written

    def difference(self, part, wrong):
        """By what a CRC32 is wrong as it is written that is wrong by this: if one bit explains it, what that bit adds there."""
        if not wrong or any(header in ("00", "11") for header in part.codes.headers):
            return wrong
        return profile_parts(self.changes.crc32, part.length).get(wrong, wrong)

    def mended(self, covered):
        """What a CRC32 covers, with Sync and Skip words as they should be: a sender sums what it means."""
        sync, skips = SYNC.to_bytes(8, "big"), SKIP.to_bytes(8, "big") * self.skips
        return sync + covered[8:16] + skips + covered[16 + len(skips):]

    def count(self, option, is_right):
        counts = self.counts.setdefault(option, [0, 0, 0])
        counts[0] += 1
        counts[1 if is_right else 2] += 1

    def tell(self, bit, what, was, now):
        self.table.write(b"%d,%d,%s,%s,%s\n" % (self.number, bit, what.encode(), was.encode(), now.encode()))

    # ---- the file

    def write(self, file, part, new):
        """Writes the codes of a metaframe over those of the lane in a file."""
        codes = part.codes
        for first, end in runs_in([place for place in sorted(new) if new[place] != codes.payload(place)]):
            here = slice(first - codes.first, end - codes.first)
            payloads = [new[place] for place in range(first, end)]
            inverted = self.inverted(codes.payloads[here], payloads, codes.inverted[here])
            put_codes(file, codes.bit_of(first), inverted, codes.headers[here], payloads)

    def inverted(self, olds, news, was_inverted):
        """Whether codes with new payloads are inverted, each "1" or "0": so that the running disparity stays nearest to the device's, or
        else as they were."""
        excess, found = self.excess, []
        for old, new, is_inverted in zip(map(int.bit_count, olds), map(int.bit_count, news), was_inverted):
            if is_inverted == "1":
                old, new = INVERTED_ONES - old, INVERTED_ONES - new
            as_it_was = excess + 2 * (new - old)
            turned = as_it_was + 2 * (INVERTED_ONES - 2 * new)
            if abs(turned) < abs(as_it_was):
                excess, is_inverted = turned, "0" if is_inverted == "1" else "1"
            else:
                excess = as_it_was
            found.append(is_inverted)
        self.excess = excess
        return found


def runs_in(places):
    """The first and the last + 1 of numbers that follow one another."""
    first = None
    for place, behind in zip(places, places[1:] + [None]):
        first = place if first is None else first
        if behind != place + 1:
            yield first, place + 1
            first = None


def put_codes(file, bit, inverted, headers, payloads):
    """Writes codes that follow one another from a bit on: of each its inversion bit and header as characters, and its payload as it is
    meant."""
    sent = [payload ^ WORD if is_inverted == "1" else payload for payload, is_inverted in zip(payloads, inverted)]
    bits = bits_of(struct.pack(">%dQ" % len(sent), *sent))
    text = "".join(chain.from_iterable(zip(inverted, headers, [bits[at:at + 64] for at in range(0, len(bits), 64)])))
    begin, end = bit // 8, -(-(bit + len(text)) // 8)
    shift = 8 * end - bit - len(text)
    number = int.from_bytes(os.pread(file.fileno(), end - begin, begin), "big") & ~((1 << len(text)) - 1 << shift) | int(text, 2) << shift
    os.pwrite(file.fileno(), number.to_bytes(end - begin, "big"), begin)


def adapt_lanes(settings):
    """Writes the lanes, and yields what is said of each."""
    names = settings.files
    must_have_no_lanes(settings.out, settings.overwrite)
    must_be_free([settings.out + ".adapted.csv"], settings.overwrite)
    lanes = [LaneOut(number, name, settings.changes, settings.tells_all) for number, name in enumerate(names)]
    with Outputs() as outputs:
        files = [copy_of(outputs, "%s.lane.%d" % (settings.out, lane.number), lane) for lane in lanes]
        for lane, part, new in adapted(lanes, settings.changes):
            lane.write(files[lane.number], part, new)
        table = outputs.open(settings.out + ".adapted.csv")
        table.write(HEADING)
        for lane in lanes:
            lane.table.seek(0)
            shutil.copyfileobj(lane.table, table)
    return [line for lane in lanes for line in lines_of(lane, settings.changes)]


def adapted(lanes, changes):
    """Each metaframe that is adapted, with its lane and what is written."""
    if changes.crc24:
        for lane, part in parts_together(lanes):
            yield lane, part, lane.adapt(part)
        return
    for lane in lanes:
        for part in lane.parts():
            lane.clear_fields(part)
            yield lane, part, lane.adapt(part)


def copy_of(outputs, name, lane):
    """A copy of a lane file, as it can be written over."""
    file = outputs.open(name)
    lane.lane.file.seek(0)
    shutil.copyfileobj(lane.lane.file, file)
    file.flush()
    return file


def lines_of(lane, changes):
    """What is said of a lane, a line for each option."""
    wanted = (["--state"] if changes.steps or changes.runs else []) + ["--crc32"] * bool(changes.crc32) + ["--crc24"] * bool(changes.crc24)
    wanted += ["--idle-fields"] * changes.idle_fields + ["--multi-use"] * changes.multi_use
    for option in wanted:
        rewritten, right, wrong = lane.counts.get(option, (0, 0, 0))
        yield "lane %d: %s: %d rewritten, %d right, %d wrong" % (lane.number, option, rewritten, right, wrong)
