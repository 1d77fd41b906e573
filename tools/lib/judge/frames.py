"""The metaframe that a word of a declared lock stands in: its words, descrambled, and what its framing words should be."""

from collections import namedtuple
from functools import lru_cache

from probe import frames as probing_frames
from probe.variants import after, jump
from reading.checksums import CRC32
from reading.conventions import Crc32Rule, wrong_bits
from reading.metaframes import CONTROL, DIAGNOSTIC_MARK, HALF, SKIP, STATE, STATE_BITS, STATE_MARK, SYNC, key_after
from reading.plans import CODE

SYNC_PLACE, STATE_PLACE, FIRST_SKIP = 0, 1, 2
# So many words are descrambled in a call; the findings after them have no expected values.
MOST_WORDS = 1500000
FEW_TURNS = 40

# A word of a metaframe: its header, its payload as it is on the lane, and descrambled.
Framed = namedtuple("Framed", "header raw word")


class Frame:
    """A metaframe of a lane from its Sync word on, as far as the lane has it; `state` is the running state of its Scrambler State word."""

    def __init__(self, lane, begin, state, plan):
        self.lane, self.begin, self.plan, self.state, self.crcs = lane, begin, plan, state, {}
        self.codes = [lane.code(bit) for bit in range(begin, min(begin + plan.period, lane.count - CODE + 1), CODE)]
        self.is_whole = len(self.codes) == plan.metaframe
        self.words = self.words_from(state)

    def words_from(self, state):
        """The words, descrambled from a state on."""
        words = []
        for place, code in enumerate(self.codes):
            if place in (SYNC_PLACE, STATE_PLACE):
                words.append(Framed(code.header, code.payload, code.payload))
                continue
            key, state = key_after(state)
            words.append(Framed(code.header, code.payload, code.payload ^ key))
        return words

    def skip_places(self):
        return range(FIRST_SKIP, FIRST_SKIP + self.plan.skips)

    def carried(self):
        """The state that the Scrambler State word carries, or None where it is none."""
        code = self.codes[STATE_PLACE] if len(self.codes) > STATE_PLACE else None
        return code.payload & STATE if code and code.header == CONTROL and code.payload >> STATE_BITS == STATE_MARK else None

    def covered(self, is_mended=False):
        """The payloads that the CRC32 covers: bad words are zeros, and so are the state and the place of the CRC32. `is_mended` takes
        the Sync and Skip words as they should be."""
        for place, framed in enumerate(self.words):
            value = 0 if framed.header in (0, 3) else framed.word
            if place == STATE_PLACE:
                value = value >> STATE_BITS << STATE_BITS
            if is_mended and place == SYNC_PLACE:
                value = SYNC
            if is_mended and place in self.skip_places():
                value = SKIP
            yield value & ~HALF if place == self.plan.metaframe - 1 else value

    def as_probed(self):
        """The metaframe as the variants of senders take it."""
        return probing_frames.Frame(self.begin, [code.header for code in self.codes], [code.payload for code in self.codes])

    def crc(self, is_mended=False):
        """The CRC32 of the metaframe."""
        if is_mended not in self.crcs:
            self.crcs[is_mended] = CRC32.of(b"".join(value.to_bytes(8, "big") for value in self.covered(is_mended)))
        return self.crcs[is_mended]

    def found_crc(self):
        """The CRC32 that the Diagnostic word has, or None where there is no such word."""
        last = self.words[-1]
        return last.word & HALF if self.is_whole and last.header == CONTROL and last.word >> STATE_BITS == DIAGNOSTIC_MARK else None


class Frames:
    """The metaframes of a lane, each read once if its findings follow one another."""

    def __init__(self, lane, locks, plan):
        self.lane, self.locks, self.plan = lane, locks, plan
        self.left, self.begin, self.frame = MOST_WORDS, None, None
        self.lock, self.turn, self.state = None, 0, 0

    def of(self, bit):
        """The metaframe that has the word at a bit and the word's place in it; None if no lock does, or too many were read."""
        lock = self.locks.lock_at(bit)
        if lock is None or bit < lock.first:
            return None, None
        turn, rest = divmod(bit - lock.first, self.plan.period)
        if self.begin != bit - rest:
            if self.left < self.plan.metaframe:
                return None, None
            self.left -= self.plan.metaframe
            self.begin, self.frame = bit - rest, Frame(self.lane, bit - rest, self.running_state(lock, turn), self.plan)
        return self.frame, rest // CODE

    def running_state(self, lock, turn):
        """The state of the Scrambler State word of a metaframe of a lock, by that of its first."""
        if self.lock != lock or turn < self.turn:
            has_state = lock.first + 2 * CODE <= self.lane.count
            self.lock, self.turn, self.state = lock, 0, self.lane.code(lock.first + CODE).payload & STATE if has_state else 0
        turns, self.turn = turn - self.turn, turn
        words = self.plan.metaframe - 2
        if turns <= FEW_TURNS:
            for _ in range(turns):
                self.state = after(jump(words), self.state)
        else:
            self.state = after(jump(turns * words), self.state)
        return self.state

    def from_bit(self, bit, most):
        """The whole metaframes from a bit on, at most so many, as long as each begins with a Sync word."""
        while most and bit + self.plan.period <= self.lane.count and self.lane.code(bit).payload == SYNC:
            yield Frame(self.lane, bit, 0, self.plan).as_probed()
            bit, most = bit + self.plan.period, most - 1


def inverted_bit(frame):
    """The bit of a lane that, inverted, makes the CRC32 of a metaframe right: of a payload, or an inversion bit; or None."""
    found = frame.found_crc()
    if found is None or any(code.header in (0, 3) for code in frame.codes):
        return None
    place = place_by_syndrome(len(frame.codes)).get(found ^ frame.crc())
    return None if place is None else frame.begin + place


@lru_cache(maxsize=1)
def place_by_syndrome(length):
    """By what it adds to the CRC32 of a metaframe of so many words, the bit of it that is wrong."""
    places = {}
    for adds, place, bit in wrong_bits(Crc32Rule(), length):
        places.setdefault(adds, CODE * place + (0 if bit is None else CODE - 1 - bit))
    return places
