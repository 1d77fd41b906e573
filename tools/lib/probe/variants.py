"""The known ways in which senders differ from the profile: in CRC24, CRC32, scrambler and Skip words.

A function of one item returns the name of what fits: RIGHT, what differs with commas between, or None if nothing known fits. Checksums
have the names that `lanes adapt` takes. The caller counts.
"""

from collections import namedtuple
from functools import lru_cache

from reading.checksums import CRC24
from reading.conventions import crc24_rule_of, crc32_rule_of
from reading.metaframes import CONTROL, DIAGNOSTIC_MARK, HALF, SKIP, STATE, STATE_BITS, key_after

RIGHT = "right"
NOT_SCRAMBLED = "not scrambled"
STATE_REVERSED, RUNS_THROUGH = "State words reversed", "running through Sync and State words"
STANDS_IN_SKIPS = "standing still in Skip words"
WORD_STEPS = 64  # of the register in a word
MOST_STEPS = 64  # State words are tried from so many steps back to so many steps on
TRIED = 6  # metaframes by which a scrambler is chosen
RESERVED = (1 << 24) - 1  # of the Diagnostic word, bits 57:34 shifted down


def named(changes):
    return ", ".join(changes) or RIGHT


# ---- checksums

def crc24_variant(data, word):
    """How bits 23:0 of a control word follow from the bytes of the data words before it and from itself."""
    covered = data + (word >> 24 << 24).to_bytes(8, "big")
    found = word & CRC24.ones
    if CRC24.of(covered) == found:
        return RIGHT
    rule = crc24_rule_of(covered, found)
    return None if rule is None else rule.name() or RIGHT


def crc32_variant(words, rule=None):
    """How bits 31:0 of a metaframe's Diagnostic word follow from its words: their payloads, descrambled, from Sync to Diagnostic. The
    State word has its 58 bits as they were sent. Only one rule is tried if it is given."""
    covered = b"".join(word.to_bytes(8, "big") for word in (words[0], words[1] >> STATE_BITS << STATE_BITS, *words[2:-1], words[-1] & ~HALF))
    states, found = words[1] & STATE, words[-1] & HALF
    if rule is not None:
        return (rule.name() or RIGHT) if rule.of(covered, states) == found else None
    found = crc32_rule_of(covered, states, found)
    return None if found is None else found.name() or RIGHT


# ---- the scrambler

def skip_variant(payload, key):
    """RIGHT if a payload is a Skip word under these 64 key bits, NOT_SCRAMBLED if it is one as it is, or None."""
    return RIGHT if payload ^ key == SKIP else NOT_SCRAMBLED if payload == SKIP else None


def steps_on(state, steps):
    """A state so many steps on, or back if the number is below 0."""
    for _ in range(steps):
        state = (state << 1 | (state >> 38 ^ state >> 57) & 1) & STATE
    for _ in range(-steps):
        state = state >> 1 | ((state ^ state >> 39) & 1) << 57
    return state


def reversed_state(state):
    return int(format(state, "0%db" % STATE_BITS)[::-1], 2)


class Scrambler(namedtuple("Scrambler", "is_reversed steps runs plain stands", defaults=(False, 0, False, False, False))):
    """How the State words of a lane tell the key: whether their 58 bits are reversed; how many steps they are ahead of the state with
    which the word after them begins; whether the register runs on in Sync and State words; whether Skip words are not scrambled, and
    whether the register stands still in those. `Scrambler()` is right."""

    def name(self):
        """RIGHT, or the changes with commas between, as "State words reversed, State words 3 steps on"."""
        # A register that runs on in the State word itself is 64 steps further after it.
        steps = 0 if self.runs and self.steps == -MOST_STEPS else self.steps
        on = ["State words %d steps %s" % (abs(steps), "on" if steps > 0 else "back")] if steps else []
        return named([RUNS_THROUGH] * self.runs + [STATE_REVERSED] * self.is_reversed + on + [STANDS_IN_SKIPS] * self.stands)

    def adapted(self):
        """The option of `lanes adapt` that mends it, or None."""
        if self.is_reversed or self.plain or self.stands or not (self.runs or self.steps):
            return None
        if self.runs:
            return "--state running" if self.steps == -MOST_STEPS else "--state running,%d" % self.steps
        return "--state %d" % self.steps

    def start(self, carried):
        """The state with which the word after a State word begins that carries this one."""
        return steps_on(reversed_state(carried) if self.is_reversed else carried, -self.steps)


@lru_cache(maxsize=None)
def jump(words):
    """The states that come so many words after each state of one bit, or before it if the number is below 0: those of a sum of bits
    are their sums."""
    if words == 0:
        return tuple(1 << bit for bit in range(STATE_BITS))
    half = jump(words // 2 if words > 0 else -(-words // 2))
    images = tuple(after(half, image) for image in half)
    if words % 2 == 0:
        return images
    return tuple(key_after(image)[1] if words > 0 else steps_on(image, -WORD_STEPS) for image in images)


def after(images, state):
    found = 0
    while state:
        low = state & -state
        found ^= images[low.bit_length() - 1]
        state ^= low
    return found


def plain_skips(frame):
    """How many words after the State word are Skip words that are not scrambled."""
    return next((count for count, payload in enumerate(frame.payloads[2:-1]) if payload != SKIP), len(frame.payloads) - 3)


def fits(frame, start, plain, stands):
    """Whether a key that begins with this state after the State word gives a Skip word at once, or a Diagnostic word at the end."""
    first, last = frame.payloads[2], frame.payloads[-1]
    if not plain and frame.headers[2] == CONTROL and skip_variant(first, key_after(start)[0]) == RIGHT:
        return True
    before = len(frame.payloads) - 3 - (plain_skips(frame) if stands else 0)
    word = last ^ key_after(after(jump(before), start))[0]
    return frame.headers[-1] == CONTROL and word >> STATE_BITS == DIAGNOSTIC_MARK and word >> 34 & RESERVED == 0


def candidates(plain):
    """Scramblers in the order in which they are tried, but for whether they run through Sync and State words."""
    by_nearness = sorted(range(-MOST_STEPS, MOST_STEPS + 1), key=abs)
    for stands in (False, True) if plain else (False,):
        for steps in by_nearness:
            for is_reversed in (False, True):
                yield Scrambler(is_reversed, steps, False, plain, stands)


def scrambler_of(frames):
    """The scrambler that fits most of some metaframes (`frames.Frame`), how many it fits, and of how many: (Scrambler or None, fits,
    tried). Of those that fit it is the first by which most State words follow from the metaframe before: with one Skip word that is
    not scrambled, a register that stands still there fits a metaframe by itself as State words 64 steps on do."""
    frames = list(frames)
    plain = 2 * sum(plain_skips(frame) > 0 for frame in frames) > len(frames)
    found = None
    for scrambler in candidates(plain):
        if 2 * fitting(frames[:TRIED], scrambler) > len(frames[:TRIED]):
            scrambler = scrambler._replace(runs=runs_on(frames, scrambler))
            found = found or scrambler
            if not plain or 2 * following(frames, scrambler) >= len(frames) - 1:
                found = scrambler
                break
    return found, fitting(frames, found) if found else 0, len(frames)


def fitting(frames, scrambler):
    """How many metaframes a scrambler fits."""
    return sum(fits(frame, scrambler.start(frame.payloads[1] & STATE), scrambler.plain, scrambler.stands) for frame in frames)


def following(frames, scrambler):
    """How many State words follow from the metaframe before."""
    return sum(is_next(*pair, scrambler) for pair in zip(frames, frames[1:]))


def runs_on(frames, scrambler):
    """Whether in most pairs of metaframes that follow one another the register ran on in the Sync and State words between."""
    return following(frames, scrambler._replace(runs=True)) > following(frames, scrambler)


def is_next(frame, other, scrambler):
    """Whether the State word of a metaframe is that of the register of the one before."""
    count = len(frame.payloads)
    words = count if scrambler.runs else count - 2
    words -= plain_skips(frame) if scrambler.stands else 0
    start, wanted = (scrambler.start(some.payloads[1] & STATE) for some in (frame, other))
    return other.bit - frame.bit == 67 * count and after(jump(words), start) == wanted
