"""The conventions of senders that differ from the profile, by the names that `lanes adapt` and `probe` share: of the CRC32, the CRC24 and
the State words.

The profile's convention is the first of each group. A checksum of another is told by its own rule, in bits of whole metaframes.
"""

import struct
from collections import namedtuple
from functools import lru_cache
from itertools import product

from reading.checksums import CRC24, CRC32
from reading.metaframes import HALF, STATE_BITS

POLYNOMIAL = CRC32.after(0, b"\1")  # what the last bit of a message adds to a CRC32

# The groups of words by which a convention is named.
CRC32_GROUPS = (("highest-first", "bytes-lowest-first", "word-lowest-first"), ("number", "bytes-swapped", "bits-reversed"), ("ones", "zeros"),
                ("complemented", "plain"), ("state-zeroed", "state-counted"), ("diagnostic-counted", "diagnostic-left-out"))
CRC24_GROUPS = (("ones", "zeros"), ("complemented", "plain"))
MOST_STEPS = 64  # State words are at most so many steps on, or back
RUNNING = "running"
FOLDED = 1024  # bits of data that a table takes in the end
PART = 1 << 15  # bytes that are folded at once
REVERSED_BYTES = bytes(int(format(byte, "08b")[::-1], 2) for byte in range(256))


class Wide:
    """A checksum of `reading.checksums` that takes two bytes at once, and folds long data until little is left of it."""

    def __init__(self, checksum):
        self.width, self.ones = checksum.ones.bit_length(), checksum.ones
        self.drop = self.width - 16
        self.table = [checksum.after(0, pair.to_bytes(2, "big")) for pair in range(1 << 16)]
        self.powers = [1]  # the remainders of the powers of two
        self.folds = {}  # by the bits of data, as `folds_of` has them

    def after(self, register, data):
        """The register after an even number of bytes."""
        for at in range(0, len(data), PART):
            register = self.after_part(register, data[at:at + PART])
        return register

    def after_part(self, register, data):
        if 8 * len(data) > FOLDED:
            register, data = 0, self.folded(int.from_bytes(data, "big") ^ register << 8 * len(data) - self.width, 8 * len(data))
        table, ones, drop = self.table, self.ones, self.drop
        for pair in struct.unpack(">%dH" % (len(data) // 2), data):
            register = register << 16 & ones ^ table[register >> drop ^ pair]
        return register

    def folded(self, number, length):
        """Few bytes with the same checksum as so many bits, from a register of zeros."""
        if length not in self.folds:
            self.folds[length] = list(self.folds_of(length))
        for split, low, shifts in self.folds[length]:
            high = number >> split
            number &= low
            for shift in shifts:
                number ^= high << shift
        return number.to_bytes(FOLDED // 8, "big")

    def folds_of(self, length):
        """How so many bits are folded: (the bits that stay, their mask, and the bits that one bit behind them is by the polynomial)."""
        while length > FOLDED:
            half = length + self.width >> 1
            split = min(range(half, half + length // 16 + 1), key=lambda place: self.power(place).bit_count())
            yield split, (1 << split) - 1, [bit for bit in range(self.width) if self.power(split) >> bit & 1]
            length = max(split, length - split + self.width - 1)

    def power(self, place):
        """The remainder of a power of two."""
        while len(self.powers) <= place:
            register = self.powers[-1] << 1
            self.powers.append(register & self.ones ^ (self.table[1] if register > self.ones else 0))
        return self.powers[place]


@lru_cache(maxsize=None)
def wide(width):
    """The checksum of a width, with its table."""
    return Wide({24: CRC24, 32: CRC32}[width])


def reflected(value, width):
    return int(format(value, "0%db" % width)[::-1], 2)


class Crc32Rule(namedtuple("Crc32Rule", "order field start end state diagnostic", defaults=[group[0] for group in CRC32_GROUPS])):
    """A convention of the CRC32, by a word of each group."""

    def name(self):
        """The words that are not the profile's, with commas between."""
        return ",".join(word for word, group in zip(self, CRC32_GROUPS) if word != group[0])

    def of(self, words, states):
        """Bits 31:0 of the Diagnostic word of a metaframe: of its words, as bytes with zeros for the 58 bits of the state and for those
        bits, and with `states` for what the State word has there."""
        return self.in_field(self.register(words, states))

    def register(self, words, states):
        """The register after a metaframe, as a number with its first bit highest."""
        if self.state == "state-counted":
            words = words[:8] + (int.from_bytes(words[8:16], "big") | states).to_bytes(8, "big") + words[16:]
        if self.diagnostic == "diagnostic-left-out":
            words = words[:-8]
        if self.order == "word-lowest-first":
            count = len(words) // 8
            words = struct.pack("<%dQ" % count, *struct.unpack(">%dQ" % count, words))
        is_reflected = self.order != "highest-first"
        register = wide(32).after(0 if self.start == "zeros" else HALF, words.translate(REVERSED_BYTES) if is_reflected else words)
        return reflected(register, 32) if is_reflected else register

    def part(self, register):
        """What bits of a register that shifts its highest bit out first add to the field."""
        return self.in_field(register if self.order == "highest-first" else reflected(register, 32)) ^ self.in_field(0)

    def in_field(self, register):
        """What is sent of a register."""
        register ^= 0 if self.end == "plain" else HALF
        if self.field == "bytes-swapped":
            return int.from_bytes(register.to_bytes(4, "little"), "big")
        return reflected(register, 32) if self.field == "bits-reversed" else register


class Crc24Rule(namedtuple("Crc24Rule", "start end", defaults=[group[0] for group in CRC24_GROUPS])):
    """A convention of the CRC24."""

    def name(self):
        return ",".join(word for word, group in zip(self, CRC24_GROUPS) if word != group[0])

    def of(self, covered):
        """The CRC24 of bytes: data words, and their control word with zeros in bits 23:0."""
        register = wide(24).after(0 if self.start == "zeros" else CRC24.ones, covered)
        return register ^ (0 if self.end == "plain" else CRC24.ones)


def rule_of(kind, groups, text):
    """The convention of words with commas between, or what is wrong with them, as (rule, error)."""
    chosen = [group[0] for group in groups]
    given = set()
    for word in text.split(","):
        place = next((place for place, group in enumerate(groups) if word in group), None)
        if place is None:
            return None, "%r is none of %s" % (word[:40], ", ".join(word for group in groups for word in group))
        if place in given:
            return None, "%s: only one of %s" % (word, ", ".join(groups[place]))
        given.add(place)
        chosen[place] = word
    return kind(*chosen), None


def crc32_rule_of(words, states, found):
    """The convention by which a CRC32 is right that was found, with the fewest differences; or None."""
    registers = {}
    for rule in crc32_rules():
        key = rule._replace(field="number", end="complemented")
        if key not in registers:
            registers[key] = rule.register(words, states)
        if rule.in_field(registers[key]) == found:
            return rule
    return None


def crc24_rule_of(covered, found):
    """The same of the CRC24."""
    return next((rule for rule in map(Crc24Rule._make, product(*CRC24_GROUPS)) if rule.of(covered) == found), None)


@lru_cache(maxsize=None)
def crc32_rules():
    """All conventions of the CRC32, those with the fewest differences first."""
    return sorted((Crc32Rule(*words) for words in product(*CRC32_GROUPS)), key=lambda rule: sum(word != group[0] for word, group in zip(rule, CRC32_GROUPS)))


# ---- the linear parts

@lru_cache(maxsize=4096)
def crc24_part(delta):
    """What bits of a control word add to its CRC24."""
    return CRC24.after(0, delta.to_bytes(8, "big"))


@lru_cache(maxsize=None)
def words_on(words):
    """What each bit of a register of the CRC32 becomes after so many words of zeros."""
    if words == 0:
        return tuple(1 << bit for bit in range(32))
    half = words_on(words // 2)
    images = tuple(sum_of(half, image) for image in half)
    return tuple(CRC32.after(image, bytes(8)) for image in images) if words % 2 else images


def sum_of(images, register):
    """What a register becomes, by what each of its bits does."""
    found = 0
    while register:
        low = register & -register
        found ^= images[low.bit_length() - 1]
        register ^= low
    return found


def crc32_part(delta, words):
    """What bits of a word add to the CRC32 of a metaframe in which so many words come after it."""
    return sum_of(words_on(words), CRC32.after(0, delta.to_bytes(8, "big")))


# ---- a wrong bit

def wrong_bits(rule, length):
    """What a wrong bit of a metaframe of so many words adds to its CRC32 by a rule: (adds, place, bit), the last words first; the bit is
    None for an inversion bit. The bits of the CRC32 add themselves, and those of the state nothing."""
    last = length - 1
    step = POLYNOMIAL  # the remainder of a power of two by the polynomial
    for place in range(last, -1, -1):
        is_left_out, whole = place == last and rule.diagnostic == "diagnostic-left-out", 0
        for turn in range(64):
            bit = bit_from_last(rule.order, turn)
            is_covered = not is_left_out and (place != 1 or bit >= STATE_BITS)
            adds = 1 << bit if place == last and bit < 32 else rule.part(step) if is_covered else 0
            if adds:
                yield adds, place, bit
            whole, step = whole ^ adds, step if is_left_out else after_bit(step)
        yield whole, place, None


def bit_from_last(order, turn):
    """The bit of a word that a CRC32 takes so many bits before the word's last."""
    return {"highest-first": turn, "bytes-lowest-first": turn ^ 7, "word-lowest-first": 63 - turn}[order]


def after_bit(register):
    """A remainder by the polynomial of the CRC32, times two."""
    return register << 1 & HALF ^ (POLYNOMIAL if register >> 31 else 0)


@lru_cache(maxsize=1)
def profile_parts(rule, length):
    """By what a wrong bit adds to a CRC32 of a rule, what it adds to that of the profile."""
    ours = {(place, bit): adds for adds, place, bit in wrong_bits(Crc32Rule(), length)}
    found = {}
    for adds, place, bit in wrong_bits(rule, length):
        found.setdefault(adds, ours[place, bit])
    return found


# ---- the key

def key_bits(state, count):
    """So many key bits after a state, as a number with the first of them highest."""
    bits, length = state, STATE_BITS
    while length < count + STATE_BITS:
        step = 1
        while STATE_BITS * 2 * step <= length:
            step *= 2
        # Key bit n is the exclusive or of those 39 and 58 steps back, and so of those 39 and 58 times a power of two.
        more = min(39 * step, count + STATE_BITS - length)
        far, near = bits >> STATE_BITS * step - more, bits >> 39 * step - more
        bits, length = bits << more | (far ^ near) & (1 << more) - 1, length + more
    return bits & (1 << count) - 1
