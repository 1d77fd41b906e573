"""A transmitter of words on lanes with faults that are planted, for checks of what judges lanes: what it sends without one is what the
program's own `stripe` sends.

    lanes = send(words, Link(lanes=4, metaframe=64, skips=1), Bug(skip_plain=True))

Words are (tag, payload) as a words file has them. A bug of words (`with_crc24_complemented` ..) makes other words of some.
"""

from collections import namedtuple

SYNC, SKIP, IDLE = 0x78F678F678F678F6, 0x1E1E1E1E1E1E1E1E, 0x81FFFF0000188177
WORD, STATE = (1 << 64) - 1, (1 << 58) - 1
DATA, CONTROL, BAD = 1, 2, 3
CODE = 67

Link = namedtuple("Link", "lanes metaframe skips")


class Bug:
    """What the lanes have otherwise: each name is an option of `send`, and says what is done."""

    NAMES = ("skip_plain", "skip_bit", "crc32_counts_state", "crc32_plain", "crc32_lowest_first", "runs_on", "state_reversed", "state_steps", "no_inversion", "health",
             "wrong_bit", "header", "short", "slip", "order", "inverted", "payload_reversed", "sync_wrong")

    def __init__(self, **known):
        for name in self.NAMES:
            setattr(self, name, known.pop(name, None))
        assert not known, known


def crc(width, polynomial, data, start=None):
    """A checksum by its definition, a bit at a time."""
    ones, register = (1 << width) - 1, (1 << width) - 1 if start is None else start
    for byte in data:
        for bit in range(7, -1, -1):
            top = register >> width - 1 ^ byte >> bit & 1
            register = register << 1 & ones ^ (polynomial if top else 0)
    return register ^ ones


TABLE = [crc(32, 0x1EDC6F41, bytes([byte]), 0) ^ 0xFFFFFFFF for byte in range(256)]


def crc32(data):
    """The same of the CRC32, a byte at a time."""
    register = 0xFFFFFFFF
    for byte in data:
        register = register << 8 & 0xFFFFFFFF ^ TABLE[register >> 24 ^ byte]
    return register ^ 0xFFFFFFFF


def crc24(data):
    return crc(24, 0x328B63, data)


def reversed_bits(value, width):
    return int(format(value, "0%db" % width)[::-1], 2)


class Key:
    """The scrambler of a lane."""

    def __init__(self, lane):
        self.state = STATE - lane

    def steps(self, count):
        """The next key bits, the first of them highest."""
        bits = 0
        for _ in range(count):
            bit = (self.state >> 57 ^ self.state >> 38) & 1
            self.state = self.state << 1 & STATE | bit
            bits = bits << 1 | bit
        return bits


def send(words, link, bug=Bug()):
    """The bits of each lane as texts, of words filled up with idles to whole groups."""
    group = link.lanes * (link.metaframe - 3 - link.skips)
    words = list(words) + [(CONTROL, IDLE)] * (-len(words) % group)
    lanes = [LaneOut(number, link, bug).lane(words[number::link.lanes]) for number in range(link.lanes)]
    return [lanes[number] for number in bug.order] if bug.order else lanes


class LaneOut:
    """A lane while it is made."""

    def __init__(self, number, link, bug):
        self.number, self.link, self.bug = number, link, bug
        self.key, self.disparity, self.codes = Key(number), 0, []

    def lane(self, words):
        payloads = self.link.metaframe - 3 - self.link.skips
        for turn, begin in enumerate(range(0, len(words), payloads)):
            self.metaframe(turn, words[begin:begin + payloads])
        bits = "".join(self.codes)
        if self.bug.slip and self.bug.slip[0] == self.number:
            bits = bits[:self.bug.slip[1]] + bits[self.bug.slip[1] + 1:]
        return bits.translate(str.maketrans("01", "10")) if self.bug.inverted == self.number else bits

    def metaframe(self, turn, words):
        bug, own = self.bug, self.number
        sync = SYNC ^ 1 if bug.sync_wrong == (own, turn) else SYNC
        if bug.runs_on:
            self.key.steps(64)
        carried = Key(0)
        carried.state = self.key.state
        if bug.state_steps:
            carried.steps(bug.state_steps)
        state = reversed_bits(carried.state, 58) if bug.state_reversed else carried.state
        if bug.runs_on:
            self.key.steps(64)
        covered = [sync, 0b001010 << 58 | (state if bug.crc32_counts_state else 0)]
        self.put(2, sync)
        self.put(2, 0b001010 << 58 | state)
        for _ in range(self.link.skips):
            self.skip(covered)
        short = bug.short == turn
        for place, (tag, payload) in enumerate(words[:-1] if short else words):
            covered.append(payload)
            wrong = bug.wrong_bit and bug.wrong_bit[:3] == (own, turn, place)
            self.put(tag, payload ^ self.key.steps(64) ^ (1 << bug.wrong_bit[3] if wrong else 0), bug.header == (own, turn, place))
        health = 3 if not (bug.health and bug.health[0] == own and turn >= bug.health[1]) else 1
        diagnostic = 0b011001 << 58 | health << 32
        self.put(2, (diagnostic | self.crc32(covered + [diagnostic])) ^ self.key.steps(64))

    def skip(self, covered):
        """A Skip word, and what the CRC32 covers of it."""
        sent = SKIP ^ (1 << self.bug.skip_bit[1] if self.bug.skip_bit and self.bug.skip_bit[0] == self.number else 0)
        covered.append(SKIP)
        key = self.key.steps(64)
        self.put(2, sent if self.bug.skip_plain else sent ^ key)

    def crc32(self, covered):
        data = b"".join(word.to_bytes(8, "big") for word in covered)
        if self.bug.crc32_plain:
            return crc32(data) ^ 0xFFFFFFFF
        if self.bug.crc32_lowest_first:
            return reversed_bits(crc32(bytes(reversed_bits(byte, 8) for byte in data)), 32)
        return crc32(data)

    def put(self, tag, payload, is_illegal=False):
        """A word as its 67 bits, inverted if the disparity asks for it."""
        if self.bug.payload_reversed:
            payload = reversed_bits(payload, 64)
        excess = 2 * payload.bit_count() - 64 - 1
        inverts = excess > 0 if self.disparity >= 0 else excess < 0
        if self.bug.no_inversion:
            inverts = False
        header = "11" if is_illegal else "10" if tag == CONTROL else "01"
        code = ("1" if inverts else "0") + header + format(payload ^ WORD if inverts else payload, "064b")
        self.disparity += 2 * code.count("1") - CODE
        self.codes.append(code)


def to_bytes(bits):
    """Bits of a lane as its file has them."""
    bits += "0" * (-len(bits) % 8)
    return int(bits, 2).to_bytes(len(bits) // 8, "big") if bits else b""


# ---- words

def sealed(words):
    """The words with the CRC24 of each control word made anew."""
    found, data = [], b""
    for tag, payload in words:
        if tag == CONTROL:
            bare = (payload >> 24 << 24).to_bytes(8, "big")
            payload, data = payload >> 24 << 24 | crc24(data + bare), b""
        else:
            data += payload.to_bytes(8, "big")
        found.append((tag, payload))
    return found


def with_crc24_complemented(words):
    return [(tag, payload ^ 0xFFFFFF if tag == CONTROL else payload) for tag, payload in words]


def with_wrong_crc24(words, at):
    return [(tag, payload ^ 0x400 if number == at else payload) for number, (tag, payload) in enumerate(words)]


def with_flow(words, change):
    """The words with their flow bits changed, and sealed."""
    return sealed([(tag, payload & ~(0xFFFF << 40) | change(payload >> 40 & 0xFFFF) << 40 if tag == CONTROL else payload) for tag, payload in words])


def with_late_reset(words, late, count):
    """The words whose reset bit stands so many control words later, of a calendar of `count` words."""
    found, at = [], 0
    for tag, payload in words:
        if tag == CONTROL:
            payload = payload & ~(1 << 56) | ((at - late) % count == 0) << 56
            at += 1
        found.append((tag, payload))
    return sealed(found)


def with_changed(words, at, change):
    """The words with one changed, and sealed."""
    return sealed([(tag, change(payload) if number == at else payload) for number, (tag, payload) in enumerate(words)])
