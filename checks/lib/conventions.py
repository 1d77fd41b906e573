"""A transmitter of words by conventions that are drawn, with faults that are planted. Each rule is written from its definition, a bit or a
byte at a time, and nothing of the tools is used.

    lanes = send(words, link, Convention.drawn(draws), Fault("crc24", 1234))
"""

from collections import namedtuple

SYNC, SKIP, IDLE = 0x78F678F678F678F6, 0x1E1E1E1E1E1E1E1E, 0x81FFFF0000188177
WORD, STATE = (1 << 64) - 1, (1 << 58) - 1
DATA, CONTROL, BAD = 1, 2, 3
CODE = 67

Link = namedtuple("Link", "lanes metaframe skips")
# A fault by its kind, and the slot, or the lane and the metaframe, that it strikes.
Fault = namedtuple("Fault", "kind at", defaults=("none", None))
ORDERS, FIELDS = ("highest-first", "bytes-lowest-first", "word-lowest-first"), ("number", "bytes-swapped", "bits-reversed")


class Convention(namedtuple("Convention", "state order field start end counted diagnostic start24 end24 idle multi", defaults=(
        0, "highest-first", "number", "ones", "complemented", "state-zeroed", "diagnostic-counted", "ones", "complemented", False, False))):
    """What a sender does otherwise than the profile: `state` is the steps of its State words, or `running`, or `running,0` if such a State word has the
    state of the word after it."""

    @classmethod
    def drawn(cls, draws):
        return cls(draws.choice([0, "running", "running,0", 58, draws.randrange(-64, 65)]), draws.choice(ORDERS), draws.choice(FIELDS), draws.choice(("ones", "zeros")),
                   draws.choice(("complemented", "plain")), draws.choice(("state-zeroed", "state-counted")), draws.choice(("diagnostic-counted", "diagnostic-left-out")),
                   *draws.choice((("ones", "complemented"), ("zeros", "complemented"), ("ones", "plain"), ("zeros", "plain"))), draws.random() < 0.5, draws.random() < 0.5)


def mirrored(value, width):
    return int(format(value, "0%db" % width)[::-1], 2)


class Crc:
    """A checksum with a register that shifts towards its highest bit, or the reflected one that shifts towards its lowest."""

    def __init__(self, width, polynomial, is_reflected=False):
        self.width, self.is_reflected, self.table = width, is_reflected, []
        self.ones, polynomial = (1 << width) - 1, mirrored(polynomial, width) if is_reflected else polynomial
        for byte in range(256):
            register = byte if is_reflected else byte << width - 8
            for _ in range(8):
                if is_reflected:
                    register = register >> 1 ^ (polynomial if register & 1 else 0)
                else:
                    register = register << 1 & self.ones ^ (polynomial if register >> width - 1 else 0)
            self.table.append(register)

    def of(self, data, start, end):
        register = self.ones if start == "ones" else 0
        for byte in data:
            if self.is_reflected:
                register = register >> 8 ^ self.table[register & 255 ^ byte]
            else:
                register = register << 8 & self.ones ^ self.table[register >> self.width - 8 ^ byte]
        return register ^ (self.ones if end == "complemented" else 0)


CRC24, CRC32, CRC32_REFLECTED = Crc(24, 0x328B63), Crc(32, 0x1EDC6F41), Crc(32, 0x1EDC6F41, True)


def steps(state, count):
    """A register some steps on, or back."""
    for _ in range(count):
        state = state << 1 & STATE | (state >> 57 ^ state >> 38) & 1
    for _ in range(-count):
        state = state >> 1 | ((state ^ state >> 39) & 1) << 57
    return state


def key_of(state):
    """64 key bits, and the register after them."""
    key = 0
    for _ in range(64):
        bit = (state >> 57 ^ state >> 38) & 1
        state, key = state << 1 & STATE | bit, key << 1 | bit
    return key, state


def converted(words, convention, fault):
    """The words with the fields of a convention, each with its CRC24."""
    found, data, channel = [], b"", 0
    for slot, (tag, word) in enumerate(words):
        if tag != CONTROL:
            data += word.to_bytes(8, "big")
            found.append((tag, word))
            continue
        is_burst = word >> 62 & 1
        channel = word >> 32 & 255 if is_burst else channel
        if fault == ("sop", slot):
            word &= ~(1 << 61)
        if convention.idle and not is_burst:
            word |= channel << 32
        if convention.multi:
            word |= (37 * slot + 1 & 255 or 1) << 24
        word = word >> 24 << 24
        word |= CRC24.of(data + word.to_bytes(8, "big"), convention.start24, convention.end24)
        found.append((tag, word ^ (0x400 if fault == ("crc24", slot) else 0)))
        data = b""
    return found


def send(words, link, convention, fault=Fault()):
    """The bits of each lane as texts, of words of whole groups."""
    group = link.lanes * (link.metaframe - 3 - link.skips)
    words = converted(list(words[:len(words) // group * group]), convention, fault)
    return ["".join(Lane(number, link, convention, fault).codes(words[number::link.lanes])) for number in range(link.lanes)]


class Lane:
    def __init__(self, number, link, convention, fault):
        self.number, self.link, self.convention, self.fault = number, link, convention, fault
        self.state, self.disparity = STATE - 77 * number, 0

    def is_struck(self, kind, turn):
        return self.fault == (kind, (self.number, turn))

    def codes(self, words):
        payloads = self.link.metaframe - 3 - self.link.skips
        for turn, begin in enumerate(range(0, len(words), payloads)):
            yield from self.metaframe(turn, words[begin:begin + payloads])

    def metaframe(self, turn, words):
        is_running = str(self.convention.state).startswith("running")
        if is_running:
            self.state = steps(self.state, 64)
        carried = self.state if is_running else steps(self.state, self.convention.state)
        if is_running:
            self.state = steps(self.state, 64)
        if self.convention.state == "running,0":
            carried = self.state
        yield self.code(CONTROL, SYNC ^ (1 if self.is_struck("sync", turn) else 0))
        yield self.code(CONTROL, 0b001010 << 58 | carried ^ (1 << 20 if self.is_struck("state", turn) else 0))
        covered = [SYNC, 0b001010 << 58 | (carried if self.convention.counted == "state-counted" else 0)] + [SKIP] * self.link.skips + [word for _, word in words]
        for place, (tag, word) in enumerate([(CONTROL, SKIP)] * self.link.skips + words):
            wrong = (place == self.link.skips + 9 and self.is_struck("bit", turn)) << 5 | (place == 0 and self.is_struck("skip", turn)) << 17
            yield self.code(BAD if place == self.link.skips + 5 and self.is_struck("header", turn) else tag, word ^ self.key() ^ wrong)
        health = 1 if self.is_struck("health", turn) else 3
        diagnostic = 0b011001 << 58 | health << 32
        crc = self.crc32(covered + ([diagnostic] if self.convention.diagnostic == "diagnostic-counted" else []))
        yield self.code(CONTROL, (diagnostic | crc ^ (self.is_struck("crc32", turn) << 3)) ^ self.key())

    def key(self):
        key, self.state = key_of(self.state)
        return key

    def crc32(self, covered):
        kind = self.convention
        data = b"".join(word.to_bytes(8, "little" if kind.order == "word-lowest-first" else "big") for word in covered)
        value = (CRC32 if kind.order == "highest-first" else CRC32_REFLECTED).of(data, kind.start, kind.end)
        if kind.field == "bytes-swapped":
            return int.from_bytes(value.to_bytes(4, "little"), "big")
        return mirrored(value, 32) if kind.field == "bits-reversed" else value

    def code(self, header, payload):
        excess = 2 * payload.bit_count() - 64 - 1
        is_inverted = excess > 0 if self.disparity >= 0 else excess < 0
        code = is_inverted << 66 | header << 64 | (payload ^ WORD if is_inverted else payload)
        self.disparity += 2 * code.bit_count() - CODE
        return format(code, "067b")
