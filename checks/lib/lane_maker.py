"""Lanes of words, a bit at a time where bits are concerned, as a sender makes them that differs from the profile in one thing or in
none. Nothing of the tools is used for it.
"""

from collections import namedtuple

CODE, SYNC, SKIP, ONES = 67, 0x78F678F678F678F6, 0x1E1E1E1E1E1E1E1E, (1 << 64) - 1
CONTROL, DATA = 2, 1

# How a sender differs. `runs`: its scrambler runs on in Sync and State words; `reverses`: the 58 bits of State words are reversed;
# `steps`: State words are so many steps on; `plain` Skip words are not scrambled, and it `stands` still in them. Of the CRC32:
# `lowest` bit of each byte first, `bare` not complemented, `counted` State bits, `zero` at the start.
Sender = namedtuple("Sender", "runs reverses steps plain stands lowest bare counted zero", defaults=(False, False, 0) + (False,) * 6)


def remainder(width, polynomial, bits, start):
    """The register of a checksum after bits."""
    register = start
    for bit in bits:
        top = register >> width - 1
        register = register << 1 & (1 << width) - 1
        if top != int(bit):
            register ^= polynomial
    return register


def crc24(words, control, is_bare=False, start=0xFFFFFF):
    """The CRC24 of data words and of a control word."""
    bits = "".join(format(word, "064b") for word in words + [control >> 24 << 24])
    register = remainder(24, 0x328B63, bits, start)
    return register if is_bare else register ^ 0xFFFFFF


def crc32(words, sender):
    """The CRC32 of a metaframe, whose last word has zeros in bits 31:0."""
    words = words[:]
    if not sender.counted:
        words[1] = words[1] >> 58 << 58
    bits = "".join(format(byte, "08b")[::-1] if sender.lowest else format(byte, "08b") for word in words for byte in word.to_bytes(8, "big"))
    register = remainder(32, 0x1EDC6F41, bits, 0 if sender.zero else 0xFFFFFFFF)
    register = register if sender.bare else register ^ 0xFFFFFFFF
    return int(format(register, "032b")[::-1], 2) if sender.lowest else register


class Register:
    """The scrambler of a lane."""

    def __init__(self, lane):
        self.state = (1 << 58) - 1 - lane

    def bits(self, count):
        """The next bits of the key as a number."""
        key = 0
        for _ in range(count):
            bit = (self.state >> 38 ^ self.state >> 57) & 1
            self.state, key = (self.state << 1 | bit) & (1 << 58) - 1, key << 1 | bit
        return key

    def carried(self, sender):
        """The 58 bits of a State word."""
        other = Register(0)
        other.state = self.state
        other.bits(max(0, sender.steps))
        for _ in range(-sender.steps):
            first = (other.state ^ other.state >> 39) & 1
            other.state = other.state >> 1 | first << 57
        return int(format(other.state, "058b")[::-1], 2) if sender.reverses else other.state


def metaframe(payload, skips, register, sender):
    """The words of a metaframe on a lane as (header, payload), of these words in it; the register goes on."""
    if sender.runs:
        register.bits(64)
    state = 0b001010 << 58 | register.carried(sender)
    if sender.runs:
        register.bits(64)
    plain = [SYNC, state] + [SKIP] * skips + [word for _, word in payload] + [0b011001 << 58 | 3 << 32]
    plain[-1] |= crc32(plain, sender)
    found = [(CONTROL, SYNC), (CONTROL, state)]
    for place, word in enumerate(plain[2:]):
        is_skip = place < skips
        key = 0 if is_skip and sender.stands else register.bits(64)
        header = payload[place - skips][0] if skips <= place < skips + len(payload) else CONTROL
        found.append((header, word if is_skip and sender.plain else word ^ key))
    return found


def codes(words):
    """The bits of a lane's words."""
    disparity, bits = 0, []
    for header, payload in words:
        excess = 2 * bin(payload).count("1") - 65  # with one further zero bit
        is_inverted = disparity >= 0 and excess > 0 or disparity < 0 and excess < 0
        code = "%d%s%s" % (is_inverted, format(header, "02b"), format(payload ^ ONES if is_inverted else payload, "064b"))
        disparity += 2 * code.count("1") - CODE
        bits.append(code)
    return "".join(bits)


def make_lanes(words, lanes, length, skips, sender=Sender()):
    """The bits of lanes that carry words, (header, word), in whole metaframes."""
    rows, made = length - 3 - skips, []
    for lane in range(lanes):
        own, register, found = words[lane::lanes], Register(lane), []
        for at in range(0, len(own), rows):
            found += metaframe(own[at:at + rows], skips, register, sender)
        made.append(codes(found))
    return made


def with_crc24(words, is_bare, start):
    """Words with other CRC24."""
    data, found = [], []
    for header, word in words:
        if header == DATA:
            data.append(word)
        else:
            word, data = word >> 24 << 24 | crc24(data, word, is_bare, start), []
        found.append((header, word))
    return found
