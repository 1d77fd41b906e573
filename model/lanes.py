"""What a lane carries: striping, framing, the key, codes, bits and damage. DEFINITIONS, "What a lane carries"."""

from typing import Iterator, NamedTuple, Sequence

import fields
from checksum import crc32
from fields import BAD, CONTROL, DATA, Word
from link import Link

SYNC = 0x78F678F678F678F6
SKIP = 0x1E1E1E1E1E1E1E1E
STATE_TYPE, DIAGNOSTIC_TYPE = 0b001010, 0b011001
ALL_WELL = 0b11 << 32
ONES_64, ONES_58, ONES_32 = (1 << 64) - 1, (1 << 58) - 1, (1 << 32) - 1
HEADERS = {DATA: "01", CONTROL: "10"}


# ---- the words of a lane

def striped(words: Sequence[Word], lanes: int, lane: int) -> Sequence[Word]:
    """Payload number n of lane i is word n x lanes + i of the stream."""
    return words[lane::lanes]


def state_number(state: int) -> int:
    """Scrambler State has 001010 in bits 63:58 and the state in bits 57:0."""
    return STATE_TYPE << 58 | state


def is_state_number(number: int) -> bool:
    """Whether a payload is that of a Scrambler State word."""
    return fields.bits(number, 63, 58) == STATE_TYPE


def diagnostic_number(crc: int) -> int:
    """Diagnostic has 011001 in bits 63:58, zeros, a 1 in bits 33 and 32 (lane and interface are well), and the
    CRC32."""
    return DIAGNOSTIC_TYPE << 58 | ALL_WELL | crc


def metaframe_crc(payloads: Sequence[int]) -> int:
    """It covers the L unscrambled payloads, with bits 57:0 of the Scrambler State word and bits 31:0 of the Diagnostic
    word as zeros."""
    sync, state, *between, diagnostic = payloads
    return crc32([sync, state & ~ONES_58, *between, diagnostic & ~ONES_32])


def is_right_diagnostic(metaframe: Sequence[Word]) -> bool:
    """A received Diagnostic word is right if it is Control, has 011001 in bits 63:58, no word of its metaframe is
    Bad, and its bits 31:0 are the CRC32 of the metaframe."""
    kind, number = metaframe[-1]
    has_its_form = kind == CONTROL and fields.bits(number, 63, 58) == DIAGNOSTIC_TYPE
    if not has_its_form or any(word.kind == BAD for word in metaframe):
        return False
    return number & ONES_32 == metaframe_crc([word.number for word in metaframe])


def framed(payload: Sequence[Word], link: Link, state: int) -> list[Word]:
    """A metaframe: position 0 is Sync, 1 Scrambler State, 2 to K + 1 Skip, then the payload words, and L - 1
    Diagnostic."""
    framing = [Word(CONTROL, SYNC), Word(CONTROL, state_number(state))] + [Word(CONTROL, SKIP)] * link.skips
    words = [*framing, *payload, Word(CONTROL, diagnostic_number(0))]
    crc = metaframe_crc([word.number for word in words])
    return [*words[:-1], Word(CONTROL, diagnostic_number(crc))]


# ---- the key

def first_state(lane: int) -> int:
    """The first state of lane i is 2^58 - 1 - i."""
    return ONES_58 - lane


def key_bits(state: int, count: int) -> int:
    """The next bits of the key: bit n is the exclusive or of those 39 and 58 steps back, and bit b of a state is the
    key bit b + 1 steps back. Up to 39 at once, since none of these is among those that it is made of."""
    return (state >> 39 - count ^ state >> 58 - count) & (1 << count) - 1


def next_key(state: int) -> tuple[int, int]:
    """The next 64 key bits, the first of them highest, and the state after them."""
    key = 0
    for _ in range(2):
        half = key_bits(state, 32)
        key, state = key << 32 | half, (state << 32 | half) & ONES_58
    return key, state


def uses_key(position: int) -> bool:
    """Sync and Scrambler State words, at the positions 0 and 1 of a metaframe, go as they are and use no key bits."""
    return position >= 2


# ---- codes

def excess(payload: int) -> int:
    """The ones less the zeros in the payload and one further zero bit."""
    return 2 * payload.bit_count() - 65


def goes_inverted(payload: int, disparity: int) -> bool:
    """If the disparity is not below 0 and the excess is above 0, or if both are below 0."""
    return excess(payload) > 0 if disparity >= 0 else excess(payload) < 0


def code(word: Word, inverted: bool) -> str:
    """Bit 66 says that the payload is inverted, bits 65:64 are 01 for data and 10 for control, bits 63:0 are the
    payload or its complement."""
    return "%d%s%s" % (inverted, HEADERS[word.kind], format(word.number ^ ONES_64 if inverted else word.number, "064b"))


def meant(bits: str) -> Word:
    """A received code with header 00 or 11 means Bad; any other the word of its header, with its payload complemented
    where bit 66 is 1."""
    payload = int(bits[3:], 2) ^ (ONES_64 if bits[0] == "1" else 0)
    header = bits[1:3]
    return Word(DATA if header == HEADERS[DATA] else CONTROL if header == HEADERS[CONTROL] else BAD, payload)


def scrambled(words: Sequence[Word], link: Link, lane: int) -> Iterator[Word]:
    """The words of a lane by metaframes: the payload of all but Sync and Scrambler State words xored with the next 64
    key bits. Headers are not scrambled. The Scrambler State word carries the state at its moment."""
    state = first_state(lane)
    for at in range(0, len(words), link.rows):
        for position, word in enumerate(framed(words[at:at + link.rows], link, state)):
            if uses_key(position):
                key, state = next_key(state)
                word = Word(word.kind, word.number ^ key)
            yield word


def lane_bits(stream: Sequence[Word], link: Link, lane: int) -> str:
    """A lane is its codes one after another, bit 66 first. The disparity is the ones less the zeros in all codes of the
    lane before."""
    codes, disparity = [], 0
    for word in scrambled(striped(stream, link.lanes, lane), link, lane):
        inverted = goes_inverted(word.number, disparity)
        codes.append(code(word, inverted))
        disparity += -excess(word.number) if inverted else excess(word.number)
    return "".join(codes)


# ---- bits and files

def file_of_bits(bits: str) -> bytes:
    """The first bit is the highest of the first byte, and the last byte is filled up with zeros."""
    filled = bits + "0" * (-len(bits) % 8)
    return int(filled or "0", 2).to_bytes(len(filled) // 8, "big")


def bits_of_file(data: bytes) -> str:
    """All bits of a lane file, those that fill its last byte among them."""
    return "".join(format(byte, "08b") for byte in data)


# ---- damage

class Dark(NamedTuple):
    """That many sent bits from the first on are 0."""
    first: int
    count: int


class Damage(NamedTuple):
    """What happens to one lane: its skew, the bits that are inverted, one or several times, and its dark stretches."""
    skew: int = 0
    flips: tuple[int, ...] = ()
    darks: tuple[Dark, ...] = ()


def received(sent: str, damage: Damage) -> str:
    """A received lane has as many ones in front as its skew says, and then the sent bits: a sent bit is 0 if it is
    dark, else inverted if an odd number of flips names it."""
    lane = list(sent)
    for bit in damage.flips:
        if bit < len(lane):
            lane[bit] = "10"[int(lane[bit])]
    for dark in damage.darks:
        end = min(dark.first + dark.count, len(lane))
        lane[dark.first:end] = "0" * (end - dark.first)
    return "1" * damage.skew + "".join(lane)


def changed(sent: str, damage: Damage) -> int:
    """The number of places at which the bit after the skew is not the sent one."""
    return sum(bit != other for bit, other in zip(sent, received(sent, damage)[damage.skew:]))


def unused(sent: str, damage: Damage) -> int:
    """The number of `flip` and `dark` rows of the lane that begin at or past the end of its bits."""
    return sum(first >= len(sent) for first in (*damage.flips, *(dark.first for dark in damage.darks)))
