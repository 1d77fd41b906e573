"""Random words files, lane files and listings, right and spoiled ones, for random_cases.py."""

from random import Random
from typing import Callable

import fields
import lanes
import listing
import words_file
from fields import BAD, CONTROL, DATA, Word
from files import Refusal


def control_number(r: Random) -> int:
    """A control word, any fields and any checksum."""
    return 1 << 63 | r.getrandbits(2) << 61 | r.choice([0, 1, *range(8, 16)]) << 57 | r.getrandbits(57)


def word(r: Random) -> Word:
    """A word: data, a control word with any or with its own CRC24, one sent as control that is none, or a bad one."""
    kind = r.randrange(9)
    if kind < 3:
        return Word(DATA, r.getrandbits(64))
    if kind < 7:
        number = control_number(r)
        return Word(CONTROL, fields.sealed([], number) if kind == 6 else number)
    if kind == 7:
        return Word(CONTROL, r.choice([lanes.SYNC, r.getrandbits(63), 1 << 63 | r.randrange(2, 8) << 57]))
    return Word(BAD, r.getrandbits(64))


def words_data(r: Random) -> bytes:
    """A words file; one in three has a wrong tag or is cut."""
    data = words_file.file_of_words([word(r) for _ in range(r.choice([0, 1, 2, 12, 60]))])
    kind = r.randrange(6)
    if kind == 0 and data:
        at = 9 * r.randrange(len(data) // 9)
        data = data[:at] + bytes([r.choice([0, 4, 77, 255])]) + data[at + 1:]
    if kind == 1:
        data = data[:r.randrange(len(data) + 1)]
    # What is left of a last word may have a wrong tag.
    return data + r.choice([b"", b"", b"", b"", b"\0", b"\4" + bytes(7)])


def code(r: Random) -> str:
    """A code: framing words and others, inverted or not, with any header."""
    payload = r.choice([r.getrandbits(64), lanes.SYNC, lanes.state_number(r.getrandbits(58)), lanes.SYNC ^ lanes.ONES_64])
    return listing.code_bits(r.choice("01"), r.choice(["01", "10", "10", "10", "00", "11"]), payload)


def lane_data(r: Random) -> bytes:
    """A lane file with any number of bits after its last code; one in three has a damaged bit, or is without its first
    ones."""
    bits = "".join(code(r) for _ in range(r.choice([0, 1, 8, 40])))
    if r.randrange(3) == 0 and bits:
        at = r.randrange(len(bits))
        bits = r.choice([bits[:at] + "10"[int(bits[at])] + bits[at + 1:], bits[r.randrange(1, 67):]])
    return lanes.file_of_bits(bits + "".join(r.choice("01") for _ in range(r.choice([0, 3, 66]))))


# ---- mutated texts

def lower(r: Random, text: bytearray) -> None:
    """A hexadecimal digit in lower case."""
    at = [place for place, byte in enumerate(text) if byte in b"ABCDEF"]
    if at:
        text[r.choice(at)] += 32


def one_byte(r: Random, text: bytearray) -> None:
    """One byte is another."""
    if text:
        text[r.randrange(len(text))] = r.choice([r.randrange(256), *b"01\n ="])


def put_in(r: Random, text: bytearray) -> None:
    """Some bytes more."""
    at = r.randrange(len(text) + 1)
    text[at:at] = r.choice([b"0", b"00", b" ", b"\n", b"\r", b"1", b"rest 1\n", b"sync 0\n", b"data 0000000000000000\n", b"\n\n",
                            b"words\n", b"\xc3\xa9"])


def take_out(r: Random, text: bytearray) -> None:
    """Some bytes less."""
    at = r.randrange(len(text) + 1)
    del text[at:at + r.choice([1, 1, 2, 7, 28])]


def end(r: Random, text: bytearray) -> None:
    """The end is cut."""
    del text[r.choice([r.randrange(len(text) + 1), max(len(text) - 1, 0)]):]


def move_line(r: Random, text: bytearray) -> None:
    """A line is moved, repeated or lost."""
    lines = bytes(text).splitlines(True)
    if lines:
        line = lines.pop(r.randrange(len(lines)))
        for _ in range(r.choice([0, 1, 2])):
            lines.insert(r.randrange(len(lines) + 1), line)
        text[:] = b"".join(lines)


SPELLINGS = (
    (b"sync 0", b"code 0 10 78F678F678F678F6"), (b"sync 1", b"code 1 10 78F678F678F678F6"), (b"state 0 0", b"state 0 4"),
    (b"state 0 ", b"state 0 0"), (b"code 0 10", b"code 0 01"), (b"code 1 ", b"code 2 "), (b"eop=8", b"eop=0"), (b"eop=4", b"eop=9"),
    (b"eop=none", b"eop=error"), (b"channel=", b"channel=0"), (b"channel=", b"channel=25"), (b"multi=", b"multi=25"),
    (b"sop=1", b"sop=2"), (b"data ", b"control "), (b"control ", b"data "), (b"bad ", b"control "), (b"words", b"lane"),
    (b"lane", b"words"), (b"idle", b"burst"), (b"burst", b"data"), (b"flow=", b"flow=0"), (b"\n", b"\r\n"), (b" ", b"  "),
    (b"rest ", b"rest 0000000"), (b"rest ", b"rest " + b"1" * 67 + b"\nrest "),
)


def spelling(r: Random, text: bytearray) -> None:
    """A value is told another way, or as another kind."""
    old, new = r.choice([pair for pair in SPELLINGS if pair[0] in text] or SPELLINGS)
    text[:] = bytes(text).replace(old, new, r.choice([1, 1, 1_000]))


CHANGES: tuple[Callable[[Random, bytearray], None], ...] = (
    lower, one_byte, one_byte, put_in, take_out, end, move_line, move_line, spelling, spelling, spelling,
)


def text(r: Random) -> bytes:
    """A listing with up to three changes."""
    name, data = ("x.words", words_data(r)) if r.getrandbits(1) else ("x", lane_data(r))
    try:
        found = bytearray(listing.text_of(listing.listing(name, data)))
    except Refusal:
        found = bytearray(b"words\n")
    for _ in range(r.choice([0, 1, 1, 1, 2, 3])):
        r.choice(CHANGES)(r, found)
    return bytes(found)
