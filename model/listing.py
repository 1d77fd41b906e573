"""Listings of words files and lane files, both ways. DEFINITIONS, "Files": Listing, Refusal of a text."""

import re
from typing import Callable, Iterator

import fields
from checksum import hex_digits
from fields import BAD, CONTROL, DATA, ERROR_END, NO_END, Word
from files import Refusal
from lanes import ONES_58, ONES_64, SYNC, bits_of_file, file_of_bits, is_state_number, state_number
from link import CODE_BITS
from words_file import file_of_words, words_of_file


# ---- words files

def end_text(end: int) -> str:
    """`eop` is `none`, `error` or the valid bytes 1 to 8."""
    return {NO_END: "none", ERROR_END: "error"}.get(end) or str(fields.valid_bytes(end))


def word_line(word: Word) -> str:
    """The line of a word: `data X` and `bad X`; of a word sent as control its fields, if it is a control word, and
    else `control X`."""
    number = word.number
    if word.kind != CONTROL or not fields.is_control_word(number):
        return "%s %s" % ({DATA: "data", CONTROL: "control", BAD: "bad"}[word.kind], hex_digits(number, 16))
    return "%s sop=%d eop=%s reset=%d flow=%s channel=%d multi=%d crc=%s" % (
        "burst" if fields.begins_burst(number) else "idle", fields.has_sop(number), end_text(fields.end_format(number)),
        fields.has_reset(number), hex_digits(fields.flow_bits(number), 4), fields.channel_field(number),
        fields.multiple_use(number), hex_digits(fields.crc_field(number), 6))


FIELDS = re.compile("(burst|idle) sop=([01]) eop=(none|error|[1-8]) reset=([01]) flow=([0-9A-F]{4}) channel=([0-9]{1,3}) "
                    "multi=([0-9]{1,3}) crc=([0-9A-F]{6})")
PAYLOAD = re.compile("(data|control|bad) ([0-9A-F]{16})")
KINDS = {"data": DATA, "control": CONTROL, "bad": BAD}


def word_of_line(line: str) -> Word | None:
    """The one word of which this is the line, or none."""
    if found := PAYLOAD.fullmatch(line):
        word = Word(KINDS[found[1]], int(found[2], 16))
    elif found := FIELDS.fullmatch(line):
        word = Word(CONTROL, control_of(*found.groups()))
    else:
        return None
    return word if word_line(word) == line else None


def control_of(name: str, sop: str, eop: str, reset: str, flow: str, channel: str, multi: str, crc: str) -> int:
    """The number of a control word by the texts of its fields."""
    end = {"none": NO_END, "error": ERROR_END}[eop] if eop.isalpha() else fields.end_of_bytes(int(eop))
    return fields.control_number(name == "burst", sop == "1", end, reset == "1", int(flow, 16), int(channel) % 256,
                                 int(multi) % 256, int(crc, 16))


# ---- lane files

def code_line(bits: str) -> str:
    """The line of 67 bits: with bit 66 and with the payload as it is meant, whatever the header; `sync I` of a Sync
    word, `state I S` of a Scrambler State word, and else `code I HH X`."""
    inverted, header = bits[0], bits[1:3]
    payload = int(bits[3:], 2) ^ (ONES_64 if inverted == "1" else 0)
    if header == "10" and payload == SYNC:
        return "sync %s" % inverted
    if header == "10" and is_state_number(payload):
        return "state %s %s" % (inverted, hex_digits(payload & ONES_58, 15))
    return "code %s %s %s" % (inverted, header, hex_digits(payload, 16))


CODE = re.compile("code ([01]) ([01]{2}) ([0-9A-F]{16})")
STATE = re.compile("state ([01]) ([0-9A-F]{15})")
REST = re.compile("rest ([01]{1,66})")


def bits_of_line(line: str) -> str | None:
    """The bits of which this is the line, or none."""
    if line in ("sync 0", "sync 1"):
        bits = code_bits(line[-1], "10", SYNC)
    elif found := STATE.fullmatch(line):
        bits = code_bits(found[1], "10", state_number(int(found[2], 16) & ONES_58))
    elif found := CODE.fullmatch(line):
        bits = code_bits(found[1], found[2], int(found[3], 16))
    else:
        found = REST.fullmatch(line)
        return found[1] if found else None
    return bits if code_line(bits) == line else None


def code_bits(inverted: str, header: str, payload: int) -> str:
    """The 67 bits of a code with this inversion bit, this header and this payload as it is meant."""
    return inverted + header + format(payload ^ (ONES_64 if inverted == "1" else 0), "064b")


def lane_lines(data: bytes) -> Iterator[str]:
    """A line for each 67 bits of a lane file from its first bit on; where 1 to 66 bits are left, a last line has them
    as characters."""
    bits = bits_of_file(data)
    for at in range(0, len(bits), CODE_BITS):
        part = bits[at:at + CODE_BITS]
        yield code_line(part) if len(part) == CODE_BITS else "rest %s" % part


# ---- texts

def listing(name: str, data: bytes) -> list[str]:
    """The lines of the listing of a file: a words file where its name ends in `.words`, else a lane."""
    if name.endswith(".words"):
        return ["words", *map(word_line, words_of_file(data))]
    return ["lane", *lane_lines(data)]


def text_of(lines: list[str]) -> bytes:
    """Lines that each end in the byte 0A."""
    return "".join(line + "\n" for line in lines).encode()


def assembled(text: bytes) -> bytes:
    """The file of which a text is the listing, or why there is none."""
    head, _, rest = text.partition(b"\n")
    if not text.startswith((b"words\n", b"lane\n")):
        raise Refusal("head")
    if head == b"words":
        return file_of_words([word for word, _ in read_lines(rest, word_of_line)])
    return file_of_lane(rest)


def file_of_lane(text: bytes) -> bytes:
    """The lane file of the lines after the first. No line follows one of rest bits, and the bits of a lane fill
    bytes."""
    parts = []
    for bits, number in read_lines(text, bits_of_line):
        if parts and len(parts[-1]) < CODE_BITS:
            raise Refusal("line %d" % number)
        parts.append(bits)
    lane = "".join(parts)
    if len(lane) % 8 != 0:
        raise Refusal("length")
    return file_of_bits(lane)


def read_lines(text: bytes, read: Callable) -> Iterator[tuple]:
    """What each line after the first is the line of, with its number counted from 1; the least line that is none, or is
    not ended, is refused."""
    lines = text.decode("latin-1").split("\n")
    for number, line in enumerate(lines[:-1], 2):
        found = read(line)
        if found is None:
            raise Refusal("line %d" % number)
        yield found, number
    if lines[-1]:
        raise Refusal("line %d" % (len(lines) + 1))
