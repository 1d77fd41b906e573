"""What is wrong with a line of a listing."""

import re

from reading.control_words import is_control
from reading.metaframes import CONTROL, STATE, STATE_BITS, STATE_MARK, SYNC

LINES = {"words": "`data X`, `bad X`, `control X` (X: 16 digits of 0 to 9 and A to F), `idle sop=..` or `burst sop=..`",
         "lane": "`sync I`, `state I S`, `code I HH X` or, last, `rest BITS`"}
PAYLOAD = re.compile("(data|bad|control) ([0-9A-Fa-f]+)")
CODE = re.compile("code ([01]) ([01]{2}) ([0-9A-Fa-f]+)")
# The valid bytes of end formats 8 to 15, and the two others.
ENDS = {0: "none", 1: "error", 8: "8", **{8 + valid: "%d" % valid for valid in range(1, 8)}}


def line_hint(line):
    """What a line lacks that looks like one of a listing."""
    if line != line.strip():
        return ": it has a blank or a carriage return at an end"
    found = PAYLOAD.fullmatch(line) or CODE.fullmatch(line)
    if found is None:
        return code_form(line) if line.startswith("code") else lower_case(line)
    digits = found.groups()[-1]
    if len(digits) != 16:
        return ": %d digits, and not 16" % len(digits)
    payload = int(digits, 16)
    hint = lane_form(*found.groups()[:2], payload) if found.re is CODE else word_form(found[1], payload)
    return hint or lower_case(line)


def lower_case(line):
    return ": digits are upper case" if re.search(r"(^| |=)[0-9A-F]*[a-f][0-9a-fA-F]*$", line) else ""


def code_form(line):
    """What is said of a `code` line with other fields."""
    fields = line.split()[1:]
    if len(fields) != 3:
        return ": `code` has three fields: I, the inversion bit; HH, the two header bits; X, the payload with the inversion undone"
    if fields[0] not in ("0", "1"):
        return ": I, the inversion bit, is 0 or 1, and not %r" % fields[0][:20]
    if not re.fullmatch("[01]{2}", fields[1]):
        return ": HH, the header, is two bits, as 01 or 10, and not %r" % fields[1][:20]
    return ": X, the payload with the inversion undone, is 16 digits of 0 to 9 and A to F, and not %r" % fields[2][:20]


def lane_form(inverted, header, payload):
    """How a Sync or Scrambler State word is written, each of which has a line of its own."""
    if int(header, 2) != CONTROL:
        return ""
    if payload == SYNC:
        return ": a Sync word is written `sync %s`" % inverted
    if payload >> STATE_BITS == STATE_MARK:
        return ": a Scrambler State word is written `state %s %015X`" % (inverted, payload & STATE)
    return ""


def word_form(name, word):
    """How a word of a words file is written that receivers accept as a control word."""
    if name != "control" or not is_control(word):
        return ""
    kind, channel, multi = "burst" if word >> 62 & 1 else "idle", word >> 32 & 255, word >> 24 & 255
    fields = (kind, word >> 61 & 1, ENDS[word >> 57 & 15], word >> 56 & 1, word >> 40 & 0xFFFF, channel, multi, word & 0xFFFFFF)
    return ": a valid control word is written `%s sop=%d eop=%s reset=%d flow=%04X channel=%d multi=%d crc=%06X`" % fields
