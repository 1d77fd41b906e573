"""Findings of a lane's last code that the zeros make which fill the last byte of its file."""

import re

from reading.plans import CODE

MOST_FILLED = 7  # bits
DIGITS = re.compile(r"[0-9A-F]+")


def is_by_fill(run, finding):
    """Whether a finding is only that the last bits of its lane's file are zeros: a dump may end within a byte."""
    if finding.lane is None or finding.bit is None or not is_told(finding):
        return False
    filled = zeros_of(run.lanes[finding.lane]) - (run.lanes[finding.lane].count - finding.bit - CODE)
    return filled > 0 and int(finding.expected, 16) ^ int(finding.found, 16) < 1 << filled


def is_told(finding):
    """Whether it says by which bits at the end of a code something is wrong."""
    return finding.what in ("sync", "state", "skip", "diag", "crc") and all(DIGITS.fullmatch(str(text)) for text in (finding.expected, finding.found))


def zeros_of(lane):
    """How many bits at the end of a lane may be of the fill."""
    last = lane.field(lane.count - MOST_FILLED, MOST_FILLED) | 1 << MOST_FILLED
    return (last & -last).bit_length() - 1
