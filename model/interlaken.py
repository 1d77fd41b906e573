#!/usr/bin/env python3
"""The whole program: `python3 model/interlaken.py WORDS..`, on files of the current folder. REFERENCE, "Commands" and
"Exit status"."""

import os
import re
import sys
from typing import Sequence

import files
import texts
from commands import COMMANDS
from files import Stop


def is_name(text: str, most: int) -> bool:
    """A name has 1 to so many bytes and begins with no dash."""
    return 1 <= len(text.encode()) <= most and not text.startswith("-")


def is_number(text: str) -> bool:
    """A number has 1 to 20 decimal digits, is below 2^64 and may have leading zeros."""
    return re.fullmatch("[0-9]{1,20}", text) is not None and int(text) < 1 << 64


def are_accepted(words: Sequence[str]) -> bool:
    """The first word names a command, and the others are what it asks for: one file, or a number and a prefix."""
    if not words or words[0] not in COMMANDS:
        return False
    if words[0] == "generate":
        return len(words) == 3 and is_number(words[1]) and is_name(words[2], 180)
    return len(words) == 2 and is_name(words[1], 255)


def run(words: Sequence[str]) -> tuple[int, str]:
    """The status and the text of a run in the current folder."""
    if not are_accepted(words):
        return files.USAGE, texts.USAGE + "\n"
    try:
        answer = COMMANDS[words[0]](*words[1:])
        for name, data in answer.files:
            files.create(name, data)
    except Stop as stop:
        return stop.status, stop.line + "\n"
    return answer.status, "".join(line + "\n" for line in answer.lines)


def main() -> int:
    """Runs the words of the command line, each of which has to be UTF-8."""
    try:
        words = [os.fsencode(word).decode() for word in sys.argv[1:]]
    except UnicodeDecodeError:
        return files.NO_WORDS
    status, text = run(words)
    sys.stdout.buffer.write(text.encode())
    return status


if __name__ == "__main__":
    sys.exit(main())
