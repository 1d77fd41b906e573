"""Rows of comma-separated files, and the faults of rows. REFERENCE, "Plans": Spelling; "Refusals"."""

import csv
import io
import re
from typing import Callable, NamedTuple, Sequence

from files import Refusal

BYTE_ORDER_MARK = b"\xef\xbb\xbf"
GREATEST_CHANNEL = 65_535
GREATEST_SLOT = 16_777_215
GREATEST_BIT = 999_999_999_999


class Fault(Exception):
    """The fault of a row: `text`, `key`, `fields`, `number`, `range`, `repeat` or `clash`."""


def rows_of(data: bytes) -> list[list[bytes]]:
    """The rows of a file by their fields. A byte-order mark at the beginning is skipped, and empty lines are no
    rows."""
    csv.field_size_limit(len(data) + 1)
    # Each byte stands as one character, since a field may be no text.
    text = data.removeprefix(BYTE_ORDER_MARK).decode("latin-1")
    return [[field.encode("latin-1") for field in row] for row in csv.reader(io.StringIO(text, newline="")) if row]


def texts_of(row: Sequence[bytes]) -> list[str]:
    """The fields of a row, each of which has to be UTF-8."""
    try:
        return [field.decode() for field in row]
    except UnicodeDecodeError:
        raise Fault("text") from None


def number_of(field: str) -> int:
    """A number is 1 to 15 decimal digits, without a sign or a blank; leading zeros are allowed."""
    if not re.fullmatch("[0-9]{1,15}", field):
        raise Fault("number")
    return int(field)


class Kind(NamedTuple):
    """What a field has to be: how it is read, which may be a fault of the number, and which values are in range."""
    read: Callable
    is_in_range: Callable


def number(least: int, most: int, multiple: int = 1) -> Kind:
    """A number in a range, and a multiple of another."""
    return Kind(number_of, lambda value: least <= value <= most and value % multiple == 0)


def name(most: int) -> Kind:
    """A name of 1 to so many bytes."""
    return Kind(str, lambda value: 1 <= len(value.encode()) <= most)


def one_of(*names: str) -> Kind:
    """One of these words, and else no number."""
    def read(field: str) -> str:
        if field not in names:
            raise Fault("number")
        return field
    return Kind(read, lambda value: True)


FILE, PREFIX = name(255), name(200)
CHANNEL, SLOT, BIT = number(0, GREATEST_CHANNEL), number(0, GREATEST_SLOT), number(0, GREATEST_BIT)


def values_of(fields: Sequence[str], kinds: Sequence[Kind]) -> list:
    """The values of fields, each of its kind: another number of fields goes before a number, and that before a
    range."""
    if len(fields) != len(kinds):
        raise Fault("fields")
    values = [kind.read(field) for kind, field in zip(kinds, fields)]
    if not all(kind.is_in_range(value) for kind, value in zip(kinds, values)):
        raise Fault("range")
    return values


def all_rows(data: bytes, take: Callable[[list[str]], object]) -> list:
    """What a reader makes of each row; the least row with a fault is refused."""
    found = []
    for place, row in enumerate(rows_of(data), 1):
        try:
            found.append(take(texts_of(row)))
        except Fault as fault:
            raise Refusal("row %d: %s" % (place, fault)) from None
    return found
