"""The files of rows that a plan names. REFERENCE, "Files"; DEFINITIONS, "Files"."""

import re
from typing import Sequence

from csv_rows import BIT, CHANNEL, GREATEST_BIT, SLOT, Fault, Kind, all_rows, number, one_of, values_of
from flow import FlowRow, LocalRow
from lanes import Damage, Dark
from plan import Plan

MOST_EVENTS = 4_194_304
GREATEST_SKEW = 65_535
EVENTS = ("send", "rewind", "take", "lose", "repeat", "takeback", "loseback", "repeatback")


def word_of(field: str) -> int:
    """A word of 16 hexadecimal digits."""
    if not re.fullmatch("[0-9A-Fa-f]{16}", field):
        raise Fault("number")
    return int(field, 16)


WORD = Kind(word_of, lambda value: True)
STATE = one_of("on", "off")


def in_order(rows: Sequence) -> None:
    """No slot is below that of the row before."""
    if len(rows) > 1 and rows[-1].slot < rows[-2].slot:
        raise Fault("clash")


def flow_rows(data: bytes) -> list[FlowRow]:
    """Rows `slot,word`."""
    rows: list[FlowRow] = []

    def take(fields: list[str]) -> None:
        rows.append(FlowRow(*values_of(fields, [SLOT, WORD])))
        in_order(rows)

    all_rows(data, take)
    return rows


def local_rows(data: bytes, plan: Plan) -> list[LocalRow]:
    """Rows `slot,channel,state`. A channel that the plan does not list is a clash."""
    rows: list[LocalRow] = []

    def take(fields: list[str]) -> None:
        slot, channel, state = values_of(fields, [SLOT, CHANNEL, STATE])
        rows.append(LocalRow(slot, channel, state == "on"))
        in_order(rows)
        if channel not in plan.listed:
            raise Fault("clash")

    all_rows(data, take)
    return rows


def schedule(data: bytes, lanes: int) -> list[Damage]:
    """Rows `skew,lane,bits`, `flip,lane,bit` and `dark,lane,first,count`. A lane without a skew has 0."""
    lane = number(0, lanes - 1)
    keys = {"skew": [lane, number(0, GREATEST_SKEW)], "flip": [lane, BIT], "dark": [lane, BIT, number(1, GREATEST_BIT)]}
    skews: dict[int, int] = {}
    flips: dict[int, list[int]] = {}
    darks: dict[int, list[Dark]] = {}

    def take(fields: list[str]) -> None:
        if fields[0] not in keys:
            raise Fault("key")
        place, *values = values_of(fields[1:], keys[fields[0]])
        if fields[0] == "flip":
            flips.setdefault(place, []).append(values[0])
        elif fields[0] == "dark":
            darks.setdefault(place, []).append(Dark(*values))
        elif place in skews:
            raise Fault("repeat")
        else:
            skews[place] = values[0]

    all_rows(data, take)
    return [Damage(skews.get(place, 0), tuple(flips.get(place, ())), tuple(darks.get(place, ()))) for place in range(lanes)]


def events(data: bytes) -> list[tuple[str, int]]:
    """Rows `name,count`, 1 to 4,194,304 times, and no more of all together."""
    rows: list[tuple[str, int]] = []

    def take(fields: list[str]) -> None:
        if fields[0] not in EVENTS:
            raise Fault("key")
        rows.append((fields[0], *values_of(fields[1:], [number(1, MOST_EVENTS)])))
        if sum(count for _, count in rows) > MOST_EVENTS:
            raise Fault("range")

    all_rows(data, take)
    return rows
