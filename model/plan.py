"""Plans, and the settings of a duplex run. REFERENCE, "Plans", "Settings of a duplex run"; DEFINITIONS, "Files": Plan."""

from typing import NamedTuple, Sequence

import csv_rows
from csv_rows import CHANNEL, FILE, PREFIX, Fault, Kind, all_rows, number, values_of
from files import Refusal
from link import Link, Shape
from reassembly import Settings

MOST_ROWS = 1_024
GREATEST_NARROW = 255


class Row(NamedTuple):
    """A row that is right by itself: its key and its values."""
    key: str
    values: list


# Of each key the forms that its fields may have.
PLAN_KEYS: dict[str, list[list[Kind]]] = {
    "lanes": [[number(1, 64)]],
    "metaframe": [[number(32, 8_192)]],
    "skips": [[number(1, 4)]],
    "deskew": [[number(1, 4_095)]],
    "warmup": [[number(4, 64)]],
    "burst_max": [[number(64, 4_096, 64)]],
    "burst_short": [[number(32, 4_096, 8)]],
    "burst_min": [[number(0, 2_048, 32)]],
    "wide": [[number(0, 1)]],
    "channel": [[CHANNEL], [CHANNEL, FILE]],
    "entry": [[CHANNEL]],
    "max_packet": [[number(1, 262_144)]],
    "link_type": [[number(0, 65_535)]],
    "out": [[PREFIX]],
    "flow": [[FILE]],
    "local": [[FILE]],
    "schedule": [[FILE]],
    "oob": [[FILE]],
    "events": [[FILE]],
    "window": [[number(1, 255)]],
}
PLAN_DEFAULTS = {
    "skips": 1, "deskew": 7, "warmup": 8, "burst_max": 256, "burst_short": 64, "burst_min": 0, "wide": 0, "max_packet": 262_144,
    "link_type": 1, "window": 64,
}
PLAN_NEEDS = ("lanes", "metaframe", "channel", "out")

SETTINGS_KEYS: dict[str, list[list[Kind]]] = {
    "plan": [[FILE]],
    "delay": [[number(1, 4_096)]],
    "mark": [[number(1, 65_536)]],
    "slots": [[number(1, csv_rows.GREATEST_SLOT)]],
    "drain": [[number(1, 1_024)]],
    "back": [[CHANNEL, FILE]],
    "out": [[PREFIX]],
}
SETTINGS_DEFAULTS = {"drain": 1}
SETTINGS_NEEDS = ("plan", "delay", "mark", "slots", "out")


def row_of(fields: Sequence[str], keys: dict[str, list[list[Kind]]], before: Sequence[Row]) -> Row:
    """A row of a key, or the first of its faults: the key, the number of fields, a number, a range or a count, a
    repeat."""
    key, values = fields[0], fields[1:]
    if key not in keys:
        raise Fault("key")
    form = next((form for form in keys[key] if len(form) == len(values)), None)
    if form is None:
        raise Fault("fields")
    row = Row(key, values_of(values, form))
    same = [other for other in before if other.key == key]
    if key in ("channel", "entry") and len(same) == MOST_ROWS:
        raise Fault("range")
    if repeats(row, same):
        raise Fault("repeat")
    return row


def repeats(row: Row, same: Sequence[Row]) -> bool:
    """A second row of a key that stands once, or of a channel's number; entries stand as often as they are."""
    if row.key in ("channel", "back"):
        return any(other.values[0] == row.values[0] for other in same)
    return row.key != "entry" and bool(same)


def keyed_rows(data: bytes, keys: dict[str, list[list[Kind]]], needs: Sequence[str]) -> list[Row]:
    """The rows of a file of keys; the least row with a fault is refused, else the first key that is absent is
    missing."""
    rows: list[Row] = []
    all_rows(data, lambda fields: rows.append(row_of(fields, keys, rows)))
    for key in needs:
        if all(row.key != key for row in rows):
            raise Refusal("missing %s" % key)
    return rows


class Plan:
    """What a plan says, each row under its key."""

    def __init__(self, rows: Sequence[Row]):
        self.rows = rows
        self.once = {**PLAN_DEFAULTS, **{row.key: row.values[0] for row in rows if row.key not in ("channel", "entry")}}
        # The channels in the order of their rows, each with the capture of its packets if it has one.
        self.listed = {row.values[0]: (row.values[1:] or [None])[0] for row in rows if row.key == "channel"}
        self.channels = sorted(self.listed)
        self.entries = [row.values[0] for row in rows if row.key == "entry"] or self.channels

    def file(self, key: str) -> str | None:
        """The name of a file, if the plan names one."""
        return self.once.get(key)

    @property
    def out(self) -> str:
        """The prefix of the outputs' names."""
        return self.once["out"]

    @property
    def link_type(self) -> int:
        """The link type of captures that are written."""
        return self.once["link_type"]

    @property
    def window(self) -> int:
        """The most pieces that are sent ahead of those acknowledged."""
        return self.once["window"]

    @property
    def wide(self) -> bool:
        """Whether channel numbers have 16 bits."""
        return self.once["wide"] == 1

    @property
    def link(self) -> Link:
        """The link that carries the stream."""
        return Link(*(self.once[key] for key in ("lanes", "metaframe", "skips", "deskew")))

    @property
    def shape(self) -> Shape:
        """The shape of the plan's link with the plan's BurstMin."""
        return Shape(self.link.group, *(self.once[key] for key in ("warmup", "burst_max", "burst_short", "burst_min")))

    @property
    def settings(self) -> Settings:
        """What the receiver goes by."""
        return Settings(self.channels, self.once["max_packet"], self.wide)

    def clashes(self, row: Row) -> bool:
        """Whether a row contradicts another, names a channel that is not listed, or one that does not fit."""
        if row.key == "deskew":
            return 2 * row.values[0] >= self.once["metaframe"]
        if row.key == "burst_short":
            return row.values[0] > self.once["burst_max"]
        if row.key == "burst_min":
            return 2 * row.values[0] > self.once["burst_max"]
        if row.key == "entry":
            return row.values[0] not in self.listed
        return row.key == "channel" and row.values[0] > GREATEST_NARROW and not self.wide

    def row_number(self, key: str) -> int:
        """The number of the row of a key, counted from 1."""
        return 1 + [row.key for row in self.rows].index(key)


def plan_of(data: bytes) -> Plan:
    """A plan; without a faulty row and a missing key the least clash is refused."""
    plan = Plan(keyed_rows(data, PLAN_KEYS, PLAN_NEEDS))
    for place, row in enumerate(plan.rows, 1):
        if plan.clashes(row):
            raise Refusal("row %d: clash" % place)
    return plan


def plan_of_resend(data: bytes) -> Plan:
    """The plan of `resend` must name events and must not be wide: then the row `wide,1` clashes."""
    plan = plan_of(data)
    if plan.file("events") is None:
        raise Refusal("missing events")
    if plan.wide:
        raise Refusal("row %d: clash" % plan.row_number("wide"))
    return plan


def plan_of_oobread(data: bytes) -> Plan:
    """The plan of `oobread` must name a sample file."""
    plan = plan_of(data)
    if plan.file("oob") is None:
        raise Refusal("missing oob")
    return plan


class DuplexSettings(NamedTuple):
    """The settings of a duplex run; `back` has the rows of the captures of end b, each with its number, channel and
    file."""
    plan: str
    delay: int
    mark: int
    slots: int
    drain: int
    out: str
    back: list[tuple[int, int, str]]


def settings_of(data: bytes) -> DuplexSettings:
    """The settings of a duplex run."""
    rows = keyed_rows(data, SETTINGS_KEYS, SETTINGS_NEEDS)
    once = {**SETTINGS_DEFAULTS, **{row.key: row.values[0] for row in rows if row.key != "back"}}
    back = [(place, *row.values) for place, row in enumerate(rows, 1) if row.key == "back"]
    return DuplexSettings(back=back, **once)
