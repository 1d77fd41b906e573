"""Random plans, captures and rows, right ones and spoiled ones, for random_cases.py."""

import struct
from random import Random
from typing import Sequence

import fields
import pcap
from flow import FlowRow, LocalRow, packed
from link import CODE_BITS, Link
from plan import Plan, plan_of
from stream import Source, payload_stream

LENGTHS = (1, 7, 8, 9, 32, 60, 63, 64, 65, 95, 96, 97, 100, 128, 160, 192, 200, 224, 256, 257, 288, 300, 320, 500)
FRAMING = (0x78F678F678F678F6, 0x1E1E1E1E1E1E1E1E, 0x28F0000000000000)


# ---- captures

def packet(r: Random, length: int | None = None) -> bytes:
    """Random bytes, or the words of framing, or bytes that are all alike."""
    length = length or r.choice(LENGTHS)
    pattern = r.choice([r.randbytes(length), r.choice(FRAMING).to_bytes(8, "big"), b"\0", b"\xff"])
    return (pattern * length)[:length]


def packets(r: Random, most: int = 4) -> list[bytes]:
    """Some packets of one channel."""
    return [packet(r) for _ in range(r.randint(0, most))]


def capture(r: Random, of: Sequence[bytes], version: tuple[int, int] = pcap.VERSION) -> bytes:
    """A capture of packets in one of its forms, with stamps and original lengths that are not read."""
    order = r.choice("<>")
    magic = r.choice([pcap.MICROSECONDS, pcap.NANOSECONDS])
    head = struct.pack(order + "IHHIIII", magic, *version, 1, 2, r.choice([0, 65535]), 1)
    return head + b"".join(struct.pack(order + "IIII", 7, 8, len(p), r.choice([0, len(p) + 3])) + p for p in of)


def spoiled_capture(r: Random, of: Sequence[bytes]) -> bytes:
    """A capture that is refused, for one of its causes, or by chance is not."""
    data = capture(r, of)
    record = struct.pack("<IIII", 0, 0, r.choice([0, 0, 262_145, 0xFFFFFFFF]), 5)
    return r.choice([
        data[:r.randrange(4)], data[:r.randrange(4, 24)], data[:r.randrange(len(data))], data + bytes(r.randint(1, 15)),
        r.choice([b"\x0a\x0d\x0d\x0a", b"\xff\x00\x01\xab", data[3::-1]]) + data[4:], b"\x0a\x0d\x0d\x0a",
        capture(r, of, r.choice([(2, 3), (2, 5), (3, 4), (0, 65535)])), pcap.written(of, 1) + record,
    ])


# ---- rows

def spelled(r: Random, rows: Sequence[Sequence[object]]) -> bytes:
    """Rows of comma-separated values, plain ones or with quotes, blank lines, other line ends, leading zeros and a
    byte-order mark."""
    if r.randrange(3):
        return "".join(",".join(map(str, row)) + "\n" for row in rows).encode()

    def field(value: object) -> str:
        text = "0" * r.choice([0, 0, 2]) + str(value) if isinstance(value, int) else str(value)
        return '"%s"' % text if r.randrange(4) == 0 else text

    ends = ["\n", "\n", "\r\n", "\r", "\n\n", "\r\n\r\n"]
    text = r.choice(["", "\ufeff", "\n"]) + "".join(",".join(map(field, row)) + r.choice(ends) for row in rows)
    return (text.rstrip("\r\n") if r.randrange(3) == 0 else text).encode()


BAD_FIELDS = (
    "", " 1", "+1", "-1", "1.0", "0x10", "9" * 15, "0" * 16, "1" * 16, "65536", "1025", "256", "16777216", "\u0661", "\uff11",
    "x" * 256, "y" * 201, "9", "on", "off ", "0", "33", "63", "4097", "81FFFF000018817", "81FFFF00001881770",
)


def spoiled(r: Random, rows: Sequence[Sequence[object]]) -> bytes:
    """Rows of which one or two are spoiled: another field or key, another number of fields, a second time, at another
    place, no text, odd quotes."""
    rows = [list(row) for row in rows] or [["x"]]
    for _ in range(r.choice([1, 1, 2])):
        at = r.randrange(len(rows))
        field = r.randrange(len(rows[at]))
        change = r.randrange(8)
        if change < 3:
            for place in {field, r.choice([field, len(rows[at]) - 1])}:
                rows[at][place] = r.choice(BAD_FIELDS)
        elif change == 3:
            rows[at][field:field + 1] = r.choice([[], [rows[at][field], "1"], [rows[at][field], ""]])
        elif change == 4:
            rows.insert(r.randrange(len(rows) + 1), list(rows[at]))
        elif change == 5:
            rows.append(rows.pop(at))
        elif change == 6 and len(rows) > 1:
            rows.pop(at)
        else:
            rows[at][0] = r.choice(["Lanes", "lane", "", " out", "wide ", "burst", "skew", "dark", "send"])
        rows = [row for row in rows if row] or [["x"]]
    data = spelled(r, rows)
    return damaged_text(r, data) if r.randrange(4) == 0 else data


def damaged_text(r: Random, data: bytes) -> bytes:
    """A text with bytes that are not text, or with quotes at odd places."""
    at = r.randrange(len(data) + 1)
    return data[:at] + r.choice([b"\xff", b"\xc3", b"\xed\xa0\x80", b'"', b'""', b",", b"\n", b"\r", b"\0"]) + data[at:]


# ---- plans

LANES = (1, 1, 2, 2, 3, 4, 5)


class Drawn:
    """A random plan that is right: its rows, the files that it names, and what it says."""

    def __init__(self, r: Random, may_be_wide: bool = True, longest: int | None = None, lanes: Sequence[int] = LANES):
        self.r = r
        self.wide = may_be_wide and r.randrange(5) < 2
        self.rows = [["lanes", r.choice(lanes)]] + self.numbers() + self.channel_rows()
        self.packets = {row[1]: packets(r) for row in self.rows if row[0] == "channel" and len(row) == 3}
        self.rows += [["out", "o"]]
        self.plan: Plan = plan_of("".join(",".join(map(str, row)) + "\n" for row in self.rows).encode())
        if r.randrange(4) == 0:
            self.rows.append(["max_packet", longest or r.choice([500, 500, 600, 262_144, 256, 100])])
        self.files = {"c%d.pcap" % channel: capture(r, of) for channel, of in self.packets.items()}
        self.flow: list[FlowRow] = []
        self.local: list[LocalRow] = []

    def numbers(self) -> list[list]:
        """The rows of the link."""
        r = self.r
        metaframe = r.choice([32, 32, 32, 33, 40, 50])
        burst_max = r.choice([64, 64, 128, 256, 256, 512, 4096])
        rows = [["metaframe", metaframe]]
        rows += [["warmup", r.choice([4, 4, 4, 5, 6])]] if r.randrange(6) else []
        optional = [
            ["skips", r.randint(1, 4)], ["deskew", r.randint(1, (metaframe - 1) // 2)], ["link_type", r.choice([0, 1, 101, 65535])],
            ["burst_max", burst_max],
        ]
        rows += [row for row in optional if r.randrange(2)]
        most = burst_max if ["burst_max", burst_max] in rows else 256
        rows += [["burst_short", r.randrange(32, most + 1, 8)]] if r.randrange(2) else []
        rows += [["burst_min", r.randrange(0, most // 2 + 1, 32)]] if r.randrange(2) else []
        return rows + ([["wide", 1]] if self.wide else r.choice([[], [], [["wide", 0]]]))

    def channel_rows(self) -> list[list]:
        """The rows of channels and of the calendar."""
        r = self.r
        numbers = [0, 1, 2, 3, 7, 100, 255] + ([256, 257, 511, 65_280, 65_535] if self.wide else [])
        channels = r.sample(numbers, r.choice([1, 1, 2, 2, 3, 4]))
        rows = [["channel", channel, "c%d.pcap" % channel] if r.randrange(8) else ["channel", channel] for channel in channels]
        entries = r.choice([0, 0, 1, len(channels), 16, 17, 40])
        return rows + [["entry", r.choice(channels)] for _ in range(entries)]

    def add_flow(self) -> None:
        """A flow file, by whose rows channels go off and on, and some stay off; or go on in the slot of a burst
        word."""
        self.flow = flow_rows(self.r, self.plan.entries)
        if self.r.randrange(3) == 0:
            self.flow = calendar_rows(self.r, 0, [self.r.randrange(2) == 1 for _ in self.plan.entries])
            words = payload_stream(self.source()).words
            slots = [slot for slot, (kind, number) in enumerate(words) if kind == fields.CONTROL and fields.begins_burst(number)]
            self.flow += calendar_rows(self.r, self.r.choice(slots or [0]), [True] * len(self.plan.entries))
        self.add_rows("flow", "f.csv", [(row.slot, flow_text(self.r, row.number)) for row in self.flow])

    def add_local(self, most: int = 900) -> None:
        """A local file."""
        self.local = local_rows(self.r, self.plan.channels, most)
        self.add_rows("local", "l.csv", [(row.slot, row.channel, "on" if row.on else "off") for row in self.local])

    def add_rows(self, key: str, name: str, rows: Sequence[Sequence[object]]) -> None:
        """A file of rows that the plan names."""
        self.rows.append([key, name])
        self.files[name] = spelled(self.r, rows)

    def source(self) -> Source:
        """The source of the plan."""
        of = [(channel, packet) for channel, some in self.packets.items() for packet in some]
        return Source(self.plan.shape, self.plan.channels, self.plan.entries, of, self.flow, self.local)

    def all_files(self) -> dict[str, bytes]:
        """All files, the plan among them."""
        return {**self.files, "p.plan": spelled(self.r, self.shuffled())}

    def shuffled(self) -> list[list]:
        """The rows in another order; those of channels and of entries keep theirs."""
        rows = list(self.rows)
        if self.r.randrange(2):
            kept = [row for row in rows if row[0] in ("channel", "entry")]
            rows = [row for row in rows if row[0] not in ("channel", "entry")]
            self.r.shuffle(rows)
            at = self.r.randrange(len(rows) + 1)
            rows[at:at] = kept
        return rows

    def spoil(self) -> dict[str, bytes]:
        """All files, one of them spoiled or absent."""
        found = self.all_files()
        rows = [name for name in found if name.endswith(".csv")] or ["p.plan"]
        name = self.r.choice(["p.plan", self.r.choice(rows), self.r.choice(rows), self.r.choice(sorted(found))])
        change = self.r.randrange(6)
        if change == 0:
            del found[name]
        elif name.endswith(".pcap"):
            found[name] = spoiled_capture(self.r, packets(self.r))
        elif name == "p.plan":
            found[name] = spoiled_plan(self.r, self.rows)
        else:
            text = found[name].decode("utf-8-sig").replace('"', "")
            found[name] = spoiled(self.r, [line.split(",") for line in text.split()])
        return found


def spoiled_plan(r: Random, rows: Sequence[Sequence[object]]) -> bytes:
    """A plan that contradicts itself, or with spoiled rows."""
    clash = r.choice([
        [["deskew", 25]], [["deskew", 16]], [["burst_max", 64], ["burst_short", 72]], [["burst_max", 128], ["burst_min", 96]],
        [["entry", 9]], [["channel", 300]], [["channel", 65_536]], [["wide", 2]], [["oob", ""]], [["events", "e" * 256]],
        [["window", 256]], [["out", "\u00e9" * 101]],
    ])
    keys = {row[0] for row in clash} - {"channel", "entry"}
    if r.randrange(2):
        return spoiled(r, rows)
    kept = [row for row in rows if row[0] not in keys]
    at = r.randrange(len(kept) + 1)
    return spelled(r, kept[:at] + clash + kept[at:])


# ---- flow and local rows

def flow_rows(r: Random, entries: Sequence[int]) -> list[FlowRow]:
    """Whole calendars and parts of them at rising slots, with words that are not valid between."""
    rows, slot = [], 0
    for _ in range(r.randint(1, 6)):
        states = [r.randrange(3) > 0 for _ in entries]
        for at in range(0, len(entries), 16):
            slot += r.choice([0, 0, 1, 30, 90])
            flow = packed(states[at:at + 16])
            word = flow_word(r, at == 0 and r.randrange(6) > 0, flow)
            rows.append(FlowRow(slot, spoiled_flow(r, word) if r.randrange(6) == 0 else word))
    # At the end all channels are on, or they stay as they are.
    return rows + calendar_rows(r, slot, [True] * r.choice([0, 0, len(entries)]))


def calendar_rows(r: Random, slot: int, states: Sequence[bool]) -> list[FlowRow]:
    """A whole calendar at a slot."""
    return [FlowRow(slot, flow_word(r, at == 0, packed(states[at:at + 16]))) for at in range(0, len(states), 16)]


def flow_word(r: Random, reset: bool, flow: int) -> int:
    """A valid word with these flow bits, and any other fields."""
    end, channel, multi = r.choice([0, 1, 8, 15]), r.randrange(256), r.randrange(256)
    return fields.sealed([], fields.control_number(r.randrange(2), r.randrange(2), end, reset, flow, channel, multi))


def spoiled_flow(r: Random, number: int) -> int:
    """A word that is not valid, or carries something else."""
    refused = fields.sealed([], r.choice([number & ~(1 << 63), number & ~(0b1000 << 57) | 0b0110 << 57]))
    return r.choice([0, number ^ 1 << r.randrange(64), refused, refused, (1 << 64) - 1])


def flow_text(r: Random, number: int) -> str:
    """A word of 16 hexadecimal digits of either case."""
    return format(number, r.choice(["016X", "016X", "016x"]))


def local_rows(r: Random, channels: Sequence[int], most: int) -> list[LocalRow]:
    """Rows at rising slots."""
    slots = sorted(r.randrange(r.choice([1, 20, most])) for _ in range(r.randint(0, 8)))
    return [LocalRow(slot, r.choice(channels), r.randrange(2) == 1) for slot in slots]


def schedule_rows(r: Random, plan: Plan, bits: int) -> list[list]:
    """Skews within the depth and beyond, inverted bits, dark stretches, and damage that takes locks."""
    link = plan.link
    rows = [["skew", lane, skew] for lane, skew in enumerate(skews(r, link)) if skew or r.randrange(2)]
    for _ in range(r.choice([0, 1, 2, 3, 4])):
        rows += r.choice(DAMAGES)(r, r.randrange(link.lanes), link, bits)
    r.shuffle(rows)
    return rows


def skews(r: Random, link: Link) -> list[int]:
    """Of each lane its skew: all alike, within the depth, just beyond it, or each within the depth of lane 0 and not of
    one another."""
    base, depth = r.choice([0, 0, 5, 300]), CODE_BITS * link.deskew
    if r.randrange(5) == 0:
        others = [r.choice([0, 2 * depth, 2 * depth - 1, r.randint(0, 2 * depth)]) for _ in range(1, link.lanes)]
        return [base + skew for skew in (depth, *others)]
    spread = r.choice([0, depth, depth, depth + 1, 2 * depth, link.period])
    return [base + r.choice([0, spread, r.randint(0, spread)]) for _ in range(link.lanes)]


def one_bit(r: Random, lane: int, link: Link, bits: int) -> list[list]:
    """One bit, once or twice, also beyond the lane's end."""
    return [["flip", lane, r.choice([r.randrange(bits), r.randrange(bits), bits, 999_999_999_999])]] * r.choice([1, 1, 1, 2])


def some_bits(r: Random, lane: int, link: Link, bits: int) -> list[list]:
    """Many bits near one another."""
    at = r.randrange(bits)
    return [["flip", lane, at + r.randrange(200)] for _ in range(r.randint(2, 9))]


def dark(r: Random, lane: int, link: Link, bits: int) -> list[list]:
    """A dark stretch, short or long enough to take a lock, and sometimes an inverted bit in it."""
    first = r.choice([r.randrange(bits), locked_bit(r, link, bits)])
    count = r.choice([1, 3, 67, 67 * 8, 67 * 15, 67 * 17, 67 * 40, 999_999_999_999])
    return [["dark", lane, first, count]] + r.choice([[], [["flip", lane, first + r.randrange(min(count, 1_000))]]])


def locked_bit(r: Random, link: Link, bits: int) -> int:
    """A bit at which a lane is locked, if nothing happened before."""
    return r.randrange(min(4 * link.period, bits - 1), bits)


def headers(r: Random, lane: int, link: Link, bits: int) -> list[list]:
    """Wrong headers in 15 to 17 words of one block, or so."""
    first = r.choice([r.randrange(bits), locked_bit(r, link, bits)]) // CODE_BITS
    return [["flip", lane, CODE_BITS * (first + turn) + r.choice([1, 2])] for turn in range(r.choice([15, 16, 17, 40]))]


def framing(r: Random, lane: int, link: Link, bits: int) -> list[list]:
    """Sync, Scrambler State or other words of framing of some metaframes, one after another or with right ones between:
    a bit of each, or both of its header, which make it a data word."""
    position, turns = r.choice([
        (0, [[0, 1, 2, 3], [0, 1, 2, 3], [0, 1, 2, 4], [0, 1, 2]]),
        (1, [[0], [0, 1, 2], [0, 1], [0, 1, 3], [0, 1, 3, 4, 5]]),
        (r.choice([2, link.metaframe - 1]), [[0], [0, 2]]),
    ])
    first, places = r.choice([3, 4, 4, 4, r.randrange(max(1, bits // link.period))]), r.choice([[1, 2], [1], [3], [9], [30], [65]])
    words = [link.period * (first + turn) + CODE_BITS * position for turn in r.choice(turns)]
    return [["flip", lane, word + place] for word in words for place in places]


DAMAGES = (one_bit, one_bit, some_bits, dark, dark, headers, headers, framing, framing, framing, framing)
