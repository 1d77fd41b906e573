"""A generated case, drawn from a number. DEFINITIONS, "Files": Draws, Generated case, Files of a generated case."""

from typing import NamedTuple, Sequence

import pcap

LINK_TYPE, DESKEW, WARMUP = 1, 7, 4


class Draws:
    """The state starts as the number. A draw below k first sets the state x to 6364136223846793005 x +
    1442695040888963407 modulo 2^64, and is x div 2^33, modulo k."""

    def __init__(self, number: int):
        self.state = number

    def below(self, count: int) -> int:
        """The next draw below a count."""
        self.state = (6364136223846793005 * self.state + 1442695040888963407) % 2 ** 64
        return self.state // 2 ** 33 % count


class Case(NamedTuple):
    """The numbers of the plan by their keys, the packets of each channel, the skews, and the inverted bits, each as its
    lane and the bit."""
    numbers: list[tuple[str, int]]
    channels: list[list[bytes]]
    skews: list[int]
    flips: list[tuple[int, int]]


def case(number: int) -> Case:
    """The case of a number. The draws are in the order in which they are written here."""
    draws = Draws(number)
    lanes = 1 + draws.below(8)
    numbers = [
        ("lanes", lanes),
        ("metaframe", 32 + draws.below(97)),
        ("skips", 1 + draws.below(4)),
        ("burst_max", 64 * (1 + draws.below(8))),
        ("burst_short", 32 + 8 * draws.below(5)),
        ("deskew", DESKEW),
        ("warmup", WARMUP),
    ]
    channels = [[packet(draws) for _ in range(1 + draws.below(200))] for _ in range(1 + draws.below(4))]
    skews = [draws.below(470) for _ in range(lanes)]
    flips = [(draws.below(lanes), draws.below(200_000)) for _ in range(draws.below(4))]
    return Case(numbers, channels, skews, flips)


def packet(draws: Draws) -> bytes:
    """A packet: its length and then each byte."""
    return bytes(draws.below(256) for _ in range(1 + draws.below(1_514)))


def files_of_case(drawn: Case, prefix: str) -> list[tuple[str, bytes]]:
    """The captures by number, the schedule with a row for each skew and then for each inverted bit, and the plan."""
    captures = [("%s.%d.pcap" % (prefix, channel), pcap.written(packets, LINK_TYPE))
                for channel, packets in enumerate(drawn.channels)]
    schedule = [("skew", lane, skew) for lane, skew in enumerate(drawn.skews)] + [("flip", *flip) for flip in drawn.flips]
    plan = [
        *drawn.numbers,
        ("schedule", prefix + ".schedule"),
        ("out", prefix + ".out"),
        *(("channel", channel, name) for channel, (name, _) in enumerate(captures)),
    ]
    return [*captures, (prefix + ".schedule", rows_text(schedule)), (prefix + ".plan", rows_text(plan))]


def rows_text(rows: Sequence[tuple]) -> bytes:
    """Rows that each end in the byte 0A."""
    return "".join(",".join(map(field_text, row)) + "\n" for row in rows).encode()


def field_text(value: object) -> str:
    """A field with a comma, a quote or a line end stands in quotes, and a quote in it is doubled."""
    text = str(value)
    return '"%s"' % text.replace('"', '""') if any(character in text for character in ',"\r\n') else text
