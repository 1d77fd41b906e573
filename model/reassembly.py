"""Received words to packets. DEFINITIONS, "What is received": Clean run, burst, piece; Packets and drops."""

from collections import Counter
from typing import NamedTuple, Sequence

import fields
from epochs import Epoch, Place
from fields import ERROR_END, NO_END
from spans import Run, Span, clean_runs, fault_spans, stretches

DROPS = ("bad", "crc", "protocol", "lost", "end", "toolong", "unlisted", "sender")


class Settings(NamedTuple):
    """The channels that the receiver lists, by number, the longest packet, and whether it reads channel numbers as wide
    ones."""
    channels: Sequence[int]
    max_packet: int
    wide: bool


class Burst(NamedTuple):
    """A verified burst word with the data words between it and the next word of its run; the end format of that word,
    0000 if the run ends."""
    sop: bool
    first: Place
    data: list[int]
    end: int
    last: Place | None


class Packet(NamedTuple):
    """A packet that came: its bytes, and the places of its SOP word and of its end word."""
    channel: int
    data: bytes
    first: Place
    last: Place


class Outcome(NamedTuple):
    """What received words come to: the packets that are delivered, the fault spans, and the drops by reason."""
    packets: list[Packet]
    spans: list[Span]
    drops: Counter


def bursts_of(epoch: Epoch, run: Run, wide: bool) -> dict[int, list[Burst]]:
    """The bursts of each channel in a run. The channel of a burst is its channel number, which the receiver reads as a
    wide or as a narrow one."""
    found: dict[int, list[Burst]] = {}
    for at, after in zip(run.controls, [*run.controls[1:], None]):
        number = epoch.words[at].number
        if not fields.begins_burst(number):
            continue
        burst = Burst(fields.has_sop(number), epoch.places[at], [], NO_END, None)
        if after is not None:
            data = [word.number for word in epoch.words[at + 1:after]]
            burst = burst._replace(data=data, end=fields.end_format(epoch.words[after].number), last=epoch.places[after])
        found.setdefault(fields.channel_number(number, wide), []).append(burst)
    return found


def pieces(bursts: Sequence[Burst]) -> list[list[Burst]]:
    """The bursts of one channel in a run are cut into pieces: a new piece begins at each SOP, and after each burst
    whose next control word has an end format."""
    found: list[list[Burst]] = []
    for burst in bursts:
        if not found or burst.sop or found[-1][-1].end != NO_END:
            found.append([])
        found[-1].append(burst)
    return found


def bytes_of(piece: Sequence[Burst]) -> bytes:
    """The bytes of a piece's data words with the last word cut to its valid bytes."""
    data = b"".join(number.to_bytes(8, "big") for burst in piece for number in burst.data)
    return data[:len(data) - 8 + fields.valid_bytes(piece[-1].end)]


def drop_of(piece: Sequence[Burst], is_first: bool, is_last: bool, settings: Settings, ends_for: str) -> str | None:
    """Why a piece of a listed channel gives no packet, or nothing if it gives one or is not told of. It is the first
    of its channel in the run, or the last."""
    end = piece[-1].end
    if not piece[0].sop:
        return None if is_first else "protocol"
    if end == NO_END:
        return ends_for if is_last else "protocol"
    if end == ERROR_END:
        return "sender"
    return "toolong" if len(bytes_of(piece)) > settings.max_packet else None


def reassembled(epochs: Sequence[Epoch], settings: Settings) -> Outcome:
    """The packets, fault spans and drops of epochs. The packets of one channel are in order."""
    runs = clean_runs(epochs, stretches(epochs))
    packets, drops = [], Counter()
    for run in runs:
        for channel, bursts in bursts_of(epochs[run.epoch], run, settings.wide).items():
            parts = pieces(bursts)
            if channel not in settings.channels:
                # A piece of an unlisted channel is dropped once, at its SOP.
                drops["unlisted"] += sum(piece[0].sop for piece in parts)
                continue
            for number, piece in enumerate(parts):
                why = drop_of(piece, number == 0, number == len(parts) - 1, settings, run.ends_for)
                if why is not None:
                    drops[why] += 1
                elif piece[0].sop:
                    packets.append(Packet(channel, bytes_of(piece), piece[0].first, piece[-1].last))
    return Outcome(packets, fault_spans(epochs, runs), drops)
