"""Captures, read and written. REFERENCE, "Files"; DEFINITIONS, "Files": Capture."""

from typing import Sequence

from files import Refusal

MICROSECONDS, NANOSECONDS = 0xA1B2C3D4, 0xA1B23C4D
PCAPNG = 0x0A0D0D0A
VERSION = (2, 4)
HEADER, RECORD = 24, 16
SNAPLEN = 262_144


def capture(data: bytes, longest: int) -> list[bytes]:
    """The packets of a capture: a header of 24 bytes in either byte order, and records of 16 bytes and the captured
    bytes."""
    order = byte_order(data)
    packets: list[bytes] = []
    at = HEADER
    while at < len(data):
        packets.append(record(data, at, len(packets), order, longest))
        at += RECORD + len(packets[-1])
    return packets


def byte_order(data: bytes) -> str:
    """The byte order of a header. Its refusals, in order: short at 0 below 4 bytes, pcapng, another magic, short at 0
    below 24 bytes, another version."""
    if len(data) < 4:
        raise Refusal("short at 0")
    magic = int.from_bytes(data[:4], "little")
    order = "little" if magic in (MICROSECONDS, NANOSECONDS) else "big"
    if magic == PCAPNG:
        raise Refusal("pcapng")
    if int.from_bytes(data[:4], order) not in (MICROSECONDS, NANOSECONDS):
        raise Refusal("magic %s" % data[:4].hex().upper())
    if len(data) < HEADER:
        raise Refusal("short at 0")
    version = tuple(int.from_bytes(data[at:at + 2], order) for at in (4, 6))
    if version != VERSION:
        raise Refusal("version %d.%d" % version)
    return order


def record(data: bytes, at: int, number: int, order: str, longest: int) -> bytes:
    """The packet of a record at an offset. The refusals, in order: short with 1 to 15 bytes left, empty, longer than
    the largest packet, short with fewer captured bytes left."""
    if len(data) - at < RECORD:
        raise Refusal("short at %d" % at)
    length = int.from_bytes(data[at + 8:at + 12], order)
    if length == 0:
        raise Refusal("empty record %d" % number)
    if length > longest:
        raise Refusal("long record %d length %d" % (number, length))
    if len(data) - at - RECORD < length:
        raise Refusal("short at %d" % at)
    return data[at + RECORD:at + RECORD + length]


def written(packets: Sequence[bytes], link_type: int) -> bytes:
    """Little-endian, microseconds, version 2.4, zone and sigfigs 0, snaplen 262,144, the link type; both stamps 0 and
    both lengths the packet's."""
    def little(*parts: tuple[int, int]) -> bytes:
        return b"".join(value.to_bytes(count, "little") for value, count in parts)
    head = little((MICROSECONDS, 4), (VERSION[0], 2), (VERSION[1], 2), (0, 4), (0, 4), (SNAPLEN, 4), (link_type, 4))
    return head + b"".join(little((0, 4), (0, 4), (len(packet), 4), (len(packet), 4)) + packet for packet in packets)
