"""Captures as other tools write them: pcapng, and pcap of any byte order and resolution."""

from collections import namedtuple

from reading.files import MAGICS, NANO_MAGICS, NG_MAGIC, Refused, shown_name

# The link type of a capture, and its packets.
Capture = namedtuple("Capture", "link packets")
# A packet: its time in nanoseconds, and its bytes.
Packet = namedtuple("Packet", "nanoseconds data")

NANO = 10 ** 9
SECTION, INTERFACE, SIMPLE, OBSOLETE, ENHANCED = 0x0A0D0D0A, 1, 3, 2, 6
BYTE_ORDER = 0x1A2B3C4D
RESOLUTION, END = 9, 0  # options of an interface
VERSION = 2, 4


class Reader:
    """A capture's bytes. `refuse` tells where they are wrong."""

    def __init__(self, name, data):
        self.name, self.data, self.order = name, data, "little"

    def refuse(self, at, what):
        raise Refused("%s: byte %d: %s" % (shown_name(self.name), at, what))

    def number(self, at, size=4):
        if at + size > len(self.data):
            self.refuse(at, "the file ends in the middle of a number")
        return int.from_bytes(self.data[at:at + size], self.order)


def capture_of(name, data):
    """The packets of a capture, in whatever format it is."""
    reader = Reader(name, data)
    if data[:4] == NG_MAGIC:
        return blocks_of(reader)
    if data[:4] in MAGICS:
        return records_of(reader)
    if len(data) < 4:
        reader.refuse(0, "no capture: the file has %d bytes" % len(data))
    reader.refuse(0, "no capture: pcap and pcapng begin otherwise than with %s" % data[:4].hex().upper())


def records_of(reader):
    """The packets of a pcap."""
    data, found, at = reader.data, [], 24
    reader.order = MAGICS[data[:4]]
    version = reader.number(4, 2), reader.number(6, 2)
    if version != VERSION:
        reader.refuse(4, "version %d.%d, and pcap has 2.4" % version)
    unit = 1 if data[:4] in NANO_MAGICS else 1000
    link = reader.number(20) & 0xFFFF
    while at < len(data):
        seconds, part, size = (reader.number(at + place) for place in (0, 4, 8))
        if at + 16 + size > len(data):
            reader.refuse(at, "packet %d has %d bytes, and the file ends before" % (len(found), size))
        found.append(Packet(NANO * seconds + unit * part, data[at + 16:at + 16 + size]))
        at += 16 + size
    return Capture(link, found)


def blocks_of(reader):
    """The packets of a pcapng, of all its sections and interfaces, which have one link type."""
    at, links, units, found, used = 0, [], [], [], set()
    while at < len(reader.data):
        kind = reader.number(at)
        if kind == SECTION:
            reader.order = order_of_section(reader, at)
            links, units = [], []
        size = reader.number(at + 4)
        if size < 12 or size % 4 or at + size > len(reader.data):
            reader.refuse(at, "a block of %d bytes" % size)
        if kind == INTERFACE:
            links.append(reader.number(at + 8, 2))
            units.append(unit_of(reader, at + 16, at + size - 4))
        elif kind in (ENHANCED, SIMPLE, OBSOLETE):
            interface, packet = packet_of(reader, kind, at, size, units)
            used.add(links[interface])
            found.append(packet)
        at += size
    if len(used) > 1:
        reader.refuse(0, "packets of link types %s, and a pcap has one" % ", ".join(map(str, sorted(used))))
    return Capture(used.pop() if used else 1, found)


def order_of_section(reader, at):
    """The byte order of a section."""
    for order in ("little", "big"):
        if int.from_bytes(reader.data[at + 8:at + 12], order) == BYTE_ORDER:
            return order
    reader.refuse(at + 8, "a section without its byte order")


def unit_of(reader, at, end):
    """How many parts a second has on an interface, by its options."""
    while at + 4 <= end:
        code, size = reader.number(at, 2), reader.number(at + 2, 2)
        if code == END:
            break
        if code == RESOLUTION and size >= 1 and at + 5 <= end:
            value = reader.data[at + 4]
            return 2 ** (value & 127) if value & 128 else 10 ** value
        at += 4 + -(-size // 4) * 4
    return 10 ** 6


def packet_of(reader, kind, at, size, units):
    """The interface and the packet of a block."""
    if kind == SIMPLE:
        interface, stamp, begin, count = 0, 0, at + 12, min(reader.number(at + 8), size - 16)
    else:
        interface = reader.number(at + 8) if kind == ENHANCED else reader.number(at + 8, 2)
        stamp = reader.number(at + 12) << 32 | reader.number(at + 16)
        begin, count = at + 28, reader.number(at + 20)
    if interface >= len(units):
        reader.refuse(at, "a packet of interface %d, and the section has %d" % (interface, len(units)))
    if count < 0 or begin + count > at + size - 4:
        reader.refuse(at, "a packet of %d bytes in a block of %d" % (count, size))
    return interface, Packet(stamp * NANO // units[interface], reader.data[begin:begin + count])
