"""A test of cocotb: the transmitter of examples/dpi as the device, and the receiver of the C library beside it in Python, alone and
together with the inspector, the gatherer and the checker.

INTERLAKEN_LIBRARY names the shared library that tools/library makes. Another device has its place at `dut`: what the receiver needs is
a bit of each lane at each clock at which `valid` is 1, and the plan.
"""

import os

import cocotb
from cocotb.clock import Clock
from cocotb.triggers import FallingEdge

from lanes import LaneBits
from interlaken import Dropped, Fault, Packet, Receiver, Span
from interlaken.monitor import Finding, Monitor

PACKETS = 12
CHANNELS = 2


def plan_of(lanes: int, metaframe: int, skips: int) -> bytes:
    rows = ["lanes,%d" % lanes, "metaframe,%d" % metaframe, "skips,%d" % skips, "out,live"]
    return "".join(row + "\n" for row in rows + ["channel,%d" % (1 + i) for i in range(CHANNELS)]).encode()


def packet(number: int) -> tuple[int, bytes]:
    """The channel and the bytes of a packet, as packets_pkg.sv has them."""
    length = 16 + number * 37 % 200
    body = bytes((number * 31 + place * 7) % 256 for place in range(length))
    return 1 + number % CHANNELS, number.to_bytes(2, "big") + body[2:]


async def begin(dut) -> None:
    """Two clocks of reset."""
    cocotb.start_soon(Clock(dut.clk, 2, "ns").start())
    dut.packets.value = PACKETS
    dut.rst.value = 1
    for _ in range(2):
        await FallingEdge(dut.clk)
    dut.rst.value = 0


async def packets_of(dut, receiver: Receiver | Monitor, lanes: int, flip: int = -1):
    """The events, bit by bit, as they come; bit number `flip` of lane 0 is inverted on its way."""
    bits, number = LaneBits(receiver, lanes), 0
    while True:
        await FallingEdge(dut.clk)
        if int(dut.valid.value) == 1:
            for event in bits.feed(int(dut.lanes.value) ^ (number == flip)):
                yield event
            number += 1


@cocotb.test()
async def all_packets_come(dut):
    """Each packet comes whole, in the order of its channel."""
    lanes, metaframe, skips = (int(getattr(dut, name).value) for name in ("LANES", "METAFRAME", "SKIPS"))
    await begin(dut)
    came = []
    with Receiver(plan_of(lanes, metaframe, skips), os.environ["INTERLAKEN_LIBRARY"]) as receiver:
        async for event in packets_of(dut, receiver, lanes):
            assert not isinstance(event, Dropped), event
            if isinstance(event, Packet):
                came.append((event.channel, event.data))
                if len(came) == PACKETS:
                    break
    assert sorted(came) == sorted(map(packet, range(PACKETS)))


@cocotb.test()
async def a_bit_is_inverted(dut):
    """One bit inverted on its way is told as a fault span, and by the report of its lane."""
    lanes, metaframe, skips = (int(getattr(dut, name).value) for name in ("LANES", "METAFRAME", "SKIPS"))
    await begin(dut)
    with Receiver(plan_of(lanes, metaframe, skips), os.environ["INTERLAKEN_LIBRARY"]) as receiver:
        async for event in packets_of(dut, receiver, lanes, flip=20000):
            if isinstance(event, Span) and event.why is not Fault.START:
                break
        assert event.after is not None and event.before is not None


async def first_finding(dut, flip: int = -1):
    """The first finding of a monitor, or None after all packets; and the bits of a metaframe."""
    lanes, metaframe, skips = (int(getattr(dut, name).value) for name in ("LANES", "METAFRAME", "SKIPS"))
    await begin(dut)
    came = 0
    with Monitor(plan_of(lanes, metaframe, skips), os.environ["INTERLAKEN_LIBRARY"]) as monitor:
        async for event in packets_of(dut, monitor, lanes, flip):
            came += isinstance(event, Packet)
            if isinstance(event, Finding) or came == PACKETS:
                return event if isinstance(event, Finding) else None, 67 * metaframe


@cocotb.test()
async def nothing_is_found(dut):
    """The receiver, the inspector and the checker find nothing wrong. With PLUSARGS=+bug=1 the device has a bug, and this test names it."""
    finding, _ = await first_finding(dut)
    assert finding is None, finding


@cocotb.test()
async def the_bit_is_found(dut):
    """One bit inverted on its way is found within two metaframes, with a lane and a bit."""
    finding, metaframe = await first_finding(dut, flip=20000)
    assert finding is not None and finding.first is not None
    assert abs(finding.first.bit - 20000) < metaframe, finding
