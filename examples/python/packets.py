"""Prints the packets and fault spans of the lanes of a link.

    packets.py PLAN LANE..

PLAN is a plan file, and each LANE the file of a lane, from lane 0 on.
"""

import sys
from pathlib import Path

from interlaken import Packet, Receiver, Span

plan, *lanes = sys.argv[1:]
with Receiver(Path(plan).read_bytes()) as receiver:
    for event in receiver.feed_all([Path(lane).read_bytes() for lane in lanes]):
        if isinstance(event, Packet):
            print("packet channel=%d %s" % (event.channel, event.data.hex()))
        elif isinstance(event, Span):
            print("span %s" % event.why.name.lower())
    for lane in range(len(lanes)):
        print("lane %d locks=%d" % (lane, receiver.report(lane).locks))
