"""Prints what is wrong with the lanes of a link, with lane and bit, and how many packets they carry.

    findings.py PLAN LANE..

PLAN is a plan file, and each LANE the file of a lane, from lane 0 on.
"""

import sys
from pathlib import Path

from interlaken import Packet
from interlaken.monitor import Finding, Monitor

plan, *lanes = sys.argv[1:]
packets = 0
with Monitor(Path(plan).read_bytes()) as monitor:
    for event in monitor.feed_all([Path(lane).read_bytes() for lane in lanes]):
        packets += isinstance(event, Packet)
        if isinstance(event, Finding):
            print(event)
print("packets %d" % packets)
