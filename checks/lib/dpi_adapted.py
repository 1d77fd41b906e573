"""The part of checks/dpi.sh on a device by other conventions behind lane_adapt: tb_monitor, begun anywhere in what it sends, finds each
bug at the lane and the bit at which the Monitor of Python finds it in what the same device sends by the profile."""

import os
import random
import re
import shutil

from lib.planted import to_bytes

CODE, METAFRAME, LANES = 67, 32, 4
CONVENTION = ("+state=58", "+crc32=catalogue")
BUGS = ("crc24_once", "sop_missing", "short_burst", "skip_bit", "health", "data_bit", "header", "never_inverted", "metaframe_short")
# When a search for a lock is given up depends on the scrambled bits, which the convention changes; so the two findings differ.
DIFFERS = ("never_inverted",)
BITS = 14 * METAFRAME * CODE  # of each lane that the device sends for certain
FINDS = re.compile(r"^(.*), after \d+ bits$", re.M)


class Adapted:
    def __init__(self, tally, folder, run):
        self.tally, self.folder, self.run = tally, folder, run
        with open(folder + "/device/device.plan", encoding="utf-8") as file:
            self.plan = file.read()

    def sent(self, bug):
        """The bits of each lane that the device sends by the profile, as texts."""
        status, text = self.run("vvp", "-n", "device/device", "+bug=" + bug, folder=self.folder)
        if status:
            self.tally.give_up("the device", text[:300])
        lanes = []
        for lane in range(LANES):
            with open("%s/dump.%d.txt" % (self.folder, lane), encoding="ascii") as file:
                lanes.append("".join(format(int(line, 16), "067b") for line in file))
        return lanes

    def in_python(self, lanes):
        """The first finding in bits of lanes, a byte of each at a time; None if there is none."""
        from interlaken.monitor import Finding, Monitor

        lanes = [to_bytes(bits[:len(bits) // 8 * 8]) for bits in lanes]
        with Monitor(self.plan.encode(), self.folder + "/dpi/library/lib/libinterlaken.so") as monitor:
            for at in range(min(map(len, lanes))):
                for lane, data in enumerate(lanes):
                    monitor.feed(lane, data[at:at + 1])
                for event in monitor.events():
                    if isinstance(event, Finding):
                        return str(event)
        return None

    def live(self, bug, begin):
        """The status of tb_monitor, and its finding as Python has it, or None."""
        words = ["+bug=" + bug, "+begin=%d" % begin, "+bits=%d" % (BITS - begin), "+packets=1000", "+plan=device/device.plan", *CONVENTION]
        status, text = self.run("dpi/obj_adapted/Vtb_monitor", *words, folder=self.folder)
        found = FINDS.search(text)
        return status, found and re.sub(r"INTERLAKEN_(LANE_EVENT|RULE|DROP|FAULT)_", "", found[1])

    def try_bug(self, bug, begin):
        wanted = self.in_python([bits[begin:BITS] for bits in self.sent(bug)])
        what = "%s behind lane_adapt, from bit %d on" % (bug, begin)
        self.tally.count(what + ": the profile's own sender", "" if (wanted is None) == (bug == "none") else "Python found %s" % wanted)
        status, found = self.live(bug, begin)
        self.tally.expect(what, (status != 0, found), (wanted is not None, wanted))


def try_adapted(tally, folder, run, build):
    if not shutil.which("iverilog"):
        tally.not_tried("iverilog", "iverilog", "a device behind lane_adapt")
        return
    words = ["-g2012", "-f", "device.f", "-s", "tb_device", "-o", "device"]
    tally.expect("the device", run("iverilog", *words, folder=folder + "/device"), (0, ""))
    if not os.path.exists(folder + "/dpi/obj_adapted"):
        build("obj_adapted", (LANES, METAFRAME, 1, CODE), "adapted")
    adapted, draw = Adapted(tally, folder, run), random.Random(3)
    for bug in ("none", *BUGS):
        begin = draw.randrange(CODE * METAFRAME * 3 // 2)
        if bug not in DIFFERS:
            adapted.try_bug(bug, begin)
