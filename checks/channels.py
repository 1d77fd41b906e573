"""What checks/channels.sh does, with the program and the repository as its words."""

import os
import re
import shutil
import subprocess
import sys
import tempfile

PROGRAM, TOP = os.path.abspath(sys.argv[1]), os.path.abspath(sys.argv[2])
sys.path.append(os.path.join(TOP, "bench"))

from lib.tally import Tally
from make_capture import write_capture
from measure import measured

CHANNELS = 1024
# The most MB of a run of 9.3 MB in packets of 1,514 bytes; each run reads what those before it wrote. Measured were 97, 86 and 98 for those
# that receive; the others take less than this check, which has some 16 itself.
PEAKS = {"burst": 30, "join": 111, "send": 30, "receive": 98, "link": 112}
PEAK_SIZE, PEAK_PACKETS = 1514, 6
# The most millions of instructions of `burst` of 5.9 MB in packets of 64 bytes, of which 238 were measured: they grow with the packets, and
# not with packets times channels.
COUNTED = 273
COUNTED_SIZE, COUNTED_PACKETS = 64, 90


def write_plan(folder, size, packets):
    """A plan in which each channel sends so many packets of this size."""
    write_capture(os.path.join(folder, "a.pcap"), size * packets / 1000000, size)
    with open(os.path.join(folder, "a.plan"), "w") as file:
        file.write("lanes,8\nmetaframe,2048\nwide,1\n" + "".join("channel,%d,a.pcap\n" % n for n in range(CHANNELS)) + "out,o\n")


def at_most(tally, what, found, most, unit):
    print("%s: %.1f %s" % (what, found, unit), flush=True)
    tally.count(what, "" if found <= most else "%.1f %s, and not at most %d" % (found, unit, most))


def check_peaks(tally):
    with tempfile.TemporaryDirectory() as folder:
        write_plan(folder, PEAK_SIZE, PEAK_PACKETS)
        for command, most in PEAKS.items():
            for entry in os.scandir(folder):
                os.utime(entry, (0, 0))
            status, _, peak = measured([PROGRAM, command, "a.plan"], folder)
            # A file whose time is another one now was written.
            if status != 0 or not any(entry.stat().st_mtime_ns for entry in os.scandir(folder)):
                tally.give_up(command, "status %d, or nothing written" % status)
            at_most(tally, "peak of " + command, peak, most, "MB")


def check_instructions(tally):
    if not shutil.which("valgrind"):
        tally.not_tried("valgrind", "valgrind", "instructions of burst")
        return
    with tempfile.TemporaryDirectory() as folder:
        write_plan(folder, COUNTED_SIZE, COUNTED_PACKETS)
        words = ["valgrind", "--tool=callgrind", "--callgrind-out-file=/dev/null", PROGRAM, "burst", "a.plan"]
        said = subprocess.run(words, cwd=folder, capture_output=True, text=True).stderr
        found = re.search(r"Collected : (\d+)", said)
        if not found:
            tally.give_up("burst", "valgrind counted nothing")
        at_most(tally, "instructions of burst", int(found[1]) / 1000000, COUNTED, "million")


def main():
    tally = Tally("channels")
    check_peaks(tally)
    check_instructions(tally)
    sys.exit(tally.end())


if __name__ == "__main__":
    main()
