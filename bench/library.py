"""Measures the C library beside `receive` and `send`: processor seconds over the same lanes, the least of three runs each.

    python3 library.py PROGRAM [MEGABYTES [PACKET_BYTES]]

The link has 8 lanes and a metaframe of 2,048 words. The pieces are of PIECES bytes, a piece of each lane in turn. The library's receiver
reads the lanes from files, and each packet is read; `receive` writes a capture besides. Its transmitter is given the packets of the
capture as it sends them, and its lanes are taken and dropped; `send` writes them to files.
"""

import os
import re
import subprocess
import sys
import tempfile

from cases import LINK
from make_capture import write_capture
from measure import least, measured, row

TOP = os.path.dirname(os.path.dirname(os.path.abspath(__file__)))
LANES = 8
PIECES = (4096, 256, 8)


def main():
    program, numbers = os.path.abspath(sys.argv[1]), [int(word) for word in sys.argv[2:]]
    megabytes, size = (numbers + [100, 1514][len(numbers):])[:2]
    with tempfile.TemporaryDirectory() as folder:
        write_capture(os.path.join(folder, "a.pcap"), megabytes, size)
        with open(os.path.join(folder, "a.plan"), "w") as file:
            file.write(LINK + "channel,0,a.pcap\nout,o\n")
        measured([program, "send", "a.plan"], folder)
        lanes = sum(os.path.getsize(os.path.join(folder, "o.lane.%d" % lane)) for lane in range(LANES)) / 1e6
        subprocess.run([TOP + "/tools/library", "library"], cwd=folder, check=True, stdout=subprocess.DEVNULL)
        for name in ("library", "transmit"):
            words = ["cc", "-std=c99", "-O2", "-Ilibrary/include", "-o", name + "_pieces", "%s/bench/%s.c" % (TOP, name), "library/lib/libinterlaken.a"]
            subprocess.run(words, cwd=folder, check=True)
        print("A capture of %d MB in packets of %d bytes, %.0f MB of lanes:\n" % (megabytes, size, lanes))
        row("of", "seconds", "MB/s of lanes", "to the command", "calls a second")
        row("---", "---", "---", "---", "---")
        compared(program, folder, "receive", lanes, ["./library_pieces", "a.plan", "o", str(LANES)])
        compared(program, folder, "send", lanes, ["./transmit_pieces", "a.plan", "a.pcap", str(LANES)])


def compared(program, folder, command, lanes, words):
    """The rows of a command and of the library in its place."""
    _, base, _ = least([program, command, "a.plan"], folder)
    row("`%s`" % command, "%.2f" % base, "%.0f" % (lanes / base), "1.00", "")
    for piece in PIECES:
        told = subprocess.run(words + [str(piece)], cwd=folder, check=True, capture_output=True, text=True).stdout
        calls = int(re.search(r"calls (\d+)", told)[1])
        _, seconds, _ = least(words + [str(piece)], folder)
        row("pieces of %d bytes" % piece, "%.2f" % seconds, "%.0f" % (lanes / seconds), "%.2f" % (base / seconds), "%.1f million" % (calls / seconds / 1e6))


if __name__ == "__main__":
    main()
