"""Feeds a receiver with the lanes of worked rows in 200 orders and cuts: each gives the same events, and they are as the row says.

    python3 orders.py PROGRAM TOP

The lanes are those that PROGRAM leaves of a row of `link`; the text of the row has the packets, the drops, the spans, and each lane's
report. They are fed by the program of the crate rx_orders, which the gate leaves built; if it is absent, or older than its
sources, the check is skipped, since to build it all below it is proved.
"""

import glob
import os
import re
import subprocess
import sys

from lib.machine import patience
from rows import Row
from lib.runs import left_by
from lib.tally import Tally

NAMES = [
    "link_of_skewed_lanes",
    "link_of_lanes_skewed_one_bit_too_far",
    "link_with_one_of_four_lanes_dark_for_sixteen_words",
]
# A row has to end by then on an idle machine.
SECONDS = 300


def told_by(row):
    """The lines on packets and on lanes that the text of a row comes to."""
    text = row.text.decode()
    packets = sum(int(count) for count in re.findall(r"^got channel=\d+ packets=(\d+)", text, re.M))
    spans = int(re.search(r"^spans (\d+)$", text, re.M).group(1))
    drops = sum(int(count) for count in re.findall(r"=(\d+)", re.search(r"^dropped (.*)$", text, re.M).group(1)))
    lines = ["packets %d, drops %d, spans %d" % (packets, drops, spans)]
    lane = r"^lane \d+ locks=(\d+) first=(\d+|-) lost=(\d+) unframed=(\d+) bad=(\d+) sync=(\d+) state=(\d+) diag=(\d+)$"
    for locks, first, lost, unframed, bad, sync, state, diag in re.findall(lane, text, re.M):
        lines.append("locks %s, first %s, lost %s, unframed %s" % (locks, first.replace("-", "0"), lost, unframed))
        lines.append("bad %s, sync %s, state %s, diag %s" % (bad, sync, state, diag))
    return lines


def lanes_of(row, program, tally):
    """The lanes that the program leaves of a row, in order; None if the row fails."""
    ended = left_by(program, row.words, row.before)
    if (ended.status, ended.text) != (row.status, row.text):
        tally.count(row.name, "status %s, and text %r" % (ended.status, ended.text[:400]))
        return None
    names = sorted((name for name in ended.files if ".lane." in name), key=lambda name: int(name.rsplit(".", 1)[1]))
    return [ended.files[name] for name in names]


def is_stale(orders, top):
    if not os.path.isfile(orders):
        return True
    sources = (glob.glob(os.path.join(top, "crates", "*", part, "**"), recursive=True) for part in ("src", "specs", "proofs"))
    newest = max(map(os.path.getmtime, [os.path.join(top, "crates.txt"), *sum(sources, [])]))
    return newest > os.path.getmtime(orders)


def built_orders(top, tally):
    """The program of rx_orders."""
    orders = os.path.join(top, "crates", "rx_orders", "out", "rx_orders")
    if is_stale(orders, top):
        tally.skip("rx_orders", "a program of this repository that .ci/run builds")
    return orders


def fed(orders, row, lanes):
    """What the receivers of the lanes of a row print."""
    text = "".join(line.hex().upper() + "\n" for line in [row.before[row.words[1]], *lanes])
    try:
        done = subprocess.run([orders], input=text.encode(), capture_output=True, timeout=patience(SECONDS))
    except subprocess.TimeoutExpired:
        return ["no end in %d seconds" % patience(SECONDS)]
    return done.stdout.decode().splitlines()


def differs(printed, told):
    if not any(re.match(r"200 orders, each with the same [1-9]\d* events$", line) for line in printed):
        return "the orders differ, or have no events: %r" % printed
    if not any(line.endswith(", ends 1") for line in printed):
        return "the end did not come once: %r" % printed
    missing = [line for line in told if line not in printed]
    return "not told: %r in %r" % (missing, printed) if missing else ""


def main():
    program, top = os.path.abspath(sys.argv[1]), os.path.abspath(sys.argv[2])
    tally = Tally("orders")
    rows = [Row(name) for name in NAMES]
    lanes = [lanes_of(row, program, tally) for row in rows]
    if None not in lanes:
        orders = built_orders(top, tally)
        for row, files in zip(rows, lanes):
            tally.count(row.name, differs(fed(orders, row, files), told_by(row)))
    return tally.end()


if __name__ == "__main__":
    sys.exit(main())
