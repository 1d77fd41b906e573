"""Holds the program beside the model on links that are long, and on lanes that are odd.

    python3 long_links.py PROGRAM [--cases N] [--first NUMBER] [--bytes N] [--jobs J]

For each of N numbers, 8 if it is not said, a plan of up to 13 lanes is drawn, with packets of some thousand bytes in all (--bytes:
the most that a case has, 6000 if it is not said), so that a lane has many times the 64 words that a lock takes and the bytes that
the receiver takes at once. Both run `link` of it with drawn skews, inverted bits and dark stretches; then one or two of its lanes are
replaced by odd ones (noise, zeros, another lane, a lane that is cut, shifted, doubled or spliced), and both run `receive`, `gather`
and `inspect`. A case agrees if the status, the text and every file are the same.
"""

import argparse
import os
import sys
from random import Random

from lib.machine import each
from lib.modeled import differences, left_by_model
import random_inputs as drawn
from lib.runs import left_by
from lib.tally import Tally

LANES = (1, 2, 3, 3, 5, 7, 8, 11, 13)
METAFRAMES = (32, 33, 40, 64, 96, 128, 200)
CODE_BITS = 67


def shifted(data, bits):
    """The bits of a lane that begins later, after zeros."""
    number = int.from_bytes(data, "big") << (8 - bits % 8)
    return bytes(bits // 8) + number.to_bytes(len(data) + 1, "big")


def odd_lane(r, lanes, at):
    """A lane in the place of this one."""
    data = lanes[at]
    cut = r.randrange(len(data) + 1)
    end = min(len(data), cut + r.choice([1, 67, 600, 5000]))
    return r.choice([
        lambda: r.randbytes(len(data)),
        lambda: bytes(len(data)),
        lambda: b"\xaa" * len(data),
        lambda: r.choice(lanes),
        lambda: data[:cut],
        lambda: shifted(data, r.randrange(1, 40 * CODE_BITS)),
        lambda: data + data,
        lambda: data[:cut] + data[end:],
        lambda: data[:cut] + r.randbytes(end - cut) + data[end:],
        lambda: data[:cut] + bytes(end - cut) + data[end:],
        lambda: b"",
    ])()


def schedule(r, lanes, bits):
    """Rows of a schedule over lanes of about so many bits."""
    rows = [["skew", lane, r.choice([0, r.randrange(9), r.randrange(700)])] for lane in range(lanes) if r.randrange(3)]
    rows += [["flip", r.randrange(lanes), r.randrange(bits)] for _ in range(r.choice([0, 1, 2, 5, 20]))]
    rows += [["dark", r.randrange(lanes), r.randrange(bits), r.choice([1, 66, 67, 700, 9000])] for _ in range(r.choice([0, 0, 1, 2]))]
    return "".join(",".join(map(str, row)) + "\n" for row in rows).encode()


def link_of(r, most):
    """The files of a plan with its captures and its schedule, and its number of lanes."""
    lanes, metaframe = r.choice(LANES), r.choice(METAFRAMES)
    rows = ["lanes,%d" % lanes, "metaframe,%d" % metaframe, "warmup,%d" % r.choice([4, 4, 5, 9]), "schedule,s.csv", "out,o"]
    rows += ["skips,%d" % r.randint(1, 4)] * r.randrange(2)
    rows += ["deskew,%d" % r.randint(1, (metaframe - 1) // 2)] * r.randrange(2)
    rows += ["wide,1"] * (r.randrange(3) == 0)
    files = {}
    for channel in range(r.choice([1, 2, 3])):
        left, packets = r.randrange(most) // 3 + 1, []
        while left > 0:
            packets.append(drawn.packet(r, r.choice([9, 60, 64, 65, 300, 1514])))
            left -= len(packets[-1])
        rows.append("channel,%d,%d.pcap" % (channel, channel))
        files["%d.pcap" % channel] = drawn.capture(r, packets)
    words = sum(map(len, files.values())) // 8
    files["p.plan"] = "".join(row + "\n" for row in rows).encode()
    files["s.csv"] = schedule(r, lanes, (words // lanes + 12 * metaframe) * CODE_BITS)
    return files, lanes


def compared(task):
    """What each command of a case does otherwise than the model, by its name."""
    program, number, most = task
    r = Random(number)
    files, lanes = link_of(r, most)
    found, made = [], left_by(program, ["link", "p.plan"], files)
    found.append(("link", differences(made, left_by_model(["link", "p.plan"], files))))
    names = ["o.lane.%d" % lane for lane in range(lanes)]
    contents = [made.files.get(name, b"") for name in names]
    for at in r.sample(range(lanes), min(lanes, r.choice([1, 1, 2]))):
        contents[at] = odd_lane(r, contents, at)
    files = {**files, **dict(zip(names, contents))}
    for command in ("receive", "gather", "inspect"):
        mine = left_by(program, [command, "p.plan"], files)
        found.append((command, differences(mine, left_by_model([command, "p.plan"], files))))
    return number, found


def main():
    parser = argparse.ArgumentParser()
    parser.add_argument("program", type=os.path.abspath)
    parser.add_argument("--cases", type=int, default=8)
    parser.add_argument("--first", type=int, default=0)
    parser.add_argument("--bytes", type=int, default=6000)
    parser.add_argument("--jobs", type=int, default=1)
    given, tally = parser.parse_args(), Tally("long_links")
    tasks = [(given.program, given.first + at, given.bytes) for at in range(given.cases)]
    for number, found in each(compared, tasks, given.jobs):
        for command, wrong in found:
            tally.count("case %d, %s" % (number, command), wrong)
    return tally.end()


if __name__ == "__main__":
    sys.exit(main())
