"""Lanes as a device's dump has them: the bits that `send` of some packets writes, from anywhere on, with lanes that lie apart, and with
breaks. A plan of them names no captures.

    device = Device(program, folder, "dump")       writes dump.plan and dump.lane.I
    device.place(slot)                             the lane and the bit of it at which a sent word begins
    device.number_of(slot)                         the number of a sent word among those that `gather` writes, or None

    before = sums(folder)                          what stands in a folder, by which a call is seen to change nothing there
"""

import hashlib
import os
import subprocess

from lib.captures import capture
from lib.runs import content, write_files

CODE = 67
LANES, METAFRAME, SKIPS = 3, 32, 2
LINK = ["lanes,%d" % LANES, "metaframe,%d" % METAFRAME, "skips,%d" % SKIPS, "warmup,6"]
CHANNELS = (1, 2)
GROUP, PERIOD = LANES * (METAFRAME - 3 - SKIPS), CODE * METAFRAME
PACKETS = ["%d" % (60 + 37 * number % 400) for number in range(48)]
# The bits that each lane lacks in front: the dump begins 1,000 bits into a metaframe of lane 0.
CUT = (1000, 900, 1123)
# Zeros on lane 1, in metaframe 11: they end its lock with the 16th bad header, which is in word 18 of the 27 payload words of lane 1, so
# that 3 * 18 + 1 words of the metaframe come. After them lane 1 is 5 bits later. On lane 2 zeros end the lock for good.
BREAKS = ((1, 24000, 25500, 5), (2, 58000, 59400, 0))
# The metaframes of which words come, each with the number of its first word: the fourth Sync word of each lane declares a lock.
WHOLE, BROKEN = ((4, 0, 99),), ((4, 0, 10), (15, 7 * GROUP + 55 + 1, 26))
# Sent words whose CRC24 is made wrong: idles of the warm-up, and of the end of the stream.
SPOILED_SLOTS = (340, 2099)


def bits_of(data):
    return "".join(format(byte, "08b") for byte in data)


def bytes_of(bits):
    bits += "0" * (-len(bits) % 8)
    return bytes(int(bits[at:at + 8], 2) for at in range(0, len(bits), 8))


def words_in(data):
    return [data[at:at + 9] for at in range(0, len(data), 9)]


class Device:
    """`breaks` are (lane, first sent bit, last + 1, slip): that many bits of a lane come as zeros, and `slip` zeros more behind them, by
    which all bits after are late. `spoil` changes the words before they are put on lanes."""

    def __init__(self, program, folder, name, breaks=(), cut=CUT, spoil=None, packets=PACKETS):
        self.program, self.folder, self.name, self.cut, self.breaks = program, folder, name, cut, breaks
        named = ["channel,%d,sent.in.%d" % (channel, channel) for channel in CHANNELS]
        write_files(folder, {"sent.in.%d" % channel: capture(packets[channel::2]) for channel in CHANNELS})
        write_files(folder, {"sent.plan": text_of(LINK + named + ["out,sent"]), name + ".plan": text_of(LINK + ["channel,%d" % channel for channel in CHANNELS] + ["out,%s" % name])})
        run(program, "burst", folder, "sent.plan")
        self.words = words_in(content(os.path.join(folder, "sent.words")))
        if spoil:
            self.words = spoil(self.words)
            write_files(folder, {"sent.words": b"".join(self.words)})
        run(program, "stripe", folder, "sent.plan")
        for lane in range(LANES):
            write_files(folder, {"%s.lane.%d" % (name, lane): bytes_of(self.broken(lane, bits_of(content(os.path.join(folder, "sent.lane.%d" % lane))))[cut[lane]:])})

        self.epochs = BROKEN if breaks else WHOLE

    def broken(self, lane, bits):
        for other, first, end, slip in sorted(self.breaks, reverse=True):
            if other == lane:
                bits = bits[:first] + "0" * (end - first + slip) + bits[end:]
        return bits

    def run(self, *commands):
        """What commands print of the plan."""
        return [run(self.program, command, self.folder, self.name + ".plan") for command in commands]

    def place(self, slot):
        """The lane of a sent word and the bit of the dump at which it begins, by the formula of a sender."""
        frame, index = divmod(slot, GROUP)
        row, lane = divmod(index, LANES)
        bit = PERIOD * frame + CODE * (2 + SKIPS + row)
        late = sum(slip for other, _, end, slip in self.breaks if other == lane and bit >= end)
        return lane, bit + late - self.cut[lane]


    def row_bit(self, slot):
        """The bit of lane 0 at which the words of a sent word's row begin."""
        return self.place(slot - slot % LANES)[1]

    def broken_slots(self):
        """The sent words of which bits come as zeros."""
        return {slot for slot in range(len(self.words)) for lane, first, end, _ in self.breaks
                if slot % LANES == lane and first - CODE < self.place(slot)[1] + self.cut[lane] < end}

    def number_of(self, slot):
        """The number of a sent word among those that `gather` writes; None where its metaframe comes not, or not whole."""
        frame = slot // GROUP
        return next((first + slot - begin * GROUP for begin, first, last in self.epochs if begin <= frame <= last), None)


def spoiled(words):
    """Words of which some have a wrong CRC24."""
    return [word[:8] + bytes([word[8] ^ 1]) if slot in SPOILED_SLOTS else word for slot, word in enumerate(words)]


def sums(folder):
    """A sum of each file of a folder and of the folders below it; a link to a device is none."""
    paths = (os.path.join(path, name) for path, _, names in os.walk(folder) for name in names)
    return {os.path.relpath(path, folder): hashlib.sha256(content(path)).hexdigest() for path in paths if os.path.isfile(path)}


def changed(before, after):
    """The names of the files that were changed, made or removed."""
    return sorted(name for name in {*before, *after} if before.get(name) != after.get(name))


def text_of(rows):
    return "".join(row + "\n" for row in rows).encode()


def run(program, command, folder, name):
    return subprocess.run([program, command, name], cwd=folder, check=True, capture_output=True, encoding="utf-8").stdout
