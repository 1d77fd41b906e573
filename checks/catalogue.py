"""What checks/catalogue.sh does, with the program and the repository as its words."""

import os
import random
import subprocess
import sys
import tempfile

from crccheck import crc

from lib.machine import copy_examples, patience
from lib.runs import content
from lib.tally import Tally

PROGRAM, TOP = os.path.abspath(sys.argv[1]), os.path.abspath(sys.argv[2])
sys.path.insert(0, os.path.join(TOP, "tools", "lib"))
from reading.checksums import CRC24, CRC32
from reading.files import Folder
from reading.lane_bits import bits_of, sync_words
from reading.lane_words import code_at
from reading.metaframes import Metaframes
from reading.plans import CODE, Plan

SECONDS = 60
# What the catalogue has its check values of.
CHECKED = b"123456789"
# The name in the catalogue, its check value, and that of the same bytes as this project computes it.
CRC24_VALUE, CRC4_VALUE, CRC32_VALUE, CRC32_HERE = 0xB4F3E6, 0xB, 0xE3069283, 0x05440F15
CONTROL, DATA = 2, 1
LOW24, LOW32 = (1 << 24) - 1, (1 << 32) - 1
PLANS = ("two", "damaged", "wide")
BLOCK, SUM = 64, 4


def named(name):
    """A checksum of the catalogue."""
    return next(kind for kind in crc.ALLCRCCLASSES if name in kind._names)


def not_reflected(kind):
    """The same checksum with the highest bit of each byte first, and the highest of its own."""
    return crc.Crc(kind._width, kind._poly, kind._initvalue, False, False, kind._xor_output)


def run(tally, folder, *words):
    """What the program prints; a program that fails ends the check."""
    done = subprocess.run([PROGRAM, *words], cwd=folder, stdin=subprocess.DEVNULL, capture_output=True, text=True, timeout=patience(SECONDS))
    if done.returncode or not done.stdout:
        tally.give_up(" ".join(words), "status %d, %s" % (done.returncode, done.stdout[:200]))
    return done.stdout


def check_values(tally, crc24, crc4, crc32):
    """The check values of the catalogue, and the two checksums of tools/lib/reading on the same bytes and on drawn ones."""
    tally.expect("check values of the catalogue", (crc24.calc(CHECKED), crc4.calc(CHECKED), crc32.calc(CHECKED)), (CRC24_VALUE, CRC4_VALUE, CRC32_VALUE))
    tally.expect("of the same bytes here", (CRC24.of(CHECKED), CRC32.of(CHECKED)), (CRC24_VALUE, CRC32_HERE))
    straight, draw = not_reflected(crc32), random.Random(1)
    for _ in range(50):
        data = draw.randbytes(draw.randrange(1, 300))
        tally.expect("CRC24 of %d bytes" % len(data), CRC24.of(data), crc24.calc(data))
        tally.expect("CRC32 of %d bytes" % len(data), CRC32.of(data), straight.calc(data))


def check_words(tally, folder, name, crc24):
    """The CRC24 of each control word that `burst` writes: over the data words since the one before, and the word without it."""
    run(tally, folder, "burst", name + ".plan")
    words = content("%s/%s.words" % (folder, name))
    covered, wrong, after_data = b"", [], 0
    for at in range(0, len(words), 9):
        tag, word = words[at], words[at + 1:at + 9]
        if tag == DATA:
            covered += word
            continue
        after_data += covered != b""
        if crc24.calc(covered + word[:5] + bytes(3)) != int.from_bytes(word[5:], "big"):
            wrong.append(at // 9)
        covered = b""
    tally.expect("%s: control words whose CRC24 is another" % name, wrong, [])
    tally.count("%s: control words after data" % name, "" if after_data > 2 else "there are %d" % after_data)


def metaframes_of(bits, plan):
    """The words of each metaframe of a lane as they are meant, from its first Sync word on."""
    frames, found = Metaframes(plan), []
    for at in range(sync_words(bits)[0], len(bits) - CODE + 1, CODE):
        framed = frames.take(*code_at(bits, at)[1:])
        if framed.place == 0:
            found.append([])
        found[-1].append(framed.word)
    return [words for words in found if len(words) == plan.metaframe]


def check_lanes(tally, folder, name, crc32):
    """The CRC32 of each metaframe that `send` writes, by the catalogue's polynomial, start and complement in either bit order."""
    run(tally, folder, "send", name + ".plan")
    plan, straight, seen = Plan(Folder(PROGRAM, folder), name + ".plan"), not_reflected(crc32), 0
    for lane in range(plan.lanes):
        for words in metaframes_of(bits_of(content("%s/%s.lane.%d" % (folder, name, lane))), plan):
            sent = words[-1] & LOW32
            # Neither the state nor the sum itself is covered.
            covered = b"".join(word.to_bytes(8, "big") for word in [words[0], words[1] >> 58 << 58] + words[2:-1] + [words[-1] >> 32 << 32])
            seen += 1
            tally.expect("%s, lane %d: a CRC32, and in the catalogue's order" % (name, lane), (straight.calc(covered), crc32.calc(covered) == sent), (sent, False))
    tally.count("%s: metaframes" % name, "" if seen >= 6 else "there are %d" % seen)


def blocks_of(samples, entries):
    """The states and the checksum of each block of whole frames, as texts of bits."""
    bits = [(now >> 1 & 1, now >> 2 & 1) for before, now in zip(b"\0" + samples, samples) if now & 1 and not before & 1]
    lengths = [min(BLOCK, entries - first) for first in range(0, entries, BLOCK)]
    begins = [place for place, (_, sync) in enumerate(bits) if sync]
    for at in begins:
        for length in lengths:
            text = "".join(str(bit) for bit, _ in bits[at:at + length + SUM])
            at += length + SUM
            yield text[:length], text[length:]


def check_samples(tally, folder, crc4):
    """The checksum of each block of states that `oobwrite` writes. The first frame shows the bytes of the check values."""
    states = [bit == "1" for bit in bits_of(CHECKED)]
    draw = random.Random(2)
    rows = ["0,%d,%s" % (channel, "on" if state else "off") for channel, state in enumerate(states)]
    rows += ["%d,%d,%s" % (200 * number, draw.randrange(len(states)), draw.choice(("on", "off"))) for number in range(1, 40)]
    plan = ["lanes,1", "metaframe,32", "local,oob.local", "out,oob"] + ["channel,%d" % channel for channel in range(len(states))]
    for name, lines in (("oob.local", rows), ("oob.plan", plan)):
        with open(os.path.join(folder, name), "w", encoding="ascii") as file:
            file.write("\n".join(lines) + "\n")
    run(tally, folder, "oobwrite", "oob.plan")
    blocks = list(blocks_of(content(folder + "/oob.oob"), len(states)))
    tally.expect("the first states", "".join(text for text, _ in blocks[:2]), bits_of(CHECKED))
    for text, told in blocks:
        tally.expect("checksum of %s" % text, told, format(crc4.calc(int(text, 2).to_bytes(len(text) // 8, "big")), "04b"))
    tally.count("different blocks", "" if len(set(blocks)) > 10 else "there are %d" % len(set(blocks)))


def main():
    tally = Tally("catalogue")
    crc24, crc4, crc32 = (named("CRC-%s/INTERLAKEN" % width) for width in ("24", "4", "32"))
    with tempfile.TemporaryDirectory(prefix="catalogue.") as folder:
        copy_examples(TOP, folder)
        check_samples(tally, folder, crc4)
        for name in PLANS:
            check_words(tally, folder, name, crc24)
            check_lanes(tally, folder, name, crc32)
        check_values(tally, crc24, crc4, crc32)
    return tally.end()


sys.exit(main())
