"""The part of checks/conventions.sh on examples/dpi/lane_adapt.sv: it makes of the codes of a lane what `tools/lanes adapt` makes of them,
bit for bit. The codes are those of a drawn convention with drawn faults, from anywhere behind a State word on.

The module knows the state of no word before its first Sync word, so all codes before it have to pass as they come. `lanes adapt` knows it
from the State words behind. It rewrites a CRC32 there if only framing words are missing in front, and no bit if a payload word is, too.
"""

import os
import random
import shutil
import subprocess

from lib.conventions import CODE, CONTROL, DATA, Convention, Fault, Lane, Link
from lib.machine import patience
from lib.planted import to_bytes

SECONDS = 120
FAULTS = ("none", "sync", "state", "skip", "bit", "header", "crc32")
SOURCES = ("testbench/lane_pkg.sv", "testbench/scrambler58.sv", "testbench/crc.sv", "dpi/lane_adapt.sv")
NAMES = {"order": "highest-first", "field": "number", "start": "ones", "end": "complemented", "counted": "state-zeroed", "diagnostic": "diagnostic-counted"}
METAFRAMES = 12


def drawn(draws):
    """A link of one lane, a convention that only State words and the CRC32 show, and a fault."""
    link = Link(1, draws.randrange(32, 50), draws.randrange(1, 5))
    plain = Convention()
    convention = Convention.drawn(draws)._replace(start24=plain.start24, end24=plain.end24, idle=False, multi=False)
    if str(convention.state).startswith("running"):
        convention = convention._replace(state=draws.choice([0, -64, 64]))
    kind = draws.choice(FAULTS)
    return link, convention, Fault(kind, (0, draws.randrange(4, METAFRAMES - 1)) if kind != "none" else None)


def words_by(convention):
    """The words of --crc32."""
    return [word for name, plain in NAMES.items() for word in [getattr(convention, name)] if word != plain]


def call(folder, *words):
    done = subprocess.run(words, cwd=folder, stdin=subprocess.DEVNULL, stdout=subprocess.PIPE, stderr=subprocess.STDOUT, encoding="utf-8", timeout=patience(SECONDS))
    return done.returncode, done.stdout


def through_bench(top, folder, link, convention, codes):
    """What the module makes of codes, as lines; or what went wrong, as one of them."""
    numbers = {"METAFRAME": link.metaframe, "SKIPS": link.skips, "STATE": convention.state, **{word.upper().replace("-", "_"): 1 for word in words_by(convention)}}
    sources = [os.path.join(top, "examples", name) for name in SOURCES] + [os.path.join(top, "checks", "dpi", "tb_adapt.sv")]
    status, text = call(folder, "iverilog", "-g2012", "-s", "tb_adapt", "-o", "adapt", *["-Ptb_adapt.%s=%d" % pair for pair in numbers.items()], *sources)
    if status or text:
        return [text]
    with open(os.path.join(folder, "codes.txt"), "w", encoding="ascii") as file:
        file.write("".join(code + "\n" for code in codes))
    return call(folder, "vvp", "-n", "adapt", "+codes=codes.txt")[1].split()


def through_tool(top, folder, convention, codes):
    """What `lanes adapt` makes of them."""
    with open(os.path.join(folder, "x.lane.0"), "wb") as file:
        file.write(to_bytes("".join(format(int(code, 16), "067b") for code in codes)))
    wanted = ["--state", str(convention.state)] if convention.state else []
    wanted += ["--crc32", ",".join(words_by(convention))] if words_by(convention) else []
    if not wanted:
        return codes
    status, text = call(folder, os.path.join(top, "tools", "lanes"), "adapt", "--overwrite", *wanted, "--out", "y", "x.lane.0")
    if status:
        return [text]
    with open(os.path.join(folder, "y.lane.0"), "rb") as file:
        bits = "".join(format(byte, "08b") for byte in file.read())
    return [format(int(bits[at:at + CODE], 2), "017x") for at in range(0, len(codes) * CODE, CODE)]


def meant(code):
    """The word of a code, whether it is inverted or not."""
    number = int(code, 16)
    return number & (1 << 66) - 1 ^ ((1 << 64) - 1 if number >> 66 else 0)


def differing_in(codes, others):
    """The numbers of the codes that mean another word."""
    return [at for at, (one, other) in enumerate(zip(codes, others)) if meant(one) != meant(other)]


def try_adapter(tally, top, folder, number):
    if not shutil.which("iverilog"):
        tally.not_tried("iverilog", "iverilog", "lane_adapt")
        return
    draws = random.Random(number)
    link, convention, fault = drawn(draws)
    payloads = METAFRAMES * (link.metaframe - 3 - link.skips)
    words = [(draws.choice((DATA, CONTROL)), draws.getrandbits(64)) for _ in range(payloads)]
    codes = [format(int(code, 2), "017x") for code in Lane(0, link, convention, fault).codes(words)]
    # From behind a State word on; in half of the draws a word is missing, too.
    missing = draws.randrange(2, link.metaframe)
    codes = codes[missing:]
    if draws.random() < 0.5:
        del codes[5 * link.metaframe + draws.randrange(link.metaframe)]
    what = "lane_adapt, draw %d, %s, %s, %s" % (number, link, convention, fault)
    found, framing = through_bench(top, folder, link, convention, codes), max(0, 3 + link.skips - missing)
    # Without framing words and one payload word in front the tool rewrites nothing before the first Sync word.
    wanted = codes[:framing] + through_tool(top, folder, convention, codes[framing:])
    before = link.metaframe - missing
    tally.count(what + ": as they come before the first Sync word", "" if found[:before] == wanted[:before] == codes[:before] else "codes differ")
    if framing and fault.kind != "bit":
        # Of all words the tool rewrites one more, the Diagnostic word before the first Sync word.
        differing = differing_in(found, through_tool(top, folder, convention, codes))
        tally.count(what + ": the tool's Diagnostic word before it", "" if set(differing) <= {before - 1} else "the words %s differ" % differing[:5])
    if fault.kind == "bit":
        # The tool writes what a wrong bit adds to the profile's CRC32, for which the module would need a whole metaframe more.
        differing = differing_in(found, wanted)
        tally.count(what + ": only a CRC32", "" if len(differing) <= 1 else "the words %s differ" % differing[:5])
        return
    first = next((at for at, (one, other) in enumerate(zip(found, wanted)) if one != other), None)
    wrong = "" if found == wanted else "code %s of %d: %s and not %s" % (first, len(codes), found[first or 0:][:1], wanted[first or 0:][:1])
    tally.count(what, wrong)
