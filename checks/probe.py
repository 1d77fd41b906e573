"""What checks/probe.sh does, with the program and the repository as its words."""

import os
import random
import re
import shlex
import subprocess
import sys
import tempfile
import time
from collections import namedtuple

from lib.captures import capture
from lib.lane_maker import CONTROL, DATA, Sender, make_lanes, with_crc24
from lib.runs import PythonTool, content, left_by
from lib.tally import Tally

PROGRAM, TOP = os.path.abspath(sys.argv[1]), os.path.abspath(sys.argv[2])
PROBE = PythonTool(os.path.join(TOP, "tools", "probe"), "probe.command").run
LANES = PythonTool(os.path.join(TOP, "tools", "lanes"), "lanes.command").run
JUDGE = PythonTool(os.path.join(TOP, "tools", "judge"), "judge.command").run
CODE, IDLE = 67, 0x81FFFF0000188177

# A link: its lanes, metaframe and Skip words, and further rows of its plan.
Shape = namedtuple("Shape", "name lanes metaframe skips rows")
SHAPES = (Shape("one", 1, 32, 1, "channel,0,a.pcap\n"),
          Shape("three", 3, 40, 2, "channel,1,a.pcap\nchannel,7,b.pcap\nburst_max,128\nburst_short,32\n"),
          Shape("eight", 8, 32, 4, "channel,3,a.pcap\nchannel,300,b.pcap\nwide,1\nlocal,far.local\n" + "".join("entry,%d\n" % (3 + 297 * (place % 3 == 1)) for place in range(37))))
FILES = {"a.pcap": capture(["60x200", "9x700"]), "b.pcap": capture(["40x77", "12x512"]), "far.local": b"60,300,off\n900,300,on\n"}
REVERSED, SWAPPED = (8, 16, 20, 32, 40, 64, 66, 67, 80), (16, 32, 64)
MOST_SECONDS = 20
DRAWN = 12  # links


def bits_of(data):
    return "".join(format(byte, "08b") for byte in data)


def bytes_of(bits):
    bits += "0" * (-len(bits) % 8)
    return bytes(int(bits[at:at + 8], 2) for at in range(0, len(bits), 8))


def complement(bits):
    return bits.translate(str.maketrans("01", "10"))


def within(bits, width, change):
    """Each word of so many bits changed; what is left at the end is filled up."""
    bits += "0" * (-len(bits) % width)
    return "".join(change(bits[at:at + width]) for at in range(0, len(bits), width))


def swapped(word):
    return "".join(word[at:at + 8] for at in range(len(word) - 8, -1, -8))


def in_codes(bits, change):
    """Each code changed, of bits that begin with one."""
    return within(bits, CODE, change)


class Link:
    """A link of the program: its plan, the bits of its lanes and its words."""

    def __init__(self, tally, shape, files=None):
        self.shape = shape
        self.plan = ("lanes,%d\nmetaframe,%d\nskips,%d\nwarmup,4\n%sout,%s\n" % (shape.lanes, shape.metaframe, shape.skips, shape.rows, shape.name)).encode()
        before = {shape.name + ".plan": self.plan, **(files or FILES)}
        sent, words = (left_by(PROGRAM, [command, shape.name + ".plan"], before) for command in ("send", "burst"))
        if sent.status or words.status:
            tally.give_up("send and burst of %s" % shape.name, "status %s and %s: %s" % (sent.status, words.status, sent.text + words.text))
        names = ["%s.lane.%d" % (shape.name, lane) for lane in range(shape.lanes)]
        data = words.files[shape.name + ".words"]
        self.words = [(data[at], int.from_bytes(data[at + 1:at + 9], "big")) for at in range(0, len(data), 9)]
        self.bits = [bits_of(sent.files[name])[:self.period * (len(self.words) // self.group)] for name in names]

    def bursts(self):
        """The bytes of the greatest burst, and the least distance of two burst words in bytes."""
        kinds = "".join("d" if header == DATA else "b" if word >> 62 & 1 else "i" for header, word in self.words)
        return 8 * max(map(len, re.findall("d+", kinds))), 8 * min(map(len, re.findall("(?<=b)[^b]+(?=b)", kinds)))

    def channels(self):
        """The channels of bursts."""
        return sorted({word >> 32 & 255 | word >> 24 - 8 & 65280 for header, word in self.words if header != DATA and word >> 62 & 1})

    @property
    def period(self):
        return CODE * self.shape.metaframe

    @property
    def group(self):
        return self.shape.lanes * (self.shape.metaframe - 3 - self.shape.skips)


def files_of(bits, name="x"):
    return {"%s.lane.%d" % (name, lane): bytes_of(some) for lane, some in enumerate(bits)}


def probe(files, words=()):
    return PROBE(list(words) + [name for name in files if ".lane." in name], files)


def plan_in(text):
    """The plan that is printed between its two lines, as bytes."""
    found = re.search(rb"^# plan\n(.*)^# end\n", text, re.MULTILINE | re.DOTALL)
    return found[1] if found else b""


class Check:
    def __init__(self, tally):
        self.tally = tally

    def names(self, what, bits, told, mends=True, wanted=None, words=()):
        """Lanes of which the tool has to name what is changed. Where tools/lanes mends that, the calls that are printed have to give
        lanes with nothing to change, which begin with these bits, if some are given."""
        files = files_of(bits)
        run = probe(files, words)
        changes = [line[8:] for line in run.text.decode().splitlines() if line.startswith("change: ")]
        other = [line for line in changes if not any(text in line for text in told)]
        missing = [text for text in told if not any(text in line for line in changes)]
        self.tally.count(what, "" if run.status == 1 and not missing and not other and not run.error else
                         "status %s, %s, missing %s, other %s" % (run.status, run.error.decode(), missing, other))
        if mends:
            self.mend(what, files, run, wanted)
        else:
            self.tally.expect(what + ", nothing mends it", b"\nmend: " in run.text, False)

    def mend(self, what, files, run, wanted):
        calls = re.findall(r"^mend: tools/lanes (.*)$", run.text.decode(), re.MULTILINE)
        left = files
        for call in calls:
            left = LANES(shlex.split(call), left).files
        prefix = re.search(r"--out (\S+)", calls[-1])[1] if calls else ""
        mended = {name: data for name, data in left.items() if name.startswith(prefix + ".lane.")}
        again = probe(mended) if mended else None
        self.tally.count(what + ", mended", "" if again and again.status == 0 and len(mended) == len(files) else
                         "%s: %s" % (calls, again and (again.text[-600:] + again.error)))
        if wanted and mended:
            found = [bits_of(mended["x.mended.lane.%d" % lane])[:len(some) - 256] for lane, some in enumerate(wanted)]
            self.tally.count(what + ", its bits", "" if found == [some[:-256] for some in wanted] else "they are others")


# ---- what bits show

def check_clean(check, link):
    """Lanes as they were sent and from anywhere in their traffic, and the plan of them."""
    draws = random.Random(link.shape.name)
    for number in range(5):
        cut = draws.randrange(2 * link.period) if number else 0
        skews = [draws.randrange(200) if number else 0 for _ in link.bits]
        bits = ["1" * skew + some[cut:] for skew, some in zip(skews, link.bits)] if number != 3 else [some[cut + skew:] for skew, some in zip(skews, link.bits)]
        what = "%s from bit %d with skews %s" % (link.shape.name, cut, skews)
        files = files_of(bits, "y")
        run = probe(files)
        check.tally.expect(what, (run.status, run.error, b"nothing has to be changed" in run.text), (0, b"", True))
        rows = plan_in(run.text)
        check.tally.expect(what + ", plan", [row for row in link.plan.split()[:3] if row not in rows.split()], [])
        if number == 0:
            check_rows(check, what, link, rows.decode().split())
        check_received(check, what, {**files, "y.plan": rows})


def check_rows(check, what, link, rows):
    """What the plan says of bursts, channels and the calendar."""
    greatest, least = link.bursts()
    found = {key: [row.split(",")[1] for row in rows if row.startswith(key + ",")] for key in ("burst_max", "burst_short", "channel", "wide", "entry")}
    entries = link.plan.count(b"\nentry,")
    wanted = {"burst_max": ["%d" % (-(-greatest // 64) * 64)], "burst_short": ["%d" % least], "wide": ["1"] * (b"\nwide,1" in link.plan),
              "entry": ["%d" % entry for entry in range(-(-entries // 16) * 16)]}
    wanted["channel"] = ["%d" % channel for channel in sorted({*link.channels(), *map(int, wanted["entry"])})]
    check.tally.expect(what + ", rows", found, wanted)


def check_received(check, what, files):
    """The plan of clean lanes: the receiver locks and loses nothing, and no word breaks a rule. The words begin in the middle of
    traffic, so that a bad word is put in front."""
    gathered = left_by(PROGRAM, ["gather", "y.plan"], files)
    words = gathered.files.get("y.words", b"")
    lanes = re.findall(rb"^lane \d+ locks=1 first=\d+ lost=0 unframed=0 bad=0 sync=0 state=0 diag=0$", gathered.text, re.MULTILINE)
    check.tally.expect(what + ", gathered", (gathered.status, len(lanes), len(words) > 900), (0, sum(".lane." in name for name in files), True))
    check.tally.expect(what + ", judged", JUDGE(["y.plan"], files).status, 0)
    judged = left_by(PROGRAM, ["check", "y.plan"], {**files, "y.words": b"\3" + bytes(8) + words})
    check.tally.expect(what + ", checked", (judged.status, judged.text.split(b"\n")[1:3]), (0, [b"faults 1", b"rule bad=1"]))


def check_orders(check, link):
    for width in REVERSED:
        told = ["bits reversed within %d: tools/lanes --form raw:%d --lowest-first" % (width, width)] * len(link.bits)
        check.names("%s, reversed within %d" % (link.shape.name, width), [within("0" * 13 + bits, width, lambda word: word[::-1]) for bits in link.bits], told,
                    wanted=["0" * 13 + bits for bits in link.bits])
    for width in SWAPPED:
        told = ["bytes swapped within %d: tools/lanes --form raw:%d --bytes-swapped" % (width, width)]
        check.names("%s, bytes swapped within %d" % (link.shape.name, width), [within("1" * 37 + bits, width, swapped) for bits in link.bits], told,
                    wanted=["1" * 37 + bits for bits in link.bits])


def check_codes(check, link):
    """Changes of each code, from some bit on."""
    changes = (("payload reversed", "payload reversed: tools/lanes --form hex67 --payload-reversed", lambda code: code[:3] + code[:2:-1]),
               ("payload bytes swapped", "payload bytes swapped: tools/lanes --form hex67 --payload-bytes-swapped", lambda code: code[:3] + swapped(code[3:])),
               ("headers exchanged", "inverted, or its header bits are exchanged: tools/lanes --invert", lambda code: code[0] + code[2] + code[1] + code[3:]))
    for name, told, change in changes:
        bits = ["0" * (11 + lane) + in_codes(some, change) for lane, some in enumerate(link.bits)]
        # A lane whose headers are exchanged is the complement of one that breaks the disparity alone.
        check.names("%s, %s" % (link.shape.name, name), bits, [told], wanted=None if name == "headers exchanged" else link.bits)
    one = [complement(bits) if lane == len(link.bits) - 1 else bits for lane, bits in enumerate(link.bits)]
    check.names("%s, a lane inverted" % link.shape.name, one, ["lane %d: inverted, or its header bits are exchanged: tools/lanes --invert %d" % (len(link.bits) - 1, len(link.bits) - 1)],
                wanted=link.bits)
    both = [within(complement(bits), 64, lambda word: word[::-1]) for bits in link.bits]
    check.names("%s, inverted and reversed within 64" % link.shape.name, both, ["inverted, or its header", "bits reversed within 64"], wanted=link.bits)


def check_lane_orders(check, link):
    count = len(link.bits)
    orders = [list(range(count))[::-1], list(range(count))[1:] + [0], [count - 1] + list(range(count - 1))]
    exchanged = list(range(count))
    exchanged[1], exchanged[2] = 2, 1
    for order in orders + [exchanged]:
        bits = ["" for _ in order]
        for place, lane in enumerate(order):
            bits[lane] = "0" * (7 * place) + link.bits[place][1000:]
        told = "order of the lanes %s" % ",".join(map(str, order))
        check.names("%s, %s" % (link.shape.name, told), bits, [told], wanted=["0" * (7 * place) + some[1000:] for place, some in enumerate(link.bits)])
    check.names("%s, lanes that lie too far apart" % link.shape.name, ["0" * (link.period // 2 * (lane % 2)) + some for lane, some in enumerate(link.bits)],
                ["no plan has it, and tools/lanes --drop"])


def check_late(check, link):
    """A lane that is whole metaframes later or earlier than the others, which only the CRC24 shows."""
    for late in (1, 2, 7, 16, -1, -5):
        for lane in range(len(link.bits)):
            behind = [max(0, late) if other == lane else max(0, -late) for other in range(len(link.bits))]
            bits = [some[1000 + link.period * (abs(late) - own):] for own, some in zip(behind, link.bits)]
            drops = ",".join("%d" % (link.period * own) for own in behind)
            told = "skews %s bits, by the CRC24: no plan has it, and tools/lanes --drop %s mends it" % (drops, drops)
            check.names("%s, lane %d is %d metaframes late" % (link.shape.name, lane, late), bits, [told], wanted=[some[1000 + link.period * abs(late):] for some in link.bits])


def check_many_lanes(check):
    """Any order of up to 24 lanes, by short bursts."""
    for lanes in (7, 12, 24):
        shape = Shape("many", lanes, 32, 1, "channel,1,s.pcap\nburst_max,64\nburst_short,32\n")
        link = Link(check.tally, shape, {"s.pcap": capture(["%dx1" % (20 * lanes)] + ["%dx%d" % (4 * lanes, 40 + number % 90) for number in range(30)])})
        order = random.Random(lanes).sample(range(lanes), lanes)
        bits = ["" for _ in order]
        for place, lane in enumerate(order):
            bits[lane] = link.bits[place]
        told = "order of the lanes %s" % ",".join(map(str, order))
        check.names("%d lanes, %s" % (lanes, told), bits, [told], wanted=link.bits)


def check_short_metaframes(check, link):
    """Metaframes of fewer words than the profile has."""
    for length in (8, 24, 31):
        told = "metaframe %d: found %d; the profile has 32 to 8192" % (length, length)
        check.names(told, make_lanes(link.words, link.shape.lanes, length, link.shape.skips), [told], mends=False)


# ---- what senders do

def check_senders(check, link):
    shape = link.shape
    args = (link.words, shape.lanes, shape.metaframe, shape.skips)
    check.tally.expect("%s, lanes made here" % shape.name, make_lanes(*args) == link.bits, True)
    none = "no option of tools/lanes mends it"
    senders = [(Sender(reverses=True), ["scrambler State words reversed"]), (Sender(plain=True), ["skips %d, not scrambled" % shape.skips]),
               (Sender(plain=True, stands=True), ["skips %d, not scrambled" % shape.skips, "scrambler standing still in Skip words"])]
    for sender, told in senders:
        check.names("%s, %s" % (shape.name, told), make_lanes(*args, sender), ["%s: %s" % (text, none) for text in told], mends=False)
    both = make_lanes(*args, Sender(lowest=True, zero=True, reverses=True))
    check.names(shape.name + ", State words reversed and another CRC32", both, ["scrambler State words reversed: " + none, "CRC32 bytes-lowest-first,zeros"], mends=False)
    adapted = [(Sender(runs=True), "scrambler running through Sync and State words", "--state running"), (Sender(lowest=True), "CRC32 bytes-lowest-first", "--crc32 bytes-lowest-first"),
               (Sender(bare=True), "CRC32 plain", "--crc32 plain"), (Sender(counted=True), "CRC32 state-counted", "--crc32 state-counted"), (Sender(zero=True), "CRC32 zeros", "--crc32 zeros")]
    adapted += [(Sender(steps=steps), "scrambler State words %d steps %s" % (abs(steps), "on" if steps > 0 else "back"), "--state %d" % steps) for steps in (1, 17, 58, 64, -1, -64)]
    for sender, told, option in adapted:
        check.names("%s, %s" % (shape.name, told), make_lanes(*args, sender), ["%s: tools/lanes adapt %s mends it" % (told, option)])
    for is_bare, start, told in ((True, 0xFFFFFF, "plain"), (False, 0, "zeros"), (True, 0, "zeros,plain")):
        words = with_crc24(link.words, is_bare, start)
        check.names("%s, CRC24 %s" % (shape.name, told), make_lanes(words, *args[1:]), ["CRC24 %s: tools/lanes adapt --crc24 %s mends it" % (told, told)])


def check_standing(check, link):
    """With one Skip word that is not scrambled, State words 64 steps on and a register that stands still there are told apart."""
    args = (link.words, link.shape.lanes, link.shape.metaframe, link.shape.skips)
    for sender, told in ((Sender(plain=True, stands=True), "scrambler standing still in Skip words"), (Sender(plain=True, steps=64), "scrambler State words 64 steps on")):
        wanted = ["skips 1, not scrambled: no option of tools/lanes mends it", "%s: no option of tools/lanes mends it" % told]
        check.names("%s, %s" % (link.shape.name, told), make_lanes(*args, sender), wanted, mends=False)


# ---- the call

def check_plans(check, link):
    """What is said of a plan, and where the plan is written."""
    files, name = files_of(link.bits, link.shape.name), link.shape.name + ".plan"
    for row, other, told in ((None, None, None), ("metaframe,40", "metaframe,48", "metaframe 40 fits, and three.plan has 48"), ("skips,2", "skips,1", "skips 2 fits, and three.plan has 1"),
                             ("metaframe,40", "metaframe,80", "metaframe 40 fits, and three.plan has 80"),
                             ("burst_max,128", "burst_max,64", "a burst has 128 bytes, and burst_max of three.plan is 64"),
                             ("burst_short,32", "burst_short,128", "burst words are %d bytes apart, and burst_short of three.plan is 128" % link.bursts()[1]),
                             ("channel,7,b.pcap", "channel,8", "three.plan does not list channel 7"), ("lanes,3", "lanes,4", "lanes 3 fits, and three.plan has 4")):
        plan = link.plan.decode().replace(row, other) if row else link.plan.decode()
        run = probe({**files, name: plan.encode()}, ["--plan", name])
        found = re.findall(r"^change: plan: (.*)$", run.text.decode(), re.MULTILINE)
        check.tally.expect("a plan with %s" % other, (run.status, found), (1, [told]) if told else (0, []))
    run = probe({**files, "x.plan": b"kept"}, ["--out", "x.plan"])
    check.tally.expect("--out of a file that is there", (run.status, run.text, run.error, run.files["x.plan"]), (2, b"", b"probe: x.plan exists: another --out, or --overwrite\n", b"kept"))
    run = probe({**files, "x.plan": b"kept"}, ["--out", "x.plan", "--overwrite"])
    again = probe(files)
    check.tally.expect("--out", (run.status, b"# plan" in run.text, run.files["x.plan"]), (0, False, plan_in(again.text)))
    named = {"a b": files["three.lane.0"], "c": files["three.lane.1"], "d": files["three.lane.2"]}
    run = PROBE(list(named), named)
    made = LANES(shlex.split(run.text.decode().split("the lanes of the plan: tools/lanes ")[-1].split("\n")[0]), named).files
    check.tally.expect("lanes of other names", (run.status, [made.get("probed.lane.%d" % lane) for lane in range(3)], b"out,probed\n" in run.text), (0, list(named.values()), True))
    moved = {"w.lane.10": b"", **{name: data for name, data in files.items()}}
    run = PROBE(sorted(files, reverse=True), moved)
    check.tally.expect("lanes by the numbers of their names", (run.status, b"out,three\n" in run.text), (0, True))
    check.tally.expect("no other file", sorted(again.files), sorted(files))


def check_refused(check):
    for files, words, told in (({}, ["absent.lane.0"], b"probe: absent.lane.0: No such file or directory\n"), ({"d": b""}, [], b"probe: the following arguments are required: LANE"),
                               ({"d": b""}, ["--plan", "absent", "d"], b"probe: absent: No such file or directory\n"), ({"d": b"", "p": b"lanes,0\n"}, ["--plan", "p", "d"], b"probe: p:1: lanes: 0 is"),
                               ({"d": b""}, ["d"] * 65, b"probe: 65 lanes, and an interface has 1 to 64\n")):
        run = PROBE(words, files)
        check.tally.expect("probe %s" % " ".join(words), (run.status, run.text, run.error[:len(told)], run.error.count(b"\n")), (2, b"", told, 1))
    for data in (b"", b"\0", b"\xff" * 999, bytes(20000), random.Random(1).randbytes(20000), b"\x78\xf6" * 5000):
        run = PROBE(["d"], {"d": data})
        check.tally.expect("a lane of %s" % data[:4], (run.status, run.error, b"no plan: " in run.text, b"# plan" in run.text), (1, b"", True, False))


def check_faults(check, link):
    """Single faults change nothing of what fits."""
    draws, bits = random.Random(3), []
    for some in link.bits:
        for place in draws.sample(range(len(some)), 4):
            some = some[:place] + complement(some[place]) + some[place + 1:]
        bits.append(some)
    run = probe(files_of(bits))
    check.tally.expect("single faults", (run.status, b"nothing has to be changed" in run.text), (0, True))


def drawn_link(tally, draws):
    """A link of which all that a plan says is drawn."""
    is_wide, most, files = draws.random() < 0.3, 64 * draws.randint(1, 8), {"l.local": b""}
    channels = draws.sample(range(600 if is_wide else 256), draws.randint(1, 5))
    rows = ["burst_max,%d" % most, "burst_short,%d" % (8 * draws.randint(4, min(most // 8, 24))), "burst_min,%d" % (32 * draws.randint(0, most // 64)), "wide,%d" % is_wide, "local,l.local"]
    for channel in channels:
        files["%d.pcap" % channel] = capture(["%dx%d" % (draws.randint(1, 25), draws.randint(1, 900)) for _ in range(draws.randint(1, 4))])
        rows.append("channel,%d,%d.pcap" % (channel, channel))
    rows += ["entry,%d" % draws.choice(channels) for _ in range(draws.choice([0, 0, 7, 40]))]
    slots = sorted(draws.randrange(4000) for _ in range(20))
    files["l.local"] = "".join("%d,%d,%s\n" % (slot, draws.choice(channels), draws.choice(["on", "off"])) for slot in slots).encode()
    return Link(tally, Shape("drawn", draws.randint(1, 7), draws.randint(32, 90), draws.randint(1, 4), "\n".join(rows) + "\n"), files)


def check_drawn(check):
    """Clean lanes of links that are drawn, from anywhere in their traffic."""
    for seed in range(DRAWN):
        draws = random.Random(seed)
        link = drawn_link(check.tally, draws)
        cut = draws.randrange(max(1, min(map(len, link.bits)) - 10 * link.period))
        files = files_of([some[cut + draws.randrange(67 * 7):] for some in link.bits], "y")
        run = probe(files)
        judged = JUDGE(["y.plan"], {**files, "y.plan": plan_in(run.text)})
        check.tally.expect("drawn link %d from bit %d" % (seed, cut), (run.status, judged.status, judged.text.endswith(b"rows=0\n") or judged.text), (0, 0, True))


def check_quiet(check, link):
    """Lanes without a burst: their order does not show."""
    idles = [(CONTROL, IDLE)] * (10 * link.group)
    bits = [some[500:] for some in make_lanes(idles, link.shape.lanes, link.shape.metaframe, link.shape.skips)]
    run = probe(files_of(bits, "y"))
    check.tally.expect("lanes without bursts", (run.status, b"order of the lanes: no data words" in run.text, b"channel,0\n" in plan_in(run.text)), (0, True, True))
    check.tally.expect("lanes without bursts, judged", JUDGE(["y.plan"], {**files_of(bits, "y"), "y.plan": plan_in(run.text)}).status, 0)
    run = probe(files_of([some[:link.period // 2 + 100] for some in link.bits]))
    check.tally.expect("half a metaframe", (run.status, run.error), (1, b""))


def check_seconds(tally):
    """24 lanes of random traffic, and 24 lanes without any, in the processor's seconds of one process."""
    with tempfile.TemporaryDirectory() as folder:
        rows = "".join("channel,%d,a.pcap\n" % channel for channel in range(4))
        plan = "lanes,24\nmetaframe,2048\nskips,1\nwarmup,4\n%sout,z\n" % rows
        for name, data in {"z.plan": plan.encode(), "a.pcap": capture(["9000x300"])}.items():
            with open(os.path.join(folder, name), "wb") as file:
                file.write(data)
        subprocess.run([PROGRAM, "send", "z.plan"], cwd=folder, capture_output=True)
        for lane in range(24):
            with open(os.path.join(folder, "none.lane.%d" % lane), "wb") as file:
                file.write(random.Random(lane).randbytes(1 << 20))
        for name, status in (("z", 0), ("none", 1)):
            before = os.times()
            done = subprocess.run([os.path.join(TOP, "tools", "probe")] + ["%s.lane.%d" % (name, lane) for lane in range(24)], cwd=folder, capture_output=True)
            after = os.times()
            seconds = after.children_user + after.children_system - before.children_user - before.children_system
            tally.expect("24 lanes %s" % name, (done.returncode, seconds < MOST_SECONDS or seconds), (status, True))


def main():
    tally = Tally("probe")
    check = Check(tally)
    one, three, eight = (Link(tally, shape) for shape in SHAPES)
    for link in (one, three, eight):
        check_clean(check, link)
    check_orders(check, three)
    check_codes(check, three)
    check_lane_orders(check, three)
    check_lane_orders(check, eight)
    check_late(check, three)
    check_many_lanes(check)
    check_short_metaframes(check, three)
    check_senders(check, three)
    check_standing(check, one)
    check_plans(check, three)
    check_refused(check)
    check_faults(check, three)
    check_quiet(check, three)
    check_drawn(check)
    check_seconds(tally)
    return tally.end()


if __name__ == "__main__":
    sys.exit(main())
