"""What checks/dpi.sh does, with the program and the repository as its words."""

import os
import random
import re
import subprocess
import sys
import tempfile

from lib.captures import packets_of
import documents
from lib.dpi_adapted import try_adapted
from lib.dpi_monitor import try_monitor
from lib.machine import copy_examples, patience
from lib.tally import Tally

PROGRAM, TOP = os.path.abspath(sys.argv[1]), os.path.abspath(sys.argv[2])
PAGE = "examples/dpi/README.md"
# A command has to end by then on an idle machine: verilator and the compiler of C++ take long.
SECONDS = 600
# Bits that are inverted on each lane, and the plan of the bench of the page and of another one.
FLIPS = 6
PLANS = {(2, 32, 1): "obj_dir", (3, 40, 2): "obj_other"}
# What `check` and `inspect` name, in the order of the header's numbers, from 1 on.
RULES = ["bad", "control", "crc", "data", "max", "empty", "short", "end", "fill", "part", "min", "sop", "open", "channel", "long", "idle",
         "multi", "calendar", "off"]
KINDS = ["bad", "sync", "state", "skip", "diag", "health", "balance", "lock", "lost-headers", "lost-sync", "lost-state", "unframed"]
# How a bench is built in less time: it runs in little.
QUICK = ["-MAKEFLAGS", "OPT_FAST=-O0 OPT_GLOBAL=-O0"]
STRICT = ["-std=c99", "-Wall", "-Wextra", "-Wpedantic", "-Werror"]


def run(*words, folder):
    """Status and output of a command."""
    done = subprocess.run(words, cwd=folder, capture_output=True, text=True, timeout=patience(SECONDS))
    return done.returncode, done.stdout + done.stderr


def try_page(tally, folder):
    """The commands of the page, which build the bench."""
    shell = documents.Shell(folder, SECONDS)
    for number, lines in documents.blocks(PAGE):
        documents.check_block(tally, shell, PAGE, number, lines)


def numbers_of(path):
    with open(path, encoding="utf-8") as file:
        return sorted(re.findall(r"\b(INTERLAKEN_[A-Z_]+) = (\d+)", file.read()))


class Received:
    """What `receive` makes of lanes."""

    def __init__(self, folder, plan, out):
        self.status, text = run(PROGRAM, "receive", plan, folder=folder)
        self.lanes = [line for line in text.split("\n") if line.startswith("lane ")]
        channels = re.findall(r"^got channel=(\d+)", text, re.M)
        self.packets = {int(channel): packets_of("%s/%s.%s.pcap" % (folder, out, channel)) for channel in channels}
        with open("%s/%s.spans.csv" % (folder, out), encoding="utf-8") as file:
            self.spans = [line.split(",") for line in file.read().split("\n")[1:-1]]


def sanitizers(tally, folder):
    """The words by which cc has sanitizers, or none."""
    words = ["-fsanitize=address,undefined", "-fno-sanitize-recover=all"]
    with open(folder + "/empty.c", "w", encoding="utf-8") as file:
        file.write("int main(void) { return 0; }\n")
    if run("cc", *words, "-o", "empty", "empty.c", folder=folder)[0] == 0 and run("./empty", folder=folder)[0] == 0:
        return words
    tally.not_tried("sanitizers of cc", "gcc", "the C layer under them")
    return []


def make_lanes(folder):
    """Two damaged lanes that are longer than what the receiver keeps of one, and what `receive` makes of them."""
    with open(folder + "/damaged.plan", encoding="utf-8") as file:
        plan = file.read().replace("warmup,4", "warmup,64").replace("damaged", "long")
    for name, text in (("long.plan", plan), ("long.schedule", "skew,0,11\nskew,1,200\nflip,0,9000\nflip,1,141000\n")):
        with open(folder + "/" + name, "w", encoding="utf-8") as file:
            file.write(text)
    run(PROGRAM, "link", "long.plan", folder=folder)
    return Received(folder, "long.plan", "long")


def make_words(folder):
    """Words of these lanes, some of them changed, and the faults that `check` finds in them."""
    run(PROGRAM, "gather", "long.plan", folder=folder)
    run(sys.executable, "-B", TOP + "/checks/clib/changed.py", "long.words", "changed.words", "changed.flow", "1", folder=folder)
    with open(folder + "/long.plan", encoding="utf-8") as plan, open(folder + "/changed.plan", "w", encoding="utf-8") as file:
        file.write(plan.read().replace("out,long", "out,changed"))
    run(PROGRAM, "check", "changed.plan", folder=folder)
    return table_of(folder + "/changed.faults.csv")


def table_of(path):
    """The rows of a table without its head."""
    with open(path, encoding="utf-8") as file:
        return [line.split(",") for line in file.read().split("\n")[1:-1]]


def make_events(folder):
    """What `inspect` finds in the lanes: its events by their numbers in the header, and the counts of each lane."""
    text = run(PROGRAM, "inspect", "long.plan", folder=folder)[1]
    counts = [re.sub(r"^lane|first=\S+ ", "", line).strip() for line in text.split("\n") if line.startswith("lane ")]
    return [(int(lane), int(bit), 1 + KINDS.index(event)) for lane, bit, event in table_of(folder + "/long.events.csv")], counts


def make_gathered(folder):
    """What the gatherer of Python gives of the lanes, as the lines of the layer; checks/clib.sh tries it beside `gather`."""
    from interlaken import GatheredBreak, GatheredWord, Gatherer

    lanes, lines = [], []
    for lane in (0, 1):
        with open("%s/long.lane.%d" % (folder, lane), "rb") as file:
            lanes.append(file.read())
    with open(folder + "/long.plan", "rb") as file, Gatherer(file.read(), folder + "/dpi/library/lib/libinterlaken.so") as gatherer:
        for one in gatherer.feed_all(lanes):
            place = (one.at.group, one.at.index) if isinstance(one, (GatheredWord, GatheredBreak)) else ()
            if isinstance(one, GatheredWord):
                lines.append("gathered 1 %d %d 0 %d %d %d %d %x" % (one.kind, one.lane, *place, one.bit, one.number, one.word))
            elif isinstance(one, GatheredBreak):
                lines.append("gathered 2 0 0 %d %d %d 0 %d 0" % (one.why, *place, one.number))
    return lines


def try_layer(tally, folder):
    """Only the C layer, in drawn pieces and orders."""
    wanted = make_lanes(folder)
    events, counts = make_events(folder)
    gathered = make_gathered(folder)
    faults = sorted((int(word), 1 + RULES.index(rule), channel) for word, rule, channel in make_words(folder))
    root = run("verilator", "--getenv", "VERILATOR_ROOT", folder=folder)[1].strip()
    header = ["-I%s/include/vltstd" % root, "-include", "dpi/obj_dir/Vtb_live__Dpi.h", "-Idpi/library/include"]
    words = ["cc", *STRICT, "-O1", *sanitizers(tally, folder), *header, "-o", "layer", TOP + "/checks/dpi/layer.c", "dpi/interlaken_dpi.c"]
    tally.expect("the layer as C99, beside the prototypes that verilator makes", run(*words, "dpi/library/lib/libinterlaken.a", folder=folder), (0, ""))
    whys = ["start", "bad", "crc", "protocol", "lost", "end"]
    spans = []
    for after_group, after_index, before_group, before_index, why in wanted.spans:
        places = [("0", "0", "0") if group == "-" else ("1", index, group) for group, index in ((after_group, after_index), (before_group, before_index))]
        spans.append("span %s %d" % (" ".join(places[0] + places[1]), whys.index(why)))
    full = False
    for seed in range(1, 31):
        status, text = run("./layer", "long.plan", str(seed), "changed.words", "long.lane.0", "long.lane.1", folder=folder)
        lines = text.split("\n")
        full = full or "no room" in lines
        what = "the layer, seed %d" % seed
        tally.expect(what, (status, [line for line in lines if line.startswith("wrong")]), (0, []))
        tally.expect(what + ": spans", [line for line in lines if line.startswith("span")], spans)
        tally.expect(what + ": lanes", [line for line in lines if line.startswith("lane")], wanted.lanes)
        tally.expect(what + ": inspected lanes", [line[len("inspected "):] for line in lines if line.startswith("inspected")], counts)
        tally.expect(what + ": gathered lanes", [line[len("reported "):] for line in lines if line.startswith("reported")], counts)
        tally.expect(what + ": gathered words", [line for line in lines if line.startswith("gathered")], gathered)
        shown = [tuple(map(int, found)) for found in re.findall(r"^shows (\d+) (\d+) (\d+)$", text, re.M)]
        tally.expect(what + ": events", sorted(shown, key=lambda event: event[0]), events)
        told = re.findall(r"^fault (\d+) (\d+) (\S+)$", text.replace(" -0\n", " -\n"), re.M)
        tally.expect(what + ": faults", sorted((int(word), int(rule), channel) for word, rule, channel in told), faults)
        for channel, packets in wanted.packets.items():
            begin = "packet %d " % channel
            tally.expect(what + ": packets", [line[len(begin):] for line in lines if line.startswith(begin)], [packet.hex() for packet in packets])
    tally.expect("a lane without room", full, True)


def build(tally, folder, bench, name, shape, files=None):
    """A bench of other parameters, of the files of its name or of another."""
    parameters = ["-G%s=%d" % pair for pair in zip(("LANES", "METAFRAME", "SKIPS", "WIDTH"), shape)]
    words = ["--binary", "--timing", "-f", (files or bench) + ".f", "--top-module", "tb_" + bench, "--Mdir", name, *QUICK, *parameters]
    tally.expect("tb_%s of other parameters" % bench, run("verilator", *words, folder=folder)[0], 0)


def try_drive(tally, folder):
    """The transmitter of the library on another link, with more packets."""
    build(tally, folder, "drive", "obj_drive_other", (3, 40, 2))
    for count in (8, 150):
        status, text = run("obj_drive_other/Vtb_drive", "+packets=%d" % count, folder=folder)
        what = "tb_drive, %d packets" % count
        tally.expect(what + ": status", status, 0)
        packets = [tuple(map(int, found)) for found in re.findall(r"^packet (\d+) channel=(\d+) bytes=(\d+)$", text, re.M)]
        tally.expect(what + ": packets", sorted(number for number, _, _ in packets), list(range(count)))
        for channel in (1, 2):
            numbers = [number for number, on, _ in packets if on == channel]
            tally.expect("%s: order on channel %d" % (what, channel), numbers, sorted(numbers))
        turned = [(state, int(slot)) for state, slot in re.findall(r"^channel 1 is (off|on) from word (\d+) on$", text, re.M)]
        tally.expect(what + ": turns", [state for state, _ in turned], ["off", "on"])
        tally.expect(what + ": words while it is off", turned[1][1] - turned[0][1] > 0, True)


def try_bare(tally, folder):
    """tb_live with a device of which it only has valid and the lanes."""
    path = folder + "/dpi/tb_live.sv"
    with open(path, encoding="utf-8") as file:
        text = file.read()
    bare = re.sub(r", \.taken, \.slot, \.begins, \.ends\)", ", .taken(), .slot(), .begins(), .ends())", text)
    tally.expect("what the device says is left out", bare != text, True)
    with open(path, "w", encoding="utf-8") as file:
        file.write(bare)
    words = ["--binary", "--timing", "-f", "live.f", "--top-module", "tb_live", "--Mdir", "obj_bare", *QUICK, "-GSCOREBOARD=0"]
    tally.expect("tb_live of a bare device", run("verilator", *words, folder=folder + "/dpi")[0], 0)
    status, text = run("dpi/obj_bare/Vtb_live", "+lanes=live", folder=folder)
    wanted = [(number % 2 + 1, 16 + number * 37 % 200) for number in range(40)]
    told = [(int(channel), int(length)) for channel, length in re.findall(r"^packet channel=(\d+) bytes=(\d+)$", text, re.M)]
    tally.expect("packets of a bare device", (status, sorted(told)), (0, sorted(wanted)))
    status, text = run("dpi/obj_bare/Vtb_live", "+lane=1", "+bit=20000", folder=folder)
    places = [tuple(map(int, found)) for found in re.findall(r"^lane (\d+): bits (\d+) to (\d+)$", text, re.M)]
    within = [lane == 1 and first <= 20000 <= last for lane, first, last in places]
    tally.expect("a bit of a bare device", (status != 0, within), (True, [True]))
    tally.expect("lost packets of a bare device", re.findall("^lost packet", text, re.M), [])


def numbers_in(packets):
    """The numbers with which packets begin, in order."""
    return sorted(packet[0] << 8 | packet[1] for found in packets.values() for packet in found)


class Bench:
    """A bench as it was built, its lanes without damage, and what `receive` makes of them."""

    def __init__(self, tally, folder, shape, name):
        self.tally, self.folder, self.program = tally, folder, "dpi/%s/Vtb_live" % name
        self.lanes, self.metaframe, skips = shape
        rows = ["lanes,%d" % self.lanes, "metaframe,%d" % self.metaframe, "skips,%d" % skips, "channel,1", "channel,2", "out,live"]
        with open(folder + "/live.plan", "w", encoding="utf-8") as file:
            file.write("\n".join(rows) + "\n")
        self.what = "%d lanes, metaframes of %d words" % (self.lanes, self.metaframe)
        status, text = run(self.program, "+lanes=live", folder=folder)
        self.lines = text.split("\n")
        tally.expect(self.what + ": status", status, 0)
        wanted = Received(folder, "live.plan", "live")
        tally.expect(self.what + ": packets", sorted(self.told("packet", text)), numbers_in(wanted.packets))
        tally.expect(self.what + ": how many", len(self.told("packet", text)), 40)
        tally.expect(self.what + ": lanes", [line for line in self.lines if " locks=" in line], wanted.lanes)
        self.clean = []
        for lane in range(self.lanes):
            with open("%s/live.lane.%d" % (folder, lane), "rb") as file:
                self.clean.append(file.read())

    @staticmethod
    def told(word, text):
        """The numbers of the packets of such lines."""
        return [int(number) for number in re.findall(r"^%s (\d+) channel=" % word, text, re.M)]

    def write_lanes(self, struck, bit):
        for lane, data in enumerate(self.clean):
            data = bytearray(data)
            if lane == struck:
                data[bit // 8] ^= 128 >> bit % 8
            with open("%s/live.lane.%d" % (self.folder, lane), "wb") as file:
                file.write(data)

    def strike(self, lane, bit):
        """One bit is inverted while the bench runs; and in the lanes that `receive` gets."""
        tally, what = self.tally, "%s, lane %d, bit %d" % (self.what, lane, bit)
        status, text = run(self.program, "+lane=%d" % lane, "+bit=%d" % bit, folder=self.folder)
        self.write_lanes(lane, bit)
        received = Received(self.folder, "live.plan", "live")
        came = numbers_in(received.packets)
        lost = sorted(set(range(40)) - set(came))
        tally.expect(what + ": status", status != 0, True)
        tally.expect(what + ": lost packets", sorted(self.told("lost packet", text)), lost)
        told = self.told("packet", text)
        tally.expect(what + ": packets that came", sorted(told), came[:len(told)])
        wrong = [int(number) for number in re.findall(r"^lane (\d+) locks=1 first=\d+ .*=[1-9]", text, re.M)]
        tally.expect(what + ": the lane with wrong words", wrong, [lane])
        places = [tuple(map(int, found)) for found in re.findall(r"^lane (\d+): bits (\d+) to (\d+)$", text, re.M)]
        tally.expect(what + ": its bits", [place[0] == lane and place[1] <= bit <= place[2] for place in places], [True] * (len(received.spans) - 2))

    def try_all(self):
        draw = random.Random(1)
        # From the second metaframe after the lanes' locks on, up to the last but two.
        first, last = 6 * 67 * self.metaframe, 8 * len(self.clean[0]) - 3 * 67 * self.metaframe
        for lane in range(self.lanes):
            for _ in range(FLIPS):
                self.strike(lane, draw.randrange(first, last))


def main():
    tally = Tally("dpi")
    with tempfile.TemporaryDirectory(prefix="dpi.") as top:
        folder = top + "/examples"
        copy_examples(TOP, folder)
        os.symlink(TOP + "/tools", top + "/tools")
        status, text = run(PROGRAM, "link", "damaged.plan", folder=folder)
        if status or "got channel=1 packets=1" not in text:
            tally.give_up("link", "status %d, %s" % (status, text[:200]))
        try_page(tally, folder + "/dpi")
        if not os.path.exists(folder + "/dpi/obj_dir/Vtb_live"):
            tally.give_up("the bench", "it is not built")
        names = numbers_of(TOP + "/include/interlaken.h") + [("INTERLAKEN_NO_ROOM", "100")]
        tally.expect("names and numbers of the header and of the package", numbers_of(folder + "/dpi/interlaken_dpi.sv"), sorted(names))
        for files, bench, more in (("live", "live", ()), ("drive", "drive", ()), ("monitor", "monitor", ()), ("adapted", "monitor", ("-GLANES=4", "-GWIDTH=67"))):
            words = ["--lint-only", "-Wall", "--timing", "-f", files + ".f", "--top-module", "tb_" + bench, *more]
            tally.expect("lint of %s.f" % files, run("verilator", *words, folder=folder + "/dpi"), (0, ""))
        sys.path.insert(0, TOP + "/python")
        try_layer(tally, folder)
        try_drive(tally, folder + "/dpi")
        for shape, name in PLANS.items():
            if not os.path.exists(folder + "/dpi/" + name):
                build(tally, folder + "/dpi", "live", name, shape)
            Bench(tally, folder, shape, name).try_all()
        try_monitor(tally, folder, run, lambda name, shape: build(tally, folder + "/dpi", "monitor", name, shape), PROGRAM)
        try_adapted(tally, folder, run, lambda name, shape, files: build(tally, folder + "/dpi", "monitor", name, shape, files))
        try_bare(tally, folder)
    return tally.end()


sys.exit(main())
