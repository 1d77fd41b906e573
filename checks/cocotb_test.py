"""What checks/cocotb.sh does, with the program and the repository as its words."""

import os
import re
import shutil
import subprocess
import sys
import tempfile

from lib.captures import packets_of
from lib.machine import copy_examples, patience
from lib.tally import Tally

PROGRAM, TOP = os.path.abspath(sys.argv[1]), os.path.abspath(sys.argv[2])
# A command has to end by then on an idle machine; the test of cocotb takes longest.
SECONDS = 600


def run(*words, folder, **more):
    done = subprocess.run(words, cwd=folder, capture_output=True, text=True, timeout=patience(SECONDS), env={**os.environ, **more})
    return done.returncode, done.stdout + done.stderr


def try_bits(tally, folder, library):
    """The lanes of a damaged link, a bit of each at a time, and what `receive` makes of them."""
    sys.path.insert(0, folder + "/cocotb")
    from lanes import LaneBits
    from interlaken import Packet, Receiver, Span

    status, text = run(PROGRAM, "link", "damaged.plan", folder=folder)
    if status:
        tally.give_up("link", "status %d, %s" % (status, text[:200]))
    with open(folder + "/damaged.plan", "rb") as file:
        plan = file.read()
    lanes = []
    for name in ("damaged.lane.0", "damaged.lane.1"):
        with open(os.path.join(folder, name), "rb") as file:
            lanes.append(file.read())
    came, spans = {}, 0
    with Receiver(plan, library) as receiver:
        bits = LaneBits(receiver, len(lanes))
        for at in range(8 * min(map(len, lanes))):
            for event in bits.feed(sum((data[at // 8] >> (7 - at % 8) & 1) << lane for lane, data in enumerate(lanes))):
                spans += isinstance(event, Span)
                if isinstance(event, Packet):
                    came.setdefault(event.channel, []).append(event.data)
    for channel in map(int, re.findall(r"^got channel=(\d+)", text, re.M)):
        tally.expect("packets of channel %d" % channel, came.get(channel, []), packets_of("%s/damaged.%d.pcap" % (folder, channel)))
    # The last span ends with the lanes, which are not finished here.
    tally.expect("spans", spans, int(re.search(r"^spans (\d+)", text, re.M)[1]) - 1)


def rows_of(path):
    with open(path, encoding="utf-8") as file:
        return [line.split(",") for line in file.read().split("\n") if line]


def make_many(folder):
    """Two lanes with some bits inverted; the rows that say which."""
    with open(folder + "/many.schedule", "w", encoding="utf-8") as file:
        file.write("skew,0,11\nskew,1,200\nflip,0,9000\nflip,1,15000\nflip,0,21001\nflip,1,21002\n")
    with open(folder + "/damaged.plan", encoding="utf-8") as file:
        plan = file.read().replace("warmup,4", "warmup,20").replace("damaged", "many")
    with open(folder + "/many.plan", "w", encoding="utf-8") as file:
        file.write(plan)
    run(PROGRAM, "link", "many.plan", folder=folder)
    run(PROGRAM, "inspect", "many.plan", folder=folder)
    return rows_of(folder + "/many.schedule")


def monitored(folder, library):
    """The packets and the findings of a monitor of these lanes."""
    from lanes import LaneBits
    from interlaken import Packet
    from interlaken.monitor import Finding, Monitor

    lanes = []
    for lane in range(2):
        with open("%s/many.lane.%d" % (folder, lane), "rb") as file:
            lanes.append(file.read())
    events = []
    with open(folder + "/many.plan", "rb") as file, Monitor(file.read(), library) as monitor:
        bits = LaneBits(monitor, len(lanes))
        for at in range(8 * min(map(len, lanes))):
            events += bits.feed(sum((data[at // 8] >> (7 - at % 8) & 1) << lane for lane, data in enumerate(lanes)))
    return [event for event in events if isinstance(event, Packet)], [event for event in events if isinstance(event, Finding)]


def try_monitor(tally, folder, library):
    """Lanes and a monitor: its findings are the events of `inspect` but the locks, the faults of `check` with lane and bit, and the spans
    of `receive` but the first and last, between whose words a bit was inverted."""
    from interlaken import LaneEvent, RuleFault, Span

    rows = make_many(folder)
    shown = [(int(lane), int(bit), event) for lane, bit, event in rows_of(folder + "/many.events.csv")[1:] if event != "lock"]
    skews = {int(row[1]): int(row[2]) for row in rows if row[0] == "skew"}
    flips = [int(row[2]) - skews[int(row[1])] for row in rows if row[0] == "flip"]
    packets, found = monitored(folder, library)
    names = {"BAD_WORD": "bad", "BAD_DIAGNOSTIC": "diag"}
    of_lanes = [(event.first.lane, event.first.bit, names.get(event.what.kind.name, event.what.kind.name[4:].lower()))
                for event in found if isinstance(event.what, LaneEvent)]
    tally.expect("findings of lanes", (sorted(of_lanes), len(of_lanes) > 0), (sorted(shown), True))
    faults = [[str(event.what.word), event.what.rule.name.lower(), "" if event.what.channel is None else str(event.what.channel),
               str(event.first.lane), str(event.first.bit)] for event in found if isinstance(event.what, RuleFault)]
    for command in ("gather", "check"):
        run(PROGRAM, command, "many.plan", folder=folder)
    slots = run(TOP + "/tools/slots", "many.plan", "--faults", folder=folder)[1]
    wanted = [row[:4] + row[5:] for row in (line.split(",") for line in slots.split("\n")[1:-1])]
    tally.expect("findings of rules", (sorted(faults), len(faults) > 0), (sorted(wanted), True))
    spans = [event for event in found if isinstance(event.what, Span)]
    tally.expect("findings of spans", (len(spans), len(spans) > 0), (len(rows_of(folder + "/many.spans.csv")) - 3, True))
    for span in spans:
        first, last = span.first.bit - skews[span.first.lane], span.last.bit - skews[span.last.lane]
        tally.expect("a bit within a span", any(first - 67 < flip < last + 67 for flip in flips), True)
    got = re.findall(r"^got channel=\d+ packets=(\d+)", run(PROGRAM, "receive", "many.plan", folder=folder)[1], re.M)
    tally.expect("packets beside a monitor", len(packets), sum(map(int, got)))
    # The example feeds longer pieces, so what one lane shows may come before what another did.
    words = [TOP + "/examples/python/findings.py", "many.plan", "many.lane.0", "many.lane.1"]
    status, text = run(sys.executable, "-B", *words, folder=folder, PYTHONPATH=TOP + "/python", INTERLAKEN_LIBRARY=library)
    lines = [str(finding) for finding in found] + ["packets %d" % len(packets)]
    tally.expect("examples/python/findings.py", (status, sorted(text.split("\n")[:-1])), (0, sorted(lines)))


def try_cocotb(tally, folder, library):
    """The test of cocotb, with a simulator that is there."""
    if not shutil.which("cocotb-config"):
        tally.not_tried("cocotb", None, "the test in a simulator")
        return
    simulator = next((sim for sim, tool in (("icarus", "iverilog"), ("verilator", "verilator")) if shutil.which(tool)), None)
    if simulator is None:
        tally.not_tried("iverilog", "iverilog", "the test in a simulator")
        return
    status, text = run("make", "SIM=" + simulator, "INTERLAKEN_LIBRARY=" + library, folder=folder + "/cocotb")
    tally.expect("the test of cocotb", (status, re.findall(r"FAIL=(\d+)", text)[-1:]), (0, ["0"]))


def main():
    tally = Tally("cocotb")
    with tempfile.TemporaryDirectory(prefix="cocotb.") as top:
        folder = top + "/examples"
        copy_examples(TOP, folder)
        os.symlink(TOP + "/python", top + "/python")
        tally.expect("the library", run(TOP + "/tools/library", "library", folder=folder)[0], 0)
        library = folder + "/library/lib/libinterlaken.so"
        try_bits(tally, folder, library)
        try_monitor(tally, folder, library)
        try_cocotb(tally, folder, library)
    return tally.end()


sys.exit(main())
