"""What checks/device.sh does, with the program and the repository as its words."""

import concurrent.futures
import csv
import os
import shutil
import subprocess
import sys
import tempfile

import documents
from lib.machine import copy_examples, patience
from lib.runs import content
from lib.tally import Tally

PROGRAM, TOP = os.path.abspath(sys.argv[1]), os.path.abspath(sys.argv[2])
PAGE = "examples/device/README.md"
# A command has to end by then on an idle machine; a build by verilator takes longest.
SECONDS = 200
LANES, CODE, METAFRAME, LOCKS = 4, 67, 32, 3
# Those that send, and all that are listed.
CHANNELS, LISTED = (1, 2, 5), (1, 2, 5, 9)
MENDING = {"lanes_reversed": ("--order", "3,2,1,0"), "lane_inverted": ("--invert", "1"), "payload_reversed": ("--payload-reversed",)}
CLEAN = "none"


def bit_of(metaframe, word):
    """The bit of a lane at which a word of a metaframe begins."""
    return CODE * (METAFRAME * metaframe + word)


def row(what, lane=None, bit=None, **more):
    """What is asked of a row of judge's table."""
    asked = {"what": what, "lane": lane, "bit": bit, **more}
    return {column: str(value) for column, value in asked.items() if value is not None}


# Where a bug strikes once: a data word of lane 2 whose payload bit 30 is wrong, a code of lane 0, and the code of lane 2 that lacks a bit.
WRONG_BIT = bit_of(8, 20) + 3 + 63 - 30
WRONG_HEADER, SLIPPED = bit_of(7, 9), CODE * 276
MENDED = "tools/lanes --order 3,2,1,0 mends it"
INVERTED = "inverted, or its header bits are exchanged: 15 of 15 Sync words: tools/lanes --invert 1, or --form hex67 --headers-swapped mends it"

# By bug: lines that judge's summary has, and a row that its table has.
BUGS = {
    "crc24_once": (["crc=1"], row("crc", expected="331E28", found="331E29")),
    "crc24_plain": (["crc: 907 of 907 are right with another CRC24: plain"], row("crc")),
    "short_burst": (["short=7"], row("short")),
    "long_burst": (["max=12"], row("max")),
    "calendar_reversed": (["calendar: 908 of 908 are right where the 16 flow bits are reversed"], row("calendar")),
    "sop_missing": (["open=1"], row("open", channel=2)),
    "skip_plain": (["skip: 60 of 60 of lanes 0 to 3 are right where they are not scrambled", "diag=60 following=60"], row("skip", 0, bit_of(0, 2))),
    "skip_bit": (["skip: 15 of 15 differ in bit 17 alone", "skip: 15 of 15 are on lane 3 alone"], row("skip", 3, bit_of(0, 2))),
    "crc32_state": (["diag: 60 of 60 of lanes 0 to 3 are right with another CRC32: state-counted"], row("diag", 0, bit_of(0, 31))),
    "scrambler_runs": (["state: 16 of 16 of lanes 0 to 3 are right with a scrambler of this kind: running through Sync and State words"],
                       row("state", 0, bit_of(1, 1))),
    "state_reversed": (["state: 16 of 16 of lanes 0 to 3 are right with a scrambler of this kind: State words reversed"], row("state", 0, bit_of(1, 1))),
    "never_inverted": (["balance=4"], row("balance", expected="-129 to 129")),
    "health": (["health: 15 of 15 are on lane 1 alone"], row("health", 1, bit_of(0, 31), expected="11", found="01")),
    "data_bit": (["diag=1"], row("diag", 2, bit_of(8, 31), note="right with bit %d of the lane inverted" % WRONG_BIT)),
    "header": (["bad=1", "diag=1 following=1"], row("bad", 0, WRONG_HEADER, found="11")),
    "metaframe_short": (["slip: lanes 0 to 3: 1 word is missing, by the Sync words at bits %d and %d" % (bit_of(9, 0), bit_of(10, 0) - CODE)],
                        row("sync", 0, bit_of(10, 0))),
    "slip": (["slip: lane 2: 1 bit is missing, by the Sync words at bits %d and %d" % (bit_of(8, 0), bit_of(9, 0) - 1)], row("bad", 2, SLIPPED)),
    "lanes_reversed": (["crc: 36 of 36 control words after data are right with the lanes in the order 3,2,1,0: " + MENDED], row("crc")),
    "lane_inverted": (["no-lock: lane 1: " + INVERTED], row("no-lock", 1, note=INVERTED)),
    "payload_reversed": (["no-lock: lanes 0 to 3: payload reversed: 15 of 15 Sync words: tools/lanes --form hex67 --payload-reversed mends it"],
                         row("no-lock", 0)),
}


def run(*words, folder):
    """Status and output of a command."""
    done = subprocess.run(words, cwd=folder, stdin=subprocess.DEVNULL, stdout=subprocess.PIPE, stderr=subprocess.STDOUT, encoding="utf-8", errors="replace",
                          timeout=patience(SECONDS), env={**os.environ, "INTERLAKEN_PROGRAM": PROGRAM})
    return done.returncode, done.stdout


def tool(name, *words, folder):
    return run(os.path.join(TOP, "tools", name), *words, folder=folder)


class Dump:
    """What the device leaves with a bug, in a folder of its own, and the lanes of it."""

    def __init__(self, device, folder, bug, *more):
        self.bug, self.folder = bug, os.path.join(folder, "-".join((bug,) + more).replace("+", ""))
        os.makedirs(self.folder)
        shutil.copy(os.path.join(TOP, "examples", "device", "device.plan"), self.folder)
        self.ran = run(*device, "+bug=" + bug, *more, folder=self.folder)

    def lanes(self, tally, *more):
        """Imports the dumps."""
        names = ["dump.%d.txt" % lane for lane in range(LANES)]
        status, text = tool("lanes", "import", "--form", "hex67", "--out", "device", *more, *names, folder=self.folder)
        tally.count("%s: import" % self.bug, "" if status == 0 else "status %d, %s" % (status, text[:300]))

    def judge(self, plan="device.plan"):
        """The status of judge, the lines of its summary, and the rows of its table."""
        status, text = tool("judge", plan, folder=self.folder)
        table = os.path.join(self.folder, "device.judged.csv")
        rows = []
        if os.path.exists(table):
            with open(table, encoding="utf-8", newline="") as file:
                rows = list(csv.DictReader(file))
        return status, text.splitlines(), rows

    def has(self, *names):
        return [content(os.path.join(self.folder, name)) for name in names]


def all_dumps(device, folder):
    """The device with each bug, two at once."""
    with concurrent.futures.ThreadPoolExecutor(2) as pool:
        wanted = [(CLEAN,), ("valid_bytes",), ("calendar_reversed", "+entries=16")] + [(bug,) for bug in BUGS]
        dumps = list(pool.map(lambda words: Dump(device, folder, *words), wanted))
    return dumps[0], dumps[1], dumps[2], dumps[3:]


def check_clean(tally, dump):
    """Without a bug: every packet arrives, no tool finds anything, and the words are those that the bench wrote."""
    dump.lanes(tally)
    folder = dump.folder
    events = run(PROGRAM, "inspect", "device.plan", folder=folder)
    tally.expect("no bug: events", [line.split(",")[2] for line in content(folder + "/device.events.csv").decode().splitlines()[1:]], ["lock"] * LANES)
    tally.expect("no bug: inspect", (events[0], events[1].splitlines()[-1]), (0, "events 4"))
    tally.expect("no bug: gather", run(PROGRAM, "gather", "device.plan", folder=folder)[0], 0)
    tally.expect("no bug: check", run(PROGRAM, "check", "device.plan", folder=folder), (0, "words 1344\nfaults 0\n"))
    written, gathered = dump.has("dump.words", "device.words")
    tally.expect("no bug: the words of the bench, and those of its lanes", gathered, written[-len(gathered):])
    tally.expect("no bug: receive", run(PROGRAM, "receive", "device.plan", folder=folder)[0], 0)
    for channel in CHANNELS:
        tally.expect("no bug: packets of channel %d" % channel, *dump.has("device.%d.pcap" % channel, "dump.%d.pcap" % channel))
    tally.expect("no bug: judge", dump.judge()[0::2], (0, []))
    tally.expect("no bug: probe", tool("probe", "--out", "probed.plan", *["device.lane.%d" % lane for lane in range(LANES)], folder=folder)[0], 0)
    tally.expect("no bug: judge of the plan of probe", dump.judge("probed.plan")[0::2], (0, []))
    with open(folder + "/words.plan", "w", encoding="ascii") as file:
        file.write(content(folder + "/device.plan").decode().replace("out,device", "out,dump"))
    tally.expect("no bug: check of the bench's words", run(PROGRAM, "check", "words.plan", folder=folder), (0, "words 1680\nfaults 0\n"))


def check_bug(tally, dump):
    """A bug: judge ends with 1, its summary names it, and its table has the place."""
    lines, wanted = BUGS[dump.bug]
    dump.lanes(tally)
    status, said, rows = dump.judge()
    tally.expect("%s: status of judge" % dump.bug, status, 1)
    for line in lines:
        tally.count("%s: %s" % (dump.bug, line), "" if line in said else "judge said %s" % said)
    found = [row for row in rows if all(row[column] == value for column, value in wanted.items())]
    tally.count("%s: a row with %s" % (dump.bug, wanted), "" if found else "the table begins %s" % rows[:3])


def check_mended(tally, dump, *mending):
    """What mends lanes: after it nothing is found."""
    dump.lanes(tally, "--overwrite", *mending)
    tally.expect("%s: judge after %s" % (dump.bug, " ".join(mending)), dump.judge()[0::2], (0, []))


def check_packets(tally, dump):
    """Bytes that the device counts wrongly break no rule: the packets beside those that were sent show them."""
    dump.lanes(tally)
    tally.expect("valid_bytes: judge", dump.judge()[0::2], (0, []))
    run(PROGRAM, "receive", "device.plan", folder=dump.folder)
    status, text = tool("packets", "dump.1.pcap", "device.1.pcap", folder=dump.folder)
    tally.expect("valid_bytes: packets", (status, text.splitlines()[1:2]), (1, ["  first: packet 0: 156 bytes and not 155"]))


def check_calendar(tally, dump):
    """A calendar of 16 entries in the other order breaks no rule: the states that it should show are another's."""
    with open(dump.folder + "/device.plan", "a", encoding="ascii") as file:
        file.write("".join("entry,%d\n" % channel for channel in LISTED * 4) + "local,device.local\n")
    with open(dump.folder + "/device.local", "w", encoding="ascii") as file:
        file.write("0,9,off\n")
    dump.lanes(tally)
    status, _, rows = dump.judge()
    told = "the calendar is not that of device.local, but is where the 16 flow bits are reversed"
    tally.expect("calendar of 16 entries: judge", (status, [(row["what"], row["note"]) for row in rows]), (1, [("calendar", told)]))


def check_conventions(tally, device, folder):
    """A bug in lanes by other conventions: the call that probe names makes lanes in which judge finds it at the same bit."""
    options = ["+state=58", "+crc32=catalogue", "+idle_channel", "+multi_use"]
    other, own = Dump(device, folder + "/other", "crc24_once", *options), Dump(device, folder + "/own", "crc24_once")
    for dump in (own, other):
        dump.lanes(tally)
    names = ["device.lane.%d" % lane for lane in range(LANES)]
    call = "tools/lanes adapt --state 58 --crc32 bytes-lowest-first --idle-fields clear --multi-use clear --out device.adapted " + " ".join(names)
    tally.expect("conventions: probe", [line for line in tool("probe", *names, folder=other.folder)[1].splitlines() if line.startswith("mend: ")], ["mend: " + call])
    tally.expect("conventions: adapt", tool(*call.split("/", 1)[1].split(), folder=other.folder)[0], 0)
    for lane in range(LANES):
        os.replace(other.folder + "/device.adapted.lane.%d" % lane, other.folder + "/device.lane.%d" % lane)
    tally.expect("conventions: probe after it", tool("probe", *names, folder=other.folder)[0], 0)
    tally.expect("conventions: judge", other.judge()[2], own.judge()[2])


def check_page(tally, folder):
    """The commands of the page, which compile the device, by verilator too where it is there."""
    shell = documents.Shell(folder, SECONDS)
    for number, lines in documents.blocks(PAGE):
        missing = documents.missing_tool(lines)
        if missing:
            tally.not_tried(*missing, "%s, line %d and below" % (PAGE, number))
        else:
            documents.check_block(tally, shell, PAGE, number, lines)


def check_verilator(tally, device, folder, clean):
    """The same dumps by verilator, and no warning."""
    built = device + "/obj_dir/Vtb_device"
    if not os.path.exists(built):
        return
    tally.expect("lint", run("verilator", "--lint-only", "-Wall", "--timing", "-f", "device.f", "--top-module", "tb_device", folder=device), (0, ""))
    names = ["dump.words"] + ["dump.%d.txt" % lane for lane in range(LANES)] + ["dump.%d.pcap" % channel for channel in CHANNELS]
    same = Dump([built], folder + "/verilated", CLEAN)
    tally.expect("dumps of verilator", same.has(*names), clean.has(*names))


def check_program(tally, folder):
    """The program sends. The rest takes minutes, and is not tried without it."""
    status, printed = run(PROGRAM, "send", "damaged.plan", folder=folder)
    if status or not os.path.exists(folder + "/damaged.lane.0"):
        tally.give_up("the program", "send ended with status %d and made no lane: %s" % (status, printed))
    for lane in range(2):
        os.remove(folder + "/damaged.lane.%d" % lane)


def main():
    tally = Tally("device")
    with tempfile.TemporaryDirectory(prefix="device.") as folder:
        copy_examples(TOP, folder + "/examples")
        os.symlink(PROGRAM, folder + "/interlaken")
        os.symlink(TOP + "/tools", folder + "/tools")
        device, runs = folder + "/examples/device", folder + "/runs"
        check_program(tally, folder + "/examples")
        check_page(tally, device)
        if not os.path.exists(device + "/device"):
            tally.give_up("the device", "it is not compiled")
        clean, valid, same_calendar, others = all_dumps(["vvp", "-n", device + "/device"], runs)
        tally.expect("the device", clean.ran, (0, "metaframes 15\n"))
        check_clean(tally, clean)
        for dump in others:
            check_bug(tally, dump)
            if dump.bug in MENDING:
                check_mended(tally, dump, *MENDING[dump.bug])
        check_packets(tally, valid)
        check_calendar(tally, same_calendar)
        check_conventions(tally, ["vvp", "-n", device + "/device"], runs)
        check_verilator(tally, device, runs, clean)
    return tally.end()


sys.exit(main())
