"""What is measured: runs of each command, and the inputs that they read.

The link has 8 lanes and a metaframe of 2,048 words. Channels, if there are many, share the bytes of the capture evenly. What does not read
the capture has a size of its own: `generate`, `duplex`, `resend`, `oobwrite`, `oobread`. SHAPES has links of other shapes. All inputs are
written into a folder that the caller has made for them.
"""

import os
import random
import re
from dataclasses import dataclass

from make_capture import write_capture

# The plain program was counted on 16 MB, with 8 groups before the first burst. In 10 MB 5 groups are the same share of the words.
LINK = "lanes,8\nmetaframe,2048\nwarmup,5\n"
PLAN = LINK + "channel,0,a.pcap\n"
WIDE, NARROW = 1000, 256
SOME, MOST = 64, 1024
# The lane that is dark or of noise, if one is.
REPLACED = 3
# One bit of a lane is inverted, so the link counts its accidents.
SCHEDULE = "flip,3,1000000\n"
# A queue of two ends is drained by a word in each slot, and each end sends all the time.
ENDS = "plan,e.plan\ndelay,100\nmark,64\nslots,1000000\nback,0,e.pcap\nout,e\n"
# 4,194,304 events, each of which does something as long as there are pieces.
EVENTS = 1384 * "send,255\nrepeat,755\ntake,1010\ntakeback,1010\n" + "send,255\ntake,255\ntakeback,255\nlose,19\n"
EVENT_COUNT = 4194304
# The frames of two entries are 12 samples; the last begins at this slot.
STATUS = LINK + "channel,1\nchannel,2\nlocal,s.local\noob,s.oob\nout,s\n"
FILES = {
    "a.plan": PLAN + "out,o\n", "d.plan": PLAN + "schedule,d.schedule\nout,o\n", "d.schedule": SCHEDULE,
    "m.plan": "lanes,8\nmetaframe,1999\nchannel,0,a.pcap\nout,m\n",
    "w.plan": LINK + "wide,1\n" + "".join("channel,%d,w.pcap\n" % (65 * n) for n in range(WIDE)) + "out,w\n",
    "n.plan": LINK + "".join("channel,%d,n.pcap\n" % n for n in range(NARROW)) + "out,n\n",
    "c.plan": LINK + "".join("channel,%d,c.pcap\n" % n for n in range(SOME)) + "out,c\n",
    "k.plan": LINK + "wide,1\n" + "".join("channel,%d,k.pcap\n" % n for n in range(MOST)) + "out,k\n",
    "l.plan": "lanes,64\nmetaframe,2048\nwarmup,5\nchannel,0,a.pcap\nout,l\n",
    "dark.plan": PLAN + "out,dark\n", "noise.plan": PLAN + "out,noise\n",
    "e.plan": "lanes,1\nmetaframe,32\nwarmup,4\nchannel,0,e.pcap\nout,e\n", "e.csv": ENDS,
    "r.plan": PLAN + "window,255\nevents,r.events\nout,r\n", "r.events": EVENTS, "s.plan": STATUS, "s.local": "4194288,1,off\n",
}
# Listings read no more than LISTED bytes: the first words of the words file, whose lines they list and read back.
LISTED = 16777216
# A case of 65,940 words, the longest of the first 300.
CASE = "114"
# The line of a run's text that says for how many words, slots, samples or lines the run worked.
COUNT = re.compile(rb"^(?:slots|samples|lines) (\d+)$", re.M)


@dataclass(frozen=True)
class Run:
    """One run that is measured.

    `of` says what it works on. `reads` has the arguments of the runs whose outputs it reads. Its figure is given for each `unit`; how
    many there are is a number, or a line of the text of the run that `counted` names. `plain` has the instructions a word of a plain Rust
    program that writes the same files, of packets of PLAIN_SIZE bytes.
    """
    of: str
    arguments: tuple
    reads: tuple = ()
    counted: object = None
    unit: str = "word"
    plain: object = None

    @property
    def command(self):
        return self.arguments[0]


BURST_FILE, BURST, SEND = ("burst", "a.pcap"), ("burst", "a.plan"), ("send", "a.plan")
WIDE_BURST, NARROW_BURST, LIST = ("burst", "w.plan"), ("burst", "n.plan"), ("list", "first.words")
# The plain program is not in the repository. Its instructions were counted on 30 November 2026.
PLAIN_SIZE = 1514
# In this order: later runs read what earlier ones wrote. `gather` writes over the words of the plan, and `link` over its lanes.
ON_CAPTURE = [
    Run("the capture", BURST_FILE, (), BURST_FILE, plain=64),
    Run("its words file", ("join", "a.pcap.words"), (BURST_FILE,), BURST_FILE, plain=66),
    Run("a plan", BURST, (), BURST, plain=67),
    Run("a plan", ("join", "a.plan"), (BURST,), BURST),
    Run("8 lanes", SEND, (), BURST, plain=144),
    Run("8 lanes", ("stripe", "a.plan"), (BURST,), BURST, plain=126),
    Run("a plan", ("check", "a.plan"), (BURST,), BURST, plain=80),
    Run("8 lanes, one bit inverted", ("damage", "d.plan"), (SEND,), BURST),
    Run("8 lanes", ("receive", "a.plan"), (SEND,), BURST, plain=145),
    Run("8 lanes", ("gather", "a.plan"), (SEND,), BURST, plain=118),
    Run("8 lanes", ("inspect", "a.plan"), (SEND,), BURST, plain=116),
    Run("8 lanes", ("link", "a.plan"), (), BURST, plain=307),
    Run("8 lanes, one bit inverted", ("link", "d.plan"), (), BURST, plain=307),
    Run("1,000 wide channels", WIDE_BURST, (), WIDE_BURST),
    Run("1,000 wide channels", ("link", "w.plan"), (), WIDE_BURST),
    Run("256 narrow channels", NARROW_BURST, (), NARROW_BURST),
    Run("256 narrow channels", ("link", "n.plan"), (), NARROW_BURST),
]
# These have a size of their own, or read a part of the words.
OTHERS = [
    Run("its first 16.8 MB", LIST, (BURST_FILE,), LIST, "line"),
    Run("that listing", ("assemble", "first.words.txt"), (LIST,), LIST, "line"),
    Run("case 114", ("generate", CASE, "g"), (), ("generate", CASE, "g")),
    Run("1,000,000 slots", ("duplex", "e.csv"), (), ("duplex", "e.csv"), "slot"),
    Run("4,194,304 events", ("resend", "r.plan"), (), EVENT_COUNT, "event"),
    Run("4.2 MB of samples", ("oobwrite", "s.plan"), (), ("oobwrite", "s.plan"), "sample"),
    Run("these samples", ("oobread", "s.plan"), (("oobwrite", "s.plan"),), ("oobwrite", "s.plan"), "sample"),
]
RUNS = ON_CAPTURE + OTHERS


def runs_of(of, plan, commands):
    """The runs of a plan: `join` reads the words of `burst`, and `receive` and `gather` the lanes of `send`."""
    burst, send = ("burst", plan), ("send", plan)
    reads = {"join": (burst,), "receive": (send,), "gather": (send,), "inspect": (send,)}
    return [Run(of, (command, plan), reads.get(command, ()), burst) for command in commands]


# Links of other shapes. `receive` comes before `gather`, which writes over the words.
WHOLE, LANES = ("burst", "join", "send", "receive", "gather", "link"), ("burst", "send", "receive", "gather", "inspect")
KINDS = {"a dark lane of 8": "dark", "a lane of noise of 8": "noise"}
SHAPES = [
    *runs_of("64 channels", "c.plan", WHOLE),
    *runs_of("1,024 channels", "k.plan", WHOLE),
    *runs_of("64 lanes", "l.plan", WHOLE),
    *[run for of, kind in KINDS.items() for run in runs_of(of, kind + ".plan", LANES)],
]


def needed_for(commands, runs=None):
    """The runs of these commands and the runs that these need, in order."""
    runs = runs or RUNS
    wanted = {run.arguments for run in runs if run.command in commands}
    for run in reversed(runs):
        if run.arguments in wanted:
            wanted.update(run.reads)
            wanted.update([run.counted] if isinstance(run.counted, tuple) else [])
    return [run for run in runs if run.arguments in wanted]


def count_in(text):
    """The number of words, slots, samples or lines that a text of the program says, or None."""
    found = COUNT.search(text)
    return int(found[1]) if found else None


def write_inputs(folder, megabytes, size):
    # Two ends carry eight bytes in a slot at most.
    shares = {"a.pcap": 1, "w.pcap": WIDE, "n.pcap": NARROW, "c.pcap": SOME, "k.pcap": MOST}
    for name, part in [(name, megabytes / share) for name, share in shares.items()] + [("e.pcap", 8)]:
        write_capture(os.path.join(folder, name), part, size)
    for name, text in FILES.items():
        with open(os.path.join(folder, name), "w") as file:
            file.write(text)


def replaced_lane(kind, length):
    """The bytes of a lane that is dark, or else of noise."""
    return bytes(length) if kind == "dark" else random.Random(1).randbytes(length)


def replace_lane(kind, folder):
    """Puts a dark lane or one of noise, of the same length, in the place of a lane of the plan of this name."""
    name = os.path.join(folder, "%s.lane.%d" % (kind, REPLACED))
    length = os.path.getsize(name) if os.path.exists(name) else 0
    with open(name, "wb") as file:
        file.write(replaced_lane(kind, length))


def make_ready(run, folder):
    """Writes what a run reads besides the inputs and the outputs of earlier runs: the first words of the words file, or a lane."""
    if run.of in KINDS and run.reads == (("send", run.arguments[1]),):
        replace_lane(KINDS[run.of], folder)
    words = os.path.join(folder, "a.pcap.words")
    if run.arguments != LIST or not os.path.exists(words):
        return
    with open(words, "rb") as file:
        first = file.read(LISTED // 9 * 9)
    with open(os.path.join(folder, "first.words"), "wb") as file:
        file.write(first)
