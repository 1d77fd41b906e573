"""What checks/pictures.sh does, with the program and the repository as its words."""

import os
import re
import shutil
import subprocess
import sys
import tempfile
import xml.etree.ElementTree as xml
from functools import partial

PROGRAM, TOP = os.path.abspath(sys.argv[1]), os.path.abspath(sys.argv[2])
sys.path.insert(0, os.path.join(TOP, "tools", "lib"))

from picture.svg import length_of
from lib.devices import BREAKS, SPOILED_SLOTS, Device, changed, spoiled, sums
from lib.machine import copy_examples
from lib.runs import content, write_files
from lib.tally import Tally

TOOL = os.path.join(TOP, "tools", "picture")
SVG = "{http://www.w3.org/2000/svg}"
# Each example that is drawn, and what its pictures have: worked out from the plans and captures, as the tour says.
EXAMPLES = {"damaged": {"lanes": 2, "packets": 4, "lost": 2, "spans": 3}, "two": {"lanes": 1, "packets": 4, "lost": 0, "spans": 2},
            "wide": {"lanes": 2, "packets": 4, "lost": 0, "spans": 2}, "again": {"lanes": 1, "packets": 2, "lost": 0, "spans": 2},
            "status": {"lanes": 1, "packets": 0, "lost": 0, "spans": 2}}
CASES = (2, 18, 20)
NOT_PLACED = "first.places.csv is not of these lanes and words: `interlaken gather first.plan` writes it and the words of these lanes, over first.words: keep that under another name\n"
# The sizes of packets of another dump, which is as long.
OTHER_PACKETS = ["%d" % (60 + 37 * (47 - number) % 400) for number in range(48)]
# Each file that is spoiled, and how; then what is drawn, and what the tool says.
SPOILED = [
    ("damaged.words", None, "damaged.plan", "damaged.words is missing: `interlaken burst damaged.plan` makes it"),
    ("damaged.lane.1", None, "damaged.plan", "damaged.lane.1 is missing: `interlaken link` of this plan with another `out` makes new files"),
    ("damaged.spans.csv", None, "damaged.plan", "damaged.spans.csv is missing: `interlaken receive damaged.plan` makes it"),
    ("damaged.2.pcap", None, "damaged.plan", "damaged.2.pcap is missing: `interlaken receive damaged.plan` makes it"),
    ("two_ends.b.1.pcap", None, "two_ends.duplex", "two_ends.b.1.pcap is missing: `interlaken duplex two_ends.duplex` makes it"),
    ("damaged.plan", None, "damaged.plan", "damaged.plan: No such file or directory"),
    ("damaged.schedule", None, "damaged.plan", "damaged.schedule: No such file or directory"),
    ("damaged.words", lambda data: data[:100], "damaged.plan", "damaged.words: short at 99"),
    ("damaged.words", lambda data: data[:18] + b"\7" + data[19:], "damaged.plan", "damaged.words: tag at 18"),
    ("damaged.words", lambda data: data[:900], "damaged.plan", "damaged.spans.csv:2: slot 169, and the words file has 100"),
    ("damaged.spans.csv", lambda data: b"after\n", "damaged.plan", "damaged.spans.csv: no table with the heading after_group,after_index,before_group,before_index,why"),
    ("damaged.1.pcap", lambda data: data[:50], "damaged.plan", "damaged.1.pcap: short at 24: record 0 is not whole: the file ends at byte 50"),
    ("damaged.schedule", lambda data: b"flip,2,1\n", "damaged.plan", "damaged.schedule:1: flip: lane: 2 is not in 0 to 1"),
    ("damaged.plan", lambda data: data + b"lane,1\n", "damaged.plan", "damaged.plan:8: unknown key 'lane': `lanes`?"),
    ("two_ends.a.2.pcap", lambda data: data[:24], "two_ends.duplex", "two_ends.a.2.pcap: computed "),
]
# Plans of one `out`: what they send is another each time, of as many slots in the third, and only in other bursts in the fourth.
STALE_FILES = {"first.plan": "lanes,2\nmetaframe,32\nwarmup,4\nchannel,1,one.pcap\nchannel,2,two.pcap\nschedule,damaged.schedule\nout,stale\n",
               "longer.plan": "lanes,2\nmetaframe,32\nwarmup,4\nchannel,1,one.pcap\nchannel,2,three.pcap\nschedule,damaged.schedule\nout,stale\n",
               "turned.plan": "lanes,2\nmetaframe,32\nwarmup,4\nchannel,1,two.pcap\nchannel,2,one.pcap\nschedule,damaged.schedule\nout,stale\n",
               "apart.plan": "lanes,2\nmetaframe,32\nwarmup,4\nburst_short,72\nchannel,1,one.pcap\nchannel,2,two.pcap\nschedule,damaged.schedule\nout,stale\n"}
# The plan that is there, the files that are of another, the options, and what the tool says.
STALE = [
    ("first.plan", {}, [], ""),
    ("first.plan", {}, ["--text", "printed"], ""),
    ("first.plan", {"stale.words": "longer.plan"}, ["--text", "printed"], "stale.words: 504 slots, and the run printed 392: these files are not of one run: `interlaken link` and then `interlaken burst` of this plan with another `out` make new files"),
    ("first.plan", {"stale.words": "longer.plan"}, [], "stale.words: "),
    ("first.plan", {"stale.words": "turned.plan"}, [], "stale.words: no span meets 1 packets of channel 1, and stale.1.pcap has others: these files are not of one run: `interlaken link` and then `interlaken burst` of this plan with another `out` make new files"),
    ("first.plan", {"stale.words": "turned.plan"}, ["--text", "printed"], "stale.words: no span meets 1 packets of channel 1, and stale.1.pcap has others"),
    ("longer.plan", {"stale.words": "first.plan"}, ["--only", "stream"], "stale.spans.csv:4: slot "),
    ("longer.plan", {"stale.spans.csv": "first.plan"}, [], "stale.words: "),
    ("longer.plan", {"printed": "first.plan"}, ["--text", "printed"], "stale.words: 504 slots, and the run printed 392"),
    ("first.plan", {"stale.words": "apart.plan"}, [], "stale.words: slot 300 is a control word, and in stale.lane.0 it is none: these files are not of one run: `interlaken link` and then `interlaken burst` of this plan with another `out` make new files"),
    ("first.plan", {"stale.lane.0": "longer.plan"}, [], "stale.words: its 392 slots fill 15008 bits of a lane, and stale.lane.0 has "),
]

# The schedule of a run, the one that is there when its lanes are drawn, the command of the run, the options, and what the tool says.
SKEWED, MADE_ANEW = "skew,0,11\nskew,1,200\n", "the schedule was changed after the run; `interlaken link` of this plan with another `out` makes new lanes"
NOT_SHOWN = "changed.schedule:3: bit 14000 of lane 0 came as it would without this row: " + MADE_ANEW
# Bits of the code from 8978 on whose inversion no CRC32 shows: both of its header, and all others.
HEADER, OTHERS = ("".join("flip,0,%d\n" % (8978 + bit) for bit in bits) for bits in ((1, 2), (0, *range(3, 67))))
CHANGED = [
    (SKEWED + "flip,0,9000\n", SKEWED + "flip,0,14000\n", "link", [], NOT_SHOWN),
    (SKEWED + "flip,0,9000\n", SKEWED + "flip,0,14000\n", "link", ["--only", "stream"], NOT_SHOWN),
    (SKEWED + "flip,0,9000\n", SKEWED + "flip,0,14000\n", "link", ["--program", PROGRAM], ""),
    (SKEWED + "flip,0,9000\n", SKEWED + "flip,0,9000\nflip,1,9100\nflip,0,14000\n", "link", [], "changed.schedule:4: bit 9100 of lane 1 came as it would without this row: " + MADE_ANEW),
    (SKEWED + "flip,0,9000\n", SKEWED + "flip,0,9000\ndark,1,9000,100\n", "link", [], "changed.schedule:4: bit 9002 of lane 1 came as it would without this row: " + MADE_ANEW),
    (SKEWED + "flip,0,9000\n", SKEWED + "flip,0,9000\nflip,0,14000\nflip,0,14000\nflip,0,90000\n", "link", [], ""),
    (SKEWED + HEADER, SKEWED + HEADER, "link", [], ""), (SKEWED + OTHERS, SKEWED + OTHERS, "link", [], ""),
    (SKEWED + "dark,0,9000,9000\nflip,0,9100\n", SKEWED + "dark,0,9000,9000\nflip,0,9100\n", "link", [], ""),
    ("flip,0,9000\n", "flip,0,14000\n", "link", [], "changed.schedule:1: bit 14000 of lane 0 came as it would without this row: " + MADE_ANEW),
    ("flip,0,9000\n", "skew,0,11\nflip,0,9000\n", "link", [], "changed.schedule:1: lane 0 came as it would without this row, and the lanes are damaged as by line 2: " + MADE_ANEW),
    ("skew,1,200\n", SKEWED, "link", [], "changed.schedule:1: lane 0 came as it would without this row, and lane 1 not without its own: " + MADE_ANEW),
    (SKEWED, "skew,0,10\nskew,1,200\n", "link", [], "changed.lane.0: a Sync word at bit 11, and none begins there after a skew of 10 bits: these files are not of one run: "),
    (SKEWED, "skew,0,11\n", "link", [], "changed.lane.1: a Sync word at bit 200, and none begins there after a skew of 0 bits: these files are not of one run: "),
    (SKEWED + "flip,0,9000\n", SKEWED + "flip,0,9000\n", "send", ["--only", "lanes"], ""), ("flip,0,9000\n", "flip,0,9000\n", "send", ["--only", "lanes"], ""),
]


def run(words, folder):
    return subprocess.run(words, cwd=folder, capture_output=True, encoding="utf-8")


def titles(root, kind):
    """The titles of the boxes of a kind."""
    return [box.findtext(SVG + "title") or "" for box in root.iter(SVG + "rect") if box.get("class") == kind]


def counts_of(folder, prefix):
    """What the two pictures of a plan have."""
    lanes, stream = (xml.parse(os.path.join(folder, "%s.%s.svg" % (prefix, kind))).getroot() for kind in ("lanes", "stream"))
    lost = set(titles(stream, "lost packet"))
    alone = set(titles(stream, "packet")) | lost
    together = sum(int(title.split()[0]) for title in titles(stream, "packets"))
    return {"lanes": len(set(titles(lanes, "lane"))), "packets": len(alone) + together, "lost": len(lost), "spans": len(set(titles(stream, "span")))}


def printed_counts(sent, linked):
    """The same as the program printed it."""
    return {"lanes": len(re.findall(r"^lane ", linked, re.MULTILINE)), "packets": sum(map(int, re.findall(r"^sent .*packets=(\d+)", sent, re.MULTILINE))),
            "lost": len(re.findall(r"^missing ", linked, re.MULTILINE)), "spans": int(re.search(r"^spans (\d+)", linked, re.MULTILINE).group(1))}


def overlapping(path):
    """Two texts of a picture that overlap, or an empty list."""
    boxes = []
    for element in xml.parse(path).getroot().iter(SVG + "text"):
        x, y, width = float(element.get("x")), float(element.get("y")), length_of(element.text)
        x -= {"end": width, "middle": width / 2}.get(element.get("text-anchor"), 0)
        for other in boxes:
            if x + 2 < other[0] + other[2] and other[0] + 2 < x + width and abs(y - other[1]) < 10:
                return [element.text, other[3]]
        boxes.append((x, y, width, element.text))
    return []


def check_pictures(results, folder):
    """That no texts overlap in the pictures that are there."""
    for name in sorted(name for name in os.listdir(folder) if name.endswith(".svg")):
        results.expect(name + ", texts", overlapping(os.path.join(folder, name)), [])


def draw(results, folder, words):
    done = run([TOOL, "--overwrite"] + words, folder)
    results.expect("picture " + " ".join(words), (done.returncode, done.stderr), (0, ""))


def check_examples(results, folder):
    for name, wanted in EXAMPLES.items():
        before = sums(folder)
        draw(results, folder, [name + ".plan", "--program", PROGRAM])
        results.expect(name + ", changed", changed(before, sums(folder)), [name + ".lanes.svg", name + ".stream.svg"])
        results.expect(name, counts_of(folder, name), wanted)
    lanes = xml.parse(os.path.join(folder, "damaged.lanes.svg")).getroot()
    groups = [(element.text, element.findtext(SVG + "title")) for element in lanes.iter(SVG + "text") if element.text.startswith("group 6")]
    results.expect("damaged, the name of a group", groups, [("group 6443", "metaframe 3")])
    texts = [element.text for element in lanes.iter(SVG + "text")]
    results.expect("damaged, the legend of groups", [text for text in texts if "a group is named as in the span table" in text] != [], True)
    for text in ("bit 9011 is inverted (bit 9000 as sent)", "11 bits late", "200 bits late", "14000"):
        results.expect("damaged, lanes, " + text, texts.count(text), 1)
    stream = xml.parse(os.path.join(folder, "damaged.stream.svg")).getroot()
    texts = [element.text for element in stream.iter(SVG + "text")]
    for text in ("slot 230 is damaged: lane 0, bit 9011 (9000 as sent)", "span 1 of slots 224 to 290: crc"):
        results.expect("damaged, " + text, texts.count(text), 1)
    with open(os.path.join(folder, "printed"), "w", encoding="utf-8") as file:
        file.write(run([PROGRAM, "duplex", "two_ends.duplex"], folder).stdout)
    draw(results, folder, ["two_ends.duplex", "--text", "printed"])
    queues = xml.parse(os.path.join(folder, "two_ends.queues.svg")).getroot()
    peaks = sorted(element.text for element in queues.iter(SVG + "text") if element.text.startswith("peak"))
    results.expect("two_ends, peaks", peaks, ["peak 19", "peak 30", "peak 33"])


def check_case(results, folder, number):
    """A generated case, beside what `generate` printed."""
    name = "case%d" % number
    linked = run([PROGRAM, "generate", "%d" % number, name], folder).stdout
    sent = run([PROGRAM, "burst", name + ".plan"], folder).stdout
    with open(os.path.join(folder, "printed"), "w", encoding="utf-8") as file:
        file.write(linked)
    draw(results, folder, [name + ".plan", "--text", "printed"])
    results.expect(name, counts_of(folder, name + ".out"), printed_counts(sent, linked))


def check_wide_link(results, folder):
    """64 lanes, a few of them damaged, with lanes and words that the tool has made by the program."""
    rows = ["lanes,64", "metaframe,32", "warmup,4", "channel,1,one.pcap", "channel,2,two.pcap", "schedule,many.schedule", "out,many"]
    skews = ["skew,%d,%d" % (lane, 7 * lane % 400) for lane in range(64)]
    for name, lines in (("many.plan", rows), ("many.schedule", skews + ["flip,9,9000", "flip,9,9001", "dark,40,9000,300"])):
        with open(os.path.join(folder, name), "w", encoding="utf-8") as file:
            file.write("\n".join(lines) + "\n")
    draw(results, folder, ["many.plan", "--program", PROGRAM])
    results.expect("many", counts_of(folder, "many"), printed_counts(run([PROGRAM, "burst", "many.plan"], folder).stdout, run([PROGRAM, "link", "many.plan"], folder).stdout))


def check_tour(results, folder):
    target = os.path.join(folder, "tour")
    os.mkdir(target)
    done = run([sys.executable, "-B", os.path.join(TOP, "docs", "tour", "figures.py"), PROGRAM, target], folder)
    results.expect("tour", (done.returncode, done.stderr), (0, ""))
    for name in sorted(os.listdir(target)):
        with open(os.path.join(target, name), "rb") as drawn, open(os.path.join(TOP, "docs", "tour", name), "rb") as kept:
            results.expect("tour, " + name, drawn.read() == kept.read(), True)
    results.expect("pictures of the tour", len(os.listdir(target)), 14)
    check_pictures(results, target)


def check_spoiled(results, folder):
    for command in ("burst", "link"):
        run([PROGRAM, command, "damaged.plan"], folder)
    for name, change, plan, told in SPOILED:
        path = os.path.join(folder, name)
        with open(path, "rb") as file:
            data = file.read()
        os.remove(path)
        if change:
            with open(path, "wb") as file:
                file.write(change(data))
        done = run([TOOL, "--overwrite", plan], folder)
        first = done.stderr[:len("picture: " + told)] if done.stderr.count("\n") == 1 else done.stderr
        results.expect("%s spoiled" % name, (done.returncode, first), (2, "picture: " + told))
        with open(path, "wb") as file:
            file.write(data)


def check_stale(results, folder):
    """Words, spans, captures and texts of another run than the rest are refused, where plan and `out` are the same."""
    for name, data in STALE_FILES.items():
        with open(os.path.join(folder, name), "w", encoding="utf-8") as file:
            file.write(data)
    kept = {}
    for name in STALE_FILES:
        shutil.copy(os.path.join(folder, name), os.path.join(folder, "stale.plan"))
        words = run([PROGRAM, "burst", "stale.plan"], folder)
        linked = run([PROGRAM, "link", "stale.plan"], folder)
        results.expect("burst and link, " + name, (words.returncode, linked.returncode), (0, 0))
        kept[name] = {file: open(os.path.join(folder, file), "rb").read() for file in os.listdir(folder) if file.startswith("stale.") and file != "stale.plan"}
        kept[name]["printed"] = linked.stdout.encode()
    for plan, from_other, words, told in STALE:
        files = {**kept[plan], **{file: kept[other][file] for file, other in from_other.items()}}
        for file, data in {**files, "stale.plan": STALE_FILES[plan].encode()}.items():
            with open(os.path.join(folder, file), "wb") as changed:
                changed.write(data)
        done = run([TOOL, "--overwrite", "stale.plan"] + words, folder)
        wanted = (2, "picture: " + told, 1) if told else (0, "", 0)
        found = (done.returncode, done.stderr[:len("picture: " + told)] if told else done.stderr, done.stderr.count("\n"))
        results.expect("%s with %s" % (plan, from_other), found, wanted)


def check_changed(results, folder):
    """A schedule that was changed after the run is refused, if it would have damaged what came undamaged, or moved what did not."""
    plan = STALE_FILES["first.plan"].replace("damaged.schedule", "changed.schedule").replace("stale", "changed")
    for before, after, command, words, told in CHANGED:
        write_files(folder, {"changed.plan": plan.encode(), "changed.schedule": before.encode()})
        statuses = [run([PROGRAM, name, "changed.plan"], folder).returncode for name in ("burst", command)]
        write_files(folder, {"changed.schedule": after.encode()})
        done = run([TOOL, "--overwrite", "changed.plan"] + words, folder)
        wanted = (2, "picture: " + told, 1) if told else (0, "", 0)
        found = (done.returncode, done.stderr[:len("picture: " + told)] if told else done.stderr, done.stderr.count("\n"))
        results.expect("%r, %s, %r, %s" % (before[:60], command, after[:60], words), (statuses, found), ([0, 0], wanted))
        if command == "send":
            results.expect("lanes as sent", b"the lanes are as sent, without" in content(os.path.join(folder, "changed.lanes.svg")), True)


def check_tables(results, folder):
    """The events of lanes and the faults of words are drawn where `inspect` and `check` tell them of what is there, and not those of an
    older run."""
    device = Device(PROGRAM, folder, "told", breaks=BREAKS, spoil=spoiled)
    device.run("receive", "gather", "check", "inspect")
    draw(results, folder, ["told.plan"])
    lanes, stream = (xml.parse(os.path.join(folder, "told.%s.svg" % kind)).getroot() for kind in ("lanes", "stream"))
    breaks = [element.text for element in stream.iter(SVG + "text") if "breaks" in element.text]
    results.expect("faults", ["slot %d breaks crc" % device.number_of(slot) in breaks for slot in SPOILED_SLOTS], [True] * len(SPOILED_SLOTS))
    results.expect("events", [title.split(":")[0] for title in titles(lanes, "event")][:1] != [], True)
    counts = counts_of(folder, "told")
    results.expect("packets of a device", (counts["packets"], counts["lost"]), (39, 2))
    for name, text, drawn in (("told.faults.csv", b"word,rule,channel\n7,crc,-\n", "breaks"), ("told.events.csv", b"lane,bit,event\n0,7576,lock\n0,9000,diag\n", "diag")):
        data = content(os.path.join(folder, name))
        write_files(folder, {name: text})
        draw(results, folder, ["told.plan", "--to", "stale"])
        told = [element.text or "" for kind in ("lanes", "stream") for element in xml.parse(os.path.join(folder, "stale.%s.svg" % kind)).getroot().iter()]
        results.expect("%s of an older run" % name, [text for text in told if "slot 7 breaks" in text or "9000" in text], [])
        write_files(folder, {name: text + b"x,y,z\n"})
        done = run([TOOL, "--overwrite", "told.plan"], folder)
        results.expect("%s with a row that is none" % name, (done.returncode, done.stderr.count("\n"), done.stderr[:18]), (2, 1, "picture: %s" % name[:9]))
        write_files(folder, {name: data})


def check_device(results, folder):
    """A device's dump: the program makes what is missing apart, no file is changed but the pictures, and what is missing or of another
    dump is told without advice to write over it."""
    for name, breaks in (("whole", ()), ("broken", BREAKS)):
        device, prefix = Device(PROGRAM, folder, name, breaks), os.path.join(folder, name)
        pictures = [name + ".lanes.svg", name + ".stream.svg"]
        before = sums(folder)
        draw(results, folder, [name + ".plan", "--program", PROGRAM])
        results.expect(name + ", changed", changed(before, sums(folder)), pictures)
        spans = int(re.search(r"^spans (\d+)", device.run("receive")[0], re.MULTILINE)[1])
        results.expect(name, counts_of(folder, name), {"lanes": 3, "packets": {"whole": 47, "broken": 39}[name], "lost": {"whole": 0, "broken": 2}[name], "spans": spans})
        device.run("gather", "join")
        before = sums(folder)
        draw(results, folder, [name + ".plan", "--only", "stream"])
        results.expect(name + ", joined", counts_of(folder, name)["packets"], {"whole": 47, "broken": 39}[name])
        expect_refused(results, folder, [name + ".plan"], "%s.lanes.svg exists; --overwrite writes over it" % name, [], ())
        lane = content(prefix + ".lane.1")
        os.remove(prefix + ".lane.1")
        for words in ([], ["--program", PROGRAM]):
            expect_refused(results, folder, ["--overwrite", name + ".plan"] + words, "%s.lane.1 is missing\n" % name, [], ("link", "burst", "send"))
        write_files(folder, {name + ".lane.1": lane})
    check_other_dump(results, folder)


def check_other_dump(results, folder):
    """Words and tables of another dump, of as many words, are not drawn for this one's."""
    Device(PROGRAM, folder, "first").run("gather", "receive", "check", "inspect")
    Device(PROGRAM, folder, "second", packets=OTHER_PACKETS).run("gather", "receive", "check", "inspect")
    results.expect("dumps of one length", [len(content(os.path.join(folder, "%s.%s" % (name, "words")))) for name in ("first", "second")], [1863 * 9] * 2)
    for stolen, told in ((("words",), NOT_PLACED), (("words", "places.csv"), NOT_PLACED), (("spans.csv", "1.pcap", "2.pcap"), "first.words: no span meets 24 packets"), (("lane.0", "lane.1", "lane.2"), NOT_PLACED)):
        kept = {"first." + end: content(os.path.join(folder, "first." + end)) for end in stolen}
        write_files(folder, {"first." + end: content(os.path.join(folder, "second." + end)) for end in stolen})
        expect_refused(results, folder, ["--overwrite", "--only", "stream", "first.plan"], told, [], ("`interlaken link", "`interlaken burst", "`interlaken send"))
        write_files(folder, kept)
    draw(results, folder, ["first.plan", "--only", "stream"])


def expect_refused(results, folder, words, told, new, never):
    """A call that ends with status 2 and one line, changes no file, and does not say what it must not."""
    before = sums(folder)
    done = run([TOOL] + words, folder)
    found = (done.returncode, done.stdout, done.stderr[:len("picture: " + told)], done.stderr.count("\n"))
    results.expect("picture " + " ".join(words), found, (2, "", "picture: " + told, 1))
    results.expect("picture %s, changed" % " ".join(words), changed(before, sums(folder)), new)
    results.expect("picture %s, advice" % " ".join(words), [word for word in never if word in done.stderr], [])


def check_joined(results, folder):
    """Spans and captures that `join` left beside damaged lanes: what the text of the lanes says is refused, and no damage is drawn."""
    write_files(folder, {"printed": run([PROGRAM, "link", "damaged.plan"], folder).stdout.encode()})
    run([PROGRAM, "burst", "damaged.plan"], folder)
    run([PROGRAM, "join", "damaged.plan"], folder)
    told = "picture: damaged.spans.csv: 2 spans, and the run printed 3: these files are not of one run: "
    done = run([TOOL, "--overwrite", "damaged.plan", "--text", "printed"], folder)
    results.expect("a table of join", (done.returncode, done.stderr[:len(told)]), (2, told))
    draw(results, folder, ["damaged.plan", "--to", "joined"])
    texts = [element.text for element in xml.parse(os.path.join(folder, "joined.stream.svg")).getroot().iter(SVG + "text")]
    results.expect("damage of joined words", [text for text in texts if "damaged" in text], [])


def main():
    results = Tally("pictures")
    with tempfile.TemporaryDirectory() as folder:
        copy_examples(TOP, folder)
        steps = [check_examples, check_spoiled, check_stale, check_changed, check_tables, check_joined, check_device] + [partial(check_case, number=number) for number in CASES] + [check_wide_link, check_pictures, check_tour]
        for step in steps:
            try:
                step(results, folder)
            except (OSError, AttributeError, KeyError, xml.ParseError) as error:
                results.count("a file or a line that should be there", "%s: %s" % (type(error).__name__, error))
    return results.end()


if __name__ == "__main__":
    sys.exit(main())
