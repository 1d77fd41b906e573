"""What checks/explain.sh does, with the program and the repository as its words.

Files of rows, captures, words files and samples are spoiled at random, by the same seeds each time. Of each, the tools' readers have to
find what the program finds: the same file, the same row and the same cause, or none. Then `tools/explain` is called with the mistakes
of MISTAKES, and has to pass on what the program printed and to say what stands there.
"""

import os
import random
import shutil
import subprocess
import sys
import tempfile
from collections import Counter

from lib.devices import changed, sums
from lib.machine import copy_examples
from lib.runs import write_files
from lib.tally import Tally

PROGRAM, TOP = os.path.abspath(sys.argv[1]), os.path.abspath(sys.argv[2])
sys.path.insert(0, os.path.join(TOP, "tools", "lib"))

from explain.inputs import Inputs
from reading.files import Folder

# The files that are spoiled: which command reads each, how it is named there, and how many are tried.
PLAN = """lanes,2
metaframe,32
skips,1
deskew,7
warmup,4
burst_max,256
burst_short,64
burst_min,64
channel,1,one.pcap
channel,2,two.pcap
channel,7
entry,1
entry,2
entry,7
max_packet,2000
link_type,1
flow,a.flow
local,a.local
schedule,a.schedule
events,a.events
oob,a.oob
window,20
wide,0
out,a
"""
SETTINGS = "plan,a.plan\ndelay,10\nmark,8\nslots,600\ndrain,2\nback,1,one.pcap\nback,2,three.pcap\nout,b\n"
FILES = {
    "a.plan": PLAN, "a.duplex": SETTINGS, "a.schedule": "skew,0,11\nskew,1,200\nflip,0,9000\nflip,1,3\ndark,1,2000,30\ndark,0,5,1\n",
    "a.flow": "0,81BFFF00004B8D9D\n150,81FFFF0000188177\n150,80FFFF0000000000\n", "a.local": "0,1,off\n5,2,on\n5,7,off\n40,1,on\n",
    "a.events": "send,20\ntake,10\nlose,1\nrewind,1\nsend,30\ntake,4\nrepeat,1\ntakeback,5\nloseback,1\nrepeatback,1\n"}
CASES = (("a.plan", "link", "a.plan", 500), ("a.duplex", "duplex", "a.duplex", 120), ("a.schedule", "link", "a.plan", 120), ("a.schedule", "damage", "a.plan", 60), ("a.flow", "link", "a.plan", 100), ("a.local", "link", "a.plan", 120),
         ("a.events", "resend", "a.plan", 100), ("a.plan", "resend", "a.plan", 30), ("a.plan", "duplex", "a.duplex", 30), ("a.plan", "oobread", "a.plan", 30))
BYTES = (("two.pcap", "link", "a.plan", 60), ("one.pcap", "duplex", "a.duplex", 40), ("one.pcap", "burst", "one.pcap", 40), ("a.words", "join", "a.plan", 40), ("a.words", "stripe", "a.plan", 30), ("a.words", "check", "a.plan", 30), ("a.oob", "oobread", "a.plan", 40),
         ("a.words", "list", "a.words", 30))
FIELDS = ("", "0", "1", "2", "3", "7", "8", "16", "31", "32", "33", "48", "64", "65", "96", "128", "255", "256", "257", "300", "1024", "4096", "4097", "65535", "65536", "262145", "16777215", "16777216",
          "4194304", "4194305", "999999999999", "1000000000000", "000000000000007", "0000000000000007", "-1", "+1", " 1", "1 ", "1.5", "0x10", "1e3", "on", "off", "On", "x", "one.pcap", "81FFFF0000188177",
          "81ffff0000188177", "81FFFF000018817", "81FFFF000018817G", "\u00e9", "\u0661", "\udcff", "a\udc80", "y" * 200, "y" * 201, "y" * 255, "y" * 256)
KEYS = ("lanes", "metaframe", "skips", "deskew", "warmup", "burst_max", "burst_short", "burst_min", "channel", "entry", "wide", "window", "out", "plan", "delay", "drain", "back", "skew", "flip", "dark",
        "send", "take", "lose", "Lanes", "lane", "# x", "", "lanes ", "\ufefflanes")

TOOL = os.path.join(TOP, "tools", "explain")
# Mistakes: the files that are written, by their text or by the name of a file that is copied; the words; and what the tool says of
# them, of a fault of usage its first line.
LINK = "lanes,2\nmetaframe,32\nchannel,1,one.pcap\nchannel,2,two.pcap\nout,m\n"
LANE_LINES = "the lines after `lane` are `sync I`, `state I S`, `code I HH X` or, last, `rest BITS`"
MISTAKES = [
    ({"m.plan": "lane,2\n" + LINK}, "link m.plan", ["m.plan:1: unknown key 'lane': `lanes`?"]),
    ({"m.plan": "Lanes,2\n" + LINK}, "link m.plan", ["m.plan:1: unknown key 'Lanes': write `lanes`, in small letters and without blanks"]),
    ({"m.plan": "# a link\n" + LINK}, "link m.plan", ["m.plan:1: unknown key '# a link': there are no comments"]),
    ({"m.plan": "\n\nlanes,2\n\n\nmetaframe,16\n"}, "link m.plan", ["m.plan:6: metaframe: 16 is not in 32 to 8192 (row 2: empty lines are not counted)"]),
    ({"m.plan": "lanes,2\nchannel,1\nout,m\n"}, "link m.plan", ["m.plan: no row `metaframe`, which a plan needs"]),
    ({"m.plan": "lanes,2\nmetaframe,32\nchannel,1,zwei.pcap\nout,m\n"}, "send m.plan", ["m.plan:3: channel 1: zwei.pcap: no such file; two.pcap is there"]),
    ({"m.plan": "lanes,2\nmetaframe,32\nchannel,1, one.pcap\nout,m\n"}, "send m.plan", ["m.plan:3: channel 1: ' one.pcap': no such file; the name begins with a blank or an invisible character; one.pcap is there"]),
    ({"m.plan": "lanes,2\nmetaframe,32\nchannel,one.pcap,1\nout,m\n"}, "send m.plan", ["m.plan:3: channel: 'one.pcap' is no number (1 to 15 decimal digits)"]),
    ({"m.plan": LINK + "schedule,m.schedule\n", "m.schedule": "skew,0,11\nskew,1,200\nflip,9000,0\n"}, "link m.plan", ["m.schedule:3: flip: lane: 9000 is not in 0 to 1 (the row is `flip,lane,bit`)"]),
    ({"m.schedule": "skew,11,0\n"}, "link m.plan", ["m.schedule:1: skew: lane: 11 is not in 0 to 1 (the row is `skew,lane,bits`)"]),
    ({"m.schedule": "dark,2000,0,30\n"}, "link m.plan", ["m.schedule:1: dark: lane: 2000 is not in 0 to 1 (the row is `dark,lane,first,count`)"]),
    ({"m.schedule": "flip,0,1000000000000\n"}, "link m.plan", ["m.schedule:1: flip: bit: 1000000000000 is not in 0 to 999999999999"]),
    ({"m.schedule": "skew,0,11\n\nskew, 1,200\n"}, "link m.plan", ["m.schedule:3: skew: lane: ' 1' is no number (1 to 15 decimal digits; it has a blank before or after it) (row 2: empty lines are not counted)"]),
    ({"m.plan": "lanes,0x2\nmetaframe,32\nchannel,1\nout,m\n"}, "send m.plan", ["m.plan:1: lanes: '0x2' is no number (1 to 15 decimal digits; it is not hexadecimal)"]),
    ({"m.plan": "lanes,65\nmetaframe,32\nchannel,1\nout,m\n"}, "send m.plan", ["m.plan:1: lanes: 65 is not in 1 to 64"]),
    ({}, "m.plan link", ["explain: the command comes first: `interlaken link m.plan`"]),
    ({}, "lnik m.plan", ["explain: unknown command lnik: `link`?"]),
    ({}, "", ["explain: no command given"]),
    ({}, "link -x", ["explain: FILE: -x begins with a dash; write ./-x"]),
    ({}, "generate 18446744073709551616 m", ["explain: NUMBER: 18446744073709551616 is not below 2^64"]),
    ({"m.plan": LINK + "deskew,16\n"}, "link m.plan", ["m.plan:6: deskew: 16 clashes with metaframe,32 of line 2: metaframe must be more than 2 * deskew"]),
    ({"m.plan": "lanes,2\nmetaframe,32\nchannel,1,one.pcap\nchannel,300\nout,m\n"}, "link m.plan", ["m.plan:4: channel: 300 clashes with the default wide,0: channel 300 needs wide,1"]),
    ({"m.plan": "lanes,2\nmetaframe,32\nchannel,1,o.pcapng\nout,m\n", "o.pcapng": b"\n\r\r\n\x1c\0\0\0"}, "link m.plan", [
        "o.pcapng: a pcapng capture, which is not read; `editcap -F pcap o.pcapng o.pcap` makes a classic one of it (named in m.plan:3)"]),
    ({"d.txt": LINK}, "burst d.txt", ["d.txt is a plan, and a capture is wanted here: `burst` takes FILE as a plan only where its name ends in .plan"]),
    ({}, "link one.pcap", ["one.pcap is a capture, and a plan is wanted here, whose rows `channel,c,FILE` name captures"]),
    ({}, "link two_ends.duplex", ["two_ends.duplex is a settings file of two ends, and a plan is wanted here: `interlaken duplex two_ends.duplex` takes it",
                                  "two_ends.duplex:1: unknown key 'plan': it is a key of a settings file of two ends, and this is read as a plan"]),
    ({"m.duplex": "plan,two_ends.plan\ndelay,10\nmark,99999\nslots,500\nout,m\n"}, "duplex m.duplex", ["m.duplex:3: mark: 99999 is not in 1 to 65536"]),
    ({"m.duplex": "plan,two_end.plan\ndelay,10\nmark,99\nslots,500\nout,m\n"}, "duplex m.duplex", ["m.duplex:1: plan: two_end.plan: no such file; two_ends.plan is there"]),
    ({"m.duplex": "plan,two_ends.plan\ndelay,10\nmark,99\nslots,500\nback,9,one.pcap\nout,m\n"}, "duplex m.duplex", ["m.duplex:5: back: two_ends.plan does not list channel 9"]),
    ({"m.plan": "lanes,2\nmetaframe,32\nchannel,1\nout,x/y/z\n"}, "send m.plan", ["x/y/z.lane.0: the folder x/y does not exist; `mkdir -p x/y` creates it"]),
    ({"m.plan": "lanes,2\nmetaframe,32\nchannel,1\nout,one.pcap/z\n"}, "send m.plan", ["one.pcap/z.lane.0: one.pcap is not a folder"]),
    ({"m.plan": "lanes,2\nmetaframe,32\nchannel,1,one.pcap\nout,full\n"}, "burst m.plan", ["full.words: it is /dev/full, which is not a regular file"]),
    ({"m.plan": LINK}, "receive m.plan", ["m.lane.0: no such file: `interlaken link m.plan` makes it"]),
    ({"m.txt": "words\ndata 0001020304050607\ndata 00010203040506\n"}, "assemble m.txt", [
        "m.txt:3: 'data 00010203040506' is no line of a listing: 14 digits, and not 16; the lines after `words` are `data X`, `bad X`, `control X` (X: 16 digits of 0 to 9 and A to F), "
        "`idle sop=..` or `burst sop=..`"]),
    ({"m.plan": LINK + "schedule,m.schedule\nflow,m.flow\n", "m.schedule": "skew,0,11\nskew,1,700\nflip,0,9000\nflip,1,90000\nflip,0,9000\n", "m.flow": "0,81BFFF00004B8D9E\n"}, "link m.plan", [
        "m.flow:1: warning: word: 81BFFF00004B8D9E changes nothing: its CRC24 is wrong: 81BFFF00004B8D9D has the right one",
        "m.schedule:2: warning: skew: lanes 0 and 1 lie 689 bits apart, more than deskew,7 aligns, 469 bits (7 words of 67): the lanes will not align",
        "m.schedule:5: warning: flip: bit 9000 of lane 0 is named 2 times, first in line 3, and stays as it was",
        "m.schedule:4: warning: flip: bit 90000 is after the end of lane 1, which has bits 0 to 23583: it has no effect",
        "m: warning: all lanes are locked, and do not align: the nearest Sync words of all lanes lie 689 bits apart, and deskew,7 aligns 469"]),
    ({"m.flow": "0,81BFFF00004B8D9D\n", "m.schedule": "skew,0,11\ndark,1,21000,1000\nflip,1,21001\n"}, "link m.plan", [
        "m.schedule:3: warning: flip: bit 21001 of lane 1 is dark, and stays 0",
        "m.schedule:2: warning: dark: bits 21000 to 21999 go beyond the end of lane 1, which has bits 0 to 21439: it strikes 440 bits of 1000",
        "m.schedule:2: warning: dark: bits 21000 to 21439 of lane 1 are in slots 549 to 559: it strikes no packet",
        "m.flow:1: warning: channel 2 is turned off here and not turned on again: 2 of its packets are left"]),
    ({}, "link damaged.plan", []),
    ({"v.plan": LINK.replace("out,m", "out,v") + "warmup,4\nschedule,v.schedule\n", "v.schedule": "skew,0,11\nskew,1,200\nflip,0,9000\nflip,0,12890\nflip,0,13420\ndark,1,14800,100\n"}, "link v.plan", [
        "v.schedule:5: warning: flip: bit 13420 of lane 0 is in slot 346: it strikes no packet",
        "v.schedule:6: warning: dark: bits 14800 to 14899 of lane 1 are in slots 387 to 391: it strikes no packet"]),
    ({"v.schedule": "skew,0,11\nflip,0,12890\ndark,1,12865,2\nflip,1,13420\n"}, "link v.plan", [
        "v.schedule:2: warning: flip: bit 12890 of lane 0 is in a framing word: it strikes no packet",
        "v.schedule:3: warning: dark: bits 12865 to 12866 of lane 1 are in framing words: it strikes no packet",
        "v.schedule:4: warning: flip: bit 13420 of lane 1 is in slot 347: it strikes no packet"]),
    ({}, "receive damaged.plan", []),
    ({"s.plan": LINK.replace("out,m", "out,s") + "schedule,s.schedule\n", "s.schedule": "skew,0,11\n"}, "damage s.plan", ["s.lane.0: no such file: `interlaken send s.plan` makes it"]),
    ({"s.lane.0": b"\x80\x01", "s.lane.1": b"", "s.schedule": "skew,0,11\nskew,1,700\nflip,0,30\nflip,0,3\nflip,0,3\ndark,0,10,9\nflip,0,11\nflip,1,0\n"}, "damage s.plan", [
        "s.schedule:5: warning: flip: bit 3 of lane 0 is named 2 times, first in line 4, and stays as it was",
        "s.schedule:7: warning: flip: bit 11 of lane 0 is dark, and stays 0",
        "s.schedule:3: warning: flip: bit 30 is after the end of lane 0, which has bits 0 to 15: it has no effect",
        "s.schedule:6: warning: dark: bits 10 to 18 go beyond the end of lane 0, which has bits 0 to 15: it strikes 6 bits of 9",
        "s.schedule:8: warning: flip: bit 0 is after the end of lane 1, which has no bits: it has no effect"]),
    ({"x.lane.0": "damaged.lane.1", "x.lane.1": "damaged.lane.0", "x.plan": LINK.replace("out,m", "out,x")}, "receive x.plan", [
        "x.lane.0: warning: it begins with the scrambler state of lane 1: are the lane files swapped?",
        "x.lane.1: warning: it begins with the scrambler state of lane 0: are the lane files swapped?"]),
    ({}, "gather damaged.plan", []),
    ({}, "gather x.plan", [
        "x.lane.0: warning: it begins with the scrambler state of lane 1: are the lane files swapped?",
        "x.lane.1: warning: it begins with the scrambler state of lane 0: are the lane files swapped?"]),
    ({"x.lane.0": bytes(2000)}, "gather x.plan", [
        "x.lane.0: warning: no lock: four Sync words, 32 words apart (metaframe,32), were not found",
        "x: warning: a lane without a lock keeps all lanes from aligning: no word can come",
        "x.lane.1: warning: it begins with the scrambler state of lane 0: are the lane files swapped?"]),
    ({"g.plan": LINK.replace("out,m", "out,g")}, "gather g.plan", ["g.lane.0: no such file: `interlaken link g.plan` makes it"]),
    ({}, "inspect damaged.plan", []),
    ({}, "inspect x.plan", [
        "x.lane.0: warning: no lock: four Sync words, 32 words apart (metaframe,32), were not found",
        "x.lane.1: warning: it begins with the scrambler state of lane 0: are the lane files swapped?"]),
    ({}, "inspect g.plan", ["g.lane.0: no such file: `interlaken link g.plan` makes it"]),
    ({"g.lane.0": b"\0"}, "receive g.plan", ["g.lane.1: no such file: `interlaken link` of this plan with another `out` makes new files"]),
    ({"l.txt": "lane\ncode 0 10 2BFFFFFFFFFFFFFF\n"}, "assemble l.txt", ["l.txt:2: 'code 0 10 2BFFFFFFFFFFFFFF' is no line of a listing: a Scrambler State word is written `state 0 3FFFFFFFFFFFFFF`; " + LANE_LINES]),
    ({"l.txt": "lane\ncode 1 10 78F678F678F678F6\n"}, "assemble l.txt", ["l.txt:2: 'code 1 10 78F678F678F678F6' is no line of a listing: a Sync word is written `sync 1`; " + LANE_LINES]),
    ({"l.txt": "lane\nsync 0\ncode 10 0000000000000000\n"}, "assemble l.txt", [
        "l.txt:3: 'code 10 0000000000000000' is no line of a listing: `code` has three fields: I, the inversion bit; HH, the two header bits; X, the payload with the inversion undone; " + LANE_LINES]),
    ({"l.txt": "lane\ncode 0 2 0000000000000000\n"}, "assemble l.txt", ["l.txt:2: 'code 0 2 0000000000000000' is no line of a listing: HH, the header, is two bits, as 01 or 10, and not '2'; " + LANE_LINES]),
    ({"l.txt": "lane\ncode 0 10 000000000000000\n"}, "assemble l.txt", ["l.txt:2: 'code 0 10 000000000000000' is no line of a listing: 15 digits, and not 16; " + LANE_LINES]),
    ({"l.txt": "words\ncontrol 81ffff0000188177\n"}, "assemble l.txt", [
        "l.txt:2: 'control 81ffff0000188177' is no line of a listing: a valid control word is written `idle sop=0 eop=none reset=1 flow=FFFF channel=0 multi=0 crc=188177`; the lines after `words` are `data X`, `bad X`, `control X` "
        "(X: 16 digits of 0 to 9 and A to F), `idle sop=..` or `burst sop=..`"]),
]
# A plan of a device's lanes; calls that would write over its files, or over a capture; and what is said in place of the run.
DEVICE = "lanes,2\nmetaframe,32\nchannel,1\nout,d\n"
INSTEAD = "run it of a plan with another `out`, or with --overwrite"
GUARDED = [
    # Each run that is allowed leaves its files to the next.
    ({"d.plan": DEVICE, "d.lane.1": b"lane"}, "link d.plan", "d.lane.1: it exists, and `link` of a plan that names no captures would write over it: "),
    ({}, "send d.plan", "d.lane.0: it exists, and `send` of a plan that names no captures would write over it: "),
    ({"d.words": b""}, "burst d.plan", "d.words: it exists, and `burst` of a plan that names no captures would write over it: "),
    ({}, "stripe d.plan", "d.lane.0: it exists, and `stripe` would write over it: "),
    ({"e.plan": DEVICE.replace("out,d", "out,e"), "e.spans.csv": b""}, "link e.plan", "e.spans.csv: it exists, and `link` of a plan that names no captures would write over it: "),
    ({"c.plan": LINK.replace("out,m", "out,c"), "c.words": b"", "c.lane.0": b"old"}, "stripe c.plan", "c.lane.0: it exists, and `stripe` would write over it: "),
    ({"c.1.pcap": "one.pcap", "c.plan": LINK.replace("one.pcap", "./c.1.pcap").replace("out,m", "out,c")}, "link c.plan", "c.plan: `link` would write over ./c.1.pcap, a capture that the plan names: "),
    ({"c.1.pcap": "three.pcap"}, "receive c.plan", "c.plan: `receive` would write over ./c.1.pcap, a capture that the plan names: "),
    ({"c.1.pcap": "three.pcap"}, "join c.plan", "c.plan: `join` would write over ./c.1.pcap, a capture that the plan names: "),
    ({"u.a.1.pcap": "one.pcap", "u.plan": LINK.replace("one.pcap", "u.a.1.pcap"), "u.duplex": "plan,u.plan\ndelay,10\nmark,99\nslots,500\nout,u\n"}, "duplex u.duplex",
     "u.duplex: `duplex` would write over u.a.1.pcap, a capture that the plan names: "),
]


def spoil_row(chance, row):
    """A row with one of its fields changed, left out or added."""
    row = list(row)
    place = chance.randrange(len(row))
    how = chance.random()
    if how < 0.15:
        row.pop(place)
    elif how < 0.3:
        row.insert(place, chance.choice(FIELDS))
    elif place == 0:
        row[0] = chance.choice(KEYS + FIELDS if how < 0.6 else FIELDS)
    else:
        row[place] = chance.choice(FIELDS)
    return row


def spoil_rows(chance, rows):
    """Rows of which one is changed, left out, repeated, moved or added, or many of one key are added."""
    place, how = chance.randrange(len(rows)), chance.random()
    if how < 0.55:
        rows[place] = spoil_row(chance, rows[place])
    elif how < 0.65:
        rows.pop(place)
    elif how < 0.75:
        rows.insert(chance.randrange(len(rows)), list(rows[place]))
    elif how < 0.83:
        rows.append(rows.pop(place))
    elif how < 0.9:
        rows.insert(place, [chance.choice(KEYS), chance.choice(FIELDS)])
    elif how < 0.93:
        rows[place:place] = [[chance.choice(("entry", "channel", "back", "flip", "send")), "%d" % n, "1"][:chance.choice((2, 2, 3))] for n in range(chance.choice((3, 300, 1030)))]
    else:
        rows.insert(place, [chance.choice(("", " ", "#"))])
    return rows or [["x"]]


def spelled(chance, field):
    if chance.random() < 0.03 or set(field) & set(',"\r\n'):
        return '"%s"' % field.replace('"', '""')
    return field


def text_of(chance, rows):
    """Rows as bytes, with one of the ends of lines, empty lines here and there, and a byte order mark now and then."""
    end = chance.choice(("\n", "\n", "\r\n", "\r"))
    lines = [",".join(spelled(chance, field) for field in row) + end * (1 + (chance.random() < 0.05)) for row in rows]
    text = ("\ufeff" if chance.random() < 0.1 else "") + "".join(lines)
    return text.encode("utf-8", "surrogateescape")


def spoil_bytes(chance, data):
    """Bytes of which one is changed, left out or added, or which end early."""
    at, how = chance.randrange(len(data) + 1), chance.random()
    some = bytes([chance.choice((0, 1, 2, 3, 8, 10, 13, 34, 44, 48, 57, 255, chance.randrange(256)))])
    if chance.random() < 0.3:
        at = min(at, 9 * chance.randrange(12))
    return data[:at] + (some + data[at + 1:] if how < 0.5 else data[at + 1:] if how < 0.65 else some + data[at:] if how < 0.8 else b"" if how < 0.95 else data)


def refusal_of(folder, command, name):
    """What the tools' readers find, in the program's words."""
    refused = Inputs(folder, command, name, True).refused
    if refused is None:
        return None
    if refused.told is None:
        return "status 1: store fault: %s" % refused.name
    return "plan refused: %s" % refused.told if refused.is_plan else "input refused: %s: %s" % (refused.name, refused.told)


def told_by(folder, words):
    """The refusal that the program prints, or nothing."""
    done = subprocess.run([PROGRAM] + words, cwd=folder.folder, stdin=subprocess.DEVNULL, capture_output=True)
    text = done.stdout.decode("utf-8", "replace").rstrip("\n")
    return text if done.returncode in (4, 5) else None if done.returncode in (0, 3) else "status %d: %s" % (done.returncode, text)


def compare(tally, folder, what, command, name, causes):
    wanted = told_by(folder, [command, name])
    tally.expect("%s, %s" % (what, command), refusal_of(folder, command, name), wanted)
    causes[(command, "accepted" if wanted is None else wanted.split(": ")[-1].split(" ")[0])] += 1


def check_spoiled(tally, folder, causes):
    """Files that are spoiled, one at a time."""
    for file, command, name, count in CASES + BYTES:
        with open(folder.path(file), "rb") as kept:
            data = kept.read()
        for number in range(count):
            chance = random.Random("%s %s %d" % (file, command, number))
            spoiled = data
            if file in FILES and chance.random() < 0.88:
                rows = [line.split(",") for line in data.decode().splitlines()]
                for _ in range(chance.choice((1, 1, 2, 3))):
                    rows = spoil_rows(chance, rows)
                spoiled = text_of(chance, rows)
            else:
                for _ in range(chance.choice((1, 1, 2))):
                    spoiled = spoil_bytes(chance, spoiled)
            with open(folder.path(file), "wb") as changed:
                changed.write(spoiled)
            compare(tally, folder, "%s, spoiled %d" % (file, number), command, name, causes)
            for other in os.listdir(folder.folder):
                if ".lane." in other:
                    os.remove(folder.path(other))
        with open(folder.path(file), "wb") as changed:
            changed.write(data)


def check_causes(tally, causes):
    """That what was tried has each cause that the program names of rows, and files that are accepted."""
    for command, wanted in (("link", ("text", "key", "fields", "number", "range", "repeat", "clash", "missing", "no", "accepted")), ("duplex", ("key", "fields", "number", "range", "repeat", "clash", "missing", "accepted")),
                            ("resend", ("key", "fields", "number", "range")), ("damage", ("key", "fields", "number", "range", "repeat"))):
        for cause in wanted:
            tally.count("`%s` with the cause %s" % (command, cause), "" if causes[(command, cause)] else "was not tried")


def check_mistakes(tally, folder):
    """That the tool passes on what the program prints, and says what each mistake is."""
    os.symlink("/dev/full", folder.path("full.words"))
    for files, command, wanted in MISTAKES:
        for name, data in files.items():
            is_copy = isinstance(data, str) and folder.has(data)
            with open(folder.path(name), "wb") as file:
                file.write(folder.content(data) if is_copy else data if isinstance(data, bytes) else data.encode())
        words = command.split(" ") if command else []
        alone = subprocess.run([PROGRAM] + words, cwd=folder.folder, capture_output=True)
        done = subprocess.run([TOOL, "--program", PROGRAM] + words, cwd=folder.folder, capture_output=True)
        tally.expect("explain %s, text and status" % command, (done.stdout, done.returncode), (alone.stdout, alone.returncode))
        lines = done.stderr.decode().splitlines()
        tally.expect("explain %s" % command, lines[:1] if alone.returncode == 2 else lines, wanted)
    with open("/dev/full", "w") as full:
        statuses = [subprocess.run(words + ["burst", "one.pcap"], cwd=folder.folder, stdout=full, stderr=subprocess.DEVNULL).returncode for words in ([PROGRAM], [TOOL, "--program", PROGRAM])]
    tally.expect("explain with a standard output that is full", statuses, [7, 7])


def check_guarded(tally, folder):
    """That no command is run which would write over a device's files or over a capture, unless the call allows it."""
    for files, command, told in GUARDED:
        for name, data in files.items():
            content_of = folder.content(data) if isinstance(data, str) and folder.has(data) else data if isinstance(data, bytes) else data.encode()
            write_files(folder.folder, {name: content_of})
        words, before = command.split(" "), sums(folder.folder)
        done = subprocess.run([TOOL, "--program", PROGRAM] + words, cwd=folder.folder, capture_output=True, encoding="utf-8")
        tally.expect("explain %s over a file" % command, (done.returncode, done.stdout, done.stderr), (2, "", "explain: %s%s\n" % (told, INSTEAD)))
        tally.expect("explain %s, changed" % command, changed(before, sums(folder.folder)), [])
        done = subprocess.run([TOOL, "--overwrite", "--program", PROGRAM] + words, cwd=folder.folder, capture_output=True, encoding="utf-8")
        tally.expect("explain --overwrite %s" % command, (done.returncode in (0, 3), changed(before, sums(folder.folder)) != []), (True, True))
        for name, data in files.items():
            if isinstance(data, bytes) or folder.has(str(data)):
                write_files(folder.folder, {name: folder.content(data) if isinstance(data, str) else data})


def check_same_file(tally, folder):
    """That no command is run whose output is a file that it reads, by a symbolic link, a hard link or another spelling of the name."""
    files = {"s.plan": LINK.replace("out,m", "out,s").encode(), "s.lane.0": b"lane", "s.lane.1": b"lane", "s.words": b"", "s.words.txt": b"text"}
    cases = [
        ("receive s.plan", os.symlink, "s.lane.0", "s.1.pcap", "s.1.pcap: it is the file s.lane.0, which `receive` reads: " + INSTEAD),
        ("gather s.plan", os.link, "s.lane.1", "s.words", "s.words: it is the file s.lane.1, which `gather` reads: " + INSTEAD),
        ("join s.plan", os.link, "s.words", "s.spans.csv", "s.spans.csv: it is the file s.words, which `join` reads: " + INSTEAD),
        ("list ./s.words", os.symlink, "s.words", "s.words.txt", "./s.words.txt: it is the file ./s.words, which `list` reads: " + INSTEAD),
    ]
    for command, link, name, other, told in cases:
        write_files(folder.folder, files)
        if os.path.lexists(folder.path(other)):
            os.remove(folder.path(other))
        link(name if link is os.symlink else folder.path(name), folder.path(other))
        before = sums(folder.folder)
        done = subprocess.run([TOOL, "--program", PROGRAM] + command.split(" "), cwd=folder.folder, capture_output=True, encoding="utf-8")
        tally.expect("explain %s with %s as %s" % (command, name, other), (done.returncode, done.stdout, done.stderr), (2, "", "explain: %s\n" % told))
        tally.expect("explain %s with %s as %s, changed" % (command, name, other), changed(before, sums(folder.folder)), [])
        os.remove(folder.path(other))


def check_ends(tally, folder):
    """How each tool tells its words, and ends if nobody reads its output, or where a file is missing."""
    for tool, words in (("explain", []), ("slots", []), ("picture", []), ("waves", []), ("campaign", ["1", "1"]), ("seconds", [])):
        path = os.path.join(TOP, "tools", tool)
        done = subprocess.run([path, "--help"], cwd=folder.folder, capture_output=True, encoding="utf-8")
        tally.expect("%s --help" % tool, (done.returncode, done.stderr, done.stdout[:7], len(done.stdout) > 100), (0, "", "usage: ", True))
        shell = subprocess.run(["bash", "-c", '{ "$0" --help; echo "$?" >&3; } 3>&2 2>errors | exec true', path], cwd=folder.folder, capture_output=True, encoding="utf-8")
        tally.expect("%s, output that nobody reads" % tool, (shell.stderr.strip() in ("0", "141"), folder.content("errors")), (True, b""))
        if tool == "explain" or tool == "campaign" and not shutil.which("parallel"):
            continue
        done = subprocess.run([path, "--absent"], cwd=folder.folder, capture_output=True, encoding="utf-8")
        tally.expect("%s --absent" % tool, (done.returncode, done.stdout, done.stderr.count("\n"), done.stderr[:len(tool) + 2]), (2, "", 1, tool + ": "))
        done = subprocess.run([path, *words, "absent"] + ["--plan", "absent.plan", "--dark", "1"] * (tool == "campaign"), cwd=folder.folder, capture_output=True, encoding="utf-8")
        tally.expect("%s of a file that is not there" % tool, (done.returncode, done.stdout, done.stderr.count("\n"), done.stderr[:len(tool) + 8]), (2, "", 1, tool + ": absent"))


def main():
    tally = Tally("explain")
    with tempfile.TemporaryDirectory() as path:
        copy_examples(TOP, path)
        folder = Folder(PROGRAM, path)
        for name, text in FILES.items():
            with open(folder.path(name), "w", encoding="utf-8") as file:
                file.write(text)
        for command in ("oobwrite", "burst"):
            done = subprocess.run([PROGRAM, command, "a.plan"], cwd=path, capture_output=True)
            if done.returncode or not (folder.has("a.oob") if command == "oobwrite" else folder.has("a.words")):
                tally.give_up("%s a.plan" % command, "status %d, and no file to spoil" % done.returncode)
        causes = Counter()
        check_spoiled(tally, folder, causes)
        check_causes(tally, causes)
        check_mistakes(tally, folder)
        check_guarded(tally, folder)
        check_same_file(tally, folder)
        check_ends(tally, folder)
    return tally.end()


if __name__ == "__main__":
    sys.exit(main())
