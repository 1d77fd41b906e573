"""Runs the commands that read what another end made on a table of files that none would make, and compares with what is written down.

    python3 hostile.py PROGRAM [--write MODEL] [CASE..]

`join`, `stripe` and `check` get words files, `receive`, `gather` and `inspect` lanes, `damage` lanes and a schedule, `oobwrite` local rows, `oobread` samples, `resend` events, and `duplex` two ends. What
each case has to come to stands in hostile.txt: a line '== CASE -- WORDS', 'status N', the text, and a line 'NAME LENGTH SHA-256' for
each file that is created. Of a text of more than 40 lines the line 'text LENGTH SHA-256' stands there, and of more than 40 files
the line 'files LENGTH SHA-256' of their lines. --write makes that file anew by an independent model, MODEL, which is called as the
program is. Nothing may come on standard error, every other file has to be as it was, and the run has to end in time. A case that
stands only here or only there fails.
"""

import hashlib
import os
import random
import sys

from lib.captures import capture
from lib.runs import Run, left_by
from lib.tally import Tally

WANTED = os.path.join(os.path.dirname(os.path.abspath(__file__)), "hostile.txt")
METAFRAME = 32
# The most bytes of a plan, of a file of rows, and of samples, the most events, and the most slots of two ends.
PLAN, ROWS, SAMPLES, EVENTS, SLOTS = 1048576, 16777216, 4194304, 4194304, 16777215
# A model is asked for this many slots in place of the most, since by then both ends only send idles.
SETTLED = 20000
# A run of a model has to end by then.
MODEL_SECONDS = 3600
# More lines of a text, or of files, are kept by their checksum.
LINES = 40
ONE = b"lanes,1\nmetaframe,32\nwarmup,4\nchannel,1,a.pcap\nchannel,2,b.pcap\nout,o\n"
FOUR = b"lanes,4\nmetaframe,32\nwarmup,4\nchannel,0,a.pcap\nout,o\n"
CAPTURES = {"a.pcap": capture(["300", "40"]), "b.pcap": capture(["300", "40"])}


class Bits:
    """The bits of a lane, the first in the highest bit of its first byte."""

    def __init__(self, data):
        self.bits = bytearray((byte >> 7 - bit) & 1 for byte in data for bit in range(8))

    def bytes(self):
        bits = self.bits + bytes(-len(self.bits) % 8)
        return bytes(int("".join(map(str, bits[at:at + 8])), 2) for at in range(0, len(bits), 8))

    def invert(self, word, bit, count=1):
        """Bits of a word are numbered as they come: two of its three first are the header."""
        for at in range(67 * word + bit, 67 * word + bit + count):
            self.bits[at] ^= 1
        return self

    def after_ones(self, count):
        self.bits[0:0] = b"\x01" * count
        return self

    def without(self, at):
        self.bits.pop(at)
        return self

    def put(self, at, count, value):
        self.bits[at:at + count] = bytes([value]) * count
        return self


def lanes_with(lanes, **changed):
    """The lanes 0, 1, .. with some of them changed: a lane of None is not there."""
    files = {"o.lane.%d" % lane: data for lane, data in enumerate(lanes)}
    files.update({name.replace("lane", "o.lane."): data for name, data in changed.items()})
    return {name: data for name, data in files.items() if data is not None}


def losing_locks(lane):
    """The same lane with wrong headers, state words and Syncs, as many as a lock stands and one more."""
    syncs, states = range(0, 1000, METAFRAME), range(1, 1000, METAFRAME)
    cases = {}
    headers = Bits(lane)
    for word in range(110, 126):
        headers.invert(word, 1)
    cases["sixteen wrong headers in a row"] = headers.bytes()
    spread = Bits(lane)
    for word in range(120, 150, 2):
        spread.invert(word, 1)
    cases["fifteen wrong headers"] = spread.bytes()
    for count in (2, 3):
        damaged = Bits(lane)
        for word in states[5:5 + count]:
            damaged.invert(word, 4)
        cases["%d wrong state words in a row" % count] = damaged.bytes()
    for count in (3, 4):
        damaged = Bits(lane)
        for word in syncs[4:4 + count]:
            damaged.invert(word, 30)
        cases["%d wrong Syncs in a row" % count] = damaged.bytes()
    cases["a wrong state word behind the declaring Sync"] = Bits(lane).invert(97, 5).bytes()
    cases["a bit of the state behind the declaring Sync"] = Bits(lane).invert(97, 40).bytes()
    return cases


def on_one_lane(lane):
    """The cases of one lane, which has the words of the two captures: its metaframes have 32 words, from bit 0 on."""
    r = random.Random(1)
    cases = {
        "no bytes": b"", "one byte": lane[:1], "zeros": bytes(2412), "ones": b"\xff" * 2412, "fifty-fives": b"\x55" * 2412,
        "random bytes": r.randbytes(2412), "a lane between random bytes": r.randbytes(50) + lane + r.randbytes(50),
        "a lane cut in half": lane[:1206], "a lane without its last byte": lane[:-1], "a lane without its first byte": lane[1:],
        "a lane twice": lane + lane, "a lane that begins again": lane[:1500] + lane, "each byte reversed": bytes(int("{:08b}".format(b)[::-1], 2) for b in lane),
        "all bits inverted": bytes(255 - b for b in lane), "bytes turned around": lane[::-1],
        "sixty-six ones in front": Bits(lane).after_ones(66).bytes(), "four Syncs alone": lane[:67 * 97 // 8], "a thousand ones behind": lane + b"\xff" * 125,
    }
    cases.update(losing_locks(lane))
    cases["a word slipped by one bit"] = Bits(lane).without(67 * 130).bytes()
    cases["dark for three metaframes"] = Bits(lane).put(67 * 140, 67 * 96, 0).bytes()
    cases["two words damaged"] = Bits(lane).invert(150, 9).invert(230, 9).bytes()
    damaged = Bits(lane)
    for word in range(0, 288):
        if word % 3 == 1:
            damaged.invert(word, 10 + word % 50)
    cases["each third word damaged"] = damaged.bytes()
    found = {name: (["receive", "p.plan"], {"p.plan": ONE, "o.lane.0": data}) for name, data in cases.items()}
    for name, data in cases.items():
        found["%s, gathered" % name] = (["gather", "p.plan"], {"p.plan": ONE, "o.lane.0": data})
        found["%s, inspected" % name] = (["inspect", "p.plan"], {"p.plan": ONE, "o.lane.0": data})
    found["no lane"] = (["receive", "p.plan"], {"p.plan": ONE})
    found["a smaller longest packet"] = (["receive", "p.plan"], {"p.plan": ONE + b"max_packet,100\n", "o.lane.0": lane})
    found["a channel that is not listed"] = (["receive", "p.plan"], {"p.plan": ONE.replace(b"channel,2,b.pcap\n", b""), "o.lane.0": lane})
    found["another metaframe"] = (["receive", "p.plan"], {"p.plan": ONE.replace(b",32", b",33"), "o.lane.0": lane})
    found["more Skip words"] = (["receive", "p.plan"], {"p.plan": ONE + b"skips,3\n", "o.lane.0": lane})
    return found


def on_four_lanes(lanes):
    skewed = [Bits(lane).after_ones(skew).bytes() for lane, skew in zip(lanes, (0, 1, 66, 469))]
    beyond = Bits(lanes[3]).after_ones(470).bytes()
    late = Bits(lanes[3]).after_ones(67 * METAFRAME).bytes()
    cases = {
        "four lanes": lanes_with(lanes), "skewed lanes": lanes_with(skewed), "a skew beyond the depth": lanes_with(skewed, lane3=beyond),
        "a lane a metaframe late": lanes_with(lanes, lane3=late), "lanes swapped": lanes_with(lanes, lane1=lanes[2], lane2=lanes[1]),
        "a lane given twice": lanes_with(lanes, lane2=lanes[1]), "a lane that is not there": lanes_with(lanes, lane2=None),
        "an empty lane": lanes_with(lanes, lane2=b""), "a lane cut in half": lanes_with(lanes, lane1=lanes[1][:len(lanes[1]) // 2]),
        "a lane of zeros": lanes_with(lanes, lane3=bytes(len(lanes[3]))), "a longer lane": lanes_with(lanes, lane0=lanes[0] + lanes[0]),
        "one lane lost for a while": lanes_with(lanes, lane1=Bits(lanes[1]).put(67 * 150, 67 * 20, 0).bytes()),
    }
    found = {"%s of four" % name: (["receive", "p.plan"], {"p.plan": FOUR, **files}) for name, files in cases.items()}
    for name, files in cases.items():
        found["%s of four, gathered" % name] = (["gather", "p.plan"], {"p.plan": FOUR, **files})
        found["%s of four, inspected" % name] = (["inspect", "p.plan"], {"p.plan": FOUR, **files})
    return found


def on_schedules(lane):
    """The cases of a lane that `damage` changes by a schedule."""
    plan, r = b"lanes,1\nmetaframe,32\nchannel,1\nschedule,s\nout,o\n", random.Random(6)
    bits = 8 * len(lane)
    cases = {
        "no rows": b"", "zeros": bytes(1000), "random bytes": r.randbytes(1000), "a quote that stays open": b'flip,0,"1\n' * 1000, "a row of many fields": b"flip" + b",0" * 100000,
        "a bit of a megabyte": b"flip,0," + b"1" * 1000000, "a bit of sixteen digits": b"flip,0,0000000000000001\n", "a lane that is not there": b"skew,0,1\nflip,1,0\n",
        "the greatest skew": b"skew,0,65535\nflip,0,0\n", "a greater skew": b"skew,0,65536\n", "a skew twice": b"skew,0,1\nskew,0,1\n",
        "each bit inverted": b"".join(b"flip,0,%d\n" % bit for bit in range(bits)), "each bit inverted twice": b"".join(b"flip,0,%d\n" % bit for bit in [*range(bits), *range(bits)]),
        "each bit dark by itself, the last first": b"".join(b"dark,0,%d,1\n" % bit for bit in reversed(range(bits))), "dark from each hundredth bit to the end": b"".join(b"dark,0,%d,999999999999\n" % bit for bit in range(0, bits, 100)),
        "dark without a bit": b"dark,0,0,0\n", "the last bit and the first beyond": b"flip,0,%d\nflip,0,%d\ndark,0,%d,2\ndark,0,%d,1\n" % (bits - 1, bits, bits - 1, bits),
        "many rows beyond the end": b"flip,0,999999999999\ndark,0,999999999999,999999999999\n" * 20000, "random rows": b"".join(b"flip,0,%d\ndark,0,%d,%d\n" % (r.randrange(2 * bits), r.randrange(2 * bits), r.randint(1, 99)) for _ in range(500)),
        "at the limit": b"flip,0,1\n" * (ROWS // 9) + b"\n" * (ROWS % 9), "above the limit": b"\n" * (ROWS + 1),
    }
    found = {"schedule: %s" % name: (["damage", "p.plan"], {"p.plan": plan, "s": data, "o.lane.0": lane}) for name, data in cases.items()}
    for name, data in {"an empty lane": b"", "a lane of one byte": lane[:1], "a lane of random bytes": r.randbytes(2412)}.items():
        found["schedule: %s" % name] = (["damage", "p.plan"], {"p.plan": plan, "s": b"skew,0,1\nflip,0,0\nflip,0,8\ndark,0,3,99\n", "o.lane.0": data})
    found["schedule: the folder itself"] = (["damage", "p.plan"], {"p.plan": plan.replace(b"schedule,s", b"schedule,."), "o.lane.0": lane})
    found["schedule: the lane itself"] = (["damage", "p.plan"], {"p.plan": plan.replace(b"schedule,s", b"schedule,o.lane.0"), "o.lane.0": lane})
    found["schedule: a lane file alone"] = (["damage", "p.plan"], {"p.plan": plan, "o.lane.0": lane})
    found["schedule: no lane"] = (["damage", "p.plan"], {"p.plan": plan, "s": b""})
    found["schedule: a prefix in a folder that is not there"] = (["damage", "p.plan"], {"p.plan": plan.replace(b"out,o", b"out,absent/o"), "s": b""})
    return found


def on_words(words):
    """The cases of a words file: nine bytes a word."""
    r = random.Random(2)
    each = [words[at:at + 9] for at in range(0, len(words), 9)]
    bad = lambda word: b"\x03" + word[1:]
    cases = {
        "no words": b"", "one word": words[:9], "zeros": bytes(90), "fifty-fives": b"\x55" * 90, "random bytes": r.randbytes(900),
        "random words": b"".join(bytes([r.choice([1, 2, 3])]) + r.randbytes(8) for _ in range(100)), "short of a byte": words[:-1],
        "a byte more": words + b"\x01", "all bad": b"".join(map(bad, each)), "each fifth bad": b"".join(bad(w) if n % 5 == 0 else w for n, w in enumerate(each)),
        "twice": words + words, "turned around": b"".join(each[::-1]), "the first word lost": words[9:], "a word in the middle lost": b"".join(each[:20] + each[21:]),
        "each word twice": b"".join(w + w for w in each), "data as control": b"".join(b"\x02" + w[1:] for w in each), "control as data": b"".join(b"\x01" + w[1:] for w in each),
        "shuffled": b"".join(r.sample(each, len(each))), "cut in a burst": b"".join(each[:15]), "idles alone": each[0] * 50,
    }
    found = {"words: %s" % name: (["join", "p.plan"], {"p.plan": ONE, "o.words": data}) for name, data in cases.items()}
    for name in ("random words", "shuffled", "data as control"):
        found["words: %s on wide channels" % name] = (["join", "p.plan"], {"p.plan": ONE + b"wide,1\n", "o.words": cases[name]})
    found["words: on one channel"] = (["join", "o.words"], {"o.words": words})
    for name in ("no words", "one word", "random bytes", "short of a byte", "a byte more", "each fifth bad", "shuffled", "cut in a burst"):
        found["words: %s on lanes" % name] = (["stripe", "p.plan"], {"p.plan": FOUR, "o.words": cases[name]})
    for name in cases:
        found["words: %s judged" % name] = (["check", "p.plan"], {"p.plan": ONE, "o.words": cases[name]})
    found["words: a smaller longest packet"] = (["join", "p.plan"], {"p.plan": ONE + b"max_packet,299\n", "o.words": words})
    return found


def calendar(entries):
    return b"".join(b"channel,%d\n" % entry for entry in range(entries)) + b"wide,1\n"


def status_plan(entries):
    return b"lanes,1\nmetaframe,32\nout,o\nlocal,o.local\noob,o.oob\n" + calendar(entries)


def on_rows():
    """The cases of a local file, whose rows `oobwrite` shows."""
    cases = {
        "an early and the last slot": (1024, b"0,5,off\n16777215,5,on\n"), "zeros": (2, bytes(1000)), "a quote that stays open": (2, b'0,1,"off\n' * 1000),
        "a row of many fields": (2, b"0,1,off" + b",off" * 100000), "a field of a megabyte": (2, b"0" * 1000000 + b",1,off\n"), "line ends alone": (2, b"\r\n" * 500000),
        "many rows at one slot": (3, b"".join(b"9,%d,%s\n" % (n % 3, (b"off", b"on")[n % 7 == 0]) for n in range(100000))),
        "at the limit": (1, b"0,0,off\n" * (ROWS // 8)), "above the limit": (1, b"0,0,off\n" * (ROWS // 8) + b"\n"),
    }
    found = {"rows: %s" % name: (["oobwrite", "p.plan"], {"p.plan": status_plan(n), "o.local": rows}) for name, (n, rows) in cases.items()}
    found["rows: the folder itself"] = (["oobwrite", "p.plan"], {"p.plan": status_plan(1).replace(b"o.local", b".")})
    found["rows: a prefix in a folder that is not there"] = (["oobwrite", "p.plan"], {"p.plan": status_plan(1).replace(b"out,o", b"out,absent/o"), "o.local": b""})
    return found


def on_samples(made):
    """The cases of samples: of calendars with one entry, two, and as many as give a second block, and the most."""
    r = random.Random(3)
    rows = b"0,0,off\n100,0,on\n2500,0,off\n"
    one, two, blocks, most = (made(["oobwrite", "p.plan"], {"p.plan": status_plan(n), "o.local": rows}, "o.oob")[0] for n in (1, 2, 65, 1024))
    with_bits = lambda data, bits: bytes(sample ^ bits for sample in data)
    cases = {
        "none": (1, b""), "one": (1, b"\7"), "zeros": (1, bytes(1000)), "sevens": (1, b"\7" * 1000), "fives and fours": (1, b"\4\5" * 500), "sixes and sevens": (1, b"\6\7" * 500),
        "random samples": (1, bytes(r.randrange(8) for _ in range(9000))), "random samples of two blocks": (65, bytes(r.choice([0, 1, 2, 3] * 9 + [6, 7]) for _ in range(9000))),
        "random bytes": (2, r.randbytes(9000)), "an eight at first": (2, b"\x08" + two), "an eight at last": (2, two + b"\x08"), "a high bit in the middle": (2, two[:500] + b"\x87" + two[501:]),
        "all bits high": (2, b"\xff" * 100), "turned around": (2, two[::-1]), "each sample twice": (2, bytes(s for s in two for _ in (0, 1))), "of another calendar": (2, one),
        "without the first": (2, two[1:]), "clock inverted": (2, with_bits(two, 1)), "data inverted": (2, with_bits(two, 2)), "sync inverted": (2, with_bits(two, 4)),
        "lines swapped": (2, bytes(s & 1 | s >> 1 & 2 | s << 1 & 4 for s in two)), "without a sync": (2, bytes(s & 3 for s in two)), "a sync in each third bit": (2, bytes(s | 4 * (n % 6 > 3) for n, s in enumerate(two))),
        "a sync at the last bit": (2, two[:-2] + bytes(s | 4 for s in two[-2:])), "each frame without its last bit": (2, b"".join(two[n:n + 10] for n in range(0, len(two), 12))),
        "each frame with a bit more": (2, b"".join(two[n:n + 12] + b"\0\1" for n in range(0, len(two), 12))), "each five hundredth sample damaged": (65, bytes(s ^ (1 << n % 3) * (n % 500 == 99) for n, s in enumerate(blocks))),
        "two blocks cut between": (65, blocks[:136] + blocks), "the most entries": (1024, most), "the most entries cut in the last block": (1024, most[:2175] + most),
        "at the limit": (1, (b"\6\7" + b"\0\1" * 4) * (SAMPLES // 10) + bytes(4)), "zeros at the limit": (1, bytes(SAMPLES)), "a sync in each bit at the limit": (1, b"\6\7" * (SAMPLES // 2)),
        "wrong at the limit": (1, bytes(SAMPLES - 1) + b"\x08"), "above the limit": (1, bytes(SAMPLES + 1)), "wrong and above the limit": (1, b"\x08" * (SAMPLES + 1)),
    }
    found = {"samples: %s" % name: (["oobread", "p.plan"], {"p.plan": status_plan(n), "o.oob": data}) for name, (n, data) in cases.items()}
    found["samples: the folder itself"] = (["oobread", "p.plan"], {"p.plan": status_plan(1).replace(b"o.oob", b".")})
    found["samples: the plan itself"] = (["oobread", "p.plan"], {"p.plan": status_plan(1).replace(b"o.oob", b"p.plan")})
    found["samples: a prefix in a folder that is not there"] = (["oobread", "p.plan"], {"p.plan": status_plan(1).replace(b"out,o", b"out,absent/o"), "o.oob": one})
    return found


def on_events():
    """The cases of events on a stream of 1,680 pieces."""
    plan = b"lanes,1\nmetaframe,32\nwarmup,58\nwindow,255\nchannel,0\nevents,e\nout,o\n"
    r = random.Random(4)
    names = [b"send", b"rewind", b"take", b"lose", b"repeat", b"takeback", b"loseback", b"repeatback"]
    busy = b"send,255\nrepeat,1000\ntake,1024\nrepeatback,9\ntakeback,1024\n"
    turns = b"send,1\ntake,1\ntakeback,1\n"
    cases = {
        "none": b"", "zeros": bytes(1000), "random bytes": r.randbytes(1000), "a quote that stays open": b'"send",1\n"take,1\n' * 1000, "a row of many fields": b"send" + b",1" * 100000,
        "a name of a megabyte": b"send" * 250000 + b",1\n", "a count of a megabyte": b"send," + b"1" * 1000000, "a huge count": b"send,1\ntake,999999999999999\n",
        "a count of sixteen digits": b"take,1000000000000000\n", "each event on empty queues": b"".join(name + b",400000\n" for name in names),
        "random events": b"".join(b"%s,%d\n" % (r.choice(names), r.randint(1, 300)) for _ in range(5000)),
        "one row of the most": b"send,%d\n" % EVENTS, "repeats of the most": b"send,1\nrepeat,%d\n" % (EVENTS - 1), "takes of the most": b"send,9\ntake,%d\n" % (EVENTS - 9),
        "full queues up to the most": busy * (EVENTS // 3312) + b"take,%d\n" % (EVENTS % 3312), "one more than the most": busy * (EVENTS // 3312) + b"take,%d\ntake,1\n" % (EVENTS % 3312),
        "all counts together above the most": b"lose,4194304\n" * 1000, "at the limit": turns * (ROWS // 25) + b"\n" * (ROWS % 25), "line ends at the limit": b"\n" * ROWS, "above the limit": b"\n" * (ROWS + 1),
    }
    found = {"events: %s" % name: (["resend", "p.plan"], {"p.plan": plan, "e": data}) for name, data in cases.items()}
    found["events: the folder itself"] = (["resend", "p.plan"], {"p.plan": plan.replace(b"events,e", b"events,.")})
    found["events: a prefix in a folder that is not there"] = (["resend", "p.plan"], {"p.plan": plan.replace(b"out,o", b"out,absent/o"), "e": turns})
    return found


def on_ends():
    """The cases of two ends."""
    r = random.Random(5)
    settings = b"plan,p.plan\ndelay,10\nmark,8\nslots,3000\nout,o\n"
    plan = b"lanes,1\nmetaframe,32\nwarmup,4\nchannel,1,a.pcap\nout,x\n"
    many = b"lanes,1\nmetaframe,32\nwarmup,4\nwide,1\nout,x\n"
    files = {"a.pcap": capture(["300", "40", "1000"]), "long.pcap": capture(["262128"])}
    back = b"back,1,a.pcap\n"
    # Captures of 262,168 bytes: 1,023 of them are within what all captures may have together.
    both = lambda a, b: (settings + b"".join(b"back,%d,long.pcap\n" % n for n in range(b)), many + b"".join(b"channel,%d%s\n" % (n, b",long.pcap" * (n < a)) for n in range(512)))
    cases = {
        "no bytes": (b"", plan), "zeros": (bytes(1000), plan), "random bytes": (r.randbytes(1000), plan), "a quote that stays open": (settings + b'back,"1,a.pcap\n', plan),
        "a row of many fields": (settings + b"back" + b",1" * 100000, plan), "a key of a megabyte": (b"delay" * 200000, plan), "a count of sixteen digits": (settings + b"drain,0000000000000001\n", plan),
        "at the limit": (settings + back + b"\n" * (PLAN - len(settings + back)), plan), "above the limit": (settings + b"\n" * (PLAN + 1 - len(settings)), plan),
        "a plan at the limit": (settings, plan + b"\n" * (PLAN - len(plan))), "a plan above the limit": (settings, plan + b"\n" * (PLAN + 1 - len(plan))),
        "the folder itself as plan": (settings.replace(b"p.plan", b"."), plan), "a prefix in a folder that is not there": (settings.replace(b"out,o", b"out,absent/o"), plan),
        "the longest delay": (settings.replace(b"delay,10", b"delay,4096").replace(b"3000", b"9000") + back, plan), "the least mark and the slowest drain": (settings.replace(b"mark,8", b"mark,1") + b"drain,1024\n" + back, plan),
        "the greatest mark": (settings.replace(b"mark,8", b"mark,65536") + back, plan), "more back rows than channels": (settings + b"".join(b"back,%d,a.pcap\n" % n for n in range(50000)), plan),
        "a thousand channels both ways": (settings + b"".join(b"back,%d,a.pcap\n" % (61 * n) for n in range(1000)), many + b"".join(b"channel,%d,a.pcap\n" % (61 * n) for n in range(1000))),
        "captures of both ends above the limit": both(512, 512), "an entry in each place but one": (settings + back, plan + b"channel,2,a.pcap\n" + b"entry,2\n" * 1023 + b"entry,1\n"),
        "the most slots": (settings.replace(b"3000", b"%d" % SLOTS) + back, plan), "one more than the most slots": (settings.replace(b"3000", b"%d" % (SLOTS + 1)), plan),
    }
    return {"ends: %s" % name: (["duplex", "d"], {"d": data, "p.plan": plan, **files}) for name, (data, plan) in cases.items()}


def table(made):
    """All cases: their words, and the files before. What is damaged is what `made` gives: the files that a command leaves."""
    one, = made(["send", "p.plan"], {"p.plan": ONE, **CAPTURES}, "o.lane.0")
    four = made(["send", "p.plan"], {"p.plan": FOUR, **CAPTURES}, *("o.lane.%d" % lane for lane in range(4)))
    words, = made(["burst", "p.plan"], {"p.plan": ONE, **CAPTURES}, "o.words")
    return {**on_one_lane(one), **on_four_lanes(four), **on_schedules(one), **on_words(words), **on_rows(), **on_samples(made), **on_events(), **on_ends()}


def maker(run, tally):
    """Gives files that a command leaves in a run that nothing damages; if it does not the check ends."""
    def made(words, before, *names):
        ended = run(words, before)
        if ended.status != 0 or any(name not in ended.files for name in names):
            tally.give_up(" ".join(words), "status %s, and not the files %s" % (ended.status, ", ".join(names)))
        return [ended.files[name] for name in names]
    return made


def shortened(kind, lines):
    """Many lines are kept by their checksum."""
    data = "".join(line + "\n" for line in lines).encode()
    return lines if len(lines) <= LINES else ["%s %d %s" % (kind, len(data), hashlib.sha256(data).hexdigest())]


def told(name, words, before, ended):
    """What stands in hostile.txt of a case that ended so; if it left another file changed, or complained, a line more."""
    status, text, error, files = ended
    lines = ["== %s -- %s" % (name, " ".join(words)), "status %s" % status] + shortened("text", text.decode(errors="replace").splitlines())
    created = sorted(set(files) - set(before))
    lines += shortened("files", ["%s %d %s" % (name, len(files[name]), hashlib.sha256(files[name]).hexdigest()) for name in created])
    lines += ["standard error %r" % error[:80]] if error else []
    lines += ["not as it was: %s" % name for name, data in before.items() if files.get(name) != data]
    return "".join(line + "\n" for line in lines)


def by_model(model):
    """A run of a model."""
    def run(words, before):
        fewer = {name: data.replace(b"slots,%d\n" % SLOTS, b"slots,%d\n" % SETTLED) for name, data in before.items()}
        ended = left_by(model, words, fewer, MODEL_SECONDS)
        text = ended.text if fewer == before else ended.text.replace(b"slots %d\n" % SETTLED, b"slots %d\n" % SLOTS)
        return Run(ended.status, text, ended.error, {**ended.files, **before})
    return run


def write(model):
    run = by_model(model)
    cases = table(maker(run, Tally("hostile")))
    with open(WANTED, "w", encoding="utf-8") as file:
        for name, (words, before) in cases.items():
            file.write(told(name, words, before, run(words, before)))


def wanted_by_case():
    with open(WANTED, encoding="utf-8") as file:
        return {block.split(" -- ")[0]: "== " + block for block in file.read().split("== ")[1:]}


def main():
    program, words = os.path.abspath(sys.argv[1]), sys.argv[2:]
    if words[:1] == ["--write"]:
        return write(os.path.abspath(words[1]))
    run = lambda words, before: left_by(program, words, before)
    tally, wanted = Tally("hostile"), wanted_by_case()
    cases = table(maker(run, tally))
    for name in words or dict.fromkeys([*cases, *wanted]):
        if name not in cases or name not in wanted:
            tally.count(name, "there is no such case in the table" if name not in cases else "hostile.txt does not have it")
            continue
        got = told(name, *cases[name], run(*cases[name]))
        tally.count(name, "" if got == wanted[name] else "\n%sand not:\n%s" % (got, wanted[name]))
    return tally.end()


if __name__ == "__main__":
    sys.exit(main())
