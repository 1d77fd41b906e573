"""What checks/packets.sh does, with the program and the repository as its words."""

import os
import random
import struct
import subprocess
import sys
import tempfile

from lib.captures import lengths, packet
from lib.devices import changed, sums, text_of
from lib.machine import copy_examples, patience
from lib.runs import content, write_files
from lib.tally import Tally

PROGRAM, TOP = os.path.abspath(sys.argv[1]), os.path.abspath(sys.argv[2])
TOOL = os.path.join(TOP, "tools", "packets")
SECONDS = 120
SIZES = ["60", "61", "1514", "9", "300", "64", "700", "33", "12", "1000"]
FORMS = {"little, microseconds": ("<", 0xA1B2C3D4, 1000), "big, microseconds": (">", 0xA1B2C3D4, 1000),
         "little, nanoseconds": ("<", 0xA1B23C4D, 1), "big, nanoseconds": (">", 0xA1B23C4D, 1)}
PLAIN = "little, microseconds"


def packets_of(sizes):
    return [packet(number, length) for number, length in enumerate(lengths(sizes), 1)]


def capture_of(packets, form=PLAIN, first=0):
    """A capture of packets whose stamps are a millisecond apart, from one of so many nanoseconds on."""
    order, magic, unit = FORMS[form]
    parts = [struct.pack(order + "IHHIIII", magic, 2, 4, 0, 0, 262144, 1)]
    for number, data in enumerate(packets):
        stamp = first + 1000000 * number
        parts.append(struct.pack(order + "IIII", stamp // 10 ** 9, stamp % 10 ** 9 // unit, len(data), len(data)) + data)
    return b"".join(parts)


def run(folder, words):
    done = subprocess.run([TOOL] + words, cwd=folder, stdin=subprocess.DEVNULL, capture_output=True, encoding="utf-8", timeout=patience(SECONDS))
    return done.returncode, done.stdout, done.stderr


def expect(tally, what, folder, words, status, lines):
    """A call that changes no file, and prints these lines."""
    before = sums(folder)
    tally.expect(what, run(folder, words), (status, "".join(line + "\n" for line in lines), ""))
    tally.expect(what + ", files", changed(before, sums(folder)), [])


def counts(name, kind, number, equal=None, differing=0, missing=0, extra=0, more=""):
    return "%s %s=%d equal=%d differing=%d missing=%d extra=%d%s" % (name, kind, number, number if equal is None else equal, differing, missing, extra, more)


def check_captures(tally, folder):
    """Captures of one form and another; with packets that are changed, longer, missing, extra and exchanged; and with other stamps."""
    ours = packets_of(SIZES)
    write_files(folder, {"one.pcap": capture_of(ours)})
    for form in FORMS:
        write_files(folder, {"other.pcap": capture_of(ours, form)})
        for words in ([], ["--stamps"]):
            expect(tally, "equal, %s %s" % (form, words), folder, words + ["one.pcap", "other.pcap"], 0, [counts("other.pcap", "packets", 10)])
    other = bytes([ours[3][0], ours[3][1] ^ 0x40]) + ours[3][2:]
    longer = ours[6] + b"\0"
    cases = [
        ("a byte", ours[:3] + [other] + ours[4:], [counts("other.pcap", "packets", 10, 9, 1), "  first: packet 3: byte 1 is %02X and not %02X" % (other[1], ours[3][1]), "  differing: 3"]),
        ("a byte more", ours[:6] + [longer] + ours[7:], [counts("other.pcap", "packets", 10, 9, 1), "  first: packet 6: 701 bytes and not 700", "  differing: 6"]),
        ("missing", ours[:2] + ours[5:9], [counts("other.pcap", "packets", 6, 6, 0, 4), "  missing: 2 to 4, 9"]),
        ("extra", ours[:4] + [b"more"] + ours[4:], [counts("other.pcap", "packets", 11, 10, 0, 0, 1), "  extra: 4"]),
        ("changed behind a missing one", ours[1:5] + [ours[5] + b"x"] + ours[6:],
         [counts("other.pcap", "packets", 9, 8, 1, 1), "  first: packet 5, here 4: 65 bytes and not 64", "  differing: 5", "  missing: 0"]),
        ("none", [], [counts("other.pcap", "packets", 0, 0, 0, 10), "  missing: 0 to 9"]),
        ("twice", ours + ours, [counts("other.pcap", "packets", 20, 10, 0, 0, 10), "  extra: 10 to 19"]),
    ]
    for what, theirs, lines in cases:
        write_files(folder, {"other.pcap": capture_of(theirs, "big, nanoseconds")})
        expect(tally, what, folder, ["one.pcap", "other.pcap"], 1, lines)
    write_files(folder, {"other.pcap": capture_of(ours, "little, nanoseconds", 5)})
    expect(tally, "other stamps", folder, ["one.pcap", "other.pcap"], 0, [counts("other.pcap", "packets", 10)])
    expect(tally, "other stamps, compared", folder, ["--stamps", "one.pcap", "other.pcap"], 1,
           [counts("other.pcap", "packets", 10, 0, more=" stamps=10"), "  first: packet 0: its stamp is 0.000000005 and not 0.000000000", "  stamps: 0 to 9"])


def check_many(tally, folder):
    """Thousands of packets, of which some are taken out and some changed: all are found, whatever stands around them."""
    draws = random.Random(11)
    ours = [draws.randbytes(draws.randrange(1, 200)) for _ in range(4000)]
    lost = set(draws.sample(range(100, 3900), 60))
    wrong = set(draws.sample(sorted(set(range(4000)) - {near for number in lost for near in (number - 1, number, number + 1)}), 40))
    theirs = [data + b"\1" if number in wrong else data for number, data in enumerate(ours) if number not in lost]
    write_files(folder, {"one.pcap": capture_of(ours), "other.pcap": capture_of(theirs)})
    status, text, error = run(folder, ["one.pcap", "other.pcap"])
    tally.expect("many", (status, text.splitlines()[0], error), (1, counts("other.pcap", "packets", 3940, 3900, 40, 60), ""))


def check_words(tally, folder):
    """Words files: the last of another's words, a changed one, bad ones."""
    draws = random.Random(12)
    words = [bytes([draws.choice((1, 1, 1, 2))]) + draws.randbytes(8) for _ in range(1680)]
    write_files(folder, {"all.words": b"".join(words), "last.words": b"".join(words[480:]), "bad.words": b"".join(words[:7] + [b"\3" + words[7][1:]] + words[8:]),
                         "other_bad.words": b"".join(words[:7] + [b"\3" + bytes(8)] + words[8:])})
    expect(tally, "equal words", folder, ["all.words", "all.words"], 0, [counts("all.words", "words", 1680)])
    expect(tally, "the last words", folder, ["all.words", "last.words"], 1, [counts("last.words", "words", 1200, 1200, 0, 480), "  missing: 0 to 479"])
    shown = "%s %s" % ("control" if words[7][0] == 2 else "data", words[7][1:].hex().upper())
    expect(tally, "a bad word", folder, ["all.words", "bad.words"], 1, [counts("bad.words", "words", 1680, 1679, 1), "  first: word 7: bad and not " + shown, "  differing: 7"])
    expect(tally, "bad words are one", folder, ["bad.words", "other_bad.words"], 0, [counts("other_bad.words", "words", 1680)])


def check_plan(tally, folder):
    """The captures of a plan against what came, by what `link` says is missing."""
    copy_examples(TOP, folder)
    text = subprocess.run([PROGRAM, "link", "damaged.plan"], cwd=folder, capture_output=True, encoding="utf-8").stdout
    tally.expect("link", text.count("\nmissing channel="), 2)
    expect(tally, "plan", folder, ["--plan", "damaged.plan"], 1,
           [line for channel in (1, 2) for line in (counts("damaged.%d.pcap" % channel, "packets", 1, 1, 0, 1), "  missing: 0")])
    plan = content(os.path.join(folder, "damaged.plan")).replace(b"schedule,damaged.schedule\n", b"").replace(b"out,damaged", b"out,whole")
    write_files(folder, {"whole.plan": plan})
    subprocess.run([PROGRAM, "link", "whole.plan"], cwd=folder, capture_output=True)
    expect(tally, "plan, whole", folder, ["--plan", "whole.plan"], 0, [counts("whole.%d.pcap" % channel, "packets", 2) for channel in (1, 2)])


REFUSED = [
    (["one.pcap"], "two files, or --plan PLAN"), ([], "two files, or --plan PLAN"), (["a", "b", "c"], "two files"), (["--plan", "whole.plan", "one.pcap"], "--plan PLAN alone"),
    (["absent.pcap", "one.pcap"], "absent.pcap: No such file or directory"), (["one.pcap", "short.pcap"], "short.pcap: short at "), (["one.pcap", "ng.pcap"], "ng.pcap: pcapng"),
    (["one.pcap", "text"], "text: magic 68656C6C"), (["all.words", "cut.words"], "cut.words: short at 15111"), (["all.words", "tag.words"], "tag.words: tag at 9"),
    (["one.pcap", "all.words"], "all.words: it has words, and one.pcap has packets"), (["--plan", "absent.plan"], "absent.plan: No such file or directory"),
    (["--plan", "bare.plan"], "bare.plan: no channel names a capture"), (["--plan", "gone.plan"], "gone.1.pcap: No such file or directory"), (["--speed"], "unrecognized arguments"),
]


def check_refused(tally, folder):
    words = content(os.path.join(folder, "all.words"))
    write_files(folder, {"one.pcap": capture_of(packets_of(SIZES)), "short.pcap": capture_of(packets_of(SIZES))[:-5], "ng.pcap": b"\x0a\x0d\x0d\x0a" + bytes(40), "text": b"hello, world, this is text",
                         "cut.words": words[:-4], "tag.words": words[:9] + b"\7" + words[10:], "bare.plan": text_of(["lanes,1", "metaframe,32", "channel,1", "out,bare"]),
                         "gone.plan": text_of(["lanes,1", "metaframe,32", "channel,1,one.pcap", "out,gone"])})
    for call, told in REFUSED:
        before = sums(folder)
        status, text, error = run(folder, call)
        tally.expect("packets " + " ".join(call), (status, text, error.count("\n"), error[:len("packets: " + told)]), (2, "", 1, "packets: " + told))
        tally.expect("packets %s, files" % " ".join(call), changed(before, sums(folder)), [])
    closed = subprocess.run(["bash", "-c", '"$1" all.words last.words | true; exit ${PIPESTATUS[0]}', "bash", TOOL], cwd=folder, capture_output=True)
    tally.expect("a reader that goes away", (closed.returncode in (1, 141), closed.stderr), (True, b""))
    tally.expect("--help", (run(folder, ["--help"])[0], run(folder, ["--help"])[1][:14]), (0, "usage: packets"))


def main():
    tally = Tally("packets")
    with tempfile.TemporaryDirectory(prefix="packets.") as folder:
        check_plan(tally, folder)
        check_captures(tally, folder)
        check_many(tally, folder)
        check_words(tally, folder)
        check_refused(tally, folder)
    return tally.end()


sys.exit(main())
