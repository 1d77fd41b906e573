"""What checks/lanes.sh does, with the program and the repository as its words.

The dumps that the tool reads are made here, a word at a time from the texts of the lanes' bits; nothing of the tool is used for it.
"""

import itertools
import os
import random
import resource
import subprocess
import sys
import tempfile

from lib.runs import PythonTool, content, left_by
from lib.tally import Tally

PROGRAM, TOP = os.path.abspath(sys.argv[1]), os.path.abspath(sys.argv[2])
TOOL = os.path.join(TOP, "tools", "lanes")
CODE = 67
# The options that change the words of a dump, by the forms that take them.
OPTIONS = {"hex67": ("--lowest-first", "--payload-reversed", "--payload-bytes-swapped", "--headers-swapped"), "hex:64": ("--lowest-first", "--bytes-swapped"),
           "hex:40": ("--lowest-first", "--bytes-swapped"), "hex:20": ("--lowest-first",), "hex:67": ("--lowest-first",), "hex:5": ("--lowest-first",),
           "hex:256": ("--lowest-first", "--bytes-swapped"), "bits": (), "raw": ("--lowest-first",), "raw:32": ("--lowest-first", "--bytes-swapped"),
           "raw:80": ("--lowest-first", "--bytes-swapped"), "raw:66": ("--lowest-first",)}
# Bytes of text by which the speed and the memory of the tool are told, and what 100 MB may take.
SIZE, MOST_SECONDS, MOST_KILOBYTES = 6_000_000, 60, 120_000


# ---- dumps, a word at a time

def bits_of(data):
    return "".join(format(byte, "08b") for byte in data)


def bytes_of(bits):
    bits += "0" * (-len(bits) % 8)
    return bytes(int(bits[at:at + 8], 2) for at in range(0, len(bits), 8))


def width_of(form):
    return {"hex67": CODE, "bits": 1, "raw": 8}.get(form) or int(form.split(":")[1])


def swapped(word):
    return "".join(word[at:at + 8] for at in range(len(word) - 8, -1, -8))


def word_of(lane_word, options):
    """The word of a dump, its highest bit first, that has these bits on the lane."""
    head, payload = lane_word[:3], lane_word[3:]
    if "--payload-bytes-swapped" in options:
        payload = swapped(payload)
    if "--payload-reversed" in options:
        payload = payload[::-1]
    if "--headers-swapped" in options:
        head = head[0] + head[2] + head[1]
    word = head + payload
    if "--lowest-first" in options:
        word = word[::-1]
    return swapped(word) if "--bytes-swapped" in options else word


def words_of(bits, form, options):
    """The words of a dump of these bits, which are filled up with zeros."""
    width = width_of(form)
    bits += "0" * (-len(bits) % width)
    return [word_of(bits[at:at + width], options) for at in range(0, len(bits), width)]


def complement(bits):
    return bits.translate(str.maketrans("01", "10"))


def hexadecimal(word):
    return format(int(word, 2), "0%dx" % -(-len(word) // 4))


def dump_of(lane, form, options):
    """The dump of a lane, as bytes."""
    words = words_of(lane, form, options)
    if form.startswith("raw"):
        return bytes_of("".join(words))
    if form == "bits":
        text = "".join(words)
        return "".join(text[at:at + 64] + "\n" for at in range(0, len(text), 64)).encode()
    return "".join(hexadecimal(word) + "\n" for word in words).encode()


def is_lane(found, lane, width):
    """Whether a lane file has a lane's bytes, and after them zeros: fewer than a word, and then to a whole byte."""
    most = len(lane) + -(-(width - 1) // 8) + (width % 8 > 0)
    return found is not None and found[:len(lane)] == lane and len(lane) <= len(found) <= most and not any(found[len(lane):])


tool = PythonTool(TOOL, "lanes.command").run


class Check:
    def __init__(self, tally, lanes):
        self.tally, self.lanes = tally, lanes

    def imports(self, what, words, before, wanted, width=8):
        """A call that has to make these lanes, and no other file."""
        run = tool(["import"] + words + ["--out", "made"] + sorted(before), before)
        made = {name: data for name, data in run.files.items() if name not in before}
        names = ["made.lane.%d" % number for number in range(len(wanted))]
        wrong = run.status != 0 or sorted(made) != sorted(names) or not all(is_lane(made.get(name), lane, width) for name, lane in zip(names, wanted))
        self.tally.count(what, "status %s, %s, files %s" % (run.status, run.error, {name: len(data) for name, data in made.items()}) if wrong else "")

    # ---- each form with each option

    def check_forms(self):
        for form, known in OPTIONS.items():
            for count in range(len(known) + 1):
                # Of four options each alone, all, and two of them.
                for options in list(itertools.combinations(known, count))[:4 if count == 1 or len(known) < 4 else 1]:
                    self.check_form(form, list(options))

    def check_form(self, form, options):
        """Dumps of all lanes, one a lane and in columns, and what the tool writes of the lanes."""
        what = " ".join([form] + options)
        dumps = {"dump.%d" % number: dump_of(bits_of(lane), form, options) for number, lane in enumerate(self.lanes)}
        self.imports(what, ["--form", form] + options, dumps, self.lanes, width_of(form))
        files = {"lane.%d" % number: lane for number, lane in enumerate(self.lanes)}
        run = tool(["export", "--form", form] + options + ["--out", "dump"] + sorted(files), files)
        found = {name: data for name, data in run.files.items() if name not in files}
        self.tally.expect(what + ", written", (run.status, found == dumps), (0, True))
        if not form.startswith("raw"):
            self.check_columns(what, form, options, files, dumps)

    def check_columns(self, what, form, options, files, dumps):
        rows = list(zip(*(data.split() for data in dumps.values())))
        text = b"".join(b" ".join(row) + b"\n" for row in rows)
        self.imports(what + ", columns", ["--form", form, "--columns"] + options, {"dump": text}, self.lanes, width_of(form))
        run = tool(["export", "--form", form, "--columns"] + options + ["--out", "dump"] + sorted(files), files)
        self.tally.expect(what + ", columns written", (run.status, run.files.get("dump") == text), (0, True))
        for name, separator in (("commas", b","), ("semicolons", b" ; "), ("tabs", b"\t\t")) if not options else ():
            self.imports("%s, columns with %s" % (what, name), ["--form", form, "--columns"] + options, {"dump": text.replace(b" ", separator)}, self.lanes, width_of(form))

    # ---- order, complement, bits left out

    def check_lanes(self):
        draws = random.Random(5)
        count = len(self.lanes)
        for number in range(12):
            form = draws.choice(["hex67", "hex:64", "hex:7", "bits", "raw", "raw:40"])
            order = draws.sample(range(count), count)
            inverted = [lane for lane in range(count) if draws.random() < 0.5]
            drops = [draws.choice([0, 1, 7, 8, 67, 300]) for _ in range(count)]
            words = ["--form", form, "--order", ",".join(map(str, order)), "--drop", ",".join(map(str, drops))]
            words += ["--invert", ",".join(map(str, inverted))] if inverted else []
            self.check_order(" ".join(words), words, form, order, inverted, drops, draws)

    def check_order(self, what, words, form, order, inverted, drops, draws):
        """Dumps with other bits in front, of complemented lanes, under the numbers that the order names."""
        dumps, columns = {}, form in ("hex67", "hex:64") and len(set(drops)) == 1
        for place, dump in enumerate(order):
            bits = "".join(draws.choice("01") for _ in range(drops[place])) + bits_of(self.lanes[place])
            bits += "0" * (-len(bits) % width_of(form))
            dumps["dump.%d" % dump] = dump_of(complement(bits) if place in inverted else bits, form, [])
        self.imports(what, words, dumps, self.lanes, width_of(form))
        files = {"lane.%d" % number: lane for number, lane in enumerate(self.lanes)}
        run = tool(["export"] + words + ["--out", "dump"] + sorted(files), files)
        written = {name: data for name, data in run.files.items() if name not in files}
        self.tally.expect(what + ", files written", (run.status, sorted(written)), (0, sorted(dumps)))
        self.imports(what + ", read back", words, written, self.lanes, width_of(form))

    # ---- the two ways undo each other

    def check_undone(self):
        draws = random.Random(6)
        for number in range(80):
            form = draws.choice(["hex67", "bits", "raw"] + ["hex:%d" % draws.randint(1, 256), "raw:%d" % draws.randint(1, 256)] * 2)
            known = OPTIONS.get(form, ("--lowest-first",) + ("--bytes-swapped",) * (width_of(form) % 8 == 0))
            options = [option for option in known if draws.random() < 0.4] + ["--invert", "0"] * (draws.random() < 0.4)
            options += ["--drop", str(draws.randint(1, 300))] if draws.random() < 0.4 else []
            lane = draws.randbytes(draws.choice([1, 2, 3, 8, 9, 60, 67, 500])) + b"\0" * draws.choice([0, 0, 1, 2, 40])
            self.check_pair(form, options, lane)
        self.check_pair("hex67", [], b"")
        self.check_pair("bits", [], b"")

    def check_pair(self, form, options, lane):
        what = "%s %s of %s" % (form, " ".join(options), lane[:9].hex())
        words = ["--form", form] + options
        dump = tool(["export"] + words + ["--out", "dump", "lane"], {"lane": lane}).files.get("dump")
        made = tool(["import"] + words + ["--out", "made", "dump"], {"dump": dump or b""}).files.get("made.lane.0")
        again = tool(["export"] + words + ["--out", "dump", "lane"], {"lane": made or b""}).files.get("dump")
        self.tally.count(what, "" if dump is not None and is_lane(made, lane, width_of(form)) else "%s and %s" % (dump, made))
        self.tally.count(what + ", written again", "" if dump is not None and again == dump else "%s and %s" % (dump, again))


# ---- texts

LOOSE = b"""// a dump
@00000000
# words
0x123456789abcdef01
0X1_2345_6789_ABCD_EF02   // and a word

\t 3\r
  00000000000000000000000000004 # the fourth
@ 7
_5
"""
WORDS = (0x123456789abcdef01, 0x123456789abcdef02, 3, 4)
# What is refused: the words after `import --out made`, the dump, and the error after `lanes: `.
REFUSED = (
    (["--form", "hex67"], b"1\n2\n1x4\n", "d:3: '1x4': an unknown bit, x"),
    (["--form", "hex67"], b"1\n2\nZ4\n", "d:3: 'Z4': an unknown bit, Z"),
    (["--form", "hex67"], b"1\n# x\n\n12g4\n", "d:4: '12g4': 'g' is no hexadecimal digit"),
    (["--form", "hex67"], b"1\n80000000000000000\n", "d:2: '80000000000000000': a word of 68 bits, and 67 is the most"),
    (["--form", "hex:20"], b"fffff\n100000\n", "d:2: '100000': a word of 21 bits, and 20 is the most"),
    (["--form", "hex:5"], b"1f\n20\n", "d:2: '20': a word of 6 bits, and 5 is the most"),
    (["--form", "hex:64"], b"1\n2 3\n", "d:2: 2 words, and one is expected; --columns takes a column for each lane"),
    (["--form", "hex:64"], b"1\n-2\n", "d:2: '-2': '-' is no hexadecimal digit"),
    (["--form", "hex:64"], b"1\n0x\n", "d:2: '0x': an unknown bit, x"),
    (["--form", "hex:64"], b"1\n2_\n", "d:2: a `_` that stands in no word"),
    (["--form", "hex:64"], b"1\n 1@2\n", "d:2: '1@2': '@' is no hexadecimal digit"),
    (["--form", "hex:64", "--columns"], b"1 2\n\n3 4 5\n", "d:3: 3 words, and the lines before have 2"),
    (["--form", "hex:64", "--columns"], b"1,2\n3,,4\n", "d:2: a column without a word"),
    (["--form", "hex:64", "--columns"], b"1,2\n3,\n", "d:2: 1 words, and the lines before have 2"),
    (["--form", "hex:64", "--columns"], b"1 2\n3 z\n", "d:2: 'z': an unknown bit, z"),
    (["--form", "hex:64", "--columns"], b"# none\n", "d: there are no words, so no lanes"),
    (["--form", "bits"], b"0101\n01 2\n", "d:2: '2': '2' is no binary digit"),
    (["--form", "bits"], b"0101\n\n01x\n", "d:3: '01x': an unknown bit, x"),
    (["--form", "bits", "--columns"], b"01 01\n01 03\n", "d:2: '03': '3' is no binary digit"),
    (["--form", "hex:8", "--drop", "17"], b"1\n2\n", "d: --drop leaves out 17 bits of lane 0, which has 16"),
    (["--form", "hex:0"], b"", "--form hex:0: W is a number from 1 to 256"),
    (["--form", "raw:257"], b"", "--form raw:257: W is a number from 1 to 256"),
    (["--form", "hex"], b"", "--form hex: the forms are hex67, hex:W, bits, raw, raw:W and vcd"),
    (["--form", "text"], b"", "--form text: the forms are hex67, hex:W, bits, raw, raw:W and vcd"),
    (["--form", "bits", "--lowest-first"], b"", "--lowest-first: the form bits has no words"),
    (["--form", "hex:20", "--bytes-swapped"], b"", "--bytes-swapped: the form hex:20 has no words of whole bytes"),
    (["--form", "hex67", "--bytes-swapped"], b"", "--bytes-swapped: the form hex67 has no words of whole bytes"),
    (["--form", "raw", "--bytes-swapped"], b"", "--bytes-swapped: the form raw has no words of whole bytes"),
    (["--form", "bits", "--bytes-swapped"], b"", "--bytes-swapped: the form bits has no words of whole bytes"),
    (["--form", "hex:67", "--payload-reversed"], b"", "--payload-reversed is of --form hex67 alone"),
    (["--form", "raw:67", "--headers-swapped"], b"", "--headers-swapped is of --form hex67 alone"),
    (["--form", "raw", "--columns"], b"", "--columns: the form raw is no text with columns"),
    (["--form", "raw", "--order", "0,1"], b"", "--order: there is no number 1; the last is 0"),
    (["--form", "raw", "--order", "0,0"], b"", "--order 0,0: a number stands twice"),
    (["--form", "raw", "--order", "a"], b"", "--order a: numbers with commas between are expected"),
    (["--form", "raw", "--invert", "1"], b"", "--invert: there is no lane 1; the last is 0"),
    (["--form", "raw", "--drop", "1,2"], b"", "--drop: 2 numbers, and there are 1 lanes"),
    (["--form", "raw", "--clock", "c"], b"", "--signal and --clock are of --form vcd"),
    (["--form", "vcd"], b"", "--form vcd: --clock and a --signal or a --lane for each lane are needed"),
    (["--form", "hex:64", "--low"], b"", "unrecognized arguments: --low"),
)


def check_texts(check):
    words = "".join(format(word, "067b") for word in WORDS)
    check.imports("a text with all that is passed over", ["--form", "hex67"], {"d": LOOSE.replace(b"_5\n", b"")}, [bytes_of(words)])
    check.imports("words without line end", ["--form", "hex:8"], {"d": b"1\n2"}, [b"\1\2"])
    check.imports("bits with all that is passed over", ["--form", "bits"], {"d": b"# 1\n@1\n0000 00\r\n\n01_1 // 1\n1\n"}, [b"\x01\xc0"])
    check.imports("a part of the columns", ["--form", "hex:8", "--columns", "--order", "2,0"], {"d": b"1 2 3\n4 5 6\n"}, [b"\3\6", b"\1\4"])


def check_refused(tally):
    for words, dump, told in REFUSED:
        run = tool(["import"] + words + ["--out", "made", "d"], {"d": dump})
        error = run.error.decode()
        is_told = error.startswith("lanes: " + told) and error.count("\n") == 1 and error.endswith("\n")
        tally.expect("import %s of %s" % (" ".join(words), dump), (run.status, run.text, is_told or error, sorted(run.files)), (2, b"", True, ["d"]))
    run = tool(["import", "--form", "hex:8", "--out", "made", "d"], {"d": LOOSE})
    tally.expect("a `_` alone", (run.status, run.error), (2, b"lanes: d:10: a `_` that stands in no word\n"))
    run = tool(["import", "--form", "hex:8", "--out", "made", "absent"], {})
    tally.expect("a dump that is missing", (run.status, run.error), (2, b"lanes: absent: No such file or directory\n"))
    run = tool(["export", "--form", "vcd", "--out", "made", "d"], {"d": b""})
    tally.expect("export of vcd", (run.status, run.error[:44]), (2, b"lanes: --form vcd: there is no export of thi"))
    run = tool(["export", "--form", "hex:8", "--columns", "--out", "made", "a", "b"], {"a": b"1", "b": b"12"})
    tally.expect("columns of other lengths", (run.status, run.error, sorted(run.files)), (2, b"lanes: b: 2 words, and a has 1: columns are of one length\n", ["a", "b"]))


def check_kept(tally):
    """Files that are there are not written over."""
    for name in ("made.lane.0", "made.lane.7"):
        before = {"d": b"12\n", name: b"kept"}
        run = tool(["import", "--form", "hex:8", "--out", "made", "d"], before)
        tally.expect("import, with %s" % name, (run.status, run.error, run.files), (2, b"lanes: %s exists: another --out, or --overwrite\n" % name.encode(), before))
    run = tool(["import", "--form", "hex:8", "--out", "made", "--overwrite", "d"], {"d": b"12\n", "made.lane.0": b"kept"})
    tally.expect("import with --overwrite", (run.status, run.files.get("made.lane.0")), (0, b"\x12"))
    before = {"a": b"1", "b": b"2", "made.1": b"kept"}
    run = tool(["export", "--form", "hex:8", "--out", "made", "a", "b"], before)
    tally.expect("export, with made.1", (run.status, run.error, run.files), (2, b"lanes: made.1 exists: another --out, or --overwrite\n", before))
    run = tool(["export", "--form", "hex:8", "--out", "made", "--overwrite", "a", "b"], before)
    tally.expect("export with --overwrite", (run.status, run.files.get("made.1")), (0, b"32\n"))


# ---- value change dumps

VCD = """$date today $end
$comment $var wire 1 ! no $end
$timescale 1 ns $end
$scope module tb $end
$var wire 1 ! clk $end
$var wire 1 " valid $end
$var reg 8 # data [7:0] $end
$var wire 1 k state $end
$scope module dut $end
$var wire 1 ! clk $end
$var wire 12 $ wide [11:0] $end
$var wire 8 % up [0:7] $end
$var wire 8 & data [7:0] $end
$var real 64 r level $end
$upscope $end
$upscope $end
$enddefinitions $end
#0
$dumpvars
0! x" bx # bz $ b0 % b1 & r0.5 r 0k
$end
#5
b10100101 #
b111100001111 $
b1 %
1"
#10
1!
b0 #
#15
0!
#20
1!
b1 #
b101 $
#25
0"
0!
#30
1!
#35 0! 1"
$comment 1! $end
#40
b11 #
1!
0!
b1xx1 $
#45
1!
"""
DATA = ["10100101", "00000000", "00000001", "00000011"]  # tb.data at 10, 20, 40 and 45, as they were before
SIGNALS = (
    (["--signal", "tb.data", "--valid", "valid"], DATA),
    (["--signal", "tb.data[7:0]", "--valid", "tb.valid"], DATA),
    (["--signal", "tb.data[7:4]", "--valid", "valid"], [word[:4] for word in DATA]),
    (["--signal", "tb.data[1]", "--valid", "valid"], [word[6] for word in DATA]),
    (["--signal", "dut.up", "--valid", "valid"], ["00000001"] * 4),
    (["--signal", "up[6:7]", "--valid", "valid"], ["01"] * 4),
    (["--signal", "dut.data"], ["00000001"] * 5),
    (["--signal", "tb.data", "--lowest-first", "--valid", "valid"], [word[::-1] for word in DATA]),
)
VCD_REFUSED = (
    (["--signal", "data"], "d: data fits two signals, tb.data[7:0] and tb.dut.data[7:0]"),
    (["--signal", "absent"], "d: no signal fits absent"),
    (["--signal", "tb.data[8:1]"], "d: tb.data[8:1]: the signal is tb.data[7:0], of 8 bits"),
    (["--signal", "wide", "--valid", "valid"], "d:%d: tb.dut.wide[11:0] has an unknown bit, x, where it is sampled at time 45" % VCD.count("\n")),
    (["--signal", "tb.data", "--valid", "wide"], "d: wide has 12 bits, and one is expected"),
    (["--signal", "tb.data[6:0]", "--bytes-swapped"], "--bytes-swapped: tb.data[6:0] has 7 bits, which are no whole bytes"),
)


def check_vcd(check):
    for signals, words in SIGNALS:
        check.imports("vcd %s" % " ".join(signals), ["--form", "vcd", "--clock", "clk"] + signals, {"d": VCD.encode()}, [bytes_of("".join(words))])
    check.imports("vcd, two lanes", ["--form", "vcd", "--clock", "tb.clk", "--signal", "up", "--signal", "tb.data[7:0]", "--order", "1,0", "--drop", "0,8", "--valid", "valid"],
                  {"d": VCD.encode()}, [bytes_of("".join(DATA)), b"\1\1\1"])
    for signals, told in VCD_REFUSED:
        run = tool(["import", "--form", "vcd", "--clock", "clk", "--out", "made", "d"] + signals, {"d": VCD.encode()})
        check.tally.expect("vcd %s" % " ".join(signals), (run.status, run.error.decode(), sorted(run.files)), (2, "lanes: %s\n" % told, ["d"]))
    for text, told in ((b"1\n", "d:1: no $enddefinitions: this is no value change dump"), (VCD.replace("#45", "#4x").encode(), "d:%d: '#4x' is no time" % (VCD.count("\n") - 1))):
        run = tool(["import", "--form", "vcd", "--clock", "clk", "--out", "made", "d", "--signal", "up"], {"d": text})
        check.tally.expect("vcd, %s" % told, (run.status, run.error.decode()), (2, "lanes: %s\n" % told))


def check_wave(check):
    """A dump with a clock whose words are those of all lanes."""
    lines, shorts = ["$scope module top $end", "$var wire 1 c clk $end"], "ab"[:len(check.lanes)]
    lines += ["$var wire 64 %s rx%d [63:0] $end" % (short, number) for number, short in enumerate(shorts)] + ["$enddefinitions $end", "#0", "0c"]
    rows = list(zip(*(words_of(bits_of(lane), "hex:64", ["--lowest-first"]) for lane in check.lanes)))
    for time, row in enumerate(rows):
        lines += ["#%d" % (10 * time + 1)] + ["b%s %s" % (word.lstrip("0") or "0", short) for word, short in zip(row, shorts)] + ["#%d" % (10 * time + 5), "1c", "#%d" % (10 * time + 9), "0c"]
    words = ["--form", "vcd", "--clock", "clk", "--lowest-first"] + [word for number in range(len(shorts)) for word in ("--signal", "rx%d" % number)]
    check.imports("vcd of lanes", words, {"d": "\n".join(lines).encode()}, check.lanes, 64)


# ---- size, and a reader that goes away

def check_size(tally):
    """The processor seconds and the memory for large dumps."""
    with tempfile.TemporaryDirectory() as folder:
        path = os.path.join(folder, "dump")
        for form in ("hex67", "hex:20", "bits"):
            draws = random.Random(7)
            size = {"hex67": 18, "hex:20": 6, "bits": 65}[form]
            words = [b"0" * (size - 1)] * 3 + [(b"%x" % draws.getrandbits(4 * size - 8)).rjust(size - 1, b"0") if form != "bits" else b"01" * (size // 2) for _ in range(997)]
            with open(path, "wb") as file:
                file.write(b"".join(word + b"\n" for word in words) * (SIZE // size // 1000))
            before = resource.getrusage(resource.RUSAGE_CHILDREN)
            done = subprocess.run([TOOL, "import", "--form", form, "--out", os.path.join(folder, form), path], capture_output=True)
            after = resource.getrusage(resource.RUSAGE_CHILDREN)
            seconds = (after.ru_utime - before.ru_utime) * 100_000_000 / SIZE
            tally.expect("%s, seconds for 100 MB" % form, (done.returncode, seconds < MOST_SECONDS or seconds), (0, True))
        tally.expect("memory", after.ru_maxrss < MOST_KILOBYTES or after.ru_maxrss, True)


def check_terminal(tally):
    """On a terminal a line says what is done."""
    with tempfile.TemporaryDirectory() as folder:
        with open(os.path.join(folder, "d"), "wb") as file:
            file.write(b"12\n")
        reader, terminal = os.openpty()
        done = subprocess.run([TOOL, "import", "--form", "hex:8", "--out", "made", "d"], cwd=folder, stdout=subprocess.PIPE, stderr=terminal)
        os.close(terminal)
        tally.expect("on a terminal", (done.returncode, b"MB are read" in os.read(reader, 1000)), (0, True))
        os.close(reader)


def check_pipe(tally):
    with tempfile.TemporaryDirectory() as folder:
        with open(os.path.join(folder, "d"), "wb") as file:
            file.write(b"12\n")
        reader, writer = os.pipe()
        os.close(reader)
        done = subprocess.run([TOOL, "import", "--form", "hex:8", "--out", "made", "d"], cwd=folder, stdout=writer, stderr=subprocess.PIPE)
        os.close(writer)
        tally.expect("a reader that goes away", (done.returncode in (0, 141), done.stderr, content(os.path.join(folder, "made.lane.0"))), (True, b"", b"\x12"))
    done = subprocess.run([TOOL, "--help"], capture_output=True, encoding="utf-8")
    tally.expect("--help", (done.returncode, "--payload-bytes-swapped" in done.stdout), (0, True))


def main():
    tally = Tally("lanes")
    examples = os.path.join(TOP, "examples")
    run = left_by(PROGRAM, ["send", "damaged.plan"], {name: content(os.path.join(examples, name)) for name in ("damaged.plan", "one.pcap", "two.pcap", "damaged.schedule")})
    if run.status != 0:
        tally.give_up("send", "status %s: %s" % (run.status, run.text))
    check = Check(tally, [run.files["damaged.lane.0"], run.files["damaged.lane.1"]])
    check.check_forms()
    check.check_lanes()
    check.check_undone()
    check_texts(check)
    check_refused(tally)
    check_kept(tally)
    check_vcd(check)
    check_wave(check)
    check_size(tally)
    check_pipe(tally)
    check_terminal(tally)
    return tally.end()


if __name__ == "__main__":
    sys.exit(main())
