"""What checks/tables.sh does, with the repository as its word."""

import os
import random
import struct
import subprocess
import sys
import tempfile

from lib.dumps import CODE, RECIPE, TABLES, table_of
from lib.machine import patience
from lib.runs import content, write_files
from lib.tally import Tally

TOP = os.path.abspath(sys.argv[1])
LANES, ROWS, SECONDS, MUTATED = 3, 200, 60, 30


def tool(folder, *words):
    done = subprocess.run([os.path.join(TOP, "tools", words[0]), *words[1:]], cwd=folder, stdin=subprocess.DEVNULL, capture_output=True, encoding="utf-8", errors="replace",
                          timeout=patience(SECONDS))
    return done.returncode, done.stdout, done.stderr


def lane_bytes(codes):
    bits = "".join(format(code, "067b") for code in codes)
    bits += "0" * (-len(bits) % 8)
    return int(bits, 2).to_bytes(len(bits) // 8, "big")


def check_forms(tally, lanes):
    for name in TABLES:
        with tempfile.TemporaryDirectory(prefix="tables.") as folder:
            data, words = table_of(name, lanes)
            write_files(folder, {"table": data})
            done = tool(folder, "lanes", "import", *words, "--out", "x", "table")
            tally.expect(name, (done[0], done[2]), (0, ""))
            found = [content(os.path.join(folder, "x.lane.%d" % lane)) for lane in range(LANES)] if done[0] == 0 else None
            tally.count(name + ", lanes", "" if found == [lane_bytes(codes) for codes in lanes] else "they are others")


def check_refused(tally, lanes):
    table = table_of("an analyser's table", lanes)[0]
    for options, data, told in ((["--lanes", "4", "--lane", RECIPE], table, "table: no column inv3; there are Sample in Buffer"),
                                (["--lanes", "3", "--lane", "{inv%,TRIGGER}"], table, "--lane {inv%,TRIGGER}: how many bits has inv0?"),
                                (["--lanes", "3", "--lane", "{inv%[0]"], table, "--lane {inv%[0]"), (["--lanes", "3", "--lane", "data%[x:0]"], table, "--lane data%[x:0]: 'x' is no number"),
                                (["--lanes", "3", "--lane", RECIPE], table.replace(b"\n5,5,0,", b"\n5,5,0,x"), "table:8:4: tx/inv0: 'x"),
                                (["--lanes", "3", "--lane", RECIPE], table.replace(b"\n5,5,0,", b"\n5,5,"), "table:8: 11 columns, and the heading has 12"),
                                (["--lanes", "3", "--lane", RECIPE], b"", "table: there are no rows")):
        with tempfile.TemporaryDirectory(prefix="tables.") as folder:
            write_files(folder, {"table": data})
            done = tool(folder, "lanes", "import", "--form", "hex67", *options, "--out", "x", "table")
            tally.expect("refused, %s" % told, (done[0], done[1], done[2].count("\n"), done[2][:len("lanes: " + told)], os.listdir(folder)), (2, "", 1, "lanes: " + told, ["table"]))


def pcapng(packets):
    def block(kind, body):
        body += bytes(-len(body) % 4)
        return struct.pack("<II", kind, 12 + len(body)) + body + struct.pack("<I", 12 + len(body))
    found = block(0x0A0D0D0A, struct.pack("<IHHq", 0x1A2B3C4D, 1, 0, -1)) + block(1, struct.pack("<HHI", 1, 0, 0))
    return found + b"".join(block(6, struct.pack("<IIIII", 0, 0, number, len(packet), len(packet)) + packet) for number, packet in enumerate(packets))


def pcap(packets):
    """The packets, at a microsecond each, as the program takes them."""
    found = struct.pack("<IHHIIII", 0xA1B23C4D, 2, 4, 0, 0, 262144, 1)
    return found + b"".join(struct.pack("<IIII", 0, 1000 * number, len(packet), len(packet)) + packet for number, packet in packets)


def check_captures(tally, draws):
    packets = [draws.randbytes(size) for size in (60, 0, 1, 1500, 7)]
    with tempfile.TemporaryDirectory(prefix="tables.") as folder:
        write_files(folder, {"a.pcapng": pcapng(packets)})
        tally.expect("pcapng", tool(folder, "pcap", "a.pcapng", "a.pcap"), (0, "a.pcap packets=4 empty=1 link=1\n", ""))
        tally.expect("pcapng, packets", content(folder + "/a.pcap"), pcap([(number, packet) for number, packet in enumerate(packets) if packet]))
        tally.expect("a capture that is there", tool(folder, "pcap", "a.pcapng", "a.pcap")[::2], (2, "pcap: a.pcap exists; --overwrite writes over it\n"))


def mutated(data, draws):
    """Data with some bytes changed, lost or doubled."""
    data = bytearray(data)
    for _ in range(draws.randrange(1, 4)):
        at, kind = draws.randrange(len(data)), draws.randrange(3)
        if kind == 0:
            data[at] = draws.choice(b"0,;x\n\"9 {}\xff")
        elif kind == 1:
            del data[at:at + draws.randrange(1, 30)]
        else:
            data[at:at] = data[at:at + draws.randrange(1, 30)]
    return bytes(data)


def check_mutated(tally, lanes, draws):
    """Whatever is wrong, a tool takes it or tells of it in one line."""
    tables = [table_of(name, lanes) for name in TABLES]
    for number in range(MUTATED):
        with tempfile.TemporaryDirectory(prefix="tables.") as folder:
            kind = number % (len(tables) + 1)
            if kind == len(tables):
                data, words = mutated(pcapng([b"x" * 60] * 3), draws), ["pcap", "file", "out"]
            else:
                data, words = mutated(tables[kind][0], draws), ["lanes", "import", *tables[kind][1], "--out", "x", "file"]
            write_files(folder, {"file": data})
            status, _, error = tool(folder, *words)
            is_told = status == 2 and error.count("\n") == 1 and os.listdir(folder) == ["file"]
            tally.count("mutated %d of %s" % (number, words[:4]), "" if status == 0 or is_told else "status %d, %s" % (status, error[:300]))


def main():
    tally, draws = Tally("tables"), random.Random(5)
    lanes = [[draws.getrandbits(CODE) for _ in range(ROWS)] for _ in range(LANES)]
    check_forms(tally, lanes)
    check_refused(tally, lanes)
    check_captures(tally, draws)
    check_mutated(tally, lanes, draws)
    return tally.end()


sys.exit(main())
