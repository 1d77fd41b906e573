"""What checks/campaign.sh does, with the program and the repository as its words."""

import csv
import getpass
import os
import re
import shlex
import shutil
import socket
import subprocess
import sys
import tempfile
import time
import xml.etree.ElementTree as xml

from lib.captures import capture
from lib.devices import changed, sums
from lib.machine import copy_examples, patience
from lib.runs import content, write_files
from lib.tally import Tally

PROGRAM, TOP = os.path.abspath(sys.argv[1]), os.path.abspath(sys.argv[2])
TOOL = os.path.join(TOP, "tools", "campaign")
SECONDS = 300
FIRST, LAST = 1, 6
# Numbers for which the program that fails does so.
FAILING = (2, 5)
# A plan's rates, and the most that chance makes of a count: five times the root of what is expected, which is more than in a million.
FLIPS_PER_MILLION, DARK, SKEW, SEEDS = 400, 2, 300, 8
CODE, PERIOD, GROUP = 67, 67 * 32, 56

# Words that are refused, and a part of what is said of them.
REFUSED = [
    (["a", "b", "c"], "'a' is no number"), (["1", "x", "runs"], "'x' is no number"), (["5", "4", "runs"], "LAST, 4, is below FIRST, 5"),
    (["1", "2"], "required: FOLDER"), (["-1", "2", "runs"], "`campaign --help` shows the words"), (["1", "18446744073709551616", "runs"], "is no number of 0 to"),
    (["1", "2", "runs", "--speed", "3"], "unrecognized arguments: --speed"), (["1", "2", "runs", "--jobs", "many"], "'many' is no number of jobs"),
    (["1", "2", "runs", "--dark", "1"], "--plan needs a rate"), (["1", "2", "runs", "--plan", "damaged.plan"], "--plan needs a rate"),
    (["1", "2", "runs", "--plan", "damaged.plan", "--flips-per-million", "-4"], "'-4' is no number from 0"),
    (["1", "2", "runs", "--plan", "damaged.plan", "--flips-per-million", "1000000"], "is no number from 0"),
    (["1", "2", "runs", "--plan", "damaged.plan", "--skew", "65536"], "is no number of 0 to 65535"),
    (["1", "2", "runs", "--each", "true"], "--each needs --plan"),
]


def run(words, folder, program=PROGRAM, surroundings=None):
    return subprocess.run(words, cwd=folder, stdin=subprocess.DEVNULL, capture_output=True, encoding="utf-8", timeout=patience(SECONDS),
                          env={**os.environ, "INTERLAKEN_PROGRAM": program, **(surroundings or {})})


def campaign(folder, *words, program=PROGRAM, surroundings=None):
    """The status and the lines of a campaign with two jobs at once."""
    done = run([TOOL] + [str(word) for word in words] + ["--jobs", "2"], folder, program, surroundings)
    return done.returncode, (done.stdout + done.stderr).splitlines()


def table(folder, name, leave_out=("seconds",)):
    """The rows of a table by their columns."""
    with open(os.path.join(folder, name), encoding="utf-8", newline="") as file:
        return [{key: value for key, value in row.items() if key not in leave_out} for row in csv.DictReader(file)]


def counts(folder, name):
    return {row["item"]: int(row["count"]) for row in table(folder, name)}


def total(found, kind):
    return sum(count for item, count in found.items() if item.startswith(kind))


def bits_of(path):
    """The bits of a lane file as a text."""
    data = content(path)
    return format(int.from_bytes(b"\1" + data, "big"), "b")[1:]


def struck_by(rows, lane, bits):
    """The sent bits of a lane that a schedule inverts, and those that it makes dark."""
    flips, dark = set(), set()
    for row in rows:
        if row[0] == "flip" and int(row[1]) == lane and int(row[2]) < bits:
            flips ^= {int(row[2])}
        if row[0] == "dark" and int(row[1]) == lane:
            dark |= set(range(int(row[2]), min(int(row[2]) + int(row[3]), bits)))
    return flips - dark, dark


def row_by_hand(folder, number):
    """The row that `generate` of a number gives, read off what it prints and writes."""
    done = run([PROGRAM, "generate", "%d" % number, "hand"], folder)
    found = re.search(r"^spans (\d+)$.*^accidents locks=(\d+) groups=(\d+) stretches=(\d+)$", done.stdout, re.MULTILINE | re.DOTALL)
    if done.returncode != 0 or not found:
        return None
    plan = dict(row.split(",", 1) for row in content(os.path.join(folder, "hand.plan")).decode().splitlines())
    lanes, metaframe, skips = (int(plan[key]) for key in ("lanes", "metaframe", "skips"))
    slots = int(re.search(r"^slots (\d+)", done.stdout, re.MULTILINE)[1])
    bits = slots // (lanes * (metaframe - 3 - skips)) * metaframe * CODE
    rows = [row.split(",") for row in content(os.path.join(folder, "hand.schedule")).decode().splitlines()]
    struck = sum(len(part) for lane in range(lanes) for part in struck_by(rows, lane, bits))
    return {"number": "%d" % number, "status": "0", "spans": found[1], "missing": "%d" % done.stdout.count("\nmissing "),
            "accidents": "%d" % sum(int(found[place]) for place in (2, 3, 4)), "struck": "%d" % struck}


def check_generate(tally, folder):
    """The rows of a campaign, which are those of `generate` by hand; what it counts, and its summary."""
    by_hand = [row_by_hand(folder, number) for number in range(FIRST, LAST + 1)]
    if None in by_hand:
        tally.give_up("generate", "it does not end with status 0 and its lines")
    status, lines = campaign(folder, FIRST, LAST, "runs", "--coverage", "--junit", "runs.xml")
    tally.expect("runs, status", (status, lines[:-2]), (0, []))
    rows, found = table(folder, "runs/1-6.csv"), counts(folder, "runs/1-6.coverage.csv")
    tally.expect("runs, rows", rows, by_hand)
    lost = [int(row["missing"]) for row in rows if row["missing"] != "0"]
    summary = "numbers=6 not_done=0 with_accidents=0 with_missing=%d missing=%d struck=%d" % (len(lost), sum(lost), sum(int(row["struck"]) for row in rows))
    tally.expect("runs, summary", lines[-2:], [summary, "never hit: " + ", ".join(item for item, count in found.items() if not count)])
    tally.expect("runs, spans counted", total(found, "span "), sum(int(row["spans"]) for row in rows))
    tally.expect("runs, accidents counted", total(found, "accident "), sum(int(row["accidents"]) for row in rows))
    check_words_counted(tally, folder, found)
    suite = xml.parse(os.path.join(folder, "runs.xml")).getroot()
    tally.expect("runs, JUnit", (suite.tag, suite.get("tests"), suite.get("failures"), [case.get("name") for case in suite]),
                 ("testsuite", "6", "0", ["number %d" % number for number in range(1, 7)]))
    tally.expect("runs, again", campaign(folder, FIRST, LAST, "runs", "--coverage", program="/bin/false"), (0, lines))
    return by_hand


def check_words_counted(tally, folder, found):
    """The counts of a campaign that go by packets and words, beside those of what `burst` writes."""
    packets = bursts = lanes = losses = drops = 0
    for number in range(FIRST, LAST + 1):
        text = run([PROGRAM, "generate", "%d" % number, "hand"], folder).stdout
        packets += sum(int(sent) for sent in re.findall(r"^sent .*packets=(\d+)", text, re.MULTILINE))
        lines = [dict(re.findall(r"(\w+)=(\d+)", line)) for line in re.findall(r"^lane .*", text, re.MULTILINE)]
        lanes, losses = lanes + len(lines), losses + sum(int(line[kind]) for line in lines for kind in ("lost", "unframed", "bad", "sync", "state", "diag"))
        drops += sum(int(count) for count in re.findall(r"=(\d+)", re.search(r"^dropped .*", text, re.MULTILINE)[0]))
        run([PROGRAM, "burst", "hand.plan"], folder)
        words = content(os.path.join(folder, "hand.out.words"))
        bursts += sum(tag == 2 and first & 0x40 > 0 for tag, first in zip(words[::9], words[1::9]))
    tally.expect("runs, ends of packets counted", total(found, "eop "), packets)
    tally.expect("runs, bursts counted", total(found, "burst of "), bursts)
    tally.expect("runs, lanes by skews counted", total(found, "lane skew "), lanes)
    tally.expect("runs, losses of lanes counted", total(found, "lane ") - total(found, "lane skew "), losses)
    tally.expect("runs, drops counted", total(found, "dropped "), drops)
    tally.expect("runs, runs by skews counted", total(found, "skews "), LAST - FIRST + 1)


def write_program(path, body):
    """A program of the shell, which goes on as the program where its body does not end."""
    with open(path, "w", encoding="utf-8") as file:
        file.write("#!/bin/sh\n%s\nexec %s \"$@\"\n" % (body, shlex.quote(PROGRAM)))
    os.chmod(path, 0o755)
    return path


def check_failing(tally, folder, by_hand):
    """A program that fails for some numbers, and then one that writes down for which it is run."""
    refusal = "input refused: case.0.pcap: no file"
    failing = write_program(os.path.join(folder, "failing"), 'case "$2" in %s) echo "%s"; exit 5 ;; esac' % ("|".join(map(str, FAILING)), refusal))
    status, lines = campaign(folder, FIRST, LAST, "again", "--junit", "again.xml", program=failing)
    tally.expect("failing, status and numbers", (status, lines[:-2]), (1, ["number %d: status 5: %s" % (number, refusal) for number in FAILING]))
    tally.expect("failing, summary", lines[-2].split()[:2], ["numbers=6", "not_done=2"])
    tally.expect("failing, rows", [row for row in table(folder, "again/1-6.csv") if row["status"] == "0"], [row for row in by_hand if int(row["number"]) not in FAILING])
    failures = [(case.get("name"), part.get("type"), part.get("message"), part.text) for case in xml.parse(os.path.join(folder, "again.xml")).getroot() for part in case]
    tally.expect("failing, JUnit", failures, [("number %d" % number, "status", "status 5: " + refusal, refusal) for number in FAILING])
    logging = write_program(os.path.join(folder, "logging"), '[ "$1" != generate ] || echo "$2" >>%s' % shlex.quote(os.path.join(folder, "log")))
    status, lines = campaign(folder, FIRST, LAST, "again", program=logging)
    tally.expect("done again, status", (status, lines[:-2]), (0, []))
    tally.expect("done again, numbers", sorted(content(os.path.join(folder, "log")).decode().split()), [str(number) for number in FAILING])
    tally.expect("done again, rows", table(folder, "again/1-6.csv"), by_hand)
    silent = write_program(os.path.join(folder, "silent"), "exit 0")
    tally.expect("a program that prints nothing", campaign(folder, 1, 1, "silent_runs", program=silent)[:1], (1,))
    late = write_program(os.path.join(folder, "late"), '[ "$1" != generate ] || exec sleep 60')
    tally.expect("a program that is late", (lambda status, lines: (status, lines[0]))(*campaign(folder, 1, 1, "late_runs", "--timeout", 1, program=late)),
                 (1, "number 1: status 124: no end after 1 seconds"))
    odd = write_program(os.path.join(folder, "odd"), '"$0.real" "$@" | sed "s/^accidents .*/accidents locks=0 groups=2 stretches=1/"; exit 0')
    os.symlink(PROGRAM, odd + ".real")
    status, lines = campaign(folder, 1, 1, "odd_runs", program=odd)
    tally.expect("accidents", (status, lines[0], lines[1].split()[1:3]), (1, "number 1: accidents locks=0 groups=2 stretches=1", ["not_done=0", "with_accidents=1"]))


def check_refused(tally, folder):
    """Words that are refused, folders and files that are not there, and results of another campaign."""
    for words, told in REFUSED:
        done = run([TOOL] + words, folder)
        tally.expect("campaign " + " ".join(words), (done.returncode, done.stdout, done.stderr.count("\n"), told in done.stderr), (2, "", 1, True))
    for words, told in (([1, 2, "one.pcap"], "campaign: one.pcap is a file, and a folder is wanted"), ([1, 2, "no/program", "--program", "./absent"], "campaign: there is no program ./absent"),
                        ([1, 2, "none", "--plan", "absent.plan", "--dark", 1], "campaign: absent.plan: No such file"),
                        ([1, 6, "runs"], "campaign: runs/1-6.results is of another campaign")):
        status, lines = campaign(folder, *words)
        tally.expect("campaign " + " ".join(map(str, words)), (status, len(lines), lines[0][:len(told)]), (2, 1, told))
    write_files(folder, {"mine.xml": b"<mine/>", "1-2.csv": b"mine"})
    os.makedirs(os.path.join(folder, "mine", "2"))
    for words, told in (([1, 2, "new", "--junit", "mine.xml"], "mine.xml"), ([1, 2, "."], "./1-2.csv"), ([1, 2, "mine", "--keep"], "mine/2")):
        before = sums(folder)
        status, lines = campaign(folder, *words)
        tally.expect("campaign %s over %s" % (words, told), (status, lines), (2, ["campaign: %s exists, and no campaign made it; --overwrite writes over it" % told]))
        tally.expect("campaign %s, changed" % words, changed(before, sums(folder)), [])
    bare = os.path.join(folder, "bare")
    os.mkdir(bare)
    os.symlink(sys.executable, os.path.join(bare, "python3"))
    status, lines = campaign(folder, 1, 2, "bare_runs", surroundings={"PATH": bare})
    tally.expect("without parallel", (status, lines), (2, ["campaign: parallel is not there (Debian package parallel)"]))


def schedule_of(folder, number):
    return [row.split(",") for row in content(os.path.join(folder, "%d" % number, "case.schedule")).decode().splitlines()]


def check_plan(tally, folder):
    """Schedules that are drawn for a plan: the same ones again, as often as the rates say, and as the received lanes have them."""
    words = ["--plan", "damaged.plan", "--flips-per-million", FLIPS_PER_MILLION, "--dark", DARK, "--skew", SKEW]
    status, lines = campaign(folder, 1, SEEDS, "drawn", *words, "--keep", "--coverage")
    tally.expect("drawn, status", (status, lines[:-2]), (0, []))
    rows, again = table(folder, "drawn/1-%d.csv" % SEEDS), campaign(folder, 3, SEEDS, "drawn_again", *words, "--keep")
    tally.expect("drawn again, status", again[0], 0)
    tally.expect("drawn again, rows", table(folder, "drawn_again/3-%d.csv" % SEEDS), rows[2:])
    schedules = [schedule_of(os.path.join(folder, "drawn"), number) for number in range(1, SEEDS + 1)]
    tally.expect("drawn again, schedules", [schedule_of(os.path.join(folder, "drawn_again"), number) for number in range(3, SEEDS + 1)], schedules[2:])
    tally.expect("drawn, different schedules", len({str(schedule) for schedule in schedules}), SEEDS)
    check_rates(tally, schedules)
    run([PROGRAM, "send", "damaged.plan"], folder)
    for row, schedule in zip(rows, schedules):
        check_struck(tally, folder, row, schedule)
    found = counts(folder, "drawn/1-%d.coverage.csv" % SEEDS)
    tally.expect("drawn, spans counted", total(found, "span "), sum(int(row["spans"]) for row in rows))
    tally.expect("drawn, ends of packets counted", {item: count for item, count in found.items() if item.startswith("eop ") and count}, {"eop 4": 2 * SEEDS, "eop 8": 2 * SEEDS})


def check_rates(tally, schedules):
    """The counts, sizes and places of what is drawn."""
    bits = 7 * PERIOD
    flips = [int(row[2]) for schedule in schedules for row in schedule if row[0] == "flip"]
    wanted = FLIPS_PER_MILLION * 2 * bits * SEEDS / 1000000
    tally.expect("flips by their rate", abs(len(flips) - wanted) < 5 * wanted ** 0.5, True)
    tally.expect("flips over the lane", (min(flips) < bits / 10, max(flips) > bits * 9 / 10, max(flips) < bits), (True, True, True))
    darks = [[row for row in schedule if row[0] == "dark" and row[1] == lane] for schedule in schedules for lane in "01"]
    lengths = [int(row[3]) for rows in darks for row in rows]
    tally.expect("dark stretches of each lane", {len(rows) for rows in darks}, {DARK})
    tally.expect("their lengths", (min(lengths) >= 1, max(lengths) <= 4 * PERIOD, len(set(lengths)) > SEEDS), (True, True, True))
    skews = [int(row[2]) for schedule in schedules for row in schedule if row[0] == "skew"]
    tally.expect("skews", (len(skews), max(skews) <= SKEW, len(set(skews)) > SEEDS), (2 * SEEDS, True, True))


def check_struck(tally, folder, row, schedule):
    """The received lanes are the sent ones with the bits of the schedule struck, as many as the row says."""
    struck, right = 0, []
    for lane in range(2):
        sent = bits_of(os.path.join(folder, "damaged.lane.%d" % lane))[:7 * PERIOD]
        flips, dark = struck_by(schedule, lane, len(sent))
        skew = next(int(fields[2]) for fields in schedule if fields[:2] == ["skew", "%d" % lane])
        came = "".join("0" if bit in dark else "10"[int(sent[bit])] if bit in flips else sent[bit] for bit in range(len(sent)))
        received = bits_of(os.path.join(folder, "drawn", row["number"], "case.out.lane.%d" % lane))
        right.append(received[:skew + len(sent)] == "1" * skew + came)
        struck += len(flips) + len(dark)
    tally.expect("number %s, struck bits" % row["number"], (row["struck"], right), ("%d" % struck, [True, True]))


def check_held(tally, folder):
    """A plan whose channel 1 goes off in its first packet: it is held, and done all the same."""
    sys.path.insert(0, os.path.join(TOP, "tools", "lib"))
    from reading.control_words import sealed_alone
    off = sealed_alone(0x817FFF0000000000)
    with open(os.path.join(folder, "off.flow"), "w", encoding="ascii") as file:
        file.write("0,%016X\n230,%016X\n" % (0x81FFFF0000188177, off))
    plan = content(os.path.join(folder, "damaged.plan")).decode().replace("schedule,damaged.schedule", "flow,off.flow")
    with open(os.path.join(folder, "off.plan"), "w", encoding="ascii") as file:
        file.write(plan)
    status, lines = campaign(folder, 1, 2, "held", "--plan", "off.plan", "--skew", 5, "--coverage")
    found = counts(folder, "held/1-2.coverage.csv")
    tally.expect("held", (status, [row["status"] for row in table(folder, "held/1-2.csv")], found["run held"], found["channel off in mid-packet"]), (0, ["3", "3"], 2, 2))


# A command that takes the lanes as they come, and one that leaves those of another plan.
TAKES = 'env | grep ^INTERLAKEN_ | sort > seen; for lane in 0 1; do cp "$INTERLAKEN_LANES_IN.lane.$lane" "$INTERLAKEN_LANES_OUT.lane.$lane"; done'
OTHERS = 'for lane in 0 1; do cp %s.lane.$lane "$INTERLAKEN_LANES_OUT.lane.$lane"; done'


def judged_rows(folder, plan):
    """The rows that tools/judge finds by a plan in a folder."""
    run([os.path.join(TOP, "tools", "judge"), plan], folder)
    return content(os.path.join(folder, plan.replace("received.plan", "left.judged.csv"))).decode().splitlines()[1:]


def check_each(tally, folder):
    """A command that is run for each number: what it finds, what it leaves, and how it fails."""
    words = ["--plan", "damaged.plan", "--flips-per-million", 100, "--keep", "--each"]
    status, lines = campaign(folder, 1, 3, "each", *words, TAKES, "--coverage")
    rows, kept = table(folder, "each/1-3.csv"), [os.path.join(folder, "each", "%d" % number) for number in (1, 2, 3)]
    tally.expect("each, status and columns", (status, list(rows[0])), (0, ["number", "status", "spans", "missing", "findings", "struck"]))
    tally.expect("each, findings", [int(row["findings"]) for row in rows], [len(judged_rows(path, "case.received.plan")) for path in kept])
    tally.expect("each, some findings", any(row["findings"] != "0" for row in rows), True)
    seen = [dict(line.split("=", 1) for line in content(os.path.join(path, "seen")).decode().splitlines()) for path in kept]
    real = [os.path.realpath(path) for path in kept]
    tally.expect("each, environment", [[one["INTERLAKEN_" + name] for name in ("NUMBER", "PLAN", "LANES_IN", "LANES_OUT")] for one in seen],
                 [["%d" % number, path + "/case.plan", path + "/case.out.damaged", path + "/case.left"] for number, path in enumerate(real, 1)])
    summary = "numbers=3 not_done=0 with_missing=%d missing=%d struck=%d with_findings=%d findings=%d" % (
        sum(row["missing"] != "0" for row in rows), sum(int(row["missing"]) for row in rows), sum(int(row["struck"]) for row in rows),
        sum(row["findings"] != "0" for row in rows), sum(int(row["findings"]) for row in rows))
    tally.expect("each, summary", lines[-2], summary)
    nothing = campaign(folder, 1, 3, "nothing", *words, "true")
    tally.expect("a command that leaves nothing", (nothing[0], table(folder, "nothing/1-3.csv")), (0, rows))
    check_each_others(tally, folder)
    fails = 'echo one; [ "$INTERLAKEN_NUMBER" != 2 ] || { echo it went wrong; exit 7; }'
    status, lines = campaign(folder, 1, 3, "fails", "--plan", "damaged.plan", "--each", fails, "--junit", "fails.xml")
    tally.expect("a command that fails", (status, lines[0], lines[1].split()[:2]), (1, "number 2: status 7: it went wrong", ["numbers=3", "not_done=1"]))
    failures = [(case.get("name"), part.text) for case in xml.parse(os.path.join(folder, "fails.xml")).getroot() for part in case]
    tally.expect("a command that fails, JUnit", failures, [("number 2", "it went wrong")])
    for name, command, told in (("half_each", 'cp "$INTERLAKEN_LANES_IN.lane.0" "$INTERLAKEN_LANES_OUT.lane.0"', "number 1: no run: it left case.left.lane.0, and not all 2 lanes"),
                                ("late_each", "sleep 60", "number 1: status 124: no end after 1 seconds")):
        status, lines = campaign(folder, 1, 1, name, "--plan", "damaged.plan", "--each", command, "--timeout", 1)
        tally.expect("a command that is %s" % name, (status, lines[0]), (1, told))
    other = campaign(folder, 1, 1, "half_each", "--plan", "damaged.plan", "--each", "true")
    tally.expect("another command", (other[0], other[1][0][:len("campaign: half_each/1-1.results is of another")]), (2, "campaign: half_each/1-1.results is of another"))


def check_each_others(tally, folder):
    """The words of the lanes that a command leaves are counted, and not those that were sent."""
    with open(os.path.join(folder, "odd.in"), "wb") as file:
        file.write(capture(["5x11"]))
    plan = content(os.path.join(folder, "damaged.plan")).decode()
    for old, new in (("one.pcap", "odd.in"), ("two.pcap", "odd.in"), ("schedule,damaged.schedule\n", ""), ("out,damaged", "out,odd")):
        plan = plan.replace(old, new)
    with open(os.path.join(folder, "odd.plan"), "w", encoding="ascii") as file:
        file.write(plan)
    run([PROGRAM, "send", "odd.plan"], folder)
    status, _ = campaign(folder, 1, 2, "others", "--plan", "damaged.plan", "--coverage", "--each", OTHERS % shlex.quote(os.path.join(folder, "odd")))
    found = counts(folder, "others/1-2.coverage.csv")
    tally.expect("lanes that a command leaves", (status, {item: count for item, count in found.items() if item.startswith("eop ") and count}), (0, {"eop 3": 20}))
    tally.expect("what is not known of them", [item for item in found if item.startswith("accident ") or item in ("run held", "channel off in mid-packet")], [])


def free_port():
    with socket.socket() as one:
        one.bind(("127.0.0.1", 0))
        return one.getsockname()[1]


def write_login(folder, port):
    """The keys and files of an sshd on the loopback address, and of an ssh that logs in there."""
    for name in ("host", "user"):
        subprocess.run(["ssh-keygen", "-q", "-t", "ed25519", "-N", "", "-f", os.path.join(folder, name)], check=True, stdin=subprocess.DEVNULL)
    shutil.copy(os.path.join(folder, "user.pub"), os.path.join(folder, "authorized"))
    with open(os.path.join(folder, "known"), "w", encoding="ascii") as file:
        file.write("[127.0.0.1]:%d %s" % (port, content(os.path.join(folder, "host.pub")).decode()))
    files = {"sshd_config": ["Port %d" % port, "ListenAddress 127.0.0.1", "HostKey %s/host" % folder, "AuthorizedKeysFile %s/authorized" % folder, "PidFile none",
                             "StrictModes no", "UsePAM no", "PasswordAuthentication no", "PermitRootLogin prohibit-password", 'SetEnv "PATH=%s"' % os.environ["PATH"]],
             "ssh_config": ["Host loopback", "HostName 127.0.0.1", "Port %d" % port, "User %s" % getpass.getuser(), "IdentityFile %s/user" % folder,
                            "IdentitiesOnly yes", "UserKnownHostsFile %s/known" % folder, "BatchMode yes", "ConnectTimeout 10"]}
    for name, lines in files.items():
        with open(os.path.join(folder, name), "w", encoding="utf-8") as file:
            file.write("\n".join(lines) + "\n")


def logs_in(ssh):
    """Whether ssh comes in, in ten seconds."""
    for _ in range(40):
        if subprocess.run(ssh + ["loopback", "true"], stdin=subprocess.DEVNULL, capture_output=True).returncode == 0:
            return True
        time.sleep(0.25)
    return False


def check_machines(tally, folder, by_hand):
    """A campaign on another machine, which is this one over its loopback address."""
    what = "a campaign over ssh on the loopback address"
    sshd = shutil.which("sshd") or shutil.which("sshd", path="/usr/sbin:/usr/local/sbin")
    for tool, package in (("ssh", "openssh-client"), ("sshd", "openssh-server")):
        if not (sshd if tool == "sshd" else shutil.which(tool)):
            tally.not_tried(tool, package, what)
            return
    port, separated = free_port(), "/run/sshd"
    write_login(folder, port)
    # As root sshd wants this folder, which its service makes when it starts.
    is_made = os.geteuid() == 0 and not os.path.exists(separated)
    if is_made:
        os.mkdir(separated, 0o755)
    try:
        with open(os.path.join(folder, "sshd_log"), "wb") as log:
            server = subprocess.Popen([sshd, "-D", "-e", "-f", os.path.join(folder, "sshd_config")], stdin=subprocess.DEVNULL, stdout=log, stderr=log)
        try:
            ssh = ["ssh", "-F", os.path.join(folder, "ssh_config")]
            if logs_in(ssh):
                status, lines = campaign(folder, FIRST, LAST, "far", "--sshlogin", "2/loopback", surroundings={"PARALLEL_SSH": shlex.join(ssh), "HOME": folder})
                tally.expect("over ssh, status", (status, lines[:-2]), (0, []))
                tally.expect("over ssh, rows", table(folder, "far/1-6.csv"), by_hand)
            else:
                print("\n".join(content(os.path.join(folder, "sshd_log")).decode("utf-8", "replace").splitlines()[-2:]))
                tally.not_tried("login at an sshd of its own", "openssh-server", what)
        finally:
            server.terminate()
            server.wait()
    finally:
        if is_made:
            os.rmdir(separated)


def main():
    tally = Tally("campaign")
    with tempfile.TemporaryDirectory(prefix="campaign.") as folder:
        copy_examples(TOP, folder)
        by_hand = check_generate(tally, folder)
        check_failing(tally, folder, by_hand)
        check_refused(tally, folder)
        check_plan(tally, folder)
        check_held(tally, folder)
        check_each(tally, folder)
        check_machines(tally, folder, by_hand)
    return tally.end()


sys.exit(main())
