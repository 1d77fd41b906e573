"""What checks/bench.sh does, with the program and the repository as its words."""

import os
import re
import shutil
import subprocess
import sys
import tempfile

PROGRAM, TOP = os.path.abspath(sys.argv[1]), os.path.abspath(sys.argv[2])
BENCH = os.path.join(TOP, "bench")
sys.path.append(BENCH)

from cases import RUNS, SHAPES, needed_for
from lib.tally import Tally

BESIDE = os.path.join(BENCH, "beside.sh")
# One reads words and one lanes, and each needs another run before it.
COMMANDS = ["check", "receive"]
SECONDS = ["--seconds", "--turns", "1", "--commands"]
# Programs in the place of the present one, and what beside.sh says of `check` by them.
WRONG = {
    "a file with one byte more": ('"$PROGRAM" "$@"; printf x >>o.faults.csv', "OTHER FILE o.faults.csv"),
    "another file": ('"$PROGRAM" "$@"; printf x >o.other', "OTHER FILE o.other"),
    "other text": ('"$PROGRAM" "$@"; echo x', "OTHER TEXT"),
    "another status": ('"$PROGRAM" "$@"; exit 3', "STATUS 3"),
    "nothing": ("exit 0", "NO FILE WRITTEN"),
}
USAGE = "usage: interlaken COMMAND FILE, or interlaken generate NUMBER PREFIX"


def beside(arguments, folder, **environment):
    """The status, the output and the error output of beside.sh, called in a folder."""
    words, around = [shutil.which("bash"), BESIDE, *arguments], {**os.environ, "INTERLAKEN_PROGRAM": PROGRAM, **environment}
    done = subprocess.run(words, cwd=folder, env=around, capture_output=True, text=True)
    return done.returncode, done.stdout, done.stderr


def rows(text):
    """The rows of the tables of a text: the fields below the head, by the names in it."""
    lines = [[it.strip() for it in line.strip("|").split("|")] for line in text.splitlines() if line.startswith("|")]
    return [dict(zip(lines[0], fields)) for fields in lines[2:]]


def script(room, name, line):
    """A program of one line of the shell."""
    path = os.path.join(room, name)
    with open(path, "w") as file:
        file.write("#!/bin/sh\nPROGRAM='%s'\n%s\n" % (PROGRAM, line))
    os.chmod(path, 0o755)
    return path


def tools_alone(room, *names):
    """A folder with these tools and no others, for a PATH."""
    folder = tempfile.mkdtemp(dir=room)
    for name in names:
        os.symlink(sys.executable if name == "python3" else shutil.which(name), os.path.join(folder, name))
    return folder


def helps(tally, folder):
    for name in sorted(name for name in os.listdir(BENCH) if name.endswith(".sh")):
        done = subprocess.run(["bash", os.path.join(BENCH, name), "--help"], cwd=folder, capture_output=True, text=True)
        told = done.returncode == 0 and len(done.stdout) > 40
        tally.count(name + " --help", "" if told else "status %d: %s" % (done.returncode, done.stderr))


def every_command(tally):
    """Each command of tools/commands.txt is measured, and what a run reads is written before it."""
    with open(os.path.join(TOP, "tools", "commands.txt"), encoding="utf-8") as file:
        named = {line.split("|")[0] for line in file if not line.startswith("#")}
    tally.expect("the commands that are measured", {run.command for run in RUNS}, named)
    order = [run.arguments for run in RUNS + SHAPES]
    for place, run in enumerate(RUNS + SHAPES):
        early = all(order.index(it) < place for it in run.reads)
        tally.count("what is read by " + " ".join(run.arguments), "" if early else "it is written later")
    needed = [" ".join(run.arguments) for run in needed_for({"gather"})]
    tally.expect("runs for one command", needed, ["burst a.plan", "send a.plan", "gather a.plan"])


def itself(tally, folder, size, what, *options):
    """The program beside itself: rows of only the two commands, without a fault. It returns the rows."""
    status, text, error = beside([*options, "--commands", ",".join(COMMANDS), PROGRAM, "1", str(size)], folder)
    tally.expect(what + " of the program beside itself", (status, error), (0, ""))
    found = rows(text)
    tally.expect(what + ": the commands", [row["command"].strip("`") for row in found], COMMANDS)
    tally.expect(what + ": the results", [row["result"] for row in found], ["same"] * len(COMMANDS))
    return found


def instructions(tally, folder):
    if not shutil.which("valgrind"):
        tally.not_tried("valgrind", "valgrind", "instructions")
        return
    found = itself(tally, folder, 1514, "instructions", "--instructions")
    tally.expect("the ratios of their instructions", [row["now to earlier"] for row in found], ["1.000"] * len(COMMANDS))
    tally.expect("instructions of the plain program", [row["plain"] for row in found], ["80", "145"])
    for row in found:
        count, ratio = float(row["now"]), float(row["now"]) / int(row["plain"])
        told = row["unit"] == "word" and 10 < count < 10000 and abs(float(row["now to plain"]) - ratio) < 0.01
        tally.count("the figures of " + row["command"], "" if told else str(row))


def seconds(tally, folder):
    found = itself(tally, folder, 64, "seconds", "--seconds", "--turns", "1")
    told = all(re.fullmatch(r"\d+\.\d\d", row[name]) for row in found for name in ("s earlier", "s now"))
    tally.count("the seconds", "" if told else str(found))


def shapes(tally, folder):
    """Each link of another shape has a row, without a fault, and with its peak."""
    status, text, error = beside(["--shapes", *SECONDS, "receive", PROGRAM, "1", "64"], folder)
    tally.expect("links of other shapes", (status, error), (0, ""))
    found = rows(text)
    tally.expect("the shapes", [row["of"] for row in found], [run.of for run in SHAPES if run.command == "receive"])
    tally.count("their peaks", "" if all(float(row["peak MB now"]) > 1 for row in found) else str(found))


def wrong_programs(tally, room, folder):
    for number, (name, (line, wanted)) in enumerate(WRONG.items()):
        program = script(room, "wrong%d" % number, line)
        status, text, error = beside([*SECONDS, "check", PROGRAM, "1", "1514"], folder, INTERLAKEN_PROGRAM=program)
        tally.expect("a program that writes " + name, (status, [row["result"] for row in rows(text)]), (1, [wanted]))
        tally.count("its fault at the end", "" if "check a.plan: " + wanted in error else error)
    old = script(room, "old", "[ $1 != check ] || { echo '%s'; exit 2; }; exec \"$PROGRAM\" \"$@\"" % USAGE)
    status, text, _ = beside([*SECONDS, "check", old, "1", "1514"], folder)
    tally.expect("an earlier program without the command", (status, [row["result"] for row in rows(text)]), (0, ["new command"]))


def missing_tools(tally, room, folder):
    path = tools_alone(room, "bash", "dirname", "python3")
    told = "beside: instructions not counted, no valgrind (Debian package valgrind)\n"
    found = beside(["--instructions", "--commands", "check", PROGRAM, "1"], folder, PATH=path)
    tally.expect("without valgrind", found, (1, told, "beside: nothing was measured\n"))
    status, text, error = beside(["no-such-program", "1"], folder, PATH=path)
    tally.count("a commit without git", "" if status == 1 and "no git (Debian package git)" in error else error)
    status, _, error = beside([PROGRAM, "1"], folder, PATH=tools_alone(room, "bash", "dirname"))
    tally.expect("without python3", (status, error), (1, "beside: no python3 (Debian package python3)\n"))


def wrong_arguments(tally, folder):
    for arguments, wanted in (([], 2), (["--commands", "none", PROGRAM], 2), ([PROGRAM, "0"], 2), (["no-such-program", "1"], 1)):
        tally.expect("status of beside.sh " + " ".join(arguments), beside(arguments, folder)[0], wanted)


def main():
    tally = Tally("bench")
    with tempfile.TemporaryDirectory() as room:
        folder = os.path.join(room, "mine")
        os.mkdir(folder)
        # Names that the inputs have, too.
        for name in ("a.pcap", "a.plan", "o.words", "o.faults.csv"):
            with open(os.path.join(folder, name), "w") as file:
                file.write("mine")
        helps(tally, folder)
        every_command(tally)
        instructions(tally, folder)
        seconds(tally, folder)
        shapes(tally, folder)
        wrong_programs(tally, room, folder)
        missing_tools(tally, room, folder)
        wrong_arguments(tally, folder)
        kept = {name: open(os.path.join(folder, name)).read() for name in sorted(os.listdir(folder))}
        tally.expect("a user's files", kept, {name: "mine" for name in ("a.pcap", "a.plan", "o.faults.csv", "o.words")})
    return tally.end()


if __name__ == "__main__":
    sys.exit(main())
