"""What checks/documents.sh does, with the program and the repository as its words.

A block between two lines of three backquotes has commands after '$ ', and below each the lines that it prints, both streams in
one. The commands of a page run one after another in one copy of examples/, beside the program and the tools; the pages run side by
side. If no line is below a command, the page says in words what it prints. A command has to end in time, and with status 0 unless
the next one is `echo $?`, below which the page has the status. If a tool of a block is missing, the block is not tried.

No page of the repository has a place that is still to be filled, as a measured number: a name between two `@`, in capital letters.
The lists that tools print in place of pages are whole; the words of pages are those of documents.words
(wording.py), their size is within pages.csv (pages.py), and the names that they cite exist (cited.py).
"""

import concurrent.futures
import glob
import os
import re
import signal
import subprocess
import sys
import tempfile

PROGRAM, TOP = os.path.abspath(sys.argv[1]), os.path.abspath(sys.argv[2])
sys.path.append(os.path.join(TOP, "tools", "lib"))

from build import edits
from lib.cited import check_cited
from lib.machine import copy_examples, has_tool, patience
from lib.pages import check_pages
from lib.tally import Tally
from lib.wording import check_words

# The pages, with the folder of the first command of each.
PAGES = {"README.md": "", "docs/TOUR.md": "examples", "docs/MORE.md": "examples", "docs/DEVICE.md": "examples/device", "tools/README.md": "",
         "examples/testbench/README.md": "examples/testbench"}
# What the pages call that a machine may lack: the tools and their Debian packages, by the command that needs them.
TOOLS = {
    "iverilog": [("iverilog", "iverilog")], "vvp": [("vvp", "iverilog")], "../tools/campaign": [("parallel", "parallel")],
    # It calls the others if it builds a program.
    "verilator": [("verilator", "verilator"), ("make", "make"), ("c++", "g++")],
}
UNFILLED = re.compile("@[A-Z_]+@")
TELLS_STATUS = "echo $?"
# A command has to end by then on an idle machine: a build by verilator takes longest.
SECONDS = 90
# The commands of a page stand one on another, so its rest is not tried after this many failures.
FAILURES = 2


def blocks(page):
    """The blocks of a page that begin with a command: their lines, and the number of the first."""
    with open(os.path.join(TOP, page), encoding="utf-8") as file:
        lines = file.read().split("\n")
    fences = [number for number, line in enumerate(lines) if line.startswith("```")]
    for first, last in zip(fences[::2], fences[1::2]):
        if lines[first + 1].startswith("$ "):
            yield first + 2, lines[first + 1:last]


def commands(number, lines):
    """Each command of a block with the number of its line and the lines below it."""
    at = [place for place, line in enumerate(lines) if line.startswith("$ ")]
    for place, after in zip(at, at[1:] + [len(lines)]):
        yield number + place, lines[place][2:], lines[place + 1:after]


def missing_tool(lines):
    """The first tool that the commands of a block need and that is not there, with its package; or nothing."""
    called = [line[2:].split()[0] for line in lines if line.startswith("$ ")]
    needed = [tool for command in called for tool in TOOLS.get(command, [])]
    return next((needs for needs in needed if not has_tool(needs[0])), None)


def make_folder(top, page):
    """Puts the examples, the program and the tools into a folder, as the page has them; the folder of its first command."""
    copy_examples(TOP, os.path.join(top, "examples"))
    os.symlink(PROGRAM, os.path.join(top, "interlaken"))
    os.symlink(os.path.join(TOP, "tools"), os.path.join(top, "tools"))
    return os.path.join(top, PAGES[page])


class Shell:
    """Runs one command after another, each where the one before left it, and with its status."""

    def __init__(self, folder, seconds=SECONDS):
        self.folder, self.seconds, self.status = folder, seconds, 0

    def run(self, command):
        """What the command prints; None if it does not end in time."""
        script = "(exit %d)\n%s\nprintf '\\n%%d %%s' $? \"$PWD\"" % (self.status, command)
        how = {"stdin": subprocess.DEVNULL, "stdout": subprocess.PIPE, "stderr": subprocess.STDOUT, "encoding": "utf-8", "errors": "replace"}
        shell = subprocess.Popen(["bash", "-c", script], cwd=self.folder, start_new_session=True, **how)
        try:
            printed = shell.communicate(timeout=patience(self.seconds))[0]
        except subprocess.TimeoutExpired:
            os.killpg(shell.pid, signal.SIGKILL)
            shell.communicate()
            return None
        text, _, end = printed.rpartition("\n")
        told = re.fullmatch(r"(\d+) (/.*)", end)
        if not told:  # the command ended the shell
            self.status = shell.returncode
            return printed
        self.status, self.folder = int(told[1]), told[2]
        return text


def fault_of(text, wanted, status):
    """What is wrong with what a command printed and with its status, or nothing."""
    if text is None:
        return "it does not end in time"
    if wanted and text.rstrip("\n").split("\n") != wanted:
        return "it prints\n%sand not\n%s\n" % (text, "\n".join(wanted))
    return "status %d, which the page does not say\n%s" % (status, text) if status else ""


def check_block(tally, shell, page, number, lines):
    found = list(commands(number, lines))
    for (place, command, wanted), after in zip(found, found[1:] + [None]):
        text = shell.run(command)
        is_told = after is not None and after[1] == TELLS_STATUS and after[2]
        tally.count("%s, line %d: %s" % (page, place, command), fault_of(text, wanted, 0 if is_told else shell.status))


class Notes:
    """The results of one page, kept until the pages before it were reported."""

    def __init__(self):
        self.failed, self.calls = 0, []

    def count(self, what, wrong=""):
        self.failed += bool(wrong)
        self.calls.append(lambda tally: tally.count(what, wrong))

    def not_tried(self, tool, package, what):
        self.calls.append(lambda tally: tally.not_tried(tool, package, what))

    def report(self, tally):
        for call in self.calls:
            call(tally)


def tried_page(page):
    """Runs the commands of a page, up to the block in which FAILURES have failed; what they printed beside the page."""
    notes, found = Notes(), list(blocks(page))
    if not found:
        notes.count(page, "it has no command")
        return notes
    with tempfile.TemporaryDirectory(prefix="documents.") as top:
        shell = Shell(make_folder(top, page))
        for number, lines in found:
            missing = missing_tool(lines)
            if notes.failed >= FAILURES:
                notes.count("%s, line %d and below" % (page, number), "left out after these failures")
                break
            if missing:
                notes.not_tried(*missing, "%s, line %d and below" % (page, number))
            else:
                check_block(notes, shell, page, number, lines)
    return notes


def check_commands(tally):
    """The commands of all pages. They run in processes of their own, so threads are enough to have the pages side by side."""
    with concurrent.futures.ThreadPoolExecutor(max_workers=os.cpu_count()) as pool:
        for notes in pool.map(tried_page, PAGES):
            notes.report(tally)


def check_filled(tally):
    """That no page has a place without its value."""
    pages = sorted(glob.glob(os.path.join(TOP, "**", "*.md"), recursive=True))
    for page in pages:
        with open(page, encoding="utf-8") as file:
            found = ["%s in line %d" % (place, number) for number, line in enumerate(file, 1) for place in UNFILLED.findall(line)]
        tally.count(os.path.relpath(page, TOP), "no value stands for " + ", ".join(found) if found else "")
    tally.count("pages", "" if len(pages) >= len(PAGES) else "there are %d" % len(pages))


def check_made(tally):
    """That the lists which tools print, and no page has, are whole."""
    faults = list(edits.faults_of(edits.edits_in(TOP), edits.reasons_in(TOP)))
    tally.count("checks/edits/REASONS.csv", "\n  ".join(faults))
    listed = subprocess.run([os.path.join(TOP, "tools", "wrong_bodies")], stdout=subprocess.PIPE, encoding="utf-8").stdout
    rows, wanted = len(re.findall(r"^\| `", listed, re.M)), len(edits.edits_in(TOP))
    tally.count("tools/wrong_bodies", "" if rows == wanted else "it lists %d mutations of %d" % (rows, wanted))
    names = {os.path.basename(path)[: -len(".sh")] for path in glob.glob(os.path.join(TOP, "checks", "*.sh"))}
    listed = subprocess.run([os.path.join(TOP, "checks", "run"), "--list"], stdout=subprocess.PIPE, encoding="utf-8").stdout
    lacking = sorted(names - set(re.findall(r"^(\w+)\n  \S", listed, re.M)))
    tally.count("checks/run --list", "it says nothing of " + ", ".join(lacking) if lacking else "")
    listed = subprocess.run([os.path.join(TOP, "tools", "laws"), "--names", "lane_damage"], stdout=subprocess.PIPE, encoding="utf-8").stdout
    tally.count("tools/laws", "" if re.search(r"^joins_to_the_damaged_lane: \w", listed, re.M) else "it does not name a law of lane_damage")
    listed = subprocess.run([os.path.join(TOP, "tools", "laws"), "--sizes"], stdout=subprocess.PIPE, encoding="utf-8").stdout
    counted = {line.split()[0]: line.split()[1:] for line in listed.splitlines()}
    lacking = sorted(set(os.listdir(os.path.join(TOP, "crates"))) - counted.keys())
    tally.count("tools/laws --sizes", "it says nothing of " + ", ".join(lacking) if lacking else "")
    tally.count("tools/laws --sizes, all", "" if all(int(count) for count in counted.get("all", ["0"])) else "it counts no lines")


def main():
    tally = Tally("documents")
    check_filled(tally)
    check_made(tally)
    check_words(tally, TOP)
    check_pages(tally, TOP)
    check_cited(tally, TOP)
    check_commands(tally)
    return tally.end()


if __name__ == "__main__":
    sys.exit(main())
