"""What checks/headline.sh does, with the repository as its word."""

import os
import re
import shutil
import subprocess
import sys
import tempfile

from lib.tally import Tally

TOP = os.path.abspath(sys.argv[1])
TOOL = os.path.join(TOP, "tools", "headline")
# The most lines without comments that somebody must read who wants to know what the theorem says, and the receiver's part of them. The
# grammar of words and plans is not among them.
MOST_LINES, MOST_PERCENT = 1068, 40
COUNT = re.compile(r"(\d+) definitions, (\d+) lines without comments")
SHARE = re.compile(r"(\d+) lines, (\d+) %, are the receiver's")
HEAD = re.compile(r"^\[(\d+)\] (\S+)   (crates/\S+):(\d+)$", re.M)
# A definition on the way, a name in it, and what stands there in a checkout that is broken.
BROKEN = ("crates/link_commands/specs/Delivery.antt", "sent_packets_at (slot_place", "sent_packets_at (slot_places")


def headline(*words):
    done = subprocess.run([sys.executable, "-B", TOOL, *words], capture_output=True, text=True, check=False)
    return done.returncode, done.stdout, done.stderr


def try_text(tally):
    status, text, error = headline()
    tally.expect("the text: status", (status, error), (0, ""))
    if status:
        return 0
    count, share, heads = COUNT.search(text), SHARE.search(text), HEAD.findall(text)
    tally.expect("the text: numbers of its definitions", [int(head[0]) for head in heads], list(range(1, int(count[1]) + 1)))
    tally.count("lines of the theorem", int(count[2]) > MOST_LINES and "%s lines, and %d at most" % (count[2], MOST_LINES))
    tally.count("lines of the receiver", int(share[2]) > MOST_PERCENT and "%s %%, and %d at most" % (share[2], MOST_PERCENT))
    words = text.partition("Words of the kit:\n")[2]
    tally.expect("words of the kit without a meaning", (re.findall(r" in Rattle\S+", words), words.count("\n") > 50), ([], True))
    for clause in ("delivers", "delivers_clean", "links_off"):
        tally.count("clause", "ensures %s {" % clause not in text and "%s is not in the text" % clause)
    return len(heads)


def try_page(tally, definitions):
    status, page, error = headline("--html")
    tally.expect("the page: status", (status, error), (0, ""))
    places, links = re.findall(r' id="([^"]+)"', page), re.findall(r'href="#([^"]+)"', page)
    tally.expect("the page: places that stand twice", len(places) - len(set(places)), 0)
    tally.expect("the page: links that lead nowhere", sorted(set(links) - set(places)), [])
    tally.expect("the page: definitions", len(re.findall(r"<h3 ", page)), definitions)
    tally.expect("the page: definitions to which nothing leads", sorted(set(re.findall(r'<h3 id="([^"]+)"', page)) - set(links)), [])


def try_all(tally):
    """Each name that the clauses of `run` reach leads somewhere."""
    with open(os.path.join(TOP, "crates", "interlaken", "src", "top.rt"), encoding="utf-8") as file:
        head = file.read().partition("\npub fn run<")[2].partition("\n{\n")[0]
    clauses = re.findall(r"^    ensures (\w+) ", head, re.M)
    status, text, error = headline(*clauses)
    tally.expect("all clauses of run", (status, error, len(clauses) > 30), (0, "", True))
    tally.count("all clauses of run", [clause for clause in clauses if "ensures %s {" % clause not in text])


def try_broken(tally):
    """A checkout in which a definition has a name that leads nowhere."""
    place, old, new = BROKEN
    with tempfile.TemporaryDirectory() as folder:
        shutil.copytree(os.path.join(TOP, "docs"), os.path.join(folder, "docs"))
        shutil.copytree(os.path.join(TOP, "crates"), os.path.join(folder, "crates"), ignore=shutil.ignore_patterns("out", "proofs", "data", "must-fail"))
        path = os.path.join(folder, place)
        with open(path, encoding="utf-8") as file:
            text = file.read()
        tally.expect("the name that is broken", text.count(old), 1)
        with open(path, "w", encoding="utf-8") as file:
            file.write(text.replace(old, new))
        status, printed, error = headline("--top", folder)
        tally.expect("a name that leads nowhere", (status, printed, "slot_places leads to no definition" in error), (2, "", True))


def main():
    tally = Tally("headline")
    try_page(tally, try_text(tally))
    try_all(tally)
    try_broken(tally)
    tally.expect("no such clause", headline("delivers_all"), (2, "", "headline: crates/interlaken/src/top.rt:run has no clause delivers_all\n"))
    tally.expect("no such definition", headline("--closed", "spams"), (2, "", "headline: --closed spams: there is no such definition\n"))
    sys.exit(tally.end())


main()
