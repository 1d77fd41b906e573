"""Whether the files that show the house say what its crates use: crates.txt has a line for each crate, which names the crates, of
the repository and of the kit, whose items the crate names, and no other; proofs/Lib.antt of a crate shows ('pub mod') the lemmas
that other crates cite, and no other; docs/CRATES.md has an entry for each crate, and docs/tour/crates.svg a place for each but the programs
of tests, from which no crate uses one of a higher box. And whether each definition stands once, but for those that checks/twice.csv
gives a reason for.

    python3 house.py TOP
"""

import glob
import os
import re
import sys

from lib.tally import Tally
from lib.twice import count_twice

LOGIC = re.compile(r"\bRattle\.([a-z0-9_]+)\.(specs|proofs)\.([A-Za-z0-9_-]+)")
CODE = re.compile(r"(?<![A-Za-z0-9_:.$])([a-z][a-z0-9_]*)::")
# What begins a comment, by the ends of files.
COMMENT = {".rt": "//", ".antt": "--"}


def edges_of(top):
    """The crates that each crate's line in crates.txt names."""
    edges = {}
    for line in open(os.path.join(top, "crates.txt"), encoding="utf-8"):
        line = line.split("#")[0].strip()
        if line:
            name, rest = line.split(":")
            edges[name.split()[0]] = rest.split()
    return edges


def without_comments(path):
    with open(path, encoding="utf-8") as file:
        return re.sub(COMMENT[os.path.splitext(path)[1]] + r"[^\n]*", "", file.read())


def sources_of(top, crate):
    """The files of a crate with code, definitions and proofs."""
    for part in ("src", "specs", "proofs"):
        for path in glob.glob(os.path.join(top, "crates", crate, part, "**", "*"), recursive=True):
            if path.endswith(tuple(COMMENT)):
                yield path


def used_by(top, crate, crates):
    """The crates whose items this one names, and the files of others' lemmas that it cites."""
    used, cited = set(), set()
    for path in sources_of(top, crate):
        text = without_comments(path)
        modules = {os.path.basename(p)[:-3] for p in glob.glob(os.path.join(os.path.dirname(path), "*.rt"))}
        for other, kind, file in LOGIC.findall(text):
            if other != crate and other in crates:
                used.add(other)
                if kind == "proofs":
                    cited.add((other, file))
        if path.endswith(".rt"):
            used |= {n for n in CODE.findall(text) if n in crates and n != crate and n not in modules}
    return used, cited


def shown_in(path):
    """The files that a list of proofs shows, and all that it names."""
    lines = re.findall(r"^(pub )?mod (\S+)$", open(path, encoding="utf-8").read(), re.M)
    return {name for pub, name in lines if pub}, {name for _, name in lines}


def faults_of_line(top, crate, named, used):
    """What is wrong with the line of a crate in crates.txt."""
    if not any(sources_of(top, crate)):
        return ["there are no sources of it"]
    lacking, idle = sorted(used - named), sorted(named - used)
    return ["it uses %s, which its line in crates.txt does not name" % n for n in lacking] + ["crates.txt names %s, of which it uses nothing" % n for n in idle]


def faults_of_proofs(top, crate, cited):
    """What is wrong with the list of a crate's proofs, if it has one."""
    path = os.path.join(top, "crates", crate, "proofs", "Lib.antt")
    if not os.path.exists(path):
        return []
    shown, listed = shown_in(path)
    wanted = {file for other, file in cited if other == crate and file in listed}
    shows, hides = sorted(shown - wanted), sorted(wanted - shown)
    return ["proofs/Lib shows %s, which no other crate cites" % n for n in shows] + ["proofs/Lib hides %s, which another crate cites" % n for n in hides]


def heights_in(path):
    """The crates in the titles of the boxes of the picture, each with the height of its box."""
    with open(path, encoding="utf-8") as file:
        boxes = re.findall(r'<rect class="crates" x="[\d.]+" y="([\d.]+)"[^>]*><title>([^<]*)</title>', file.read())
    return {name: float(height) for height, names in boxes for name in names.split()}


def faults_of_height(crate, line, heights):
    """What is wrong with the place of a crate in the picture: it uses a crate of a higher box, or it has no place."""
    if crate not in heights:
        return [] if is_test(crate) else ["docs/tour/crates.svg has no place for it"]
    return ["docs/tour/crates.svg has %s above it" % other for other in line if heights.get(other, heights[crate]) < heights[crate]]


def is_test(crate):
    """Whether the crate is a program of tests."""
    return crate in ("word_calls", "run_faults", "rx_orders")


def main(top):
    tally, edges = Tally("house"), edges_of(top)
    with open(os.path.join(top, "docs", "CRATES.md"), encoding="utf-8") as file:
        page = file.read()
    heights = heights_in(os.path.join(top, "docs", "tour", "crates.svg"))
    names = {*edges, *sum(edges.values(), [])}
    used = {crate: used_by(top, crate, names) for crate in edges}
    cited = set().union(*(lemmas for _, lemmas in used.values()))
    for crate, line in edges.items():
        faults = faults_of_line(top, crate, set(line), used[crate][0]) + faults_of_proofs(top, crate, cited)
        faults += [] if "**`%s`**" % crate in page else ["docs/CRATES.md has no entry for it"]
        faults += faults_of_height(crate, line, heights)
        tally.count(crate, "; ".join(faults))
    for crate in sorted(set(os.listdir(os.path.join(top, "crates"))) - set(edges)):
        if any(sources_of(top, crate)):
            tally.count(crate, "crates.txt has no line for it")
    count_twice(tally, top)
    return tally.end()


if __name__ == "__main__":
    sys.exit(main(sys.argv[1]))
