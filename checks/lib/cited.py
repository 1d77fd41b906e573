"""Whether the names that pages cite exist: each name in code style of an entry of docs/CRATES.md in the sources of its crate or of
one below it, and each of docs/PROVED.md and docs/DEFINITIONS.md in the sources of some crate, or of the crate that stands before it; and whether paths in
crates that other pages have lead to files.
"""

import glob
import os
import re

from build.costs import graph_of

FENCE = re.compile(r"^ *```.*?^ *```$", re.M | re.S)
NAME = re.compile(r"`([A-Za-z_]\w*(?:::\w+)*)`")
# The names of an entry's crates, and its text up to the next entry or part.
ENTRY = re.compile(r"^- ((?:\*\*`\w+`\*\*(?:, )?)+)(.*?)(?=^- \*\*`|^## |\Z)", re.M | re.S)
PATH = re.compile(r"`(\w+/(?:src|specs|proofs)/\w+(?:\.rt)?)`")
OF_CRATE = re.compile(r"`(\w+)`: ((?:`\w+`(?:, )?)+)")


class Sources:
    """The words in the sources of crates, the names of their files among them."""

    def __init__(self, top):
        self.top, self.known = top, {}
        self.below = graph_of(os.path.join(top, "crates.txt"))
        self.rows = set(os.listdir(os.path.join(top, "checks", "rows")))

    def words(self, crate):
        if crate not in self.known:
            found = set()
            for path in glob.glob(os.path.join(self.top, "crates", crate, "[sp]*", "**", "*.*t"), recursive=True):
                with open(path, encoding="utf-8") as file:
                    found.update(re.findall(r"\w+", file.read()))
                found.add(os.path.basename(path).partition(".")[0])
            self.known[crate] = found
        return self.known[crate]

    def all_words(self, crates):
        return self.rows.union(*(self.words(crate) for crate in crates))

    def lacks(self, name, pool):
        """Whether a name is not among these words, or, if a crate is before it, not in the sources of that one."""
        first, *rest = name.split("::")
        if first in self.below:
            return not set(rest) <= self.words(first)
        return not {first, *rest} <= pool


def text_of(top, page):
    with open(os.path.join(top, page), encoding="utf-8") as file:
        return FENCE.sub("", file.read())


def faults_of_crates(sources, page):
    for crates, body in ENTRY.findall(text_of(sources.top, page)):
        names = re.findall(r"\w+", crates)
        pool = sources.all_words({*names, "command_words", *(below for name in names for below in sources.below.get(name, []))})
        for name in NAME.findall(body):
            if sources.lacks(name, pool):
                yield "%s: %s is not in its sources" % (", ".join(names), name)


def faults_of_page(sources, page):
    text, pool = text_of(sources.top, page), sources.all_words(sources.below)
    for name in sorted(set(NAME.findall(text))):
        if sources.lacks(name, pool):
            yield "%s is in no crate's sources" % name
    for crate, files in OF_CRATE.findall(text):
        for name in re.findall(r"\w+", files):
            if crate in sources.below and name not in sources.words(crate):
                yield "%s has no %s" % (crate, name)


def faults_of_paths(top, page):
    """Paths of a page in a crate, without their endings, that lead to no file."""
    for path in sorted(set(PATH.findall(text_of(top, page)))):
        if not glob.glob(os.path.join(top, "crates", path + ".*t")) and not os.path.exists(os.path.join(top, "crates", path)):
            yield "there is no crates/%s" % path


def check_cited(tally, top):
    sources = Sources(top)
    tally.count("names of docs/CRATES.md", "\n  ".join(faults_of_crates(sources, "docs/CRATES.md")))
    for page in ("docs/PROVED.md", "docs/DEFINITIONS.md"):
        tally.count("names of " + page, "\n  ".join(faults_of_page(sources, page)))
    for page in ("docs/ARCHITECTURE.md", "docs/DECISIONS.md", "docs/DEBTS.md", "docs/WORKING.md"):
        tally.count("paths of " + page, "\n  ".join(faults_of_paths(top, page)))
