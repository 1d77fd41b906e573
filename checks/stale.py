"""What checks/stale.sh does. The things to change are found by lines and not by lib/reached.py, which is what is tried.

    python3 stale.py TOP [--rows N] [--seed N]
"""

import argparse
import os
import random
import re
import sys

HERE = os.path.dirname(os.path.abspath(__file__))
sys.path[:0] = [HERE, os.path.join(os.path.dirname(HERE), "tools", "lib")]

from build.kit import uses_of
from lib.edit_files import pairs_of
from lib.edit_rounds import functions_in
from lib.reached import roots_of, sums_of_roots
from lib.tally import Tally
from lib.tried import Sources, rows_in, without_comments

MARK = "changed_here"
# No more changes of one kind for a row.
MOST = 3
IMPORT = re.compile(r"use Rattle\.(\w+)\.(specs|proofs)\.([A-Z]\w*)\.\{([^}]*)\}")
CONTRACT = re.compile(r"^\s+(?:ensures|requires) .*\}$", re.M)


def marked(text, place):
    """The text with a name more at a place."""
    return text[:place] + " " + MARK + " " + text[place:]


def marked_line(text, pattern):
    """The text with a name more at the end of the one line that matches, or None."""
    found = list(re.finditer(pattern, text, re.M))
    if len(found) != 1:
        return None
    end = text.find("\n", found[0].start())
    return marked(text, end)


class Row:
    """A row with the texts around its edit."""

    def __init__(self, sources, crate, edit, said, draw):
        self.sources, self.crate, self.said, self.draw = sources, crate, said, draw
        self.functions = sources.functions(crate, edit)
        self.texts = sources.house.crate(crate).texts
        self.base = self.sums(sources.house)
        path, self.old, _ = next(iter(pairs_of(edit)))
        self.path, self.file = path, self.texts[path]
        self.name = self.functions[0].name
        # The functions that the edit changes, and the one that refuses it.
        self.refusing = {it.name for it in self.functions} | {said.split(": ")[0].split("::")[-1]}
        self.at = self.file.find(self.old)

    def sums(self, house):
        room = house.crate(self.crate)
        return sums_of_roots(house, self.crate, roots_of(room, self.functions, self.said))

    def is_stale(self, crate, path, text):
        return self.sums(self.sources.house.changed(crate, path, without_comments(path, text))) != self.base

    def function(self):
        """The lines of the function, from its head to its end."""
        found = [it for it in functions_in(self.path, self.file) if it.body < self.at < it.end]
        if not found:
            return "", 0
        inner = max(found, key=lambda it: it.body)
        return self.file[inner.head : inner.end], inner.head

    def some(self, found):
        found = sorted(set(found))
        return self.draw.sample(found, min(MOST, len(found)))

    # ---- what counts

    def counted(self):
        text, begins = self.function()
        if self.at >= 0:
            yield "the function", self.crate, self.path, marked(self.file, self.at + len(self.old))
        for line in CONTRACT.finditer(text):
            yield "its contract", self.crate, self.path, marked(self.file, begins + line.end() - 1)
        yield from self.answers()
        yield from self.called(text)
        yield from self.imported(self.file, text, "a definition that it names")

    def answers(self):
        module = self.path[len("src/") : -len(".rt")]
        owner = self.functions[0].owner
        for path, text in self.texts.items():
            folder = os.path.dirname(path).split("/")
            if folder[-1] != self.name or not (folder[-2:-1] == [owner] if owner else path.startswith("proofs/%s/" % module)):
                continue
            lines = [it for it in re.finditer(r"^(?!use |pub use |mod ).*\S$", text, re.M)]
            for line in self.draw.sample(lines, min(MOST, len(lines))):
                yield "its answers", self.crate, path, marked(text, line.end())
            yield from self.imported(text, re.sub(r"^use .*$", "", text, flags=re.M), "what its answers cite")

    def called(self, text):
        body = text[text.find("\n{") if "\n{" in text else 0 :]
        names = self.some(re.findall(r"(?<![\w.:])([a-z_]\w*)\(", body))
        for name in names:
            for path, other in self.texts.items():
                heads = list(re.finditer(r"^(?:pub(?:\(crate\))? )?fn %s\b" % name, other, re.M)) if path.startswith("src/") else []
                line = CONTRACT.search(other, heads[0].start()) if len(heads) == 1 else None
                if line and "fn " not in other[heads[0].end() : line.start()] and (path == self.path or re.search(r"\buse crate::[^;]*\b%s\b" % name, self.file)):
                    yield "the contract of a call", self.crate, path, marked(other, line.end() - 1)

    def imported(self, file, text, what):
        """The first lines of definitions and lemmas that a file imports and a text names."""
        found = []
        for crate, part, module, names in IMPORT.findall(file):
            for name in names.split(","):
                name = name.strip()
                if re.fullmatch(r"\w+", name) and re.search(r"(?<![\w-])%s(?![\w-])" % name, text) and crate in self.sources.house.uses:
                    found.append((crate, "%s/%s.antt" % (part, module), name))
        for crate, path, name in self.some(found):
            other = self.sources.house.crate(crate).texts.get(path, "")
            changed = marked_line(other, r"^(?:(?:pub|abbrev|unfoldable|record|data) )*%s(?: .*)? :(?: |$)" % name)
            if changed:
                yield what, crate, path, changed

    # ---- what does not

    def uncounted(self):
        yield "a comment", self.crate, self.path, self.file + "// %s\n" % MARK
        yield "an import", self.crate, self.path, "use crate::%s::other;\n" % MARK + self.file
        yield "a new function", self.crate, self.path, self.file + "\nfn %s() -> u64\n    ensures { result ≡ 1 }\n{\n    1\n}\n" % MARK
        for path in self.some(it for it in self.texts if it.startswith("proofs/") and it.count("/") == 1 and it != "proofs/Lib.antt")[:1]:
            yield "a new lemma", self.crate, path, self.texts[path] + "\n%s : 1 ≡ 1\n%s = refl\n" % (MARK, MARK)
        yield from self.hidden(self.crate)
        below = [it for it in self.sources.house.uses[self.crate] if it in self.sources.house.uses]
        for crate in self.some(below)[:1]:
            yield from self.hidden(crate)

    def hidden(self, crate):
        """Bodies that a contract hides, of functions that do not refuse the edit."""
        bodies = []
        for path, text in self.sources.house.crate(crate).texts.items():
            for it in functions_in(path, text) if path.startswith("src/") else []:
                if not it.shows_code and it.end > it.body + 1 and not (crate == self.crate and it.name in self.refusing):
                    bodies.append((path, text.find("\n", it.body) + 1))
        for path, place in self.some(bodies):
            yield "the body of another function", crate, path, marked(self.sources.house.crate(crate).texts[path], place)


def main():
    words = argparse.ArgumentParser()
    words.add_argument("top", type=os.path.abspath)
    words.add_argument("--rows", type=int, default=60)
    words.add_argument("--seed", type=int, default=1)
    given = words.parse_args()
    tally, draw = Tally("stale"), random.Random(given.seed)
    sources = Sources(given.top, uses_of(os.path.join(given.top, "crates.txt")))
    rows = sorted(rows_in(os.path.join(given.top, "checks", "edits", "tried.csv")).items())
    draw.shuffle(rows)
    kinds, tried = {}, 0
    for (crate, name), row in rows:
        edit = os.path.join(given.top, "checks", "edits", crate, name + ".edit")
        if tried == given.rows:
            break
        if not os.path.exists(edit) or sources.functions(crate, edit) is None:
            continue
        tried += 1
        it = Row(sources, crate, edit, row["refused_by"], draw)
        for wanted, changes in ((True, it.counted()), (False, it.uncounted())):
            for what, where, path, text in changes:
                kinds[what] = kinds.get(what, 0) + 1
                stale = it.is_stale(where, path, text)
                said = "it is stale" if stale else "it is not stale"
                tally.count("%s/%s: %s in %s/%s" % (crate, name, what, where, path), "" if stale == wanted else said)
    print("stale: " + ", ".join("%d of %s" % (count, what) for what, count in sorted(kinds.items())))
    return tally.end()


if __name__ == "__main__":
    sys.exit(main())
