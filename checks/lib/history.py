"""How many rows of tried.csv the commits between two made stale for a landing: `edits.py --history FROM TO`."""

import io
import os
import subprocess
import tarfile
import tempfile

from build.kit import uses_of
from lib.edit_files import edits_in, name_of
from lib.tried import PARTS, Sources, rows_in, sum_of_file, sums_now


def git(top, *words):
    return subprocess.run(["git", "-C", top, *words], capture_output=True, check=True).stdout


class Commit:
    """What a commit has of some crates, of those that they name, and of their edits, in a folder."""

    def __init__(self, top, commit, crates, room, pieces):
        self.top = os.path.join(room, commit)
        self.extract(top, commit, ["crates.txt", "checks/edits/tried.csv"])
        self.uses = uses_of(os.path.join(self.top, "crates.txt"))
        self.rows = rows_in(os.path.join(self.top, "checks", "edits", "tried.csv"))
        self.crates = [it for it in crates if it in self.uses]
        named = {it for crate in self.crates for it in [crate] + self.uses[crate] if it in self.uses}
        self.extract(top, commit, ["crates/%s/%s" % (it, part) for it in named for part in PARTS] + ["checks/edits/" + it for it in self.crates])
        self.sources = Sources(self.top, self.uses)
        self.sources.house.pieces = pieces

    def extract(self, top, commit, paths):
        found = git(top, "ls-tree", "--name-only", commit, "--", *paths).decode().split()
        if found:
            with tarfile.open(fileobj=io.BytesIO(git(top, "archive", commit, *found))) as archive:
                archive.extractall(self.top, filter="data")

    def edits(self, crate):
        return {name_of(it): it for it in edits_in(os.path.join(self.top, "checks", "edits", crate))}

    def own_sum(self, crate, edit, row):
        return sums_now(self.sources, crate, edit, row if row and row["refused_by"] else None, "", False)["own_sum"]


def changed_crates(top, one, other):
    """The crates of which a commit changed code, specs or proofs."""
    paths = [it.split("/") for it in git(top, "diff", "--name-only", one, other, "--", "crates").decode().split("\n")]
    return sorted({it[1] for it in paths if len(it) > 3 and it[2] in PARTS})


def compare(before, now):
    """Of the edits that a commit left as they are, in crates of which it changed more than comments: all, and those whose rows it made
    stale."""
    count = stale = 0
    for crate in sorted(set(before.crates) & set(now.crates)):
        if before.sources.house.crate(crate).texts == now.sources.house.crate(crate).texts:
            continue
        others = now.edits(crate)
        for name, edit in before.edits(crate).items():
            if name in others and sum_of_file(edit) == sum_of_file(others[name]):
                row = before.rows.get((crate, name))
                count += 1
                stale += before.own_sum(crate, edit, row) != now.own_sum(crate, others[name], row)
    return count, stale


def report(top, first, last):
    commits = git(top, "rev-list", "--reverse", "--no-merges", "%s..%s" % (first, last), "--", "crates").decode().split()
    whole, pieces = [0, 0], {}
    for commit in commits:
        parent = git(top, "rev-parse", commit + "^").decode().strip()
        crates = changed_crates(top, parent, commit)
        with tempfile.TemporaryDirectory() as room:
            found = compare(*(Commit(top, it, crates, room, pieces) for it in (parent, commit)))
        whole = [a + b for a, b in zip(whole, found)]
        print("%s %4d rows of changed crates, %4d stale" % (commit[:8], *found), flush=True)
    print("%d commits: %d rows of changed crates, %d stale" % (len(commits), *whole))
    return 0
