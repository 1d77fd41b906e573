"""What tools/prove does: a check of one crate over the libraries of a proved checkout, and over libraries of its own where crates differ."""

import hashlib
import os
import subprocess

from build.kit import PARTS, Kit, below, kit_folder, uses_of
from reading.files import Refused


def sum_of(top, crate):
    """A sum over all files of a crate that the prover reads."""
    found = hashlib.sha256()
    for part in PARTS:
        for folder, _, names in sorted(os.walk(os.path.join(top, "crates", crate, part))):
            for path in sorted(os.path.join(folder, name) for name in names):
                with open(path, "rb") as file:
                    found.update(path[len(top):].encode() + b"\0" + file.read())
    return found.hexdigest()


class Over(Kit):
    """A kit whose libraries are of this checkout if a crate, or one below it, differs from the proved checkout."""

    def __init__(self, folder, top, proved):
        super().__init__(folder, top)
        self.proved, there = proved, uses_of(os.path.join(proved, "crates.txt"))
        self.sums = {crate: sum_of(top, crate) for crate in self.uses}
        changed = {crate for crate in self.uses if self.uses[crate] != there.get(crate) or self.sums[crate] != sum_of(proved, crate)}
        self.own = {crate for crate in self.uses if changed.intersection([crate, *below(self.uses, crate)])}

    def room(self, crate):
        return os.path.join(self.top, "crates", crate, "out", "prove")

    def library(self, crate):
        if crate in self.own:
            return os.path.join(self.room(crate), crate + ".rlib")
        return os.path.join(self.proved, "crates", crate, "out", "rlib", crate + ".rlib")

    def run(self, crate, command, more):
        os.makedirs(self.room(crate), exist_ok=True)
        words = [os.path.join(self.folder, "bin", "rattle"), command, *self.words(crate), *more]
        return subprocess.run(words, cwd=os.path.join(self.top, "crates", crate), check=False).returncode

    def build(self, crate):
        """Makes the library of a crate that differs, without a proof; nothing if it was made of the same sources."""
        mark, made_of = os.path.join(self.room(crate), "made_of"), "\n".join(self.sums[it] for it in [crate, *sorted(below(self.uses, crate))])
        if os.path.isdir(self.library(crate)) and os.path.exists(mark):
            with open(mark, encoding="utf-8") as file:
                if file.read() == made_of:
                    return
        if self.run(crate, "build", ["--statements", "--empty-contracts", "--links", crate + "=", "-o", self.library(crate)]):
            raise Refused("%s: its library could not be made" % crate)
        with open(mark, "w", encoding="utf-8") as file:
            file.write(made_of)


def prove(top, proved, crate, more):
    """Proves a crate, and returns the status of the check."""
    folder = kit_folder()
    if not folder:
        raise Refused("the kit (`rt`) is not there")
    if not os.path.exists(os.path.join(proved, "crates.txt")):
        raise Refused("%s: no crates.txt is there" % proved)
    kit = Over(folder, top, proved)
    if crate not in kit.uses:
        raise Refused("%s: crates.txt has no such crate" % crate)
    under = below(kit.uses, crate)
    for name in (it for it in kit.uses if it in under):
        if name in kit.own:
            kit.build(name)
        elif not os.path.isdir(kit.library(name)):
            raise Refused("%s: `rt ci` left no library there" % kit.library(name))
    return kit.run(crate, "check", ["--links", crate + "=", "--incremental", os.path.join(kit.room(crate), "kept"), *more])
