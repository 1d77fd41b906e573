"""A check of one crate by the kit's own `rattle`, as `rt` calls it: over the libraries of a checkout in which `rt ci` proved the crates
below, and over what earlier checks kept in a folder, if one is named."""

import ctypes
import os
import re
import shutil
import signal
import subprocess
import tempfile

PARTS = ("src", "specs", "proofs")


# The call that has the kernel end a child with its parent.
DEATH_SIGNAL = 1


def ends_with_parent():
    ctypes.CDLL(None).prctl(DEATH_SIGNAL, signal.SIGKILL)


def kit_folder():
    """The kit's folder: that of the first page of its documents. None without a kit."""
    if not shutil.which("rt"):
        return None
    return os.path.dirname(subprocess.run(["rt", "doc"], capture_output=True, text=True, check=True).stdout.strip())


def logic_of(line):
    """The sum of the logic in the line that `rt version` prints, and that release/kit has."""
    found = re.search(r"\blogic (\w+)", line)
    return found[1] if found else ""


def uses_of(path):
    """Each crate of a crates.txt with all that it stands on, crates of the kit among them."""
    with open(path, encoding="utf-8") as file:
        lines = [line.partition(":") for line in file if line[0].isalpha()]
    return {head.split()[0]: below.split() for head, _, below in lines}


def below(uses, crate):
    """The crates of the repository that a crate stands on, each once."""
    found, todo = [], [crate]
    while todo:
        for name in uses[todo.pop()]:
            if name in uses and name not in found:
                found.append(name)
                todo.append(name)
    return found


class Kit:
    def __init__(self, folder, top):
        """`top` is the checkout that has the libraries."""
        self.folder, self.top, self.uses = folder, top, uses_of(os.path.join(top, "crates.txt"))

    def library(self, crate):
        return os.path.join(self.top, "crates", crate, "out", "rlib", crate + ".rlib")

    def words(self, crate):
        root = "src/main.rt" if os.path.exists(os.path.join(self.top, "crates", crate, "src", "main.rt")) else "src/lib.rt"
        words = ["--crate-name", crate, root]
        own = [it for it in self.uses[crate] if it in self.uses]
        for name in ["std"] + [it for it in self.uses[crate] if it not in self.uses]:
            words += ["--extern", "%s=%s/rlibs/%s.rlib" % (name, self.folder, name)]
        words += ["-L", "dependency=%s/rlibs" % self.folder]
        for name in own:
            words += ["--extern", "%s=%s" % (name, self.library(name))]
        for name in below(self.uses, crate):
            words += ["-L", "dependency=" + os.path.dirname(self.library(name))]
        logic = ["--antt-project", self.folder + "/rattle/logic/antt-project.json", "--logic-built", self.folder + "/logic_built"]
        return words + logic + ["--jobs", "1"]

    def check(self, crate, source, texts, kept, only=()):
        """Checks a copy of the crate in the folder `source` with these texts in place of its own: all of it, or only these functions or
        modules and what they call. Returns the status and the lines."""
        with tempfile.TemporaryDirectory(prefix="interlaken-check-") as room:
            for part in PARTS:
                if os.path.isdir(os.path.join(source, part)):
                    shutil.copytree(os.path.join(source, part), os.path.join(room, part))
            for path, text in texts.items():
                with open(os.path.join(room, path), "w", encoding="utf-8") as file:
                    file.write(text)
            words = [self.folder + "/bin/rattle", "check"] + self.words(crate) + ["--incremental", kept]
            for path in only:
                words += ["--only", path]
            how = {"stdin": subprocess.DEVNULL, "stdout": subprocess.PIPE, "stderr": subprocess.STDOUT}
            ran = subprocess.run(words, cwd=room, preexec_fn=ends_with_parent, **how)
            return ran.returncode, ran.stdout.decode(errors="replace").rstrip("\n").split("\n")


def copy_kept(folder, to):
    """Copies what a check kept, what was proved by links: a check replaces such a file and changes none."""

    def copy(one, other):
        if one.endswith(".oantt"):
            try:
                return os.link(one, other)
            except OSError:
                pass
        return shutil.copy2(one, other)

    shutil.copytree(folder, to, symlinks=True, copy_function=copy)
