"""Runs of the program in a temporary folder, so that no file of the user's changes."""

import csv
import os
import re
import shlex
import shutil
import subprocess
import tempfile

from reading.files import Folder, Refused, own_program
from reading.outputs import MADE, outputs_of
from reading.plans import Plan

# The rows of a plan, and of the settings of two ends, that name a file, by the field that does.
NAMED = {"channel": 2, "back": 2, "flow": 1, "local": 1, "schedule": 1, "oob": 1, "events": 1}
# What a plan's outputs are called there, and the status of a launcher that cannot build the program.
OUT, NOT_BUILT = "out", 70


def found_program(name, is_here=True):
    """The path of the program. A launcher builds it first if it has to, and prints where it is; but other machines run their own
    launcher, since what was built here is not there."""
    found = shutil.which(name)
    if found is None:
        raise Refused("there is no program %s; INTERLAKEN_PROGRAM or --program names it" % name)
    done = subprocess.run([found], stdin=subprocess.DEVNULL, stdout=subprocess.PIPE, env={**os.environ, "INTERLAKEN_WHICH": "1"})
    if done.returncode == NOT_BUILT:
        raise Refused("the program was not built")
    told = os.fsdecode(done.stdout).strip()
    return told if is_here and os.path.isabs(told) and os.access(told, os.X_OK) else os.path.abspath(found)


class Links:
    """A folder with links to the files that plans name, in place of their names."""

    def __init__(self, source, target, prefix="in"):
        self.source, self.target, self.prefix, self.names = source, target, prefix, {}

    def of(self, name):
        link = "%s.%d" % (self.prefix, len(self.names))
        self.names[link] = name
        os.symlink(os.path.abspath(os.path.join(self.source, name)), os.path.join(self.target, link))
        return link

    def rows(self, rows, out, without=()):
        """The rows of a plan, or of settings, with links for names, and with another `out`."""
        for fields in rows:
            place = NAMED.get(fields[0])
            if place is not None and len(fields) > place and fields[0] not in without:
                fields = fields[:place] + [self.of(fields[place])]
            if fields[0] != "out" and fields[0] not in without:
                yield fields
        yield ["out", out]

    def in_text(self, text, out):
        """A text of the program by the names that the user knows."""
        text = re.sub(r"\b%s\.\d+\b" % self.prefix, lambda found: self.names.get(found[0], found[0]), text)
        return re.sub(r"\b%s\.(?=[a-z0-9])" % OUT, lambda _: out + ".", text)


def write_rows(path, rows):
    with open(path, "w", encoding="utf-8", newline="") as file:
        csv.writer(file, lineterminator="\n").writerows(rows)


class Apart(Folder):
    """A folder of the user's, and what the program makes of its files: that stands in temporary folders, and is read under the names
    that it would have here."""

    def __init__(self, program, path):
        super().__init__(program, path)
        self.made, self.rooms, self.is_found = {}, [], False

    def path(self, name):
        return self.made.get(name) or super().path(name)

    def must_have_program(self):
        """The program, which is the repository's own if none was named."""
        if not self.is_found:
            self.program = found_program(self.program or own_program(os.path.join(os.path.dirname(__file__), "..", "..", "explain")))
            self.is_found = True

    def make(self, command, plan):
        """Has the program run a command of a plan, and keeps what it wrote in place of the files that are here; what it printed."""
        text, made = self.run_apart(command, plan)
        self.made.update(made)
        return text

    def make_duplex(self, settings):
        """The same of the settings of two ends."""
        room, links = self.new_room()
        plan = Plan(self, settings.plan)
        write_rows(os.path.join(room, "plan"), links.rows(self.rows(settings.plan), OUT))
        rows = [["plan", "plan"] if fields[0] == "plan" else fields for fields in links.rows(self.rows(settings.name), OUT)]
        write_rows(os.path.join(room, "run"), rows)
        text = self.printed(room, "duplex", links, settings.name, settings.out)
        self.made.update(self.written(room, outputs_of("duplex", settings.name, plan, settings), settings.out))
        return text

    def makes_the_same(self, command, plan, names):
        """Whether the program makes these files of those that are here, byte for byte. A file that is refused makes nothing."""
        self.must_have_program()
        try:
            made = self.run_apart(command, plan)[1]
        except Refused:
            return False
        return all(name in made and same_bytes(made[name], self.path(name)) for name in names)

    def is_made_by(self, plan, name, *commands):
        """Whether a table is what one of these commands makes of the lanes and the words that are here."""
        return name in self.made or any(self.makes_the_same(command, plan, [name]) for command in commands)

    def must_be_made_by(self, plan, name, *commands):
        if not self.is_made_by(plan, name, *commands):
            raise Refused("%s is of an older run: `interlaken %s %s` makes it anew" % (name, commands[0], shlex.quote(plan.name)))

    def run_apart(self, command, plan):
        """What a command of a plan prints, and the files that it writes, by the names that they would have here."""
        room, links = self.new_room()
        write_rows(os.path.join(room, "run.plan"), links.rows(self.rows(plan.name), OUT))
        for name in MADE.get(command, lambda plan: [])(plan):
            os.symlink(os.path.abspath(self.path(name)), os.path.join(room, OUT + name[len(plan.out):]))
        text = self.printed(room, command, links, plan.name, plan.out)
        return text, self.written(room, outputs_of(command, plan.name, plan), plan.out)

    def new_room(self):
        self.must_have_program()
        self.rooms.append(tempfile.TemporaryDirectory(prefix="interlaken."))
        room = self.rooms[-1].name
        return room, Links(self.folder, room)

    def printed(self, room, command, links, name, out):
        try:
            return Folder(self.program, room).run(command, "run" if command == "duplex" else "run.plan")
        except Refused as refused:
            told = str(refused).partition(" ended with ")[2]
            raise Refused("`%s %s` ended with %s" % (command, name, links.in_text(told, out)) if told else str(refused)) from None

    def written(self, room, names, out):
        paths = {name: os.path.join(room, OUT + name[len(out):]) for name in names}
        return {name: path for name, path in paths.items() if os.path.exists(path)}


def same_bytes(path, other):
    with open(path, "rb") as first, open(other, "rb") as second:
        while True:
            parts = first.read(1 << 20), second.read(1 << 20)
            if parts[0] != parts[1]:
                return False
            if not parts[0]:
                return True
