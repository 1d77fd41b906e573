"""Has the prover refuse wrong bodies, and keeps a row for each in checks/edits/tried.csv as soon as its crate is done.

    python3 try_edits.py TOP PROVED [--jobs N] [CRATE..]            all edits of these crates, or of all
    python3 try_edits.py TOP PROVED [--jobs N] --stale [CRATE..]    those whose rows are not of the present sums
    python3 try_edits.py TOP PROVED [--jobs N] --turn               these first, then those tried longest ago, until MINUTES are used

PROVED is a checkout in which `rt ci` proved these crates and those that they stand on. The edits of a crate are tried in rounds: in one check are those that change
bodies of functions which do not see each other. The check is of these functions and of what they call. An edit is refused if the check
says of a function that it changes that a goal of its own is not proved; if it does not say so, the edit is tried alone. Rounds after the
first use what the first kept; then, at the end, the same functions as they stand have to be proved over it.
"""

import argparse
import concurrent.futures
import glob
import hashlib
import os
import re
import resource
import shutil
import subprocess
import sys
import tempfile
import threading

HERE = os.path.dirname(os.path.abspath(__file__))
sys.path[:0] = [os.path.dirname(HERE), os.path.join(HERE, "..", "..", "tools", "lib")]

from build.kit import Kit, below, copy_kept, kit_folder, logic_of
from lib.edit_files import BadEdit, crates_with_edits, edits_in, name_of, pairs_of, replaced, text_of
from lib.edit_rounds import Crate, rounds_of
from lib.tally import Tally
from lib.tried import Sources, code_of, fault_of_row, functions_of, rows_in, sums_now, today, write_rows

VERDICT = re.compile(r"^fn (\S+): (no proof: |not proved)(.*)$")
ERROR = re.compile(r"^(?:\./)?(proofs/\S+?):\d+:\d+: error: (.*)$")
# What a proof file is refused for that names what an edit took away: that says little of the contract.
HOLLOW = re.compile(r"has no field|is not in scope|has no `|was not admitted")
SHOWN = 200
# The status of a check that knows no function of a name.
NO_FUNCTION = 2
# A turn of the gate begins no other crate once it has used so much of the processors.
MINUTES = 10


def sources_of(folder):
    paths = glob.glob(os.path.join(folder, "src", "**", "*.rt"), recursive=True)
    return {os.path.relpath(path, folder): text_of(folder, os.path.relpath(path, folder)) for path in paths}


def refusals_in(lines):
    """The functions of which a check says that a goal of their own is not proved, with what it says."""
    errors = [it.groups() for it in map(ERROR.match, lines) if it]
    found = {}
    for verdict in filter(None, map(VERDICT.match, lines)):
        name, answered, rest = verdict.groups()
        own = [it for it in rest.split("; ") if it and not it.startswith("it calls ")]
        if answered == "not proved":
            own = of_answers(errors, "/".join(name.split("::")[1:]))
        if own:
            found[name] = "%s: %s" % (name, "; ".join(own))
    return found


def of_answers(errors, function):
    """Why a function's proof file is refused, in a list: the first reason that is not a name that is gone, if there is one."""
    said = [text for path, text in errors if path.startswith("proofs/%s/" % function)]
    whole = [it for it in said if not HOLLOW.search(it)]
    if said and not whole:
        return ["its proof file names what is gone: " + said[0]]
    return [(whole or ["not proved"])[0].replace("; ", ", ")]


def refused_by(functions, refusals):
    """What the check says of the functions that an edit changes, or None."""
    for function in functions:
        for name, said in refusals.items():
            *before, last = name.split("::")[1:]
            place = "::".join(before)
            if last == function.name and place.startswith(function.module()) and function.owner in place:
                return said
    return None


class Trial:
    """The edits of one crate, tried over what its own checks keep."""

    def __init__(self, kit, name, source, edits, room):
        self.kit, self.name, self.source, self.edits, self.room = kit, name, source, edits, room
        self.kept = os.path.join(room, "kept")
        os.mkdir(self.kept)
        self.refused, self.wrong, self.checks = {}, {}, 0

    def run(self):
        texts = sources_of(self.source)
        crate = Crate(texts)
        changed = []
        for edit in self.edits:
            try:
                changed.append((edit, functions_of(edit, crate, texts)))
            except BadEdit as why:
                self.wrong[edit] = "it cannot be made: %s" % why
        rounds = [it for it in rounds_of(crate, changed) if it[0][1] is not None]
        for number, edits in enumerate(rounds):
            self.round(edits, self.kept if number == 0 else None)
        alone = [it for it in changed if it[0] not in self.refused]
        if (len(rounds) > 1 or alone) and not self.is_sound(rounds):
            return
        for edit, functions in alone:
            self.alone(edit, functions)

    def is_sound(self, rounds):
        """Whether the functions that were changed are proved as they stand, over what the first round kept."""
        functions = [it for edits in rounds for _, them in edits for it in them]
        status, lines = self.check_only(functions, {}, self.kept)
        if status != 0:
            self.refused = {}
            self.wrong[self.name] = "the functions as they stand are not proved over what the first round kept: %s" % lines[-1][:SHOWN]
        return status == 0

    def check(self, texts, kept, only=()):
        self.checks += 1
        if kept:
            return self.kit.check(self.name, self.source, texts, kept, only)
        over = tempfile.mktemp(dir=self.room)
        copy_kept(self.kept, over)
        try:
            return self.kit.check(self.name, self.source, texts, over, only)
        finally:
            shutil.rmtree(over, ignore_errors=True)

    def check_only(self, functions, texts, kept):
        """Checks these functions. A name that the kit does not take for one function stands for its module."""
        for names in ({it.full_name() for it in functions}, {it.module() for it in functions}):
            if "" in names:
                break
            found = self.check(texts, kept, sorted(names))
            if found[0] != NO_FUNCTION:
                return found
        return self.check(texts, kept)

    def round(self, edits, kept):
        texts, made = {}, []
        for edit, functions in edits:
            before = dict(texts)
            try:
                replaced(texts, self.source, edit)
                made.append((edit, functions))
            except BadEdit:
                # Another one of the round writes a text that this one looks for: it is tried alone.
                texts = before
        status, lines = self.check_only([it for _, them in made for it in them], texts, kept)
        if status != 1:
            return
        refusals = refusals_in(lines)
        for edit, functions in made:
            said = refused_by(functions, refusals)
            if said:
                self.refused[edit] = said[:SHOWN]

    def alone(self, edit, functions):
        """Tries one edit: the functions that it changes, if it changes some, and then the whole crate."""
        texts = {}
        replaced(texts, self.source, edit)
        if functions:
            status, lines = self.check_only(functions, texts, None)
        if not functions or status != 1:
            status, lines = self.check(texts, None)
        said = next(iter(refusals_in(lines).values()), None)
        if status == 1 and said:
            self.refused[edit] = said[:SHOWN]
        elif status == 0:
            self.wrong[edit] = "NOT REFUSED: the crate is still proved with it"
        else:
            self.wrong[edit] = "not tried: its check ended with status %d: %s" % (status, lines[-1][:SHOWN])


class Book:
    """The rows of tried.csv, kept as each crate is done, and the count of what was tried."""

    def __init__(self, top, uses, logic, tally):
        self.top, self.uses, self.logic, self.tally, self.lock = top, uses, logic, tally, threading.Lock()
        self.path = os.path.join(top, "checks", "edits", "tried.csv")

    def sources(self, crate):
        """The sources that the crate's refusals may stand on, as they are now."""
        found = Sources(self.top, self.uses)
        for name in [crate] + below(self.uses, crate):
            found.house.crate(name)
        return found

    def add(self, trial, sources):
        """Adds what a trial found, which began with these sources."""
        with self.lock:
            rows, now = rows_in(self.path), self.sources(trial.name)
            if any(now.house.crate(name).texts != room.texts for name, room in list(sources.house.crates.items())):
                trial.refused, trial.wrong[trial.name] = {}, "its texts changed meanwhile"
            for edit, said in trial.refused.items():
                name, row = name_of(edit), {"refused_by": said}
                sums = sums_now(sources, trial.name, edit, row, self.logic)
                rows[trial.name, name] = {"crate": trial.name, "edit": name, **sums, "tried": today(), **row}
                self.tally.count("%s/%s" % (trial.name, name))
            for what, why in trial.wrong.items():
                # What an earlier try said of it no longer counts.
                rows.pop((trial.name, name_of(what)), None)
                self.tally.count("%s/%s" % (trial.name, os.path.basename(what)), why)
            write_rows(self.path, rows)
            print("%s: %d of %d edits refused, by %d checks" % (trial.name, len(trial.refused), len(trial.edits), trial.checks), flush=True)


def try_crate(kit, book, name, edits):
    with tempfile.TemporaryDirectory(prefix="interlaken-edits-") as room:
        sources = book.sources(name)
        trial = Trial(kit, name, os.path.join(book.top, "crates", name), edits, room)
        trial.run()
    book.add(trial, sources)


def edits_by_crate(top, crates):
    return {name: edits_in(os.path.join(top, "checks", "edits", name)) for name in crates}


def stale_of(book, edits):
    """By their crates, the edits whose row is absent or not of the present sums."""
    sources, rows, stale = Sources(book.top, book.uses), rows_in(book.path), {}
    for crate, paths in edits.items():
        for edit in paths:
            row = rows.get((crate, name_of(edit)))
            if fault_of_row(row, sums_now(sources, crate, edit, row, book.logic) if row else {}):
                stale.setdefault(crate, []).append(edit)
    return stale


def turn_of(book, edits):
    """What a turn tries, as pairs of a crate and its edits, in order: those whose rows are stale, then those that were tried longest ago.
    The sum of the rows, which any change of the sources changes, decides between rows of one day."""
    rows, stale = rows_in(book.path), stale_of(book, edits)
    days = {}
    for (crate, name), row in rows.items():
        days.setdefault((row["tried"], crate), []).append(name)
    salt = hashlib.sha256("".join(code for crate in sorted(edits) for _, code in sorted(code_of(os.path.join(book.top, "crates", crate)).items())).encode())
    order = lambda crate: hashlib.sha256(salt.digest() + crate.encode()).digest()
    yield from ((crate, stale[crate]) for crate in sorted(stale, key=order))
    for day, crate in sorted(days, key=lambda it: (it[0], order(it[1]))):
        left = [it for it in edits.get(crate, []) if name_of(it) in days[day, crate] and it not in stale.get(crate, [])]
        if left:
            yield crate, left


def minutes_used():
    used = resource.getrusage(resource.RUSAGE_CHILDREN)
    return (used.ru_utime + used.ru_stime) / 60


def try_all(kit, book, todo, jobs, minutes):
    """Tries edits crate by crate, so many at once, until so many minutes of the processors are used."""

    def one(crate, edits):
        if minutes is None or minutes_used() < minutes:
            try_crate(kit, book, crate, edits)

    with concurrent.futures.ThreadPoolExecutor(jobs) as pool:
        for done in [pool.submit(one, crate, edits) for crate, edits in todo]:
            done.result()


def other_sources(top, proved, uses, crates):
    """A crate below these whose sources in the proved checkout are others, or None."""
    for name in sorted({it for crate in crates for it in [crate] + below(uses, crate)}):
        if code_of(os.path.join(top, "crates", name)) != code_of(os.path.join(proved, "crates", name)):
            return name
    return None


def words_given():
    words = argparse.ArgumentParser()
    words.add_argument("top", type=os.path.abspath)
    words.add_argument("proved", type=os.path.abspath)
    words.add_argument("--jobs", type=int, default=1)
    words.add_argument("--stale", action="store_true")
    words.add_argument("--turn", action="store_true")
    words.add_argument("crates", nargs="*")
    return words.parse_intermixed_args()


def main():
    given = words_given()
    kit, tally = Kit(kit_folder(), given.proved), Tally("edits")
    version = subprocess.run(["rt", "version"], capture_output=True, text=True, check=True).stdout
    book = Book(given.top, kit.uses, logic_of(version), tally)
    edits = edits_by_crate(given.top, given.crates or crates_with_edits(given.top))
    other = other_sources(given.top, given.proved, kit.uses, edits)
    if other:
        tally.give_up(given.proved, "its sources of the crate %s are others than those here" % other)
    if given.turn:
        todo = list(turn_of(book, edits))
    else:
        todo = list((stale_of(book, edits) if given.stale else edits).items())
    if not todo:
        print("edits: each row is of the present sums")
        return 0
    try_all(kit, book, todo, given.jobs, MINUTES if given.turn else None)
    return tally.end()


if __name__ == "__main__":
    sys.exit(main())
