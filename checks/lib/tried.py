"""checks/edits/tried.csv: a row for each wrong body that the prover refused, with the day and the sums of what the refusal stands on.

A refusal can change only with the edit, with what the proof of the changed function can see (`reached.py`) in its crate and in the crates
below, and with the kit's logic. A landing asks for rows with the present sums of all but what is below; a release asks for all. No sum
counts comments and empty lines: nothing is proved of them.
"""

import csv
import datetime
import glob
import hashlib
import os
import re

from lib.edit_files import edits_in, name_of, pairs_of
from lib.edit_rounds import Crate
from lib.reached import House, roots_of, sums_of_roots

COLUMNS = ["crate", "edit", "edit_sum", "own_sum", "below_sum", "logic", "tried", "refused_by"]
PARTS = ("src", "specs", "proofs")
# A raw text, a text, a character, a comment up to its line's end, or the beginning of a block comment. Texts and characters may look like
# comments.
RATTLE_PART = re.compile(r'\b(?:br|r)(#*)".*?"\1|"(?:[^"\\]|\\.)*"|\'(?:[^\'\\\n]|\\[^\'\n]+|\\\')\'|//[^\n]*|/\*', re.S)
BLOCK_MARK = re.compile(r"/\*|\*/")
ANTT_COMMENT = re.compile(r"(^|[ \t])--([ \t].*)?$", re.M)
# Stands for a line's end within a text, so that no line of a text is taken for an empty one.
LINE_IN_TEXT = "\1"


def without_comments(path, text):
    """The lines of a source file that are more than a comment, without comments and without spaces at their ends."""
    if path.endswith(".rt"):
        text = rattle_code(text)
    elif path.endswith(".antt"):
        text = ANTT_COMMENT.sub("", text)
    lines = "".join(line.rstrip(" \t\r") + "\n" for line in text.split("\n") if line.strip(" \t\r"))
    return lines.replace(LINE_IN_TEXT, "\n")


def rattle_code(text):
    """Code without its comments. Line ends within texts are marked."""
    found, at = [], 0
    while part := RATTLE_PART.search(text, at):
        found.append(text[at : part.start()])
        at = part.end()
        if part[0] == "/*":
            at = end_of_block(text, at)
            found.append(" ")
        elif not part[0].startswith("//"):
            found.append(part[0].replace("\n", LINE_IN_TEXT))
    return "".join(found) + text[at:]


def end_of_block(text, at):
    """The place behind a block comment whose beginning ends at `at`. Such comments may stand in each other."""
    depth = 1
    while depth and (mark := BLOCK_MARK.search(text, at)):
        depth += 1 if mark[0] == "/*" else -1
        at = mark.end()
    return len(text) if depth else at


def code_in(path):
    with open(path, encoding="utf-8") as file:
        return without_comments(path, file.read())


def sum_of_file(path):
    with open(path, "rb") as file:
        return hashlib.sha256(file.read()).hexdigest()


def files_of(folder):
    for part in PARTS:
        for at, folders, files in os.walk(os.path.join(folder, part)):
            folders.sort()
            yield from (os.path.join(at, name) for name in sorted(files))


def code_of(folder):
    """The code of a crate's files, by their paths in its folder."""
    return {os.path.relpath(path, folder): code_in(path) for path in files_of(folder)}


class Sources:
    """The sources of a checkout as they were when they were first asked for, and the sums of what refusals stand on there."""

    def __init__(self, top, uses):
        self.top, self.raw = top, {}
        self.house = House(uses, lambda crate: code_of(os.path.join(top, "crates", crate)))

    def functions(self, crate, edit):
        """The functions that an edit changes, or None if it changes something else."""
        if crate not in self.raw:
            folder = os.path.join(self.top, "crates", crate)
            texts = {}
            for path in glob.glob(os.path.join(folder, "src", "**", "*.rt"), recursive=True):
                with open(path, encoding="utf-8") as file:
                    texts[os.path.relpath(path, folder)] = file.read()
            self.raw[crate] = texts, Crate(texts)
        texts, functions = self.raw[crate]
        return functions_of(edit, functions, texts)

    def sums(self, crate, edit, said, goes_below=True):
        """The sums of what the refusal of an edit stands on, of which the prover said this: below the crate, too, if that is asked for."""
        room = self.house.crate(crate)
        return sums_of_roots(self.house, crate, roots_of(room, self.functions(crate, edit), said), goes_below)


def functions_of(edit, crate, texts):
    """The functions of a crate, with these texts of its files, that an edit changes, or None if it changes something else."""
    found = []
    for path, old, _ in pairs_of(edit):
        place = texts.get(path, "").find(old)
        function = crate.around(path, place + len(old) - len(old.lstrip())) if place >= 0 else None
        if function is None:
            return None
        found.append(function)
    return found


def today():
    return datetime.date.today().isoformat()


def rows_in(path):
    """The rows by crate and edit; none if there is no such file."""
    if not os.path.exists(path):
        return {}
    with open(path, encoding="utf-8", newline="") as file:
        return {(row["crate"], row["edit"]): row for row in csv.DictReader(file)}


def write_rows(path, rows):
    with open(path + ".new", "w", encoding="utf-8", newline="") as file:
        writer = csv.DictWriter(file, COLUMNS, lineterminator="\n")
        writer.writeheader()
        writer.writerows(rows[key] for key in sorted(rows))
    os.replace(path + ".new", path)


WHAT = {"edit_sum": "the edit", "own_sum": "what its function stands on in its crate", "below_sum": "what it stands on in crates below", "logic": "the kit's logic"}


def fault_of_row(row, now):
    """Why a row does not show that an edit is refused now, or None. `now` has the sums that are asked for, by their columns."""
    if row is None:
        return "it has no row in tried.csv: `checks/edits.sh try` of its crate writes one"
    for column, sum_now in now.items():
        if row[column] != sum_now:
            return "%s has changed since it was tried: `checks/edits.sh try` of its crate tries it again" % WHAT[column]
    return None


def sums_now(sources, crate, edit, row, logic, goes_below=True):
    """The sums by which a row is judged; the row says which function refused the edit."""
    return {"edit_sum": sum_of_file(edit), **sources.sums(crate, edit, row["refused_by"] if row else "", goes_below), "logic": logic}
