"""Whether each wrong body of the wider set can still be made, and was refused as it is now: each text that an edit changes stands in its
file exactly once, and checks/edits/tried.csv has a row with the present sums.

    python3 edits.py TOP
    python3 edits.py TOP --whole    what a release asks for: nor has a statement of a crate below changed that it stands on
    python3 edits.py TOP --history FROM TO    how many rows each commit between two made stale, and of how many the crate had changed
"""

import os
import shutil
import subprocess
import sys

HERE = os.path.dirname(os.path.abspath(__file__))
sys.path[:0] = [HERE, os.path.join(os.path.dirname(HERE), "tools", "lib")]

from build.kit import logic_of, uses_of
from lib.edit_files import BadEdit, crates_with_edits, edits_in, name_of, replaced
from lib.tally import Tally
from lib.tried import Sources, fault_of_row, rows_in, sums_now

# What a landing asks of a row. A release asks for what is below, too.
LANDING = ("edit_sum", "own_sum", "logic")


def logic_here(top):
    """The sum of the logic of the kit on this machine, or of the one that made the release."""
    if shutil.which("rt"):
        return logic_of(subprocess.run(["rt", "version"], capture_output=True, text=True).stdout)
    with open(os.path.join(top, "release", "kit"), encoding="utf-8") as file:
        return logic_of(file.read())


def fault_of_text(edit, crate):
    """Why the edit cannot be made, or None."""
    try:
        replaced({}, crate, edit)
    except BadEdit as why:
        return str(why)
    if os.path.exists(os.path.join(crate, "must-fail", os.path.basename(edit))):
        return "the gate has one of that name"
    return None


def waiting_in(top):
    """The crates of checks/edits/untried.txt: rows of them may be stale, since not all were tried after the last change. A release by
    tools/release waits for them."""
    path = os.path.join(top, "checks", "edits", "untried.txt")
    if not os.path.exists(path):
        return set()
    with open(path, encoding="utf-8") as file:
        return {line.strip() for line in file if line[0].isalpha()}


def check(top, whole):
    tally, rows, logic = Tally("edits"), rows_in(os.path.join(top, "checks", "edits", "tried.csv")), logic_here(top)
    excused, waiting = set() if whole else waiting_in(top), 0
    crates, sources = os.path.join(top, "crates"), Sources(top, uses_of(os.path.join(top, "crates.txt")))
    for name in crates_with_edits(top):
        for edit in edits_in(os.path.join(top, "checks", "edits", name)):
            row = rows.pop((name, name_of(edit)), None)
            fault = fault_of_text(edit, os.path.join(crates, name))
            now = sums_now(sources, name, edit, row, logic, whole) if row and not fault else {}
            asked = {column: now[column] for column in now if whole or column in LANDING}
            stale = fault_of_row(row, asked)
            if stale and not fault and name in excused:
                waiting += 1
            else:
                tally.count("%s/%s" % (name, name_of(edit)), fault or stale)
    for name, edit in rows:
        tally.count("%s/%s" % (name, edit), "tried.csv has a row of it, and there is no such edit")
    if waiting:
        print("edits: %d of the crates of untried.txt were not tried since what they stand on changed" % waiting)
    return tally.end()


def main(top, *words):
    if words[:1] == ("--history",):
        from lib.history import report

        return report(top, *words[1:])
    return check(top, words == ("--whole",))


if __name__ == "__main__":
    sys.exit(main(*sys.argv[1:]))
