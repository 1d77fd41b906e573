"""The mutations that the prover has to reject: an edit for each, and the reason of each edit.

The gate tries the edits in crates/CRATE/must-fail; all others are in checks/edits/CRATE. checks/edits/REASONS.csv has a row for each
edit of both: its crate, its name, what the mutated code does, and what rejects it.
"""

import csv
import glob
import os

from build.costs import graph_of

COLUMNS = ["crate", "edit", "does", "rejected_by"]


def edits_in(top):
    """Each edit as a pair of its crate and its name, with whether the gate tries it."""
    found = {}
    for pattern, is_gate in (("checks/edits/*/*.edit", False), ("crates/*/must-fail/*.edit", True)):
        for path in glob.glob(os.path.join(top, pattern)):
            crate = path.split(os.sep)[-3 if is_gate else -2]
            found[crate, os.path.basename(path)[: -len(".edit")]] = is_gate
    return found


def reasons_in(top):
    """The rows of the reasons, as they stand."""
    with open(os.path.join(top, "checks", "edits", "REASONS.csv"), encoding="utf-8", newline="") as file:
        return list(csv.DictReader(file))


def faults_of(edits, reasons):
    """What is wrong with the reasons, a text for each edit concerned."""
    seen = set()
    for row in reasons:
        edit, name = (row["crate"], row["edit"]), "%s/%s" % (row["crate"], row["edit"])
        if edit in seen:
            yield "%s has two reasons" % name
        elif edit not in edits:
            yield "%s has a reason, and there is no such edit" % name
        elif not row["does"] or not row["rejected_by"]:
            yield "%s lacks what the mutated code does, or what rejects it" % name
        seen.add(edit)
    for crate, name in sorted(set(edits) - seen):
        yield "%s/%s has no reason" % (crate, name)


def says_its_name(row):
    return row["does"] == row["edit"].replace("_", " ")


def heads_of(top, edits):
    """The lines before the tables: how many mutations there are, and the crates that have none."""
    in_gate = [edit for edit, is_gate in edits.items() if is_gate]
    crates = list(graph_of(os.path.join(top, "crates.txt")))
    without = [crate for crate in crates if crate not in {crate for crate, _ in edits}]
    yield "%d mutations of %d crates. The gate always tries %d of them, of %d crates; these are marked **gate**." % (
        len(edits), len({crate for crate, _ in edits}), len(in_gate), len({crate for crate, _ in in_gate}))
    yield ""
    yield "%d crates have none: %s." % (len(without), ", ".join("`%s`" % crate for crate in without))


def table_of(rows, edits):
    """The table of one crate, the mutations of the gate first."""
    yield "| mutation | does | rejected by |"
    yield "|---|---|---|"
    for row in sorted(rows, key=lambda row: (not edits[row["crate"], row["edit"]], row["edit"])):
        mark = " **gate**" if edits[row["crate"], row["edit"]] else ""
        yield "| `%s`%s | %s | %s |" % (row["edit"], mark, "" if says_its_name(row) else row["does"], row["rejected_by"])


def listing(top, crates=(), gate_only=False):
    """The list in the order of crates.txt: of these crates, or of all, with the counts before it. The reasons have no fault."""
    edits, reasons = edits_in(top), reasons_in(top)
    lines = [] if crates or gate_only else list(heads_of(top, edits))
    for crate in graph_of(os.path.join(top, "crates.txt")):
        rows = [row for row in reasons if row["crate"] == crate and (edits[crate, row["edit"]] or not gate_only)]
        if rows and (not crates or crate in crates):
            lines += ["", "### `%s`" % crate, "", *table_of(rows, edits)]
    return "\n".join(lines).lstrip("\n") + "\n"
