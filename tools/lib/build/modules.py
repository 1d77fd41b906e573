"""What each function and file of lemmas of a crate takes of a check, by the times at which the check wrote the files of its modules."""

import argparse
import os
import re
import sys
import tempfile
import time

from build.kit import Kit, kit_folder

# The last parts of a module's name that a check makes for a function.
CODE = {"Lts", "Mir", "Code", "Named"}
MADE = re.compile(r"(TheLinks?|TheLaws|TheReach|TheSendSync|Kinds|Layout|Met|Reads|Statement|Symbol|Tie|Key)$")


def written(folder, crate):
    """The modules of the crate's own proofs, in the order in which they were written, with the seconds since the one before."""
    found = []
    for at, _, files in os.walk(folder):
        for name in files:
            if name.endswith(".oantt") and os.path.basename(at) != "records":
                found.append((os.stat(os.path.join(at, name)).st_mtime, name[: -len(".oantt")]))
    found.sort()
    for (before, _), (now, name) in zip([found[0]] + found, found):
        yield name, now - before


def owner_of(module, crate):
    """The function or file of lemmas that a module belongs to, and which part of it; None for what is not the crate's own proof."""
    start = "Rattle-%s-proofs." % crate
    if not module.startswith(start):
        return None, "specs"
    parts = module[len(start) :].split(".")
    for number, part in enumerate(parts):
        if part in CODE:
            return "::".join(parts[:number]), "code"
        if part in ("Proof", "Goals", "Given", "Answers", "Invariants"):
            return "::".join(parts[:number]), "proof"
        if MADE.match(part):
            return "::".join(parts[:number]), "rest"
    return "::".join(parts), "lemmas"


def costs_of(folder, crate):
    """Seconds by owner and part."""
    costs = {}
    for module, seconds in written(folder, crate):
        owner, part = owner_of(module, crate)
        own = costs.setdefault(owner or "(definitions and contracts)", {})
        own[part] = own.get(part, 0) + seconds
    return costs


def report(costs, most):
    rows = sorted(costs.items(), key=lambda row: -sum(row[1].values()))
    total = sum(sum(parts.values()) for parts in costs.values())
    print("%7s %7s %7s  %s" % ("all", "code", "proof", "function or file of lemmas; %.0f s of modules in all" % total))
    for name, parts in rows[:most]:
        print("%7.1f %7.1f %7.1f  %s" % (sum(parts.values()), parts.get("code", 0), parts.get("proof", 0), name))


def main(top):
    words = argparse.ArgumentParser(prog="costs", description="What the proof of a crate spends its time on.")
    words.add_argument("--over", default=top, metavar="CHECKOUT", help="a checkout in which `rt ci` proved the crates below; by default this one")
    words.add_argument("--most", type=int, default=25, metavar="N", help="at most N rows")
    words.add_argument("crate")
    given = words.parse_args()
    folder = kit_folder()
    source = os.path.join(top, "crates", given.crate)
    if folder is None or not os.path.isdir(source):
        print("costs: %s" % ("there is no command rt" if folder is None else "there is no crate " + given.crate), file=sys.stderr)
        return 2
    with tempfile.TemporaryDirectory(prefix="interlaken-costs-") as kept:
        begun = time.time()
        status, lines = Kit(folder, os.path.abspath(given.over)).check(given.crate, source, {}, kept)
        print("%s in %.0f s: %s" % (given.crate, time.time() - begun, lines[-1]))
        if status == 0:
            report(costs_of(kept, given.crate), given.most)
    return 0 if status == 0 else 1
