"""Runs the program and the model of model/ on the same random inputs, and compares what they leave and say.

    python3 compare.py PROGRAM [--kinds KIND,..] [--cases N] [--plans drawn|wide|narrow|both] [--seed S] [--jobs J] [--keep FOLDER]

A case is a folder of input files and a list of words, which model/random_cases.py draws; both run in a copy of it. It agrees if
the status, the text and every file are the same, and nothing came on standard error. Of each kind there are N cases, 100 by default,
with the seeds from S on, which is 0; of `generate` and `channels`, whose cases are large, a tenth of that. With --plans wide, or
narrow, only seeds whose plan is that count, and with both there are N of each; some kinds have no wide plans, and N narrow ones
alone. For each kind a line says how many were equal. J kinds run side by side, 1 by default. --keep leaves the inputs of the cases
that differ in a folder. What prints `KIND SEED: ..` is run again by --kinds KIND --cases 1 --seed SEED.
"""

import argparse
import itertools
import os
import sys

from lib.machine import each
from lib.modeled import differences, left_by_model
from random_cases import KINDS, LARGE, WIDE, make
from lib.runs import left_by, write_files
from lib.tally import Tally

# A run of the program has to end by then.
SECONDS = 30


def cases_of(given, kind, plans):
    """Seeds and cases of a kind, as many as are asked for."""
    count = -(-given.cases // 10) if kind in LARGE else given.cases
    cases = ((seed, make(kind, seed)) for seed in itertools.count(given.seed))
    return itertools.islice((one for one in cases if plans == "drawn" or one[1].wide == (plans == "wide")), count)


def wrong_with(program, case):
    """What the program does otherwise than the model, or nothing."""
    return differences(left_by(program, case.words, case.files, SECONDS), left_by_model(case.words, case.files))


def keep(folder, case):
    os.makedirs(folder, exist_ok=True)
    write_files(folder, {**case.files, "words": "".join(word + "\n" for word in case.words).encode()})


def compared(task):
    """The kind and its plans again, and of each case its seed and words, and what is wrong with it."""
    given, kind, plans = task
    found = []
    for seed, case in cases_of(given, kind, plans):
        wrong = wrong_with(given.program, case)
        found.append(("%s %d: %s" % (kind, seed, " ".join(case.words)), wrong))
        if wrong and given.keep:
            keep(os.path.join(given.keep, "%s-%d" % (kind, seed)), case)
    return kind, plans, found


def arguments():
    parser = argparse.ArgumentParser()
    parser.add_argument("program", type=os.path.abspath)
    parser.add_argument("--kinds", type=lambda text: text.split(","), default=list(KINDS))
    parser.add_argument("--cases", type=int, default=100)
    parser.add_argument("--plans", choices=["drawn", "wide", "narrow", "both"], default="drawn")
    parser.add_argument("--seed", type=int, default=0)
    parser.add_argument("--jobs", type=int, default=1)
    parser.add_argument("--keep", type=os.path.abspath)
    given = parser.parse_args()
    for kind in given.kinds:
        if kind not in KINDS:
            parser.error("no kind %s: the kinds are %s" % (kind, ", ".join(KINDS)))
    return given


def tasks(given):
    """For each kind, and each form of its plans, what there is to compare."""
    forms = ["wide", "narrow"] if given.plans == "both" else [given.plans]
    return [(given, kind, form) for kind in given.kinds for form in forms if form != "wide" or kind in WIDE]


def main():
    given, tally = arguments(), Tally("model")
    for kind, plans, found in each(compared, tasks(given), given.jobs):
        for what, wrong in found:
            tally.count(what, wrong)
        different = sum(bool(wrong) for _, wrong in found)
        form = "" if plans == "drawn" else ", " + plans
        print("%s%s: %d equal, %d different" % (kind, form, len(found) - different, different), flush=True)
    return tally.end()


if __name__ == "__main__":
    sys.exit(main())
