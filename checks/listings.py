"""Tries the listings of the program: both ways on random files, and the assembling of mutated texts beside the model of model/.

    python3 listings.py PROGRAM [--files N] [--texts N] [--seed S]

Of N random files, 200 by default, half are words files and half lanes, damaged ones among them. The program has to list each as the
model does, or to refuse it as the model does; if it lists one, its `assemble` of the text has to give the same bytes, and its
`list` of these the same text. Of N mutated texts, 2,000 by default, `assemble` has to answer as the model: status, text and files.
The same seed gives the same files and texts.
"""

import argparse
import os
import random
import sys

from lib.modeled import differences, left_by_model
from lib.runs import left_by
from lib.tally import Tally

import random_listings


def beside_model(program, words, files):
    """The run of the program, and what it does otherwise than the model, or nothing."""
    mine = left_by(program, words, files)
    return mine, differences(mine, left_by_model(words, files))


def listed_both_ways(program, seed):
    """What is wrong with the listing of a random file, or nothing."""
    r = random.Random("listed %d" % seed)
    name, data = ("x.words", random_listings.words_data(r)) if seed % 2 == 0 else ("x.0", random_listings.lane_data(r))
    first, wrong = beside_model(program, ["list", name], {name: data})
    if wrong or first.status != 0:
        return wrong
    text = first.files[name + ".txt"]
    second = left_by(program, ["assemble", "y"], {"y": text})
    if (second.status, second.files.get("y.bin")) != (0, data):
        return "%s is not assembled again" % name
    third = left_by(program, ["list", name], {name: second.files["y.bin"]})
    return "" if third.files.get(name + ".txt") == text else "%s is not listed again" % name


def assembled_alike(program, seed):
    """What differs from the model in the assembling of a mutated text, or nothing."""
    text = random_listings.text(random.Random("mutated %d" % seed))
    return beside_model(program, ["assemble", "x.txt"], {"x.txt": text})[1]


def arguments():
    parser = argparse.ArgumentParser()
    parser.add_argument("program", type=os.path.abspath)
    parser.add_argument("--files", type=int, default=200)
    parser.add_argument("--texts", type=int, default=2000)
    parser.add_argument("--seed", type=int, default=0)
    return parser.parse_args()


def main():
    given, tally = arguments(), Tally("listings")
    for kind, count, trial in (("file", given.files, listed_both_ways), ("text", given.texts, assembled_alike)):
        for seed in range(given.seed, given.seed + count):
            tally.count("%s %d" % (kind, seed), trial(given.program, seed))
    return tally.end()


if __name__ == "__main__":
    sys.exit(main())
