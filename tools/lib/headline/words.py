"""What the signs of the language mean, and the words of the kit."""

import csv
import os

HERE = os.path.dirname(os.path.realpath(__file__))


def pairs_in(name):
    """The rows of a table beside this file: a sign or a word, and its meaning."""
    with open(os.path.join(HERE, name), encoding="utf-8", newline="") as file:
        return [tuple(row) for row in csv.reader(file)][1:]


def kit_words(kit):
    """Each word of the kit of these full names with its meaning, or else with the module that has it."""
    known, modules = dict(pairs_in("kit.csv")), {path.rpartition(".")[2]: path.rpartition(".")[0] for path in kit}
    for word in sorted(modules, key=str.lower):
        yield word, known.get(word, "in %s" % modules[word])


def signs():
    return pairs_in("signs.csv")
