"""The list of the program's commands, which `./interlaken --help` prints too."""

import collections
import os

LIST = os.path.join(os.path.dirname(os.path.realpath(__file__)), "..", "..", "commands.txt")

# The words after the name, what they name, and what the command does.
Listed = collections.namedtuple("Listed", "words takes does")


def listed():
    """The commands by their names, in the order of the list."""
    with open(LIST, encoding="utf-8") as file:
        rows = [line.rstrip("\n").split("|") for line in file if not line.startswith("#")]
    return {name: Listed(*rest) for name, *rest in rows}
