"""The numbers that C sees as the crates have them, by the names of the header without its prefix. A kind that is an enum has the numbers
of its places, which the crates prove; the other numbers are constants of c_parts.

    python3 numbers.py TOP
"""

import os
import re
import sys

CODES = "c_parts/src/codes.rt"

# The header has other names for the wrong words of a lane.
WRONG_WORDS = {"BAD": "BAD_WORD", "SYNC": "BAD_SYNC", "STATE": "BAD_STATE", "SKIP": "BAD_SKIP", "DIAGNOSTIC": "BAD_DIAGNOSTIC"}

# A file, an enum in it, the prefix of its names in the header, its first number, and the names that the header has in place of its own.
ENUMS = [
    (CODES, "Code", "", 0, {}),
    (CODES, "Cause", "", 0, {}),
    ("plan_errors/src/error.rt", "Key", "KEY_", 1, {}),
    ("lk_base/src/fault.rt", "DropWhy", "DROP_", 0, {}),
    ("lk_base/src/fault.rt", "Why", "FAULT_", 0, {}),
    ("lock_model/src/types.rt", "LaneState", "LANE_", 0, {}),
    ("lane_events/src/types.rt", "EventKind", "LANE_EVENT_", 1, WRONG_WORDS),
    ("word_rules/src/rule.rt", "WordRule", "RULE_", 1, {}),
]

# These keys are of other files: no plan of lanes lacks one, and the header has none of them.
OTHER_KEYS = {"KEY_OOB", "KEY_EVENTS", "KEY_PLAN", "KEY_DELAY", "KEY_MARK", "KEY_SLOTS"}


def text_of(top, file):
    with open(os.path.join(top, "crates", file), encoding="utf-8") as it:
        return it.read()


def variants(text, enum):
    """The names of an enum's variants, in order."""
    body = re.search(r"^pub enum %s \{\n(.*?)^\}" % enum, text, re.M | re.S).group(1)
    return re.findall(r"^    ([A-Z][A-Za-z]*),$", body, re.M)


def upper(name):
    """`NoLane` as `NO_LANE`."""
    return re.sub(r"(?<=[a-z])(?=[A-Z])", "_", name).upper()


def numbers(top):
    for file, enum, prefix, first, names in ENUMS:
        for number, variant in enumerate(variants(text_of(top, file), enum), first):
            name = upper(variant)
            yield prefix + names.get(name, name), number
    for name, number in re.findall(r"^pub const ([A-Z_]+): u32 = ([0-9]+);$", text_of(top, CODES), re.M):
        yield name, int(number)


if __name__ == "__main__":
    for line in sorted("%s %d" % one for one in numbers(sys.argv[1]) if one[0] not in OTHER_KEYS):
        print(line)
