"""The options of `lanes adapt`, and what they come to."""

import re
from collections import namedtuple

from lanes.adapt import Changes
from reading.conventions import CRC24_GROUPS, CRC32_GROUPS, MOST_STEPS, RUNNING, Crc24Rule, Crc32Rule, rule_of
from reading.ending import Options
from reading.files import Folder
from reading.lane_names import in_order
from reading.plans import PLAN

ADAPT = "adapt"
STEPS_OF_RUNNING = "-64"  # a register that runs on in the State word is 64 steps further behind it
# What the options come to: the changes, whether each rewritten word is told, the prefix and the lane files.
Settings = namedtuple("Settings", "changes tells_all out overwrite files")


def parser_of():
    parser = Options(prog="lanes", usage="lanes adapt [options] --out NEW LANE ..", description="Makes lanes of the profile out of lanes of another convention, each bit at its place.")
    parser.add_argument("files", nargs="+", metavar="LANE", help="the lane files; names that differ in a number only are taken by it")
    parser.add_argument("--out", required=True, metavar="NEW", help="the prefix of what is written: NEW.lane.0, .. and NEW.adapted.csv")
    parser.add_argument("--state", metavar="N", help="the State words are N steps on, from -%d to %d; or `running`: the scrambler runs through Sync and State words, too; `running,N`: and State words are N steps on" % (MOST_STEPS, MOST_STEPS))
    parser.add_argument("--crc32", metavar="A,..", help="the CRC32 is by these: " + groups_text(CRC32_GROUPS))
    parser.add_argument("--crc24", metavar="A,..", help="the CRC24 is by these: " + groups_text(CRC24_GROUPS))
    parser.add_argument("--idle-fields", choices=("clear",), help="the channel and the SOP bit of idle words become 0")
    parser.add_argument("--multi-use", choices=("clear",), help="the multiple-use bits of control words become 0")
    parser.add_argument("--all", action="store_true", help="the table has each word that is rewritten")
    parser.add_argument("--overwrite", action="store_true", help="existing files are replaced")
    return parser


def groups_text(groups):
    return "; ".join(" or ".join(group) for group in groups)


def adapt_settings_of(words):
    parser = parser_of()
    given = parser.parse_intermixed_args(words)
    steps, runs = state_of(parser, given.state)
    rules = []
    for name, kind, groups in (("crc32", Crc32Rule, CRC32_GROUPS), ("crc24", Crc24Rule, CRC24_GROUPS)):
        text = getattr(given, name)
        rule, error = (None, None) if text is None else rule_of(kind, groups, text)
        if error:
            parser.error("--%s: %s" % (name, error))
        rules.append(rule)
    changes = Changes(steps, runs, *rules, given.idle_fields is not None, given.multi_use is not None)
    if not any(changes):
        parser.error("nothing to do: --state, --crc32, --crc24, --idle-fields or --multi-use is needed")
    if len(given.files) > PLAN["lanes"].most:
        parser.error("%d lanes, and an interface has 1 to %d" % (len(given.files), PLAN["lanes"].most))
    folder = Folder(None, ".")
    for name in given.files:
        folder.must_have(name, float("inf"))
    return Settings(changes, given.all, given.out, given.overwrite, in_order(given.files))


def state_of(parser, text):
    """The steps of the State words, and whether the scrambler runs through."""
    runs, _, number = (text or "0").rpartition(",") if text != RUNNING else (RUNNING, "", STEPS_OF_RUNNING)
    if runs not in ("", RUNNING) or not re.fullmatch(r"[+-]?\d{1,3}", number) or abs(int(number)) > MOST_STEPS:
        parser.error("--state %s: a number from -%d to %d, or %s, or %s and such a number" % (text[:40], MOST_STEPS, MOST_STEPS, RUNNING, RUNNING + ","))
    return int(number), runs == RUNNING
