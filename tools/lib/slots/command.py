"""The command `slots`: its options, and its output."""

import csv
import sys

from reading.ending import Options
from slots.rows import TABLES
from slots.run import DAMAGE, EVENTS, FAULTS, MISSING, PACKETS, SPANS, Run

TOLD = {MISSING: "the packets that did not come, in place of the fault spans", DAMAGE: "the rows of the schedule that strike bits of the lanes",
        PACKETS: "the packets of the words in OUT.words", FAULTS: "the words that break a rule, of OUT.faults.csv", EVENTS: "the events of lanes, of OUT.events.csv"}


def options_of(words):
    parser = Options(prog="slots", description="Tells fault spans, lost packets, damaged bits, packets, faults or events of a link by slots, lanes and bits, as CSV.")
    parser.add_argument("plan", help="the plan of the link; its outputs must exist")
    table = parser.add_mutually_exclusive_group()
    for name, told in TOLD.items():
        table.add_argument("--" + name, dest="table", action="store_const", const=name, default=SPANS, help=told)
    text = parser.add_mutually_exclusive_group()
    text.add_argument("--text", metavar="FILE", help="what `link` or `receive` printed")
    text.add_argument("--program", help="the program; it makes what the table needs in a temporary folder: by `link`, or from the existing lanes if the plan names no captures")
    return parser.parse_args(words)


def main(words):
    options = options_of(words)
    rows = list(TABLES[options.table](Run(options)))
    csv.writer(sys.stdout, lineterminator="\n").writerows(rows)
    return 0
