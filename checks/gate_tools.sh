#!/usr/bin/env bash
# What the gate's own tools decide, on small texts: which wrong bodies share a check, which of them a check refuses, which rows of
# edits/tried.csv count, how many crates are proved at once, and what tools/costs adds up; and that each tool has --help.
set -u
top=$(cd "$(dirname "${BASH_SOURCE[0]}")/.." && pwd)
. "$top/checks/lib/tally.bash"
wants python3 python3
[ -d "$top/tools/lib/build" ] || gives_up 'there is no tools/lib/build'
exec python3 -B "$top/checks/gate_tools.py" "$top"
