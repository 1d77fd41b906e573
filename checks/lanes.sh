#!/usr/bin/env bash
# Makes dumps of lanes that the program sent, in each form of tools/lanes with each of its options, and has the tool make the lanes of
# them; has it make dumps of lanes and compares those; and tries what the tool refuses.
set -u
. "$(dirname "$0")/lib/program.bash"
wants python3 python3
exec python3 -B "$top/checks/lane_dumps.py" "$program" "$top"
