#!/usr/bin/env bash
# Tries bench/beside.sh on small captures: two commands of the program against itself and against other programs; its text if a tool is
# missing; that it measures every command and changes no foreign file; and --help of each script of bench.
set -u
. "$(dirname "$0")/lib/program.bash"
wants python3 python3
exec python3 -B "$top/checks/bench.py" "$program" "$top"
