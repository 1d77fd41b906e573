#!/usr/bin/env bash
# Writes the waves of examples and of a damaged link by tools/waves, reads them back, also by vcd2fst, and compares them with the program's
# output and files.
set -u
. "$(dirname "$0")/lib/program.bash"
wants python3 python3
exec python3 -B "$top/checks/waves.py" "$program" "$top"
