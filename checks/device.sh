#!/usr/bin/env bash
# Runs the device of examples/device with each of its bugs, takes its dumps by tools/lanes, and asks tools/judge for the line that names
# the bug; without a bug every packet arrives and nothing is found. Needs iverilog; where verilator is there too, of version 5 or later,
# with what it builds programs with, it makes the same dumps.
set -u
. "$(dirname "$0")/lib/program.bash"
wants python3 python3
wants iverilog iverilog
wants vvp iverilog
exec python3 -B "$top/checks/device.py" "$program" "$top"
