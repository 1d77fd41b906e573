#!/usr/bin/env bash
# Feeds the Python receiver as the cocotb test does, one bit of each lane at a time, and compares with `receive`; runs the test itself if
# cocotb is installed, with iverilog or verilator. Needs gcc, and an archive of these sources.
set -u
. "$(dirname "$0")/lib/program.bash"
wants python3 python3
wants_cc
wants_archive
exec python3 -B "$top/checks/cocotb_test.py" "$program" "$top"
