#!/usr/bin/env bash
# Tries the live bench of examples/dpi: the commands of its page; its C layer against `receive`, in random pieces and orders and with each
# misuse, under sanitizers if the compiler has them; and the bench with random bits inverted: packets, struck lane and bits, and lost
# packets are those of `receive`. Needs verilator 5 or later, and an archive of these sources: built by the gate or `rt lib`, or of
# release/.
set -u
. "$(dirname "$0")/lib/program.bash"
wants python3 python3
wants verilator verilator
wants make make
wants c++ g++
wants_cc
has_verilator || skips 'version 5 of verilator' verilator
wants_archive
exec python3 -B "$top/checks/dpi.py" "$program" "$top"
