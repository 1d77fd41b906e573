#!/usr/bin/env bash
# Runs each command of six pages (README, TOUR, MORE, DEVICE, tools, testbench) in a copy of the examples, and compares what it prints
# with the lines below it; some need iverilog, verilator, parallel. Looks at the words, long sentences and links of the pages in
# documents.words, at the size of all pages and the forms of their sentences (pages.csv), at text that two pages have, at the names that
# they cite, and whether tools/wrong_bodies and checks/run --list have all.
set -u
. "$(dirname "$0")/lib/program.bash"
wants python3 python3
exec python3 -B "$top/checks/documents.py" "$program" "$top"
