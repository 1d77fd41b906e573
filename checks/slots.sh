#!/usr/bin/env bash
# Compares the slots, lanes and bits of tools/slots with the output of `link` and with the program's lanes and words, on the examples and on
# random links.
set -u
. "$(dirname "$0")/lib/program.bash"
wants python3 python3
exec python3 -B "$top/checks/slots.py" "$program" "$top"
