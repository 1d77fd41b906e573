#!/usr/bin/env bash
# Plants faults in the lanes of a device, one at a time, and compares what tools/judge says of each with what was planted and with what
# the program's own commands tell; and opens its pages in a browser.
set -u
. "$(dirname "$0")/lib/program.bash"
wants python3 python3
exec python3 -B "$top/checks/judge.py" "$program" "$top"
