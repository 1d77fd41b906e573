#!/usr/bin/env bash
# Runs the Python model's own test, which has its worked examples.
set -u
top=$(cd "$(dirname "${BASH_SOURCE[0]}")/.." && pwd)
. "$top/checks/lib/tally.bash"
wants python3 python3
told=$(python3 -B "$top/model/selftest.py" 2>&1)
status=$?
number=$(sed -n 's/^Ran \([0-9]*\) tests.*/\1/p' <<<"$told")
[ "$status" -eq 0 ] || gives_up "$told"
passed=${number:-0}
ends
