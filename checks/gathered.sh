#!/usr/bin/env bash
# Compares `gather`, `join`, `check` and `inspect` of the lanes of generated links with `receive`. Arguments are those of gathered.py, as
# --cases 500.
set -u
. "$(dirname "$0")/lib/program.bash"
wants python3 python3
exec python3 -B "$top/checks/gathered.py" "$program" "$@"
