#!/usr/bin/env bash
# Compares the program with the Python model on random cases: files, text and status. Arguments are those of compare.py: --kinds link,join
# --cases 200 --plans both --jobs 4 compares 200 cases of each kind with wide plans and 200 with narrow ones.
set -u
. "$(dirname "$0")/lib/program.bash"
wants python3 python3
exec python3 -B "$top/checks/compare.py" "$program" "$@"
