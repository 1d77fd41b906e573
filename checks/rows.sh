#!/usr/bin/env bash
# Runs the program on each row of rows/: a command, the files before, the status, the text, and the files after. Arguments are names of
# rows. --texts first has the model's text written into the rows that it agrees with.
set -u
. "$(dirname "$0")/lib/program.bash"
wants python3 python3
exec python3 -B "$top/checks/rows.py" "$program" "$@"
