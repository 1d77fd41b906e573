#!/usr/bin/env bash
# Compares the findings of the tools' readers in spoiled files, 500 plans among them, with the program's: the same file, row and cause.
# Calls tools/explain with mistakes, and with outputs that are also inputs.
set -u
. "$(dirname "$0")/lib/program.bash"
wants python3 python3
exec python3 -B "$top/checks/explain.py" "$program" "$top"
