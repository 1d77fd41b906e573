#!/usr/bin/env bash
# Runs the commands that read another end's files on a table of files that no sender makes (words, lanes, local rows, samples, events, two
# ends), and compares each run with hostile.txt. Arguments are names of cases.
set -u
. "$(dirname "$0")/lib/program.bash"
wants python3 python3
exec python3 -B "$top/checks/hostile.py" "$program" "$@"
