#!/usr/bin/env bash
# Runs the commands that read another end's files on 400 mutated files: each run ends by itself, with an answer. Arguments are those of
# mutated.py, as --count 100000 --jobs 4.
set -u
. "$(dirname "$0")/lib/program.bash"
wants python3 python3
exec python3 -B "$top/checks/mutated.py" "$program" "$@"
