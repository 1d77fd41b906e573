#!/usr/bin/env bash
# Shows that outputs grow in pieces of 65,536 bytes while a command works, that the rests come last in the order of creation, and that the
# text is one write, by a library that makes a write or a read of the program fail.
set -u
. "$(dirname "$0")/lib/program.bash"
wants_cc
wants python3 python3
folder=$(mktemp -d)
trap 'rm -rf "$folder"' EXIT
cc -O1 -shared -fPIC -o "$folder/failing.so" "$top/checks/faults/failing.c" -ldl || { echo "pieces: 0 passed, 1 failed"; exit 1; }
python3 -B "$top/checks/pieces.py" "$program" "$folder/failing.so"
