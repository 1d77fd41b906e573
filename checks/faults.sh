#!/usr/bin/env bash
# Makes each allocation, read, write and open of the program fail in turn, for each command on a small link, by a library that is loaded
# before the program. Takes two minutes at most. Arguments are those of faults/faults.py, as --seconds 30 send.
set -u
. "$(dirname "$0")/lib/program.bash"
wants_cc
wants python3 python3
folder=$(mktemp -d)
trap 'rm -rf "$folder"' EXIT
cc -O1 -shared -fPIC -o "$folder/failing.so" "$top/checks/faults/failing.c" -ldl || { echo "faults: 0 passed, 1 failed"; exit 1; }
python3 -B "$top/checks/faults/faults.py" "$program" "$folder/failing.so" "$@"
