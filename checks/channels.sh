#!/usr/bin/env bash
# Whether memory or time of a plan of 1,024 channels grows: the peaks of `burst`, `join`, `send`, `receive` and `link`, and, if valgrind is
# there, the instructions of `burst` of short packets. Limits of commands that receive, and of instructions, are 15 % above what was measured.
set -u
. "$(dirname "$0")/lib/program.bash"
wants python3 python3
exec python3 -B "$top/checks/channels.py" "$program" "$top"
