#!/usr/bin/env bash
# Has tools/probe name what is changed in lanes that the program sent, and in lanes of senders that are made here and differ from the
# profile; has tools/lanes mend what it can; and tries the plans that the tool writes of clean lanes from anywhere in their traffic.
set -u
. "$(dirname "$0")/lib/program.bash"
wants python3 python3
exec python3 -B "$top/checks/probe.py" "$program" "$top"
