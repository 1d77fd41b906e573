#!/usr/bin/env bash
# Draws conventions of a sender that differ from the profile, plants faults in its lanes, and has tools/probe name the call of tools/lanes
# adapt by which tools/judge then finds what it finds of the profile's own sender, at the same bits; and tries what adapt refuses.
set -u
. "$(dirname "$0")/lib/program.bash"
wants python3 python3
exec python3 -B "$top/checks/conventions.py" "$program" "$top" "$@"
