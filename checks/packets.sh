#!/usr/bin/env bash
# Compares captures and words files by tools/packets after packets and words were changed, removed and inserted.
set -u
. "$(dirname "$0")/lib/program.bash"
wants python3 python3
exec python3 -B "$top/checks/packets.py" "$program" "$top"
