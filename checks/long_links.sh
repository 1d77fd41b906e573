#!/usr/bin/env bash
# Compares program and Python model on long links with odd lanes: `link` with random damage, and then `receive`, `gather` and `inspect` of
# its lanes, some of which are replaced. Arguments are those of long_links.py, as --cases 1000 --jobs 4.
set -u
. "$(dirname "$0")/lib/program.bash"
wants python3 python3
exec python3 -B "$top/checks/long_links.py" "$program" "$@"
