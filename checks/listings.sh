#!/usr/bin/env bash
# Lists random words files and lanes, some damaged, and assembles them again; compares `assemble` of mutated texts with the Python model.
# Arguments are those of listings.py, as --texts 500 --seed 7.
set -u
. "$(dirname "$0")/lib/program.bash"
wants python3 python3
exec python3 -B "$top/checks/listings.py" "$program" "$@"
