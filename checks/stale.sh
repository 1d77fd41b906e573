#!/usr/bin/env bash
# Whether a row of edits/tried.csv goes stale with what its refusal stands on, and with nothing else: of 60 rows drawn at random, each
# named thing that a search by lines finds is changed (the function, its contract and answers, lemmas, contracts, types, definitions of
# the crate and below it), and then comments, imports, new functions, and bodies that a contract hides.
#
#     checks/stale.sh [--rows N] [--seed N]
set -u
top=$(cd "$(dirname "${BASH_SOURCE[0]}")/.." && pwd)
. "$top/checks/lib/tally.bash"
wants python3 python3
[ -d "$top/tools/lib/build" ] || gives_up 'there is no tools/lib/build'
exec python3 -B "$top/checks/stale.py" "$top" "$@"
