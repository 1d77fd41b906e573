#!/usr/bin/env bash
# Finds which public functions of the crates of the program and of the C library are entered: by rows of rows/, by drivers of the C
# library, by word_calls and by run_faults. Fails for each function that no run enters, except for those of entered/none.csv, and for one
# of these that a run enters.
# - A body that gives up with `OutOfMemory` is proved; it is found if a run enters it.
# - The kit's front end makes one module of all, without a proof. Its clang compiles that with a flag for each function, and without
#   inlining: the release keeps too few names.
# - The rows are those of entered/rows.txt, which enter what all rows enter. After new functions `entered.sh --choose` tries all rows
#   and writes that file.
# Needs the kit, gcc and Python; no prover.
set -u
top=$(cd "$(dirname "${BASH_SOURCE[0]}")/.." && pwd)
. "$top/checks/lib/tally.bash"
wants python3 python3
wants_cc
wants nm binutils
[ -d "$top/tools/lib/build" ] || gives_up 'there is no tools/lib/build'
if ! command -v rt >/dev/null 2>&1; then
  echo "$name: skipped, no rt (the kit that docs/WORKING.md names)"
  exit 77
fi
exec env PYTHONPATH="$top/tools/lib" python3 -B "$top/checks/entered.py" "$top" "$@"
