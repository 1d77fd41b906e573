#!/usr/bin/env bash
# Tries whether the checks of this folder can fail. A check that tries the program runs with programs that do not work, and each other check
# in a copy of the repository without crates and edits; each must fail, in time. Arguments are names of checks, as rows.
set -u
top=$(cd "$(dirname "${BASH_SOURCE[0]}")/.." && pwd)
. "$top/checks/lib/tally.bash"
# A check has to fail by then on an idle machine.
seconds=60
usage='usage: interlaken COMMAND FILE, or interlaken generate NUMBER PREFIX'
folder=$(mktemp -d)
trap 'rm -rf "$folder"' EXIT

# Makes a program that does not work; its lines come on standard input.
program() { # NAME
  { echo '#!/bin/sh'; cat; } >"$folder/$1"
  chmod +x "$folder/$1"
}
program fails <<<'exit 1'
program does_nothing <<<'exit 0'
program knows_no_command <<<"echo '$usage'; exit 2"
program knows_help_alone <<<"[ \"\${1:-}\" != --help ] || { echo '$usage'; exit 2; }"

make_copy() {
  mkdir -p "$folder/copy/crates" "$folder/copy/checks"
  : >"$folder/copy/crates.txt"
  cp -a "$top/docs" "$folder/copy/"
  find "$top/checks" -mindepth 1 -maxdepth 1 \( -type f -o -name lib \) -exec cp -a {} "$folder/copy/checks/" \;
  chmod -R u+w "$folder/copy" # a checkout may be one that is only read
}

# Whether a check that ended as it did was skipped for a tool that is missing.
is_skipped() { # CHECK STATUS LAST-LINE
  local tool=${3#"$1: skipped, no "}
  [ "$2" -eq 77 ] && [ "$tool" != "$3" ] && ! command -v "${tool%% *}" >/dev/null 2>&1
}

# Runs a check that has to fail. Returns 1 if it cannot be tried.
try() { # SCRIPT WHAT-IS-WRONG
  local check status last
  check=$(basename "$1" .sh)
  timeout "$(patience "$seconds")" bash "$1" >"$folder/told" 2>&1 </dev/null
  status=$?
  # How many it counts does not matter.
  last=$(tail -n 1 "$folder/told" | sed -E 's/[0-9]+ (passed|failed)/N \1/g')
  if is_skipped "$check" "$status" "$last"; then
    skipped[${last#"$check: skipped, "}]+=" $check"
    return 1
  fi
  holds "$check, $2" "status $status, $last" "status 1, $check: N passed, N failed"
}

declare -A skipped # checks by what they lack
make_copy
[ $# -gt 0 ] || set -- $(cd "$top/checks" && basename -s .sh -- *.sh)
for check; do
  script=$top/checks/$check.sh
  if [ "$check" = "$name" ]; then
    continue
  elif grep -qs '^\. .*program\.bash' "$script"; then
    for wrong in fails does_nothing knows_no_command knows_help_alone; do
      INTERLAKEN_PROGRAM=$folder/$wrong try "$script" "with a program that $wrong" || break
    done
  else
    try "$folder/copy/checks/$check.sh" 'without crates and edits'
  fi
done
for lacking in "${!skipped[@]}"; do
  echo "$name: not tried, $lacking:${skipped[$lacking]}"
done
ends
