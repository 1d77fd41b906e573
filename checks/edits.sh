#!/usr/bin/env bash
# The wider set of wrong bodies, edits/CRATE/NAME.edit, which the gate is too short for.
#
#     checks/edits.sh                       whether each can still be made, and has a row of the present sums in edits/tried.csv
#     checks/edits.sh try [CRATE..]         has the prover refuse those of these crates, or of all, and writes their rows
#     checks/edits.sh try --stale [CRATE..] only those whose rows are not of the present sums
#     checks/edits.sh turn                  these first, then those tried longest ago, until ten minutes of processors are used
#
# The last three have --jobs N for crates at once, and --proved CHECKOUT for one in which `rt ci` proved these sources. Without it they
# have `rt ci` prove a copy of the repository; what the kit keeps is not proved again.
set -u -o pipefail
top=$(cd "$(dirname "${BASH_SOURCE[0]}")/.." && pwd)
. "$top/checks/lib/tally.bash"
. "$top/tools/sources.bash" || gives_up 'there is no tools/sources.bash'
wants python3 python3
what=${1:-}
[ $# -eq 0 ] || shift
[ -n "$what" ] || exec python3 -B "$top/checks/edits.py" "$top"

usage() {
  echo "usage: checks/edits.sh [try [--stale] [--jobs N] [--proved CHECKOUT] [CRATE..] | turn [--jobs N] [--proved CHECKOUT]]" >&2
  exit 2
}

# Makes the copy: these crates and those that they stand on.
copy() { # ROOM CRATE..
  local room=$1 crate
  shift
  mkdir -p "$room/.git" "$room/crates" && cp "$top/HANDLES" "$room/" || return 1
  for crate in "$@"; do lines_of_crates "$top" "$crate"; done | sort -u >"$room/crates.txt"
  while read -r crate _; do
    crate=${crate%:}
    mkdir -p "$room/crates/$crate"
    find "$top/crates/$crate" -mindepth 1 -maxdepth 1 ! -name out ! -name must-fail -exec cp -a {} "$room/crates/$crate/" \; || return 1
  done <"$room/crates.txt"
}

case $what in
  try | turn) ;;
  *) usage ;;
esac
jobs=${RT_JOBS:-$("$top/tools/jobs")} proved='' options=() crates=()
[ "$what" = try ] || options+=(--turn)
while [ $# -gt 0 ]; do
  case $1 in
    --stale) [ "$what" = try ] && options+=(--stale) || usage ;;
    --jobs | --proved)
      [ $# -gt 1 ] || usage
      [ "$1" = --proved ] && proved=$2 || jobs=$2
      shift
      ;;
    -*) usage ;;
    *)
      [ "$what" = try ] || usage
      compgen -G "$top/checks/edits/$1/*.edit" >/dev/null || gives_up "there is no edit of the crate $1"
      crates+=("$1")
      ;;
  esac
  shift
done
[[ $jobs =~ ^[1-9][0-9]*$ ]] || usage
command -v rt >/dev/null 2>&1 || { echo "edits: skipped, no rt (the kit): the edits of the wider set" && exit 77; }
if [ -z "$proved" ]; then
  proved=$(mktemp -d)
  trap 'rm -rf "$proved"' EXIT
  copy "$proved" $([ ${#crates[@]} -gt 0 ] && printf '%s\n' "${crates[@]}" || (cd "$top/checks/edits" && printf '%s\n' */ | tr -d /)) ||
    gives_up 'the crates cannot be copied'
  (cd "$proved" && RT_JOBS=$jobs rt ci) | tail -n 1 || gives_up 'a crate is not proved as it stands'
fi
python3 -B "$top/checks/lib/try_edits.py" "$top" "$proved" --jobs "$jobs" "${options[@]}" "${crates[@]}"
