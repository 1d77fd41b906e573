#!/usr/bin/env bash
# Tries the C library on random links of 1 to 64 lanes against the Python model.
# - Receivers: the order of all events and the byte at which each comes, in random chunks and orders, and against `receive` of the first
#   bytes.
# - Transmitters: each byte of each lane, slots and counts, with packets and flow control at random times; their words against `gather` and
#   `check`.
# - Each allocation of each call fails once. Random calls, misused ones among them, under sanitizers, some under memcheck, and two threads
#   under helgrind and a sanitizer.
# Needs an archive as checks/clib.sh does. CASES=1000 and SEQUENCES=1000 set how many links, transmitters and scripts of random calls are
# tried. SENSITIVITY=1 instead tries whether the check fails with each of some wrong libraries.
set -u
. "$(dirname "$0")/lib/program.bash"
wants_cc
wants python3 python3
wants_archive
folder=$(mktemp -d)
trap 'rm -rf "$folder"' EXIT
cases=(--cases "${CASES:-24}" --sequences "${SEQUENCES:-24}")

# Links the driver with the library.
driver() { # NAME OPTION..
  local out=$1
  shift
  cc -std=c99 -Wall -Wextra -Werror -pedantic -g -O1 "-I$top/include" -o "$folder/$out" "$top/checks/live/driver.c" "$@" "$archive" -pthread
}

# Whether programs with a sanitizer are made and run; if not, what that leaves out is told.
sanitizes() { # OPTION PART
  echo 'int main(void) { return 0; }' >"$folder/empty.c"
  cc "$1" -o "$folder/empty" "$folder/empty.c" 2>/dev/null && "$folder/empty" >/dev/null 2>&1 ||
    { echo "$name: not tried, no ${1#-f} of cc (Debian package gcc): $2"; return 1; }
}

# What is wrong with a library, by the numbers that live/wrong.c has.
faults=('nothing' 'a row of a refusal is one too small' 'a byte is used with the next one' 'one byte less is said to be taken'
  'taken is not written on misuse' 'a control word comes one event late' 'a span has a wrong reason' 'a drop has a wrong channel'
  'a packet has a wrong byte' 'state of a report is one too small' 'is_on is stale' 'a refused packet is queued'
  'BAD_LENGTH before NO_CHANNEL' 'an invalid word is not noted' 'flow counts one word late' 'local takes 1 alone as true'
  'a lane has a wrong byte' 'take writes one byte more' 'bytes_sent is one too small' 'slots are one too small' 'a flip is one bit off'
  'a dark stretch is one bit short' 'apply inverts a bit now and then')

try_wrong() {
  local wraps=() call number
  for call in $(grep -oE '__wrap_interlaken_[a-z_]+' "$top/checks/live/wrong.c" | sort -u); do
    wraps+=("-Wl,--wrap=${call#__wrap_}")
  done
  driver wrong "${wraps[@]}" "$top/checks/live/wrong.c" || gives_up 'the wrong libraries are not linked'
  for number in "${!faults[@]}"; do
    WRONG=$number python3 -B "$top/checks/live.py" "$program" "$folder/wrong" --first "${cases[@]}" >"$folder/told" 2>&1
    holds "a library in which ${faults[number]}" "status $?" "status $((number > 0))"
    [ "$number" -eq 0 ] || echo "${faults[number]}: $(head -n 1 "$folder/told" | cut -c 1-160)"
  done
  ends
}

[ "${SENSITIVITY:-}" != 1 ] || try_wrong
driver plain || gives_up 'the driver is not compiled'
use=plain threads=()
sanitizes -fsanitize=address,undefined 'calls under the sanitizers' && driver sanitized -fsanitize=address,undefined && use=sanitized
sanitizes -fsanitize=thread 'two threads under the sanitizer' && driver threads -fsanitize=thread && threads=(--threads "$folder/threads")
python3 -B "$top/checks/live.py" "$program" "$folder/$use" --plain "$folder/plain" "${threads[@]}" "${cases[@]}"
exit
