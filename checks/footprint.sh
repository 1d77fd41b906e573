#!/usr/bin/env bash
# Measures the stack and the memory of calls of the C library, and compares them with include/manual.txt: the stack of each `new` and of all other
# calls, and the memory that each handle keeps. Runs each command of the program in the stack that README says. Needs an archive as
# checks/clib.sh does.
set -u
. "$(dirname "$0")/lib/program.bash"
wants_cc
[ -d "$top/crates/interlaken_c" ] || gives_up 'there is no library to try'
wants_archive
folder=$(mktemp -d)
trap 'rm -rf "$folder"' EXIT
cd "$folder" || exit 1
page=$top/include/manual.txt
cc -std=c99 -D_POSIX_C_SOURCE=200809L -Wall -Wextra -Werror -pedantic -O1 "-I$top/include" -o footprint "$top/checks/clib/footprint.c" "$archive" -pthread ||
  gives_up 'the driver is not compiled'

# The text of the page, as one line.
said=$(paste -sd ' ' "$page")

# The KiB in the page's sentence that fits.
limit() { # PATTERN
  sed -nE "s/.*$1 up to ([0-9]+) KiB.*/\1/p" <<<"$said"
}
of_new=$(limit 'Each `new` with a plan, [^.]* use')
of_others=$(limit 'All other calls use')
[ -n "$of_new" ] && [ -n "$of_others" ] || gives_up 'the page says no KiB of stack'

write_plan() { # LANES CHANNELS WIDE METAFRAME MAX_PACKET
  printf 'lanes,%d\nwide,%d\nmetaframe,%d\nmax_packet,%d\n' "$1" "$3" "$4" "$5"
  seq -f 'channel,%.0f' 0 $(($2 - 1))
  echo 'out,o'
}

# Passes if a call succeeds and uses no more stack, and leaves its memory in `memory`.
fits() { # CALL KIB PLAN
  local stack _
  read -r stack memory _ < <(./footprint "$1" "$3")
  holds "stack of $1 of $3: ${stack:-none} bytes, at most $2 KiB" "$((${stack:-1 << 30} <= 1024 * $2 && ${stack:-0} > 1000))" 1
}

rows=0
while read -r lanes channels wide metaframe most kept; do
  rows=$((rows + 1))
  write_plan "$lanes" "$channels" "$wide" "$metaframe" "$most" >"$rows.plan"
  found=()
  for handle in receiver transmitter inspector checker gatherer; do
    fits "$handle" "$of_new" "$rows.plan"
    found+=($(((${memory:-0} + 999) / 1000)))
  done
  # The numbers of a row are several words.
  # shellcheck disable=SC2086
  holds "memory of the handles of plan $rows" "${found[*]}" "$(echo $kept)"
  fits plan_read "$of_new" "$rows.plan"
  fits plan_channels "$of_new" "$rows.plan"
  fits damage "$of_others" "$rows.plan"
done < <(grep -xE '( +[0-9]+){10}' "$page")
holds 'rows of memory in the page' "$rows" 6
fits calls "$of_others" 1.plan
fits calls "$of_others" 2.plan
fits calls "$of_others" "$top/examples/wide.plan"

# The program. The environment is on the stack, too, so it is empty here; and the place of the stack is drawn, so each command runs often.
stack=$(sed -nE 's/.* ([0-9]+) KB of stack.*/\1/p' "$top/README.md")
[ -n "$stack" ] || gives_up 'README says no KB of stack'
cp "$top"/examples/*.* .
printf 'lanes,64\nmetaframe,2048\nchannel,1,one.pcap\nchannel,2,two.pcap\nout,many\n' >many.plan

# Passes if a command ends with status 0 each time in this stack, and with a text.
runs_in_stack() { # WORDS..
  local ends='' number text
  for number in 1 2 3 4 5; do
    text=$(ulimit -s "$stack" && exec env -i "$program" "$@" 2>&1)
    ends+=" $?${text:+ text}"
  done
  holds "$* in $stack KB of stack" "$ends" ' 0 text 0 text 0 text 0 text 0 text'
}
for words in 'link damaged.plan' 'link many.plan' 'send two.plan' 'burst two.plan' 'check two.plan' 'stripe two.plan' 'receive two.plan' 'gather two.plan' \
  'inspect two.plan' 'join two.plan' 'send damaged.plan' 'damage damaged.plan' 'burst one.pcap' 'list one.pcap.words' 'assemble one.pcap.words.txt' \
  'join one.pcap.words' 'duplex two_ends.duplex' 'oobwrite status.plan' 'oobread status.plan' 'resend again.plan' 'generate 7 drawn'; do
  # The words of a command have no blanks.
  # shellcheck disable=SC2086
  runs_in_stack $words
done
ends
