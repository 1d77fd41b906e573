#!/usr/bin/env bash
# Compares the SystemVerilog benches of examples/testbench with the program. For lanes as sent and damaged ones, the one bench prints of a
# lane what `receive` prints, and what the rules give if it is stated here. The lanes of idles of the other are those of `send`, and
# `receive` locks on them. Needs iverilog; verilator 5 or later also lints both benches.
set -u
. "$(dirname "$0")/lib/program.bash"
wants iverilog iverilog
wants vvp iverilog
bench=$top/examples/testbench
folder=$(mktemp -d)
trap 'rm -rf "$folder"' EXIT
cp "$top"/examples/{one,two}.pcap "$folder" && cd "$folder" || exit 1

# Passes if the program and a bench, or what is stated, have one text, which is not empty.
agrees() { # WHAT FOUND WANTED
  holds "$1" "$2" "${3:-some text}"
}

compile() { # BENCH OUTPUT PARAMETERS..
  local kind=$1 output=$folder/$2 parameters=() parameter
  shift 2
  for parameter; do parameters+=(-P "tb_$kind.$parameter"); done
  (cd "$bench" && iverilog -g2012 -f "$kind.f" -s "tb_$kind" "${parameters[@]}" -o "$output") || echo "$kind $*: not compiled"
}

# Every plan here has one lane, a metaframe of 32 words, one Skip word and a warm-up of 9 groups where its rows say nothing else.
plan() { # ROWS..
  printf '%s\n' "$@" >p.plan
  local row
  for row in lanes,1 metaframe,32 warmup,9 out,o; do
    grep -q "^${row%,*}," p.plan || echo "$row" >>p.plan
  done
}

lines_of() { # COMMAND
  "$program" "$1" p.plan 2>&1 | grep '^lane '
}

bench_of() { # CHECK FILE LANE
  timeout "$(patience 30)" vvp -n "$1" "+file=$2" "+lane=$3" 2>&1
}

# A lane with the damage that the rows of a schedule say: link, receive and the bench agree on it.
captures=(channel,1,one.pcap channel,2,two.pcap)
damaged() { # WHAT STATED-LINE-OR-NOTHING ROWS..
  local what=$1 stated=$2 received
  shift 2
  printf '%s\n' "$@" >s.csv
  plan "${captures[@]}" schedule,s.csv
  "$program" link p.plan >linked 2>&1
  received=$(lines_of receive)
  agrees "$what, as link prints it" "$(grep '^lane ' linked)" "$received"
  agrees "$what, as the bench prints it" "$(bench_of check32 o.lane.0 0 | head -n 1)" "$received"
  [ -z "$stated" ] || agrees "$what, as stated" "$received" "$stated"
}

# The number of a bit in a lane of metaframes of 32 words.
bit_of() { # METAFRAME WORD BIT
  echo $((67 * (32 * $1 + $2) + $3))
}

plan "${captures[@]}"
"$program" send p.plan >sent 2>&1
[ -s o.lane.0 ] || gives_up "send leaves no lane, and prints: $(cat sent)"
compile check check32 METAFRAME=32
compile check check40 METAFRAME=40
compile make make32 METAFRAME=32 SKIPS=1
compile make make40_0 METAFRAME=40 SKIPS=3 LANE=0
compile make make40_1 METAFRAME=40 SKIPS=3 LANE=1

# The first lock is declared at the Sync of metaframe 3, bit 6432. A code is the inversion bit, two header bits and the payload.
clean='lane 0 locks=1 first=6432 lost=0 unframed=0 bad=0 sync=0 state=0 diag=0'
one_bad='lane 0 locks=1 first=6432 lost=0 unframed=0 bad=1 sync=0 state=0 diag=1'
damaged 'a lane as sent' "$clean" 'skew,0,0'
damaged 'ones in front' "${clean/6432/6632}" 'skew,0,200'
damaged 'ones in front, a word and a bit' "${clean/6432/6500}" 'skew,0,68'
damaged 'a payload bit' "${clean/diag=0/diag=1}" "flip,0,$(bit_of 5 10 20)"
damaged 'an inversion bit' "${clean/diag=0/diag=1}" "flip,0,$(bit_of 5 10 0)"
damaged 'a header bit' "$one_bad" "flip,0,$(bit_of 5 10 1)"
damaged 'a bit of a Sync word' "${clean/sync=0 state=0 diag=0/sync=1 state=0 diag=1}" "flip,0,$(bit_of 5 0 30)"
damaged 'a bit of a state' "${clean/state=0/state=1}" "flip,0,$(bit_of 5 1 40)"
damaged 'a bit of a CRC32' "${clean/diag=0/diag=1}" "flip,0,$(bit_of 5 31 60)"
damaged 'sixteen illegal headers in a block' 'lane 0 locks=2 first=6432 lost=1 unframed=0 bad=15 sync=0 state=0 diag=0' \
  "dark,0,$(bit_of 5 10 0),$((16 * 67))"
damaged 'fifteen illegal headers in a block' 'lane 0 locks=1 first=6432 lost=0 unframed=0 bad=15 sync=0 state=0 diag=1' \
  "dark,0,$(bit_of 5 10 0),$((15 * 67))"
damaged 'sixteen illegal headers before the metaframe is found' \
  'lane 0 locks=1 first=12864 lost=0 unframed=1 bad=0 sync=0 state=0 diag=0' "dark,0,$(bit_of 2 6 0),$((16 * 67))"
damaged 'four wrong Syncs in a row' 'lane 0 locks=2 first=6432 lost=1 unframed=0 bad=0 sync=3 state=0 diag=3' \
  "flip,0,$(bit_of 5 0 30)" "flip,0,$(bit_of 6 0 31)" "flip,0,$(bit_of 7 0 32)" "flip,0,$(bit_of 8 0 33)"
damaged 'three wrong states in a row' 'lane 0 locks=2 first=6432 lost=1 unframed=0 bad=0 sync=0 state=2 diag=0' \
  "flip,0,$(bit_of 5 1 40)" "flip,0,$(bit_of 6 1 41)" "flip,0,$(bit_of 7 1 42)"
damaged 'no state after the declaring Sync' 'lane 0 locks=2 first=6432 lost=1 unframed=0 bad=0 sync=0 state=0 diag=0' \
  "flip,0,$(bit_of 3 1 3)"
damaged 'a bit in every twelfth word' '' $(seq -f 'flip,0,%.0f' 6500 797 30000)
# A word that was meant as zeros leaves the CRC32 as it was, and the Diagnostic word is only wrong for the bad word.
{
  printf '\xa1\xb2\xc3\xd4\0\2\0\4\0\0\0\0\0\0\0\0\0\4\0\0\0\0\0\1' # the header of a capture
  printf '\0\0\0\0\0\0\0\0\0\0\0\100\0\0\0\100'                    # and of a packet of 64 bytes
  head -c 64 /dev/zero
} >zeros.pcap
captures=(channel,1,zeros.pcap)
damaged 'a header bit of a word of zeros' "$one_bad" "flip,0,$(bit_of 9 6 1)"
captures=(channel,1,one.pcap channel,2,two.pcap)

plan "${captures[@]}"
"$program" send p.plan >sent 2>&1
agrees 'the disparity of a lane as sent' "$(bench_of check32 o.lane.0 0 | grep -c 'unbalanced=0 ')" 1

# 480 words, for a receiver that looks for metaframes of another length. It gives up at the word 239 and begins a bit after it, so
# with the word 241; one that began with the word 240 would give up again at the last word.
plan warmup,13 channel,1
"$program" send p.plan >sent 2>&1
plan metaframe,40 channel,1
unframed='lane 0 locks=0 first=- lost=0 unframed=1 bad=0 sync=0 state=0 diag=0'
agrees 'metaframes of another length, as receive prints it' "$(lines_of receive)" "$unframed"
agrees 'metaframes of another length, as the bench prints it' "$(bench_of check40 o.lane.0 0 | head -n 1)" "$unframed"

# Lanes that send made of no packets are those that the bench makes: a stream of no packets has two groups more than its warm-up.
plan warmup,4 channel,1
"$program" send p.plan >sent 2>&1
timeout "$(patience 30)" vvp -n make32 +file=m.lane.0 +metaframes=6 >made 2>&1
agrees 'a made lane of metaframes of 32 words' "$(cksum <m.lane.0)" "$(cksum <o.lane.0)"
plan lanes,2 metaframe,40 skips,3 warmup,8 channel,1
"$program" send p.plan >sent 2>&1
for lane in 0 1; do
  timeout "$(patience 30)" vvp -n "make40_$lane" "+file=m.lane.$lane" +metaframes=10 >made 2>&1
  agrees "made lane $lane of metaframes of 40 words" "$(cksum <"m.lane.$lane")" "$(cksum <"o.lane.$lane")"
  line=$(lines_of receive | sed -n "$((lane + 1))p")
  agrees "lane $lane of metaframes of 40 words" "$(bench_of check40 "m.lane.$lane" "$lane" | head -n 1)" "$line"
done

# What receive reports of a made lane; and of one in which nothing is sent inverted, which it does not look at and the bench does. The
# bench only knows the word plain.
got=$(printf '%s\n' "$clean" 'got channel=1 packets=0 bytes=0' 'spans 2' \
  'dropped bad=0 crc=0 protocol=0 lost=0 end=0 toolong=0 unlisted=0 sender=0')
cp "$bench/idle.plan" .
for way in balanced plain; do
  timeout "$(patience 30)" vvp -n make32 +file=idle.lane.0 +metaframes=12 "+$way" >made 2>&1
  agrees "receive of a made lane, $way" "$("$program" receive idle.plan 2>&1)" "$got"
  bench_of check32 idle.lane.0 0 >told
  agrees "the bench of a made lane, $way" "$(head -n 1 told)" "$clean"
  wanted=$([ "$way" = plain ] && echo 0 || echo 1)
  agrees "the disparity of a made lane, $way" "$(grep -c 'unbalanced=0 ' told)" "$wanted"
done

if has_verilator; then
  for kind in check make; do
    complaints=$(cd "$bench" && verilator --lint-only -Wall --timing -f "$kind.f" --top-module "tb_$kind" 2>&1)
    holds "lint of $kind" "$? $complaints" '0 '
  done
else
  echo "$name: not tried, no verilator of version 5 or later (Debian package verilator): the lint of both benches"
fi
ends
