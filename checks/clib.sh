#!/usr/bin/env bash
# Tries the C library.
# - The header's calls are the archive's; numbers and texts of the crates, Python and SystemVerilog are the header's.
# - C example and Python module print and write what `receive` does, on lanes in random pieces and orders; the programs of examples/c do
#   what the commands do.
# - Random sequences of calls, misused ones among them, as C and C++, with sanitizers if the compiler has them; each allocation fails once.
# - Other promises of the header: null with a count of 0, the byte at which an event comes, threads.
# - Random damage against a slow reading of its definition and against `damage`; a transmitter with packets and control words at random
#   times.
# - Symbol versions, with a program linked as with 1.4.1; tools/library --install; the Python package by pip.
# Needs gcc, and an archive of these sources: built by the gate or `rt lib`, or of release/. CASES=1000 and SEQUENCES=100000 set how many
# generated cases and sequences are tried.
set -u
. "$(dirname "$0")/lib/program.bash"
wants_cc
wants_archive
folder=$(mktemp -d)
trap 'rm -rf "$folder"' EXIT
cd "$folder" || exit 1
"$top/tools/library" "$folder/library" >library.txt 2>&1 || { cat library.txt; gives_up 'tools/library makes no library'; }
include=$folder/library/include
strict=(-Wall -Wextra -Werror -pedantic -O1 "-I$include")

holds 'calls of the header and of the archive' "$(grep -o '^uint32_t interlaken_[a-z_]*' "$include/interlaken.h" | cut -d ' ' -f 2 | sort)" \
  "$(nm -g --defined-only "$archive" 2>/dev/null | grep -oE '\binterlaken_((receiver|transmitter|damage|inspector|checker|gatherer|plan)_[a-z_]*|version)$' | sort -u)"
holds 'calls of the shared library' "$(nm -D --defined-only library/lib/libinterlaken.so | awk '$2 == "T" { sub(/@.*/, "", $3); print $3 }' | sort -u)" \
  "$(nm -g --defined-only "$archive" 2>/dev/null | grep -oE '\binterlaken_((receiver|transmitter|damage|inspector|checker|gatherer|plan)_[a-z_]*|version)$' | sort -u)"

# One number counts for the program, the library and the formats.
holds 'the version of the header and of the release' "$(sed -n 's/^#define INTERLAKEN_VERSION "\(.*\)"$/\1/p' "$include/interlaken.h")" \
  "$(cat "$top/release/VERSION" 2>&1)"

holds 'the numbers of the version in the header' "$(sed -nE 's/^#define INTERLAKEN_VERSION_(MAJOR|MINOR|PATCH) ([0-9]+)$/\2/p' "$include/interlaken.h" | paste -sd .)" \
  "$(sed -n 's/^#define INTERLAKEN_VERSION "\(.*\)"$/\1/p' "$include/interlaken.h")"

# The package for SystemVerilog has one result of its own.
numbers=$(grep -oE '\bINTERLAKEN_[A-Z_]+ = [0-9]+' "$include/interlaken.h" | sed 's/^INTERLAKEN_//; s/ = / /' | LC_ALL=C sort)
holds 'numbers of the header and of the package for SystemVerilog' "$numbers" \
  "$(grep -oE '\bINTERLAKEN_[A-Z_]+ = [0-9]+' "$top/examples/dpi/interlaken_dpi.sv" | sed 's/^INTERLAKEN_//; s/ = / /' | grep -v '^NO_ROOM ' | LC_ALL=C sort)"

cc -std=c99 "${strict[@]}" -o receive "$top/examples/c/receive.c" "$archive" "$top/examples/c/alloc.c" || gives_up 'examples/c is not compiled'
if ! lacks pkg-config pkg-config 'the example compiled with the words of pkg-config'; then
  # The words are several.
  # shellcheck disable=SC2046
  PKG_CONFIG_PATH=$folder/library/lib/pkgconfig cc -std=c99 -o by_words "$top/examples/c/receive.c" \
    $(PKG_CONFIG_PATH=$folder/library/lib/pkgconfig pkg-config --cflags --libs interlaken)
  holds 'the example by pkg-config' "$?" 0
fi

if ! lacks cmake cmake 'the example made by CMake'; then
  mkdir by_cmake && cat >by_cmake/CMakeLists.txt <<END
cmake_minimum_required(VERSION 3.10)
project(by_cmake C)
find_package(interlaken 1.0 REQUIRED)
foreach(kind interlaken shared)
  add_executable(by_\${kind} $top/examples/c/receive.c)
  target_link_libraries(by_\${kind} interlaken::\${kind})
endforeach()
END
  (cd by_cmake && cmake -DCMAKE_PREFIX_PATH="$folder/library" . && cmake --build .) >cmake.txt 2>&1
  holds 'the example made by CMake' "$?" 0
fi

# Passes if a checker in Python finds in the words of a plan what `check` finds.
same_as_check() { # WHAT PLAN
  local out
  out=$(awk -F, '$1 == "out" { print $2 }' "$2")
  "$program" check "$2" >checked.txt 2>&1 || gives_up "check $2 fails"
  holds "faults of $1" "$(python3 -B "$top/checks/clib/checked.py" "$top/python" library/lib/libinterlaken.so "$2" 2>&1)" "$(cat "$out.faults.csv")"
}

# Passes if the example and `receive` print the same of these lanes, and write the same.
same_as_receive() { # WHAT PLAN PREFIX SEED..
  local what=$1 plan=$2 prefix=$3 seed file written wanted
  shift 3
  wanted=$("$program" receive "$plan" 2>&1)
  mkdir -p wanted && rm -f wanted/* && mv "$prefix".*.pcap "$prefix".spans.csv wanted
  for seed; do
    # No seed is not a word.
    # shellcheck disable=SC2086
    holds "$what, seed ${seed:-none}: lines" "$(./receive "$plan" "$prefix" got $seed 2>&1)" "$wanted"
    written=same
    for file in wanted/*; do
      cmp -s "$file" "got.${file#wanted/"$prefix".}" || written="${file#wanted/} differs"
    done
    holds "$what, seed ${seed:-none}: files" "$written" same
    rm -f got.*
  done
}

# Passes if an inspector in Python tells of these lanes what `inspect` prints and writes.
same_as_inspect() { # PLAN SEED
  local lines out
  out=$(awk -F, '$1 == "out" { print $2 }' "$1")
  lines=$("$program" inspect "$1" 2>&1)
  holds "what the lanes of $1 show, seed $2" "$(python3 -B "$top/checks/clib/inspected.py" "$top/python" library/lib/libinterlaken.so "$1" "$2" 2>&1)" \
    "$(printf '%s\n' "$lines" && cat "$out.events.csv")"
}

# Passes if a gatherer in Python tells of these lanes what `gather` prints and writes, and each word where the model has it.
same_as_gather() { # PLAN SEED
  local lines out
  out=$(awk -F, '$1 == "out" { print $2 }' "$1")
  lines=$("$program" gather "$1" 2>&1)
  holds "the words of the lanes of $1, seed $2" \
    "$(python3 -B "$top/checks/clib/gathered.py" "$top/python" library/lib/libinterlaken.so "$top/model" "$1" "$2" 2>&1)" \
    "$(printf '%s\n' "$lines" && sed '1d; /,-$/d' "$out.places.csv" && sha256sum <"$out.words" | cut -d ' ' -f 1)"
}

# The example in the header's first comment, as the body of a function that main calls with a plan and a lane of one lane.
header_example() {
  printf '%s\n' '#include "interlaken.h"' '#include <stdio.h>' 'static uint8_t plan[65536], lane[65536];' \
    'static size_t load(const char *name, uint8_t *bytes) {' '  FILE *file = fopen(name, "rb");' \
    '  return file == NULL ? 0 : fread(bytes, 1, 65536, file);' '}' 'int main(int count, char **words) {' \
    '  size_t plan_size = load(words[1], plan), size = load(words[count - 1], lane);'
  sed -n '/interlaken_receiver r = /,/interlaken_receiver_free/ { s/^ \*//p; /interlaken_receiver_free/q }' "$include/interlaken.h"
  printf '%s\n' '  return 0;' '}'
}

# The bytes of the one packet of a capture, in hex.
hex_of() { # FILE
  od -An -v -tx1 -j40 "$1" | tr -d ' \n'
}

header_example >example.c
cc -std=c99 "${strict[@]}" -o example example.c "$archive" "$top/examples/c/alloc.c" || gives_up "the header's example is not compiled"
printf 'lanes,1\nmetaframe,32\nchannel,1,one.pcap\nout,one\n' >one.plan
cp "$top/examples/one.pcap" . && "$program" send one.plan >/dev/null || gives_up 'send fails'
holds "the header's example" "$(./example one.plan one.lane.0)" $'packet of 300 bytes\npacket of 40 bytes'

cp "$top"/examples/{damaged.plan,damaged.schedule,one.pcap,two.pcap} . && "$program" link damaged.plan >/dev/null || gives_up 'link fails'
# Lanes in drawn pieces of bits, beside bytes.
cc -std=c99 "${strict[@]}" -o by_bits "$top/checks/clib/by_bits.c" "$archive" "$top/examples/c/alloc.c" || gives_up 'checks/clib/by_bits.c is not compiled'
for seed in 1 2 3; do
  holds "bits beside bytes, seed $seed" "$(./by_bits damaged.plan $seed damaged.lane.*)" 'calls on bits: many'
done
same_as_receive 'examples/damaged.plan' damaged.plan damaged '' 1 2
for made in by_words by_cmake/by_interlaken by_cmake/by_shared; do
  [ ! -x "$made" ] ||
    holds "$made, run" "$(LD_LIBRARY_PATH=$folder/library/lib "./$made" damaged.plan damaged got 2>&1)" "$("$program" receive damaged.plan 2>&1)"
done
. "$top/checks/clib/packages.bash"
try_versions
try_further_calls
try_texts
try_promises
try_examples
try_package
try_bits
try_install
printed=$(
  printf '%s\n' 'span start' 'span crc' "packet channel=1 $(hex_of wanted/damaged.1.pcap)" "packet channel=2 $(hex_of wanted/damaged.2.pcap)" 'span end'
  "$program" receive damaged.plan | grep '^lane' | cut -d ' ' -f 1-3
)
printf '%s\n' 'lanes,1' 'metaframe,32' '"channel",1,one.pcap' 'channel,"2"' '"link_type",101' 'out,quoted' >quoted.plan
"$program" send quoted.plan >/dev/null || gives_up 'send of a plan with quotes fails'
same_as_receive 'a plan with quotes' quoted.plan quoted '' 3
for case in $(seq 1 "${CASES:-12}"); do
  rm -f g*
  "$program" generate "$case" g >/dev/null 2>&1
  [ $? -le 3 ] && [ -f g.plan ] || continue
  same_as_receive "case $case" g.plan "$(awk -F, '$1 == "out" { print $2 }' g.plan)" '' "$case"
done

# A sender that turns channels off and on.
printf '0,1,off\n300,1,on\n320,2,off\n' >drawn.local
sed 's/^out,.*/local,drawn.local\nout,drawn/' damaged.plan >drawn.plan
"$program" link drawn.plan >/dev/null || gives_up 'link with a local file fails'

sanitize=(-fsanitize=address,undefined)
echo 'int main(void) { return 0; }' >empty.c
cc "${sanitize[@]}" -o empty empty.c 2>/dev/null && ./empty || { echo "$name: not tried, no sanitizers of cc (Debian package gcc): drawn calls under them"; sanitize=(); }
cc -std=c99 "${strict[@]}" "${sanitize[@]}" -o calls "$top/checks/clib/calls.c" "$archive"
drawn=$(./calls drawn.plan drawn.lane.0 drawn.lane.1 "${SEQUENCES:-500}" 2>&1)
sed -n "s/^not tried/$name: &/p" <<<"$drawn"
holds 'drawn calls' "$(sed '/^not tried/d; s/^[0-9]* tried, //' <<<"$drawn")" '0 wrong'
if ! lacks c++ g++ 'the same calls as C++'; then
  c++ "${strict[@]}" -x c++ "$top/checks/clib/calls.c" -x none -o calls_plus "$archive"
  holds 'drawn calls as C++' "$(./calls_plus drawn.plan drawn.lane.0 drawn.lane.1 100 2>&1 | sed '/^not tried/d; s/^[0-9]* tried, //')" '0 wrong'
fi

if ! lacks python3 python3 'the numbers of the crates, and the Python package'; then
  holds 'numbers of the header and of the crates' "$numbers" "$(python3 -B "$top/checks/clib/numbers.py" "$top" 2>&1 | LC_ALL=C sort)"
  holds 'numbers of the header and of the Python module' "$(python3 -B -c '
import sys
sys.path.insert(0, sys.argv[1])
import interlaken as i
for kind, prefix in (i.Result, ""), (i.Cause, ""), (i.Key, "KEY_"), (i.Kind, ""), (i.Drop, "DROP_"), (i.Fault, "FAULT_"), (i.LaneState, "LANE_"), (i.LaneEventKind, "LANE_EVENT_"), (i.WordKind, "WORD_"), (i.Rule, "RULE_"), (i.GatheredKind, "GATHERED_"):
    for one in kind:
        print(one.name if one.name in ("NO_KEY", "NO_LANE_EVENT") else prefix + one.name, one.value)
' "$top/python" | LC_ALL=C sort)" "$numbers"
  holds 'channels that the far end turns off, in Python' "$(python3 -B -c '
import sys
sys.path.insert(0, sys.argv[1])
import interlaken as i
lanes = [open("drawn.lane.%d" % lane, "rb").read() for lane in (0, 1)]
with i.Receiver(open("drawn.plan", "rb").read(), "library/lib/libinterlaken.so") as receiver:
    events = receiver.feed_all(lanes)
    next(event for event in events if isinstance(event, i.Flow))
    print(receiver.is_on(1), receiver.is_on(2))
    list(events)
    print(receiver.is_on(1), receiver.is_on(2))
    try:
        receiver.is_on(7)
    except i.Misuse as misuse:
        print(misuse)
' "$top/python" 2>&1)" $'False True\nTrue False\nNO_CHANNEL'
  holds 'the numbers of a plan in Python, and places' "$(python3 -B -c '
import sys
sys.path.insert(0, sys.argv[1])
import interlaken as i
library = "library/lib/libinterlaken.so"
text = open("drawn.plan", "rb").read()
plan = i.Plan(text, library)
print(plan.lanes, plan.metaframe, plan.skips, plan.warmup, plan.channel_count, plan.channels, plan.window)
print(plan.slot(0), plan.slot(57), plan.place(i.Place(2144, 5)))
with i.Receiver(text, library) as receiver:
    lanes = [open("drawn.lane.%d" % lane, "rb").read() for lane in (0, 1)]
    first = next(event for event in receiver.feed_all(lanes) if isinstance(event, i.Packet)).first
    print(plan.place(first)[0] == first.index % 2, plan.place(first)[1] == first.group + 67 * (3 + first.index // 2))
for wrong in (lambda: plan.slot(1 << 56), lambda: plan.place(i.Place(0, 56)), lambda: i.Plan(b"lanes,0", library)):
    try:
        wrong()
    except (i.Misuse, i.BadPlan) as error:
        print(error)
print(".".join(str(number) for number in i.version(library)))
' "$top/python" 2>&1)" "2 32 1 4 2 [1, 2] 64
(0, 201) (1, 2345) (1, 2479)
True True
OUT_OF_RANGE
OUT_OF_RANGE
row 1: RANGE
$(sed -n 's/^#define INTERLAKEN_VERSION "\(.*\)"$/\1/p' "$include/interlaken.h")"
  # Words of a source, and of received lanes: as they are, and with some changed and drawn flow rows. Generated cases too.
  sed 's/^schedule,.*//; s/^out,.*/out,words/' damaged.plan | grep . >words.plan
  "$program" burst words.plan >/dev/null || gives_up 'burst fails'
  same_as_check 'the words of burst' words.plan
  "$program" gather damaged.plan >/dev/null || gives_up 'gather fails'
  same_as_check 'the words of gather' damaged.plan
  for seed in $(seq 1 "${CASES:-12}"); do
    for words in words damaged; do
      sed 's/^out,.*/out,changed/; s/^flow,.*//' "$words.plan" | grep . >changed.plan && echo 'flow,changed.flow' >>changed.plan
      python3 -B "$top/checks/clib/changed.py" "$words.words" changed.words changed.flow "$seed"
      same_as_check "the changed words of $words, seed $seed" changed.plan
    done
    rm -f g*
    "$program" generate "$seed" g >/dev/null 2>&1
    [ $? -le 3 ] && [ -f g.plan ] && "$program" gather g.plan >/dev/null 2>&1 || continue
    same_as_check "the words of case $seed" g.plan
  done
  rm -f g*
  holds 'a checker in Python, misused' "$(python3 -B -c '
import sys
sys.path.insert(0, sys.argv[1])
import interlaken as i
library = "library/lib/libinterlaken.so"
with i.Checker(open("damaged.plan", "rb").read(), library) as checker:
    checker.word(i.WordKind.BAD)
    for wrong in lambda: checker.word(i.WordKind.DATA, 1), lambda: checker.flow(0), lambda: checker.word(0):
        try:
            wrong()
        except i.Misuse as misuse:
            print(misuse)
    print(checker.next(), checker.next())
    checker.flow(0)
    for wrong in (lambda: checker.word(4), lambda: checker.word(1 << 32), lambda: checker.word(1, 1 << 64), checker.finish, lambda: checker.word(1),
                  lambda: checker.flow(0), lambda: checker.word(0), checker.finish, checker.close, checker.next, lambda: checker.word(1),
                  lambda: i.Checker(b"lanes,0", library)):
        try:
            wrong()
        except (i.Misuse, i.BadPlan, ValueError) as error:
            print(error)
' "$top/python" 2>&1)" "WAITING
WAITING
WAITING
RuleFault(word=0, rule=Rule.BAD, channel=None) None
OUT_OF_RANGE
no kind of a word: 4294967296
no word: 18446744073709551616
$(printf '%s\n' FINISHED FINISHED FINISHED NO_CHECKER NO_CHECKER)
row 1: RANGE"
  # Rows are given at drawn times before their bits, and lanes pass in drawn pieces.
  "$program" send drawn.plan >/dev/null || gives_up 'send fails'
  python3 -c '
import random
random.seed(7)
rows = ["%s,%d,%d" % (kind, random.randrange(2), random.randrange(60000)) + (",%d" % random.randrange(1, 900) if kind == "dark" else "")
        for kind in random.choices(["flip", "dark"], [9, 1], k=300)]
open("struck.schedule", "w").write("\n".join(rows + rows[:40]) + "\n")
'
  sed 's/^schedule,.*/schedule,struck.schedule/' drawn.plan >struck.plan
  "$program" damage struck.plan >/dev/null || gives_up 'damage fails'
  holds 'damage in Python, beside damage' "$(python3 -B -c '
import random, sys
sys.path.insert(0, sys.argv[1])
import interlaken as i
random.seed(8)
rows = [[row.split(",")[0]] + [int(word) for word in row.split(",")[1:]] for row in open("struck.schedule")]
with i.Damage(2, "library/lib/libinterlaken.so") as damage:
    for lane in (0, 1):
        data, out = open("drawn.lane.%d" % lane, "rb").read(), b""
        mine = [(random.randrange(row[2] + 1), row) for row in rows if row[1] == lane]
        while len(out) < len(data):
            piece = data[len(out) : len(out) + random.choice([1, 2, 7, 64, 900])]
            for first, row in [one for one in mine if one[0] < 8 * (len(out) + len(piece))]:
                damage.flip(lane, row[2]) if row[0] == "flip" else damage.dark(lane, row[2], row[3])
            mine = [one for one in mine if one[0] >= 8 * (len(out) + len(piece))]
            out += damage.apply(lane, piece)
        print(out == open("drawn.damaged.lane.%d" % lane, "rb").read(), out == data, damage.apply(lane, b"") == b"")
    for wrong in (lambda: damage.flip(0, 7), lambda: damage.dark(1, 0, 8), lambda: damage.flip(0, -1), lambda: damage.dark(0, 1 << 44, 1),
                  lambda: damage.flip(2, 1 << 20), lambda: damage.apply(-1, b"a"), lambda: i.Damage(0, "library/lib/libinterlaken.so"), damage.close,
                  lambda: damage.apply(0, b"a")):
        try:
            wrong()
        except i.Misuse as misuse:
            print(misuse)
' "$top/python" 2>&1)" $'True False True\nTrue False True\nPASSED\nPASSED\nOUT_OF_RANGE\nOUT_OF_RANGE\nNO_LANE\nNO_LANE\nOUT_OF_RANGE\nNO_DAMAGE'
  # What lanes show: lanes of the program, with damage, and the same ones struck by many rows; and generated cases.
  # And lanes that lose their locks.
  sed 's/^out,.*/out,drawn.damaged/' struck.plan >seen.plan
  sed 's/^out,.*/out,thrice/' damaged.plan >thrice.plan
  for lane in 0 1; do
    { cat "damaged.lane.$lane" && head -c 700 /dev/zero && cat "damaged.lane.$lane" && head -c 900 /dev/zero && cat "damaged.lane.$lane"; } >"thrice.lane.$lane"
  done
  for plan in damaged.plan drawn.plan seen.plan thrice.plan; do
    for seed in 1 2 3; do
      same_as_inspect "$plan" "$seed"
      same_as_gather "$plan" "$seed"
    done
  done
  for case in $(seq 1 "${CASES:-12}"); do
    rm -f g*
    "$program" generate "$case" g >/dev/null 2>&1
    [ $? -le 3 ] && [ -f g.plan ] || continue
    same_as_inspect g.plan "$case"
    same_as_gather g.plan "$case"
  done
  rm -f g*
  holds 'an inspector in Python, misused' "$(python3 -B -c '
import sys
sys.path.insert(0, sys.argv[1])
import interlaken as i
library = "library/lib/libinterlaken.so"
data = open("drawn.damaged.lane.0", "rb").read()
with i.Inspector(open("damaged.plan", "rb").read(), library) as inspector:
    fed = inspector.feed(0, data)
    print(0 < fed < len(data), inspector.feed(0, data[fed:]), inspector.feed(1, b""))
    event = inspector.next()
    print(event.lane, event.kind.name, event.bit + 67 <= 8 * fed < event.bit + 67 + 56)
    inspector.finish(0)
    for wrong in (lambda: inspector.feed(0, b"a"), lambda: inspector.finish(0), lambda: inspector.feed(2, b"a"), lambda: inspector.report(-1),
                  inspector.close, lambda: inspector.next(), lambda: inspector.feed(0, b"a"), lambda: i.Inspector(b"lanes,0", library)):
        try:
            wrong()
        except (i.Misuse, i.BadPlan) as error:
            print(error)
' "$top/python" 2>&1)" "True 0 0
0 LOCK True
$(printf '%s\n' FINISHED FINISHED NO_LANE NO_LANE NO_INSPECTOR NO_INSPECTOR)
row 1: RANGE"
  holds 'a gatherer in Python, misused' "$(python3 -B -c '
import sys
sys.path.insert(0, sys.argv[1])
import interlaken as i
library = "library/lib/libinterlaken.so"
lanes = [open("thrice.lane.%d" % lane, "rb").read() for lane in (0, 1)]
with i.Gatherer(open("damaged.plan", "rb").read(), library) as gatherer:
    print(gatherer.feed(0, 3 * lanes[0]), gatherer.feed(0, lanes[0]), gatherer.next(), gatherer.feed(1, b""))
    gatherer.finish(0)
    for wrong in (lambda: gatherer.feed(0, b"a"), lambda: gatherer.finish(0), lambda: gatherer.feed(2, b"a"), lambda: gatherer.report(-1),
                  gatherer.close, lambda: gatherer.next(), lambda: gatherer.feed(0, b"a"), lambda: i.Gatherer(b"lanes,0", library)):
        try:
            wrong()
        except (i.Misuse, i.BadPlan) as error:
            print(error)
with i.Gatherer(open("damaged.plan", "rb").read(), library) as gatherer:
    print(*{type(one).__name__: None for one in gatherer.feed_all(lanes)}, gatherer.next())
' "$top/python" 2>&1)" "4096 0 None 0
$(printf '%s\n' FINISHED FINISHED NO_LANE NO_LANE NO_GATHERER NO_GATHERER)
row 1: RANGE
GatheredWord GatheredBreak Ended None"
  holds 'the Python package: lanes that lack, buffers, bits, iteration' "$(INTERLAKEN_LIBRARY=library/lib/libinterlaken.so python3 -B -c '
import sys
sys.path.insert(0, sys.argv[1])
import interlaken as i
from interlaken.monitor import Monitor
plan = bytearray(open("damaged.plan", "rb").read())
lanes = [open("thrice.lane.%d" % lane, "rb").read() for lane in (0, 1)]
for kind in i.Receiver, i.Inspector, i.Gatherer, Monitor:
    with kind(plan) as one:
        for wrong in lambda: one.feed_all(lanes[:1]), lambda: one.feed_all(3 * lanes), lambda: one.feed_bits(0, 9, 3), lambda: one.feed_bits(1, 0, -1):
            try:
                wrong()
            except ValueError as error:
                print(error)
        print(one, list(one))
        whole = list(map(repr, one.feed_all([bytearray(lanes[0]), memoryview(lanes[1])])))
    with kind(memoryview(plan)) as one:
        print(whole == list(map(repr, one.feed_all(lanes))))
size = min(map(len, lanes))
def bitwise(one, takes):
    found, waiting = [], [int.from_bytes(lane[:size], "big") for lane in lanes]
    at = [0, 0]
    while min(at) < 8 * size:
        for lane in (0, 1):
            count = min(61, 8 * size - at[lane])
            at[lane] += takes(one.feed_bits(lane, waiting[lane] >> 8 * size - at[lane] - count & (1 << count) - 1, count), count)
        found += one
    for lane in (0, 1):
        one.finish(lane)
    return sorted(map(repr, found + list(one)))
for kind, takes in (i.Gatherer, lambda taken, count: count if taken else 0), (i.Inspector, lambda taken, count: taken):
    with kind(plan) as one, kind(plan) as other:
        print(bitwise(one, takes) == sorted(map(repr, other.feed_all([lane[:size] for lane in lanes]))))
' "$top/python" 2>&1)" "$(for one in Receiver Inspector Gatherer Monitor; do
    printf '%s\n' 'feed_all: 1 lanes; the plan has 2' 'feed_all: 6 lanes; the plan has 2' 'feed_bits: lane 0: 9 is not a number of 3 bits' \
      'feed_bits: lane 1: a count of -1; it is 0 or more' "<$one of 2 lanes> []" True
  done && printf '%s\n' True True)"
  # Two ends, each with a transmitter and a receiver: the far end turns channel 1 off, and on again.
  holds 'flow control between two ends in Python' "$(python3 -B -c '
import sys
sys.path.insert(0, sys.argv[1])
import interlaken as i
plan, library = open("damaged.plan", "rb").read(), "library/lib/libinterlaken.so"
packets = [(1 + n % 2, bytes([n]) * (100 + n)) for n in range(20)]
came = []
with i.Transmitter(plan, library) as near, i.Transmitter(plan, library) as far, i.Receiver(plan, library) as at_near, i.Receiver(plan, library) as at_far:
    def go_on():
        for _ in range(200):
            for lane in (0, 1):
                at_far.feed(lane, near.take(lane, 64))
                at_near.feed(lane, far.take(lane, 64))
            for event in at_near.events():
                if isinstance(event, (i.Flow, i.Span)):
                    near.flow(event.word if isinstance(event, i.Flow) else 0)
            came.extend(event for event in at_far.events() if isinstance(event, i.Packet))
        print(near.slots() == far.slots(), len(came))
    far.local(1, False)
    go_on()
    for channel, data in packets:
        near.packet(channel, data)
    go_on()
    print(near.sent(1))
    print(near.sent(2))
    far.local(1, True)
    go_on()
    print(near.sent(1).bytes_sent, all([event.data for event in came if event.channel == c] == [data for channel, data in packets if channel == c] for c in (1, 2)))
    near.close_packets()
    near.flow(0)
    print(near.status(0).left, near.status(0).ended, near.status(1).held)
    near.finish()
    print([len(data) for data in near.take_all(2)].count(0), near.take(0, 9), near.status(1))
    for wrong in (lambda: far.local(3, True), lambda: far.status(2), lambda: far.take_all(2), lambda: near.take_all(1),
                  lambda: near.packet(1, b"a"), lambda: near.flow(0), lambda: near.local(1, True), lambda: far.packet(3, b"a"), lambda: far.packet(1, b""),
                  lambda: far.packet(2, bytes(262145)), lambda: far.take(2, 1), lambda: far.take(-1, 1), lambda: far.sent(3), far.close, lambda: far.slots(),
                  lambda: far.sent(1), far.finish, lambda: near.take(0, -1), lambda: near.packet(65536, b"a"), lambda: near.flow(1 << 64),
                  lambda: i.Transmitter(b"lanes,0", library)):
        try:
            wrong()
        except (i.Misuse, i.BadPlan, ValueError) as error:
            print(error)
' "$top/python" 2>&1)" "True 0
True 10
Counts(packets_given=10, packets_sent=0, bytes_given=1090, bytes_sent=0)
Counts(packets_given=10, packets_sent=10, bytes_given=1100, bytes_sent=1100)
True 20
1090 True
0 False False
0 b'' Status(waiting=0, left=0, ended=True, held=False)
NO_CHANNEL
NO_LANE
the transmitter was not finished
the plan has 2 lanes, not 1
$(printf '%s\n' FINISHED FINISHED FINISHED NO_CHANNEL BAD_LENGTH BAD_LENGTH NO_LANE NO_LANE NO_CHANNEL NO_TRANSMITTER NO_TRANSMITTER NO_TRANSMITTER)
no count: -1
no channel number: 65536
no word: 18446744073709551616
row 1: RANGE"
  try_monitor
  try_late_monitor
  holds 'examples/python' "$(PYTHONPATH=$top/python INTERLAKEN_LIBRARY=library/lib/libinterlaken.so python3 -B "$top/examples/python/packets.py" damaged.plan damaged.lane.0 damaged.lane.1 2>&1)" "$printed"
fi
ends
