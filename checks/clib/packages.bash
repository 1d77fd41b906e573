# For checks/clib.sh: the library as it is installed, the versions of its symbols, the texts of its numbers, and the programs of
# examples/c. It works in the folder of the check, beside the folder `library`, and with what clib.sh and program.bash have set.
# shellcheck disable=SC2154,SC2016

# The calls of the shared library, with their nodes.
nodes_of() { # LIBRARY
  nm -D --defined-only "$1" | sed -nE 's/.* T (interlaken_[a-z_]+@+INTERLAKEN[_0-9.]*)$/\1/p' | LC_ALL=C sort
}

# A program that was linked with 1.4.1, whose library had one node without a number, runs with this library. A call that is gone is
# missing from the header or from the archive, and tools/library then makes nothing.
try_versions() {
  local calls version minor wanted
  calls=$(sed -n 's/^1\.4 //p' "$top/tools/library_calls.txt")
  holds 'how many calls 1.4 had' "$(grep -c . <<<"$calls")" 23
  holds 'calls of 1.4 that the header lacks' "$(grep -vxFf <(grep -oE 'interlaken_[a-z_]+' "$include/interlaken.h") <<<"$calls")" ''
  version=$(sed -n 's/^#define INTERLAKEN_VERSION "\(.*\)"$/\1/p' "$include/interlaken.h")
  minor=${version%.*}
  # The calls are several words.
  # shellcheck disable=SC2086
  holds 'nodes of the shared library' "$(nodes_of library/lib/libinterlaken.so)" "$(
    {
      printf '%s@INTERLAKEN\n' $calls
      sed -n 's/^\([0-9.]*\) \(.*\)$/\2@@INTERLAKEN_\1/p' "$top/tools/library_calls.txt"
      grep -oE '^[a-z].*\binterlaken_[a-z_]+\(' "$include/interlaken.h" | grep -oE 'interlaken_[a-z_]+' |
        grep -vxFf <(sed 's/.* //' "$top/tools/library_calls.txt") | sed "s/$/@@INTERLAKEN_$minor/"
    } | LC_ALL=C sort
  )"
  mkdir old && echo 'INTERLAKEN { global: interlaken_receiver_*; interlaken_transmitter_*; interlaken_damage_*; local: *; };' >old/exports
  cc -shared -Wl,-soname,libinterlaken.so.1 -Wl,--version-script,old/exports -o old/libinterlaken.so.1 \
    -Wl,--whole-archive library/lib/libinterlaken.a -Wl,--no-whole-archive &&
    cc -std=c99 "${strict[@]}" -o of_old "$top/examples/c/transmit.c" old/libinterlaken.so.1 &&
    cc -std=c99 "${strict[@]}" -o of_new "$top/examples/c/transmit.c" library/lib/libinterlaken.so
  # Its calls are those of 1.4.
  sed 's/^out,.*/out,versions/; /^schedule,/d' "$top/examples/damaged.plan" >versions.plan
  wanted=$("$program" send versions.plan 2>&1)
  holds 'a program linked with 1.4.1, run with this library' "$(LD_LIBRARY_PATH=library/lib ./of_old versions.plan got 1 one.pcap 2 two.pcap 2>&1)" "$wanted"
  holds 'a program linked with this library' "$(LD_LIBRARY_PATH=library/lib ./of_new versions.plan got 1 one.pcap 2 two.pcap 2>&1)" "$wanted"
  holds 'a program linked with this library, run with that of 1.4.1' "$(LD_LIBRARY_PATH=old ./of_new versions.plan got 1 one.pcap 2 two.pcap 2>&1 | grep -c INTERLAKEN_1.4)" 1
}

# A checkout whose header and archive have a call more, of version 1.99: the call is of the newest node. One that lacks a call of 1.4,
# and one with a call more of a version whose calls are listed, give no library.
try_further_calls() {
  local header=further/include/interlaken.h
  # tools/library only takes the archive of a release on such a machine, and otherwise has one built.
  if [ "$(uname -sm)" != 'Linux x86_64' ]; then
    echo "$name: not tried, this is not Linux on x86-64: a library with a call more"
    return
  fi
  mkdir further && cp -r "$top/tools" "$top/include" "$top/release" "$top/crates.txt" "$top/HANDLES" further && ln -s "$top/crates" "$top/examples" further
  cp "$header" header.h
  echo 'unsigned interlaken_further(void); unsigned interlaken_further(void) { return 7; }' >further.c
  cc -fPIC -c further.c && cp "$archive" archive.a && chmod u+w archive.a && ar r archive.a further.o
  # The copied crates.txt is younger than an archive that was built in the checkout, so that is not taken.
  sum_of_sources further interlaken_c >further/release/library_sources.sha256
  cp -f archive.a further/release/libinterlaken-x86_64-linux.a
  (cd further/release && sha256sum libinterlaken-x86_64-linux.a >libinterlaken-x86_64-linux.a.sha256)
  sed 's/^#define INTERLAKEN_VERSION .*/#define INTERLAKEN_VERSION "1.99.0"/; s/^uint32_t interlaken_receiver_free/uint32_t interlaken_further(void);\n&/' header.h >"$header"
  further/tools/library further/made >further.txt 2>&1 || { cat further.txt; gives_up 'a library with a call more is not made'; }
  holds 'a call more' "$(nodes_of further/made/lib/libinterlaken.so | grep -v '1\.4$\|INTERLAKEN$' | grep further)" interlaken_further@@INTERLAKEN_1.99
  holds 'the other calls beside it' "$(nodes_of further/made/lib/libinterlaken.so | grep -c '@@INTERLAKEN_1.4$')" 23
  sed 's/^uint32_t interlaken_receiver_free/uint32_t interlaken_further(void);\n&/; s/^#define INTERLAKEN_VERSION .*/#define INTERLAKEN_VERSION "1.4.9"/' header.h >"$header"
  holds 'a call more of a version that is listed' "$(further/tools/library further/again 2>&1 | sed 's/, and not interlaken_[a-z_]*:/:/')" \
    'library: library_calls.txt has all calls of 1.4: a further call raises the version'
  cp header.h "$header"
  objcopy -L interlaken_damage_dark archive.a further/release/libinterlaken-x86_64-linux.a
  (cd further/release && sha256sum libinterlaken-x86_64-linux.a >libinterlaken-x86_64-linux.a.sha256)
  holds 'an archive that lacks a call of 1.4' "$(further/tools/library further/again 2>&1 | grep -o 'interlaken_damage_dark\|the shared library is not linked' | sort -u)" \
    $'interlaken_damage_dark\nthe shared library is not linked'
}

# The enums of the header, one a line: its name, and a name and a number in turn.
enums_of() { # HEADER
  tr '\n' ' ' <"$1" | sed -E 's:/\*([^*]|\*+[^*/])*\*+/::g' | grep -oE 'enum interlaken_[a-z_]+ \{[^}]*\}' |
    sed -E 's/^enum //; s/[{},=]/ /g; s/ +/ /g; s/ $//'
}

# Each number of the header has a text; those that files have are theirs.
try_texts() {
  local line enum numbers
  {
    printf '%s\n' '#include "interlaken.h"' '#include "interlaken_text.h"' '#include <stdio.h>' 'int main(void) {'
    enums_of "$include/interlaken.h" | while read -r enum line; do
      grep -oE 'INTERLAKEN_[A-Z_0-9]+' <<<"$line" | sed "s/.*/  printf(\"$enum &: %s\\\\n\", ${enum}_text(&));/"
      printf '  printf("%s ~: %%s\\n", %s_text(~0u));\n' "$enum" "$enum"
    done
    printf '%s\n' '  return 0;' '}'
  } >texts.c
  cc -std=c99 "${strict[@]}" -o texts texts.c || gives_up 'a number of the header has no text'
  ./texts >texts.txt
  numbers=$(grep -c '^  INTERLAKEN_[A-Z_]* = [0-9]' "$include/interlaken.h")
  holds 'numbers with a line' "$(grep -vc ' ~: ' texts.txt)" "$numbers"
  holds 'numbers without a text' "$(grep -v ' ~: ' texts.txt | grep ': \(unknown\)\?$')" ''
  holds 'numbers that are none' "$(grep ' ~: ' texts.txt | grep -v ': unknown$')" ''
  holds 'texts that two numbers of an enum have' "$(sed 's/ [^:]*:/:/' texts.txt | sort | uniq -d)" ''
  holds 'names of drops' "$(sed -n 's/^interlaken_drop INTER.*: //p' texts.txt | tr '\n' ' ')" \
    "$("$program" receive damaged.plan | sed -n 's/^dropped //p' | sed 's/=[0-9]*//g') "
  holds 'names of faults' "$(sed -n 's/^interlaken_fault INTER.*: //p' texts.txt)" "$(names_below '| `why` |' "$top/docs/REFERENCE.md")"
  # Of these the header may have no numbers yet.
  printf '%s\n' '#include "interlaken_text.h"' '#include <stdio.h>' 'int main(void) {' \
    '  for (uint32_t i = 1; i < 13; i++) puts(interlaken_lane_kind_text(i));' \
    '  for (uint32_t i = 1; i < 20; i++) puts(interlaken_rule_text(i));' '  puts(interlaken_lane_kind_text(13)), puts(interlaken_rule_text(20));' \
    '  for (uint32_t i = 1; i < 5; i++) puts(interlaken_word_kind_text(i));' '  return 0;' '}' >names.c
  cc -std=c99 "${strict[@]}" -o names names.c
  holds 'names of lane events, rules and kinds of words' "$(./names)" "$(
    names_below '| event | is |' "$top/docs/REFERENCE.md"
    names_below '| rule | of |' "$top/docs/DEFINITIONS.md"
    printf '%s\n' unknown unknown data control bad unknown
  )"
  ! command -v c++ >/dev/null 2>&1 || c++ -std=c++98 "${strict[@]}" -Wno-long-long -x c++ -o texts_plus texts.c
  ! command -v c++ >/dev/null 2>&1 || holds 'texts as C++' "$(./texts_plus)" "$(cat texts.txt)"
}

# The names of the first column of a table, below its heading.
names_below() { # HEADING FILE
  awk -v heading="$1" -F '|' 'index($0, heading) == 1 { inside = 1; next } inside && !/^\|/ { exit } inside && !/^\|---/ { print $2 }' "$2" |
    grep -o '`[^`]*`' | tr -d '`'
}

# What the header says besides results; the threads once more if cc has their sanitizer.
try_promises() {
  local version
  version=$(sed -n 's/^#define INTERLAKEN_VERSION_[A-Z]* //p' "$include/interlaken.h" | tr '\n' .)
  holds 'the numbers of the version' "${version%.}" "$(cat "$top/release/VERSION")"
  cc -std=c99 "${strict[@]}" -o promises "$top/checks/clib/promises.c" library/lib/libinterlaken.a -lpthread || gives_up 'promises.c is not compiled'
  holds 'promises of the header' "$(./promises damaged.plan damaged.lane.0 damaged.lane.1 | sed 's/^[0-9]* tried, //')" '0 wrong'
  if cc -std=c99 "${strict[@]}" -fsanitize=thread -o raced "$top/checks/clib/promises.c" library/lib/libinterlaken.a -lpthread 2>/dev/null; then
    holds 'promises, as the sanitizer of threads sees the calls' "$(./raced damaged.plan damaged.lane.0 damaged.lane.1 2>&1 | sed 's/^[0-9]* tried, //')" '0 wrong'
  else
    echo "$name: not tried, no sanitizer of threads of cc (Debian package gcc): handles that pass between threads"
  fi
}

# The programs of examples/c beside the commands.
try_examples() {
  local one rows
  for one in transmit damage loop; do
    cc -std=c99 "${strict[@]}" -o "$one" "$top/examples/c/$one.c" library/lib/libinterlaken.a || gives_up "examples/c/$one.c is not compiled"
    holds "$one is short" "$(($(wc -l <"$top/examples/c/$one.c") < 150))" 1
    holds "$one without words" "$("./$one" 2>&1 | grep -c '^usage: ') ${PIPESTATUS[0]}" '1 0'
  done
  for one in 'as it is' 'of other sizes'; do
    sed 's/^out,.*/out,sent/; /^schedule,/d' "$top/examples/damaged.plan" >sent.plan
    [ "$one" = 'as it is' ] || printf 'burst_max,128\nburst_short,32\nskips,3\n' >>sent.plan
    wanted=$("$program" send sent.plan 2>&1)
    holds "transmit, $one: lines" "$(./transmit sent.plan got 1 one.pcap 2 two.pcap 2>&1)" "$wanted"
    holds "transmit, $one: lanes" "$(cat got.lane.0 got.lane.1 | cksum)" "$(cat sent.lane.0 sent.lane.1 | cksum)"
  done
  holds 'transmit of a channel that is not listed' "$(./transmit sent.plan got 3 one.pcap 2>&1)" 'one.pcap: the plan does not list the channel'
  echo 'lanes,2' >refused.plan
  holds 'transmit of a refused plan' "$(./transmit refused.plan got 2>&1)" 'refused.plan: missing metaframe'
  rows=$'flip,0,9000\ndark,1,3000,500\n\nflip,1,40\nflip,0,9000\nflip,0,12001'
  printf '%s\n' "$rows" >rows.schedule
  sed 's/^out,.*/out,sent\nschedule,rows.schedule/' sent.plan >struck.plan
  "$program" damage struck.plan >/dev/null || gives_up 'damage fails'
  ./damage rows.schedule sent got 2
  holds 'damage: lanes' "$? $(cat got.lane.0 got.lane.1 | cksum)" "0 $(cat sent.damaged.lane.0 sent.damaged.lane.1 | cksum)"
  holds 'damage does something' "$(cmp -s got.lane.1 sent.lane.1 && echo nothing)" ''
  echo 'skew,0,3' >rows.schedule
  holds 'damage of a row that is neither' "$(./damage rows.schedule sent got 2 2>&1)" 'schedule: a row that is no flip and no dark stretch'
  echo 'flip,0,17592186044416' >rows.schedule
  holds 'damage of a bit out of range' "$(./damage rows.schedule sent got 2 2>&1)" 'flip: out of range'
  # The far end gets what a receiver of the lanes gets.
  sed "s/two.pcap/three.pcap/" sent.plan >long.plan
  cp "$top/examples/three.pcap" .
  "$program" link long.plan >linked.txt || gives_up 'link fails'
  ./loop long.plan looped - 1 one.pcap 2 three.pcap >looped.txt
  # One packet of the five is on its way when its channel is turned off. Were nothing heard, three would come while it is off.
  holds 'loop' "$? $(cat looped.txt)" "0 $(grep ^got linked.txt)"$'\nspans 2 far, 2 near\nturned off 4 times'
  holds 'loop: captures' "$(cat looped.1.pcap looped.2.pcap | cksum)" "$(cat sent.1.pcap sent.2.pcap | cksum)"
  ./loop long.plan looped 12000 1 one.pcap 2 three.pcap >looped.txt
  holds 'loop with an inverted bit' "$? $(grep '^spans' looped.txt)" '0 spans 3 far, 3 near'
}

# Passes if the monitor in C tells of these lanes what `inspect`, `gather` with `check`, and `receive` find in their files. Each table is
# put into its lines.
same_as_tables() { # WHAT PLAN PIECE
  local what="the monitor of $1, pieces of $3" plan=$2 out flow
  out=$(awk -F, '$1 == "out" { print $2 }' "$plan")
  flow=$(awk -F, '$1 == "flow" { print $2 }' "$plan")
  if [ -n "$flow" ]; then python3 -B "$top/checks/clib/heard.py" "$flow" heard.flow && flow=heard.flow; fi
  "$program" receive "$plan" >received.txt && "$program" inspect "$plan" >/dev/null && "$program" gather "$plan" >/dev/null &&
    "$program" check "$plan" >/dev/null || gives_up "the tables of $plan are not made"
  INTERLAKEN_PROGRAM=$program "$top/tools/slots" "$plan" --faults >slots.csv 2>&1
  # No flow is not a word.
  # shellcheck disable=SC2086
  ./monitor "$plan" "$out" "$3" lanes,rules,packets,drops,spans,from_start $flow >told.txt 2>&1
  holds "$what: rules" "$(grep '^rule ' told.txt | LC_ALL=C sort)" "$(awk -F, 'NR == 1 && $0 != "word,rule,channel,lane,metaframe,bit"
    NR > 1 { print "rule", $2, "word", $1 ($3 == "" ? "" : " channel " $3), "lane", $4, "bit", $6 }' slots.csv | LC_ALL=C sort)"
  holds "$what: lanes" "$(grep '^lane ' told.txt | LC_ALL=C sort -s -n -k 2,2)" "$(awk -F, 'NR > 1 { print "lane", $1, "bit", $2, $3 }' "$out.events.csv")"
  holds "$what: spans" "$(grep '^span ' told.txt | cut -d ' ' -f 2)" "$(sed 1d "$out.spans.csv" | cut -d , -f 5)"
  holds "$what: drops" "$(grep '^dropped ' told.txt | cut -d ' ' -f 2 | LC_ALL=C sort | uniq -c | awk '{ print $2 "=" $1 }')" \
    "$(grep '^dropped ' received.txt | tr ' ' '\n' | grep '=[1-9]' | LC_ALL=C sort)"
  holds "$what: packets" "$(awk '$1 == "packet" { n[$3]++; b[$3] += $5 } END { for (c in n) print "got channel=" c " packets=" n[c] " bytes=" b[c] }' told.txt | LC_ALL=C sort)" \
    "$(grep '^got ' received.txt | grep -v packets=0 | LC_ALL=C sort)"
  holds "$what: no other line" "$(grep -v -e '^lane ' -e '^rule ' -e '^span ' -e '^packet ' -e '^dropped ' told.txt)" ''
}

# The monitor in C: lanes of the program with damage, generated cases, and lanes of words with planted faults, which break each kind of rule.
try_monitor() {
  local plan lane seed bytes limit rules
  cc -std=c99 "${strict[@]}" "${sanitize[@]}" -o monitor "$top/examples/c/monitor.c" library/lib/libinterlaken.a || gives_up 'examples/c/monitor.c is not compiled'
  holds 'monitor is short' "$(($(wc -l <"$top/examples/c/monitor.c") < 150))" 1
  holds 'monitor without words' "$(./monitor 2>&1 | grep -c '^usage: ')" 1
  for plan in damaged.plan seen.plan; do same_as_tables "$plan" "$plan" 1000; done
  for seed in $(seq 1 "${CASES:-12}"); do
    rm -f g*
    "$program" generate "$seed" g >/dev/null 2>&1
    [ $? -le 3 ] && [ -f g.plan ] || continue
    same_as_tables "case $seed" g.plan $((1 + seed * 37 % 500))
  done
  rm -f g* rules.txt
  for seed in $(seq 1 "${CASES:-12}"); do
    rm -f planted* again*
    # The stream eight times over, changed; `stripe` takes no bad word.
    for _ in 1 2 3 4 5 6 7 8; do cat words.words; done >many.words
    python3 -B "$top/checks/clib/changed.py" many.words planted.words planted.flow "$seed"
    python3 -c 'data = open("planted.words", "rb").read()
open("planted.words", "wb").write(b"".join(data[at : at + 9] for at in range(0, len(data), 9) if data[at] != 3))'
    sed 's/^out,.*/out,planted/; /^flow,/d; /^schedule,/d' words.plan >planted.plan
    sed 's/^out,.*/out,again\nflow,planted.flow/; /^flow,/d; /^schedule,/d' words.plan >again.plan
    "$program" stripe planted.plan >/dev/null || gives_up 'stripe of changed words fails'
    mv planted.lane.0 again.lane.0 && mv planted.lane.1 again.lane.1
    same_as_tables "planted faults, seed $seed" again.plan $((1 + seed * 53 % 4000))
    cut -d , -f 2 slots.csv >>rules.txt
    # The same lanes, late and dark for a while, so that there are several epochs.
    printf '%s\n' "skew,1,$((seed * 31 % 300))" "dark,0,$((20000 + seed * 997 % 9000)),2500" "dark,1,$((70000 + seed * 331 % 9000)),1800" >dark.schedule
    sed 's/^flow,.*/schedule,dark.schedule/' again.plan >dark.plan
    "$program" damage dark.plan >/dev/null || gives_up 'damage of changed words fails'
    sed 's/^out,.*/out,again.damaged/' again.plan >dark.plan
    same_as_tables "lanes that are dark, seed $seed" dark.plan $((1 + seed * 53 % 4000))
    holds "several epochs of dark lanes, seed $seed" "$(($("$program" gather dark.plan | sed -n 's/^epochs //p') >= 2))" 1
  done
  rules=$(sed '/^rule$/d' rules.txt | LC_ALL=C sort -u | wc -l)
  holds 'kinds of rules that were broken' "$((rules >= 14))" 1
  # What is told of lanes that are cut off are the first of the lines, with all that are two metaframes of 32 words or more before the end.
  ./monitor again.plan again 1 rules,lanes >whole.txt
  for bytes in 3000 5001 8007; do
    for lane in 0 1; do head -c "$bytes" again.lane.$lane >cut.lane.$lane; done
    ./monitor again.plan cut 1 rules,lanes >cut.txt
    limit=$((8 * bytes - 2 * 32 * 67))
    holds "the monitor of $bytes bytes: the first lines" "$(cat cut.txt)" "$(head -n "$(wc -l <cut.txt)" whole.txt)"
    holds "the monitor of $bytes bytes: in time" "$(awk -v limit="$limit" '{ for (i = 1; i < NF; i++) if ($i == "bit" && $(i + 1) < limit) print }' cut.txt)" \
      "$(awk -v limit="$limit" '{ for (i = 1; i < NF; i++) if ($i == "bit" && $(i + 1) < limit) print }' whole.txt)"
  done
}

# Lanes that begin in the middle of the traffic, of words as they were sent and of changed ones: of the first the monitor tells no rule, and
# of the others what it tells of the whole lanes, from where both have their locks on.
try_late_monitor() {
  local bytes lane from
  for _ in 1 2 3 4 5 6 7 8; do cat words.words; done >planted.words
  "$program" stripe planted.plan >/dev/null || gives_up 'stripe of words fails'
  for bytes in 3001 4444 6100 9217; do
    for lane in 0 1; do
      tail -c "+$bytes" planted.lane.$lane >clean.lane.$lane
      tail -c "+$bytes" again.lane.$lane >late.lane.$lane
    done
    holds "the monitor from byte $bytes on, no fault" "$(./monitor again.plan clean 100 rules,lanes | grep -v ' lock$')" ''
    from=$((8 * (bytes - 1)))
    ./monitor again.plan late 1 rules,lanes | late_lines 0 >late.txt
    late_lines "$from" <whole.txt >wanted.txt
    # Which channels had an open packet is not known of words that came before.
    holds "the monitor from byte $bytes on" "$(grep -v -e '^rule sop ' -e '^rule open ' late.txt)" "$(grep -v -e '^rule sop ' -e '^rule open ' wanted.txt)"
    holds "the monitor from byte $bytes on: nothing else" "$(LC_ALL=C comm -23 late.txt wanted.txt)" ''
  done
  holds 'rules of lanes that begin late' "$(($(late_lines 24000 <whole.txt | grep -c '^rule ') > 0))" 1
}

# Lines of the monitor from eight metaframes behind a bit on, by bits that are counted from there, without locks and numbers of words.
late_lines() { # BIT
  awk -v first="$1" '!/ lock$/ { for (i = 1; i < NF; i++) { if ($i == "word") $i = $(i + 1) = ""
    if ($i == "bit" && $(i + 1) >= first + 8 * 32 * 67) { $(i + 1) -= first; print } } }' | LC_ALL=C sort
}

# All of the installed files, and that no other file is written over or removed.
try_install() {
  local prefix=$folder/prefix of_list wanted
  INTERLAKEN_PROGRAM=$program "$top/tools/library" --install "$prefix" >installed.txt 2>&1
  holds 'install' "$? $(cat installed.txt)" "0 $prefix"
  wanted=$(printf '%s\n' bin/interlaken include/interlaken{,_alloc,_text}.h lib/libinterlaken.{a,so,so.1} lib/cmake/interlaken/interlaken-config{,-version}.cmake \
    lib/pkgconfig/interlaken.pc share/bash-completion/completions/interlaken share/interlaken/installed share/man/man1/interlaken.1 \
    share/man/man3/interlaken.3 | LC_ALL=C sort)
  holds 'installed files' "$(cd "$prefix" && find . -type f -o -type l | cut -c 3- | LC_ALL=C sort)" "$wanted"
  of_list=$(sed '/^#/d; /^folder /d; s/^[^ ]* //' "$prefix/share/interlaken/installed" | LC_ALL=C sort)
  holds 'files of the list' "$of_list" "$(grep -v '^share/interlaken/' <<<"$wanted")"
  holds 'the program that is installed' "$("$prefix/bin/interlaken" receive damaged.plan 2>&1)" "$("$program" receive damaged.plan 2>&1)"
  holds 'the library that is installed' "$(cksum <"$prefix/lib/libinterlaken.a")" "$(cksum <library/lib/libinterlaken.a)"
  cc -std=c99 "${strict[@]/#-I*/-I$prefix/include}" -o of_prefix "$top/examples/c/transmit.c" "-L$prefix/lib" "-Wl,-rpath,$prefix/lib" -linterlaken
  holds 'a program of the installed library' "$(./of_prefix sent.plan got 1 one.pcap 2 two.pcap)" "$("$program" send sent.plan)"
  INTERLAKEN_PROGRAM=$program "$top/tools/library" --install "$prefix" >installed.txt 2>&1
  holds 'install once more' "$? $(cat installed.txt)" "0 $prefix"
  try_found "$prefix"
  try_foreign_files "$prefix"
  try_cut_off
  try_pages "$prefix"
  INTERLAKEN_PROGRAM=$program "$top/tools/library" --install "$prefix" >installed.txt 2>&1
  echo mine >"$prefix/lib/mine"
  "$top/tools/library" --uninstall "$prefix" >installed.txt 2>&1
  holds 'uninstall' "$? $(cat installed.txt) $(cd "$prefix" && find . -type f)" '0  ./lib/mine'
  holds 'uninstall once more' "$("$top/tools/library" --uninstall "$prefix" 2>&1)" "library: nothing is installed at $prefix"
  holds 'words that are none' "$("$top/tools/library" --install 2>&1 | grep -c '^usage')$("$top/tools/library" --prefix a 2>&1 | grep -c '^usage')" 11
}

# What CMake and pkg-config say of the installed library: it serves who wants its own major number, and no later version.
try_found() { # PREFIX
  local version
  version=$(cat "$top/release/VERSION")
  if ! lacks cmake cmake 'versions that CMake accepts'; then
    mkdir versions && cat >versions/CMakeLists.txt <<END
cmake_minimum_required(VERSION 3.10)
project(versions NONE)
foreach(version 1.0 1.4 $version ${version%.*}.99 1.99 2.0 0.9)
  unset(interlaken_DIR CACHE)
  find_package(interlaken \${version} QUIET)
  message("\${version} \${interlaken_FOUND}")
endforeach()
foreach(version $version 1.0)
  unset(interlaken_DIR CACHE)
  find_package(interlaken \${version} EXACT QUIET)
  message("\${version} \${interlaken_FOUND}")
endforeach()
END
    holds 'versions that CMake accepts' "$(cd versions && cmake -DCMAKE_PREFIX_PATH="$1" . 2>&1 | grep '^[0-9.]* [01]$')" \
      "$(printf '%s\n' '1.0 1' '1.4 1' "$version 1" "${version%.*}.99 0" '1.99 0' '2.0 0' '0.9 0' "$version 1" '1.0 0')"
  fi
  if ! lacks pkg-config pkg-config 'the words of pkg-config'; then
    holds 'the words of pkg-config' "$(
      export PKG_CONFIG_PATH=$1/lib/pkgconfig
      pkg-config --modversion interlaken && pkg-config --libs interlaken | grep -o -e '-linterlaken'
      pkg-config --atleast-version 2 interlaken
      echo $?
    )" "$version"$'\n-linterlaken\n1'
  fi
}

# Files of a user in the places of files that would be installed, and installed files that were changed, stay.
try_foreign_files() { # PREFIX
  local file before
  for file in include/interlaken.h lib/libinterlaken.so share/man/man3/interlaken.3 share/interlaken/installed; do
    rm -rf foreign && mkdir -p "foreign/$(dirname "$file")" && echo mine >"foreign/$file"
    holds "a file of a user: $file" "$("$top/tools/library" --install foreign 2>&1 | grep -c "foreign/$file was not") $(cd foreign && find . -type f) $(cat "foreign/$file")" \
      "1 ./$file mine"
  done
  rm -rf foreign && mkdir -p foreign/lib && ln -s /nowhere foreign/lib/libinterlaken.so
  holds 'a link of a user' "$("$top/tools/library" --install foreign 2>&1 | grep -c 'libinterlaken.so was not') $(readlink foreign/lib/libinterlaken.so)" '1 /nowhere'
  echo '/* mine */' >>"$1/include/interlaken.h"
  before=$(cd "$1" && find . -type f -print0 | LC_ALL=C sort -z | xargs -0 sha256sum | sha256sum)
  holds 'an installed file that was changed' "$("$top/tools/library" --install "$1" 2>&1)" \
    "library: $1/include/interlaken.h was not installed by this tool, or has changed since: nothing is changed"
  holds 'the other files then' "$(cd "$1" && find . -type f -print0 | LC_ALL=C sort -z | xargs -0 sha256sum | sha256sum)" "$before"
  holds 'uninstall of a changed file' "$("$top/tools/library" --uninstall "$1" 2>&1; cd "$1" && find . -type f)" \
    "library: $1/include/interlaken.h has changed since, and stays"$'\n./include/interlaken.h'
  rm "$1/include/interlaken.h"
  INTERLAKEN_PROGRAM=$program "$top/tools/library" --install "$1" >/dev/null 2>&1
}

# An installation that was cut off, by a cp that fails after some files, can be made again, or removed.
try_cut_off() {
  local after prefix=$folder/cut
  mkdir failing && cat >failing/cp <<'END'
#!/usr/bin/env bash
[ "$1" != -PT ] || { echo >>"$COPIED" && [ "$(wc -l <"$COPIED")" -le "$AFTER" ]; } || exit 1
PATH=${PATH#*:} exec cp "$@"
END
  chmod +x failing/cp
  for after in 0 4 9 13; do
    rm -f copied
    COPIED=$folder/copied AFTER=$after PATH=$folder/failing:$PATH "$top/tools/library" --install "$prefix" >cut.txt 2>&1
    holds "an installation that was cut off after $after files" "$?" 1
    [ "$after" != 4 ] || holds 'uninstall of one that was cut off' "$("$top/tools/library" --uninstall "$prefix" 2>&1; find "$prefix" -type f)" ''
  done
  holds 'install after one that was cut off' "$(INTERLAKEN_PROGRAM=$program "$top/tools/library" --install "$prefix" 2>&1)" "$prefix"
  holds 'no file beside them' "$(cd "$prefix" && find . -name 'new*')" ''
}

# The pages of the manual, and the completion.
try_pages() { # PREFIX
  local page call
  for page in 1 3; do
    holds "the head of interlaken($page)" "$(head -n 1 "$1/share/man/man$page/interlaken.$page")" \
      ".TH interlaken $page \"\" \"interlaken $(cat "$top/release/VERSION")\""
    lacks groff groff 'the pages as groff reads them' ||
      holds "what groff says of interlaken($page)" "$(groff -man -ww -z -Tutf8 "$1/share/man/man$page/interlaken.$page" 2>&1)" ''
  done
  # The header may declare a call without a line of its own for the result.
  holds 'calls of interlaken(3)' "$(grep '^\.SS interlaken_' "$1/share/man/man3/interlaken.3" | grep -oE 'interlaken_[a-z_]+' | LC_ALL=C sort)" \
    "$(grep -oE '^[a-z].*\binterlaken_[a-z_]+\(' "$include/interlaken.h" | grep -oE 'interlaken_[a-z_]+\(' | tr -d '(' | LC_ALL=C sort)"
  holds 'commands of interlaken(1)' "$(grep -c '^\\fB[a-z]*\\fR \\fI' "$1/share/man/man1/interlaken.1")" "$(grep -vc '^#' "$top/tools/commands.txt")"
  holds 'completion' "$(bash -c '
    . "$1"
    complete_one() { COMP_WORDS=("$@") COMP_CWORD=$(($# - 1)); _interlaken; echo "${COMPREPLY[@]}"; }
    complete_one interlaken rec
    complete_one interlaken ""
    complete_one interlaken generate damaged.pl
    complete_one interlaken receive damaged.pl' bash "$1/share/bash-completion/completions/interlaken")" \
    "receive"$'\n'"$(grep -v '^#' "$top/tools/commands.txt" | cut -d '|' -f 1 | tr '\n' ' ' | sed 's/ $//')"$'\n\ndamaged.plan'
  # The program knows each command that the pages have.
  while IFS='|' read -r call _; do
    [ "$call" = generate ] || holds "the program's command $call" "$("$1/bin/interlaken" "$call" absent.file 2>&1 | grep -c '^usage')" 0
  done < <(grep -v '^#' "$top/tools/commands.txt")
}

# The package of Python, by the wheel that its backend writes.
try_package() {
  ! lacks python3 python3 'the package of Python' || return 0
  local python=$top/python
  mkdir wheel site
  (cd "$python" && python3 -B -c 'import building, sys; print(building.build_wheel(sys.argv[1])); building.build_editable(sys.argv[2])' \
    "$folder/wheel" "$folder/site") >wheel.txt
  holds 'the wheel' "$(cat wheel.txt)" "interlaken-$(cat "$top/release/VERSION")-py3-none-any.whl"
  holds 'files of the wheel' "$(python3 -c 'import sys, zipfile; print(*zipfile.ZipFile(sys.argv[1]).namelist(), sep="\n")' wheel/*.whl)" \
    "$(cd "$python" && printf '%s\n' interlaken/*.py interlaken/*.typed "interlaken-$(cat "$top/release/VERSION").dist-info"/{METADATA,WHEEL,RECORD})"
  holds 'packets by the wheel' "$(cp "$top/examples/python/packets.py" . && INTERLAKEN_LIBRARY=library/lib/libinterlaken.so PYTHONPATH=$(echo wheel/*.whl) python3 -B packets.py damaged.plan damaged.lane.0 damaged.lane.1 | cksum)" \
    "$(INTERLAKEN_LIBRARY=library/lib/libinterlaken.so PYTHONPATH=$python python3 -B "$top/examples/python/packets.py" damaged.plan damaged.lane.0 damaged.lane.1 | cksum)"
  try_pip "$python"
  try_take_all "$python"
}

# What pip installs of the checkout without a network.
try_pip() { # PACKAGE
  local python=$1
  if python3 -m pip --version >/dev/null 2>&1; then
    rm -rf site
    python3 -m pip install --no-index --no-deps --quiet --disable-pip-version-check --target site "$python" >pip.txt 2>&1
    holds 'pip install' "$? $(cd site/interlaken && printf '%s ' *.*)" '0 __init__.py monitor.py py.typed '
    rm -rf with && (cd "$folder" && INTERLAKEN_LIBRARY=$folder/library/lib/libinterlaken.so python3 -m pip install --no-index --no-deps --quiet \
      --disable-pip-version-check --target with "$python") >pip.txt 2>&1
    holds 'pip install with the library' "$? $(PYTHONPATH=with python3 -B -c 'import interlaken; print(*interlaken.version(), sep=".")' 2>&1)" "0 $(cat "$top/release/VERSION")"
    holds 'the installed package' "$(PYTHONPATH=site python3 -B -c 'import interlaken, importlib.metadata as m; print(interlaken.__file__, m.version("interlaken"))')" \
      "$folder/site/interlaken/__init__.py $(cat "$top/release/VERSION")"
  else
    echo "$name: not tried, no pip (Debian package python3-pip): pip install ./python"
  fi
}

# What take_all raises, and what it gives; and numbers of a later version of the library.
try_take_all() { # PACKAGE
  local python=$1
  holds 'what take_all raises, and numbers of a later version' "$(python3 -B -c '
import sys
sys.path.insert(0, sys.argv[1])
import interlaken as i
plan = open("sent.plan", "rb").read()
with i.Transmitter(plan, "library/lib/libinterlaken.so") as near:
    def tried(lanes):
        try:
            print(*map(len, near.take_all(lanes)))
        except (ValueError, i.Misuse) as error:
            print(error)
    near.packet(1, b"a" * 90)
    tried(2)
    near.finish()
    tried(1)
    tried(3)
    tried(0)
    tried(2)
    near.close()
    tried(2)
print(i.Drop(9).name, int(i.Drop(9)), i.Result(99).name, i.Fault(0).name)
' "$python")" "$(
    printf '%s\n' 'the transmitter was not finished' 'the plan has 2 lanes, not 1' 'the plan has 2 lanes, not 3' 'the plan has 2 lanes, not 0'
    sed '/^channel/d; s/^out,.*/out,one/' sent.plan >one.plan && packet_of_90 >ninety.pcap && echo 'channel,1,ninety.pcap' >>one.plan
    sed -n '/^channel,2/s/,[^,]*$//p' sent.plan >>one.plan && "$program" send one.plan >/dev/null
    echo "$(wc -c <one.lane.0) $(wc -c <one.lane.1)"
    printf '%s\n' NO_TRANSMITTER 'UNKNOWN 9 UNKNOWN START'
  )"
}

# Lanes in pieces of any bits, in both directions.
try_bits() {
  ! lacks python3 python3 'bits of lanes in Python' || return 0
  sed 's/^warmup.*/warmup,64/' sent.plan >bits.plan && "$program" send bits.plan >/dev/null
  holds 'bits of lanes in Python' \
    "$(python3 -B "$top/checks/clib/bits.py" "$top/python" library/lib/libinterlaken.so bits.plan sent 1 one.pcap 2 two.pcap 2>&1)" '31 tried'
}

# A capture of one packet of 90 letters.
packet_of_90() {
  printf '\324\303\262\241\2\0\4\0\0\0\0\0\0\0\0\0\0\0\4\0\1\0\0\0\0\0\0\0\0\0\0\0\132\0\0\0\132\0\0\0'
  printf 'a%.0s' $(seq 90)
}
