#!/usr/bin/env bash
# Runs the launcher in a small tree, with programs that print their names and an rt that proves nothing: which program runs, what is built
# and when, and --help and --version. Also tools/release, the check of the release, checks/run with checks that end in each way, and the
# gate.
set -u
top=$(cd "$(dirname "${BASH_SOURCE[0]}")/.." && pwd)
. "$top/checks/lib/tally.bash"
[ -x "$top/interlaken" ] || gives_up 'there is no launcher'
wants python3 python3
folder=$(mktemp -d)
trap 'rm -rf "$folder"' EXIT
tree=$folder/a\ tree
mkdir -p "$tree"/{release,checks,tools/lib,.ci} "$folder"/{bin,elsewhere} "$tree"/crates/{low,interlaken,interlaken_main,beside,interlaken_c}/src
cp "$top/interlaken" "$tree"
cp -r "$top"/tools/{sources.bash,archive.bash,build,commands.txt,jobs,release} "$tree/tools/"
cp -r "$top/tools/lib/build" "$tree/tools/lib/"
cp -r "$top"/checks/{run,release.sh,packages.txt,lib} "$tree/checks/"
cp "$top/.ci/run" "$tree/.ci/"
chmod -R u+w "$tree" # a checkout may be one that is only read
printf '%s\n' 'low:' 'interlaken: low' 'interlaken_main: interlaken low' 'beside: low' 'interlaken_c staticlib: beside core' >"$tree/crates.txt"
echo 'Handles allowed: none.' >"$tree/HANDLES"
echo 1.2.3 >"$tree/release/VERSION"
for crate in low interlaken interlaken_main beside interlaken_c; do
  echo "$crate as released" >"$tree/crates/$crate/src/lib.rt"
done

# The wrong bodies are all known as refused, unless a file says otherwise.
printf '%s\n' 'import os, sys' "print('edits', *sys.argv[2:])" "sys.exit(os.path.exists('$folder/untried'))" >"$tree/checks/edits.py"

# A program that prints who it is, and its words one a line. With the word `limited` it writes past a limit on the size of files,
# and with `tunables` it prints what glibc is told.
program_of() { # NAME
  printf '%s\n' '#!/bin/sh' '[ $# -gt 0 ] || { echo usage: none; exit 2; }' \
    '[ "$1" != limited ] || { ulimit -f 1; head -c 4096 /dev/zero >"$2"; exit; }' \
    '[ "$1" != tunables ] || { echo "${GLIBC_TUNABLES:-none}"; exit; }' "printf '%s\n' '$1' \"\$@\"" "echo odd >&2" 'exit 5'
}

# The rt that is tried with: a crate whose source says wrong is not proved. A file `meanwhile` names one that is changed during the build.
cat >"$folder/bin/rt" <<'RT'
#!/usr/bin/env bash
here=$(dirname "$0")/..
[ "$1" = ci ] || { echo a kit; [ "$1" != help ] || [ -f "$here/keeps nothing" ] || echo 'rt ci [--anew]'; exit; }
echo "$* jobs=${RT_JOBS:-}" >>"$here/calls"
[ ! -f "$here/meanwhile" ] || echo changed >>"$(cat "$here/meanwhile")"
status=0
for crate in low interlaken interlaken_main; do
  echo "== $crate"
  if grep -q wrong "crates/$crate/src/lib.rt"; then
    echo 'goal: open' && echo "rt: $crate NOT PROVED" && status=1
  else
    echo "rt: $crate proved"
  fi
done
mkdir -p crates/interlaken_main/out
[ "$status" -ne 0 ] || install "$here/built" crates/interlaken_main/out/interlaken_main
exit "$status"
RT
chmod +x "$folder/bin/rt"
program_of release >"$tree/release/interlaken-x86_64-linux"
program_of built >"$folder/built"
chmod +x "$tree/release/interlaken-x86_64-linux" "$folder/built"

# Sets text, errors and status to what the launcher gives, with or without an rt that can be found. settings are put before it.
launch() { # [with|without] WORDS..
  local path=/usr/bin:/bin
  [ "$1" = without ] || path=$folder/bin:$path
  shift
  text=$(cd "$folder/elsewhere" && env -i XDG_CACHE_HOME="$folder/cache" PATH="$path" "${settings[@]}" "$tree/interlaken" "$@" 2>"$folder/errors")
  status=$?
  errors=$(cat "$folder/errors")
}

# A launch, in one line: the program's name, or nothing if none was run.
ran() { # WHAT WANTED [with|without] WORDS..
  local what=$1 wanted=$2
  shift 2
  launch "$@"
  holds "$what" "$status $(head -n 1 <<<"$text")" "$wanted"
}

calls() {
  grep -c . "$folder/calls" 2>/dev/null
}

say() { # CRATE TEXT
  echo "$2" >"$tree/crates/$1/src/lib.rt"
}

settings=()
release=$(cd "$tree/release" && pwd)/interlaken-x86_64-linux
(. "$top/tools/sources.bash" && sum_of_sources "$tree" >"$tree/release/sources.sha256")
(cd "$tree/release" && sha256sum interlaken-x86_64-linux >interlaken-x86_64-linux.sha256)
echo a kit of old >"$tree/release/kit"
cp -a "$tree" "$folder/old"
from=$EPOCHSECONDS
before=$(cd "$tree" && find . -printf '%p %T@ %s\n' | sort)

# The release.
ran 'the release' '5 release' without one 'two words' ''
holds 'words' "$text" "$(printf '%s\n' release one 'two words' '' && echo)"
holds 'the error output' "$errors" odd
launch without limited "$folder/large"
holds 'a file beyond the limit on its size: no signal ends the program' "$status" 1
ln -s "$tree/interlaken" "$folder/link"
holds 'through a link, with no home' "$(cd / && env -i PATH=/usr/bin:/bin "$folder/link" x 2>/dev/null)" "$(printf 'release\nx')"
ran 'large pages are asked for' '0 glibc.malloc.hugetlb=1' without tunables
settings=(GLIBC_TUNABLES=glibc.malloc.arena_max=1)
ran 'large pages beside another tunable' '0 glibc.malloc.arena_max=1:glibc.malloc.hugetlb=1' without tunables
settings=(GLIBC_TUNABLES=glibc.malloc.hugetlb=0:glibc.malloc.arena_max=1)
ran 'large pages as the user set them' '0 glibc.malloc.hugetlb=0:glibc.malloc.arena_max=1' without tunables
settings=(INTERLAKEN_WHICH=1)
ran 'which program' "0 $tree/release/interlaken-x86_64-linux" without
settings=()

# A comment is no change of the sources: the release is run, by its sum and by what --version says.
printf '%s\n' '// a comment' "$(cat "$tree/crates/low/src/lib.rt")" '/* more */' >"$folder/commented"
cp "$folder/commented" "$tree/crates/low/src/lib.rt"
ran 'after a comment' '5 release' without one
cp -p "$folder/old/crates/low/src/lib.rt" "$tree/crates/low/src/lib.rt"

# What the launcher says itself.
usage='usage: interlaken COMMAND FILE, or interlaken generate NUMBER PREFIX'
names=$(sed -n 's/^ *word: "\(.*\)",$/\1/p' "$top/crates/command_words/src/table.rt" 2>/dev/null)
for word in --help -h help; do
  ran "$word" "0 $usage" without "$word"
  holds "$word: the commands, each in a line" "$(sed -nE 's/^  ([a-z]+) (FILE|NUMBER PREFIX)  +[a-z`].*/\1/p' <<<"$text" | sort)" "$(sort <<<"${names:-no commands}")"
done
for command in $names; do
  launch without "$command" --help
  holds "$command --help" "$status $(sed -E "1s/^usage: interlaken $command (FILE|NUMBER PREFIX)$/usage/; 2s/^[A-Z ]+: .+/words/; 3s/.+/does/" <<<"$text")" $'0 usage\nwords\ndoes'
done
ran 'help of what is no command' '5 release' without lnik --help
# What --version says: the program, the number of the release, its kit, the sum of the sources and that of the release.
tells_version() { # WHAT PROGRAM SOURCES
  launch without --version
  holds "$1" "$status $text" "0 program: $2
release: 1.2.3
kit of the release: a kit of old
sources: $3
sources of the release: $(cat "$tree/release/sources.sha256")"
}
sum_here() {
  (. "$top/tools/sources.bash" && sum_of_sources "$tree")
}
tells_version 'the version of the release' 'release/interlaken-x86_64-linux, the release of these sources' "$(sum_here)"
say beside changed
ran 'a change of a crate that the program does not stand on' '5 release' without x
say beside 'beside as released'

# A change.
touch -r "$tree/crates/low/src/lib.rt" "$folder/time"
say low 'low as chagned '
touch -r "$folder/time" "$tree/crates/low/src/lib.rt"
ran 'a change that keeps length and time, and no rt' '70 ' without x
ran 'help, of changed sources' "0 $usage" without --help
tells_version 'the version of changed sources' 'none, these are not the sources of the release' "$(sum_here)"
holds 'which is another' "$([ "$(sum_here)" != "$(cat "$tree/release/sources.sha256")" ] && echo other)" other
ran 'no words, of changed sources' '2 usage: none' without
holds 'the answer does not look like the program of these sources' "$(grep -c '^interlaken: ' <<<"$errors")" 1
ran 'a change' '5 built' with x
holds 'builds' "$(calls)" 1
holds 'crates that are done' "$(grep -c '^interlaken: . of 3 crates done after 0 min, about 1 min left: ' <<<"$errors")" 2
tells_version 'the version of what was built' "$(echo "$folder"/cache/interlaken/*/programs/*), proved and built here" "$(sum_here)"
ran 'a second start' '5 built' without x
holds 'what a second start says' "$errors" odd
say low 'low as released'
ran 'the sources of the release again' '5 release' without x
mv "$tree/crates/low/src/lib.rt" "$tree/crates/low/src/bil.rt"
ran 'another name of a file' '70 ' without x
mv "$tree/crates/low/src/bil.rt" "$tree/crates/low/src/lib.rt"

# What is proved here.
# The last calls of rt, with `some` for a number of jobs that processors and memory allow, which may change meanwhile.
last_calls() { # COUNT
  tail -n "$1" "$folder/calls" | sed 's/ jobs=[1-9][0-9]*$/ jobs=some/'
}
settings=(INTERLAKEN_PROVE=1 INTERLAKEN_JOBS=3)
ran 'proved here' '5 built' with x
holds 'jobs' "$(tail -n 1 "$folder/calls")" 'ci jobs=3'
ran 'proved here before' '5 built' without x
settings=()
ran 'what was proved here, from then on' '5 built' without x
settings=(INTERLAKEN_PROVE=anew)
ran 'proved anew' '5 built' with x
holds 'rt is told' "$(last_calls 1)" 'ci --anew jobs=some'
touch "$folder/keeps nothing"
ran 'proved anew by a kit that keeps nothing' '5 built' with x
holds 'which is not told' "$(last_calls 1)" 'ci jobs=some'
rm "$folder/keeps nothing"
settings=()

# Builds that fail, that change under way, and that are asked for twice.
say low wrong
ran 'a crate that is not proved' '70 ' with x
holds 'what is said of it' "$(grep -c -e '^goal: open' -e '^rt: low NOT PROVED' -e 'the program was not built' <<<"$errors")" 3
say low 'low once more'
echo "$tree/crates/low/src/lib.rt" >"$folder/meanwhile"
ran 'sources that change meanwhile' '5 built' with x
rm "$folder/meanwhile"
ran 'what was built is of the sources before that' '70 ' without x
asked=$(calls)
for _ in 1 2; do (launch with x; echo "$status $(head -n 1 <<<"$text")" >>"$folder/both") & done
wait
holds 'two at once' "$(cat "$folder/both")" "$(printf '5 built\n5 built')"
holds 'of which one builds' "$(($(calls) - asked))" 1

# A release that is damaged, or does not start.
say low 'low as released'
rm -r "$folder/cache"
holds 'the tree is as it was' "$(cd "$tree" && find . -printf '%p %T@ %s\n' | grep -v crates | sort)" "$(grep -v crates <<<"$before")"
echo '# longer' >>"$release"
ran 'a damaged release' '70 ' without x
printf '#!/bin/no-such-loader\n' >"$release"
(cd "$tree/release" && sha256sum interlaken-x86_64-linux >interlaken-x86_64-linux.sha256)
ran 'a release that does not start' '5 built' with x

# A sum that is remembered, which takes files that are some seconds old.
tree=$folder/old
sleep $((from + 5 - EPOCHSECONDS > 0 ? from + 5 - EPOCHSECONDS : 0))
rm -r "$folder/cache"
settings=(XDG_CACHE_HOME=/dev/null/none)
ran 'a start where nothing can be remembered' '5 release' without x
settings+=(INTERLAKEN_PROVE=1)
ran 'a build where nothing can be written' '70 ' with x
settings=()
ran 'a first start' '5 release' without x
holds 'the sum is remembered' "$(cat "$folder"/cache/interlaken/*/sum | tail -n 1)" "$(cat "$tree/release/sources.sha256")"
ran 'a start by the sum that is remembered' '5 release' without x
touch -r "$tree/crates/low/src/lib.rt" "$folder/time"
say low 'low as chagned '
touch -r "$folder/time" "$tree/crates/low/src/lib.rt"
ran 'a change, then, that keeps length and time' '70 ' without x
tree=$folder/a\ tree

# tools/release and its check, and the archive of the C library, which stands on low and beside.
checked() { # WHAT WANTED
  holds "$1" "$(cd "$tree" && PATH=$folder/bin:$PATH INTERLAKEN_BUILT=crates/interlaken_main/out/interlaken_main bash checks/release.sh 2>&1 | tail -n 1)" "$2"
}
found() { # WHAT WANTED
  holds "$1" "$(. "$tree/tools/archive.bash" && find_archive "$tree")" "${2:+$tree/$2}"
}
fails_to_release() { # WHAT WORD
  holds "$1" "$(PATH=$folder/bin:$PATH "$tree/tools/release" 2>&1 | grep -c "$2")" 1
}
built=crates/interlaken_c/out/libinterlaken_c.a
fails_to_release 'a release without a built program' 'interlaken_main is absent'
mkdir "$tree"/crates/interlaken_{main,c}/out
install "$folder/built" "$tree/crates/interlaken_main/out/interlaken_main"
fails_to_release 'a release without an archive' 'libinterlaken_c.a is absent'
found 'no archive' ''
echo archive >"$tree/$built"
found 'an archive that was built' "$built"
touch "$folder/untried"
fails_to_release 'a release with wrong bodies that were not tried' 'not each wrong body'
rm "$folder/untried"
holds 'a release' "$(PATH=$folder/bin:$PATH "$tree/tools/release" | wc -l)" 6
checked 'the release that was made' 'release: 8 passed, 0 failed'
ran 'what was released' '5 built' without x
mv "$tree/$built" "$folder/archive"
found 'the archive of the release' release/libinterlaken-x86_64-linux.a
checked 'the release where no archive was built' 'release: 7 passed, 0 failed'
say beside 'beside as changed'
found 'the archive of a release of other sources' ''
checked "a changed source of the C library's alone" 'release: 6 passed, 1 failed'
mv "$folder/archive" "$tree/$built"
found 'an archive that is older than its sources' ''
fails_to_release 'a release of an older archive' 'libinterlaken_c.a is older'
ran 'the program where the C library has other sources' '5 built' without x
say beside 'beside as released'
touch "$tree/$built"
echo more >>"$tree/$built"
checked 'another archive' 'release: 7 passed, 1 failed'
rm "$tree/$built"
echo more >>"$tree/release/libinterlaken-x86_64-linux.a"
found 'an archive of the release that is damaged' ''
checked 'a damaged archive' 'release: 6 passed, 1 failed'
say low 'low of tomorrow'
checked 'a changed source, too' 'release: 4 passed, 3 failed'
fails_to_release 'a release of an older program' 'interlaken_main is older'
echo '# other' >>"$tree/crates/interlaken_main/out/interlaken_main"
checked 'another program, too' 'release: 3 passed, 4 failed'

# checks/run and the gate. The name of the file is cut in two here, since a check that has it is one that tries the program.
begin='. "$(dirname "$0")"/lib/program'.bash
rm "$tree/checks/release.sh"
check() { # NAME, and its lines
  local file=$tree/checks/$1.sh
  shift
  printf '%s\n' "$@" >"$file"
}

run_checks() { # WHAT WANTED WORDS..
  local what=$1 wanted=$2
  shift 2
  text=$(env -i PATH=/usr/bin:/bin INTERLAKEN_PROGRAM="$folder/built" "$tree/checks/run" "$@" 2>&1)
  holds "$what" "$? $(tail -n 1 <<<"$text")" "$wanted"
}

check good "$begin" 'holds program "$program" "$INTERLAKEN_PROGRAM"' 'ends'
run_checks 'a check that passes' '0 checks: 1 passed, 0 failed, 0 skipped'
check wanting "$begin" 'wants no-such-tool a-package'
echo 'command no-such-tool a-package' >>"$tree/checks/packages.txt"
run_checks 'a check that is skipped' '0 checks: 1 passed, 0 failed, 1 skipped'
holds 'how many checks there are' "$(head -n 1 <<<"$text" | cut -d , -f 1)" '2 checks'
holds 'why it is skipped' "$(grep -c '^skipped .* wanting: skipped, no no-such-tool (Debian package a-package)$' <<<"$text")" 1
# All packages, whichever of them a check names first.
packages=$(grep -v '^#' "$tree/checks/packages.txt" | cut -d ' ' -f 3 | paste -s -d ' ')
holds 'all packages that a full run needs' "$(grep -c "^checks: a full run needs the Debian packages $packages; not here: apt-get install .*a-package$" <<<"$text")" 1
holds 'packages that a check names, and the list has not' "$(grep -ohE '^ *(! |if ! )?(wants|lacks) [^ $]+ [^ $;]+' "$top"/checks/*.sh | awk '{ print $NF }' | sort -u |
  grep -vxFf <(tr ' ' '\n' <<<"$packages"))" ''
check start 'echo start: 1 passed, 0 failed'
run_checks 'nothing but the start of the program' '3 checks: 1 passed, 0 failed, 1 skipped' start wanting
run_checks 'a check without the program' '0 checks: 1 passed, 0 failed, 0 skipped' start
rm "$tree/checks/start.sh"
run_checks 'nothing but a skip' '1 checks: 0 passed, 0 failed, 1 skipped' wanting
check bad 'echo in full' "$begin" 'holds one 1 2' ends
check silent
check none 'echo none: 0 passed, 0 failed'
check late 'echo late: 1 passed, 0 failed' 'exit 3'
check odd 'echo 1 passed'
check killed 'kill -9 $$ $PPID'
check part "$begin" 'lacks no-such-tool another all-of-it' 'holds one 1 1' ends
run_checks 'checks that fail in each way' '1 checks: 2 passed, 6 failed, 1 skipped' --jobs 3
holds 'what a check printed that failed' "$(grep -c '^in full$' <<<"$text")" 1
holds 'a part that was not tried' "$(grep -c '^part: not tried, no no-such-tool (Debian package another): all-of-it$' <<<"$text")" 1
run_checks 'a check that is not there' '2 checks: there is no check absent' absent
rm "$tree"/checks/{bad,silent,none,late,odd,killed}.sh
# One crate's wrong bodies are refused, unless a file says otherwise.
printf '%s\n' '#!/bin/sh' "[ \$# -gt 0 ] || { echo 'edits: 1 passed, 0 failed'; exit; }" "echo edits \"\$@\" >>'$folder/calls'" \
  "[ ! -f '$folder/survivor' ]" >"$tree/checks/edits.sh"
chmod +x "$tree/checks/edits.sh"
gate() { # WHAT WANTED
  text=$(cd / && PATH=$folder/bin:/usr/bin:/bin "$tree/.ci/run" 2>/dev/null)
  holds "$1" "$? $(tail -n 1 <<<"$text")" "$2"
}
gate 'a gate' '0 checks: 3 passed, 0 failed, 1 skipped'
holds 'what rt is asked, and which wrong bodies are tried' "$(last_calls 2)" 'ci jobs=some
edits turn --proved .'
touch "$folder/survivor"
gate 'a gate with a wrong body that is not refused' '1 checks: 3 passed, 0 failed, 1 skipped'
rm "$folder/survivor"
check bad "$begin" 'holds program "$program" "$INTERLAKEN_BUILT"' 'holds one 1 2' ends
gate 'a gate with a check that fails' '1 checks: 3 passed, 1 failed, 1 skipped'
rm "$tree/checks/bad.sh"
say low wrong
gate 'a gate with a crate that is not proved' '1 checks: 3 passed, 0 failed, 1 skipped'
ends
