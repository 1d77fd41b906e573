#!/usr/bin/env bash
# Tries the inspector, the gatherer and the checker of the C library against `inspect`, `gather` and `check`: 1,000 random damaged links of
# 1 to 64 lanes, in random pieces. Four threads with their own handles find the same, and each allocation of each `new` fails once. Needs an
# archive as checks/clib.sh does. Arguments are those of handles.py, as --cases 5000 --jobs 4.
set -u
. "$(dirname "$0")/lib/program.bash"
wants_cc
wants python3 python3
wants_archive
folder=$(mktemp -d)
trap 'rm -rf "$folder"' EXIT

# Links a program of checks/live with the library.
linked() { # NAME SOURCE WORD..
  local out=$1 source=$2
  shift 2
  cc -std=c99 -Wall -Wextra -Werror -pedantic -O1 "-I$top/include" -o "$folder/$out" "$top/checks/live/$source" "$@" "$archive" -pthread
}
linked handles handles.c "$top/examples/c/alloc.c" && linked together together.c || gives_up 'the drivers are not compiled'
programs=(--together "$folder/together")
echo 'int main(void) { return 0; }' >"$folder/empty.c"
for sanitizer in thread address,undefined; do
  if cc "-fsanitize=$sanitizer" -o "$folder/empty" "$folder/empty.c" 2>/dev/null && "$folder/empty" >/dev/null 2>&1; then
    linked "together-$sanitizer" together.c "-fsanitize=$sanitizer" && programs+=(--together "$folder/together-$sanitizer")
  else
    echo "$name: not tried, no sanitizers of cc (Debian package gcc): threads under $sanitizer"
  fi
done
python3 -B "$top/checks/handles.py" "$program" "$folder/handles" "${programs[@]}" "$@"
