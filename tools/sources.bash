# For the launcher, tools/release, tools/archive.bash and their checks: the sources of the program and of the C library, and their sums.
main=interlaken_main
release=release/interlaken-x86_64-linux
library=interlaken_c
library_release=release/libinterlaken-x86_64-linux.a

# The lines of crates.txt of a crate and of those that it stands on. A line begins with the crate's name, and maybe its kind, before a
# colon.
lines_of_crates() { # FOLDER CRATE
  awk -v main="$2" '
    /^[a-z]/ {
      name = uses = $0
      sub(/[ :].*/, "", name)
      sub(/^[^:]*:/, "", uses)
      line[name] = $0; below[name] = uses; order[++count] = name
    }
    END {
      wanted[main] = 1
      do {
        more = 0
        for (i = 1; i <= count; i++) {
          if (!(order[i] in wanted)) continue
          words = split(below[order[i]], used, / +/)
          for (k = 1; k <= words; k++) if ((used[k] in line) && !(used[k] in wanted)) { wanted[used[k]] = 1; more = 1 }
        }
      } while (more)
      for (i = 1; i <= count; i++) if (order[i] in wanted) print line[order[i]]
    }' "$1/crates.txt"
}

# Sets lines to these lines of the program or of another crate, and parts to the folders of these crates that are proved and built.
find_parts() { # FOLDER [CRATE]
  local line part
  mapfile -t lines < <(lines_of_crates "$1" "${2:-$main}")
  parts=()
  for line in "${lines[@]}"; do
    for part in "crates/${line%%[: ]*}"/{src,specs,proofs}; do
      [ ! -d "$1/$part" ] || parts+=("$part")
    done
  done
}

# Prints the code of source files, each behind a line of its name: without comments, empty lines and blanks at ends of lines, as
# `without_comments` of checks/lib/tried.py does. A text or a character may look like a comment, and a block comment may hold others.
code_in() { # FILE..
  LC_ALL=C awk '
    function put(line) {
      sub(/[ \t\r]+$/, "", line)
      if (line != "") print " " line
    }
    # Puts what is held with the rest of a line that ends within a text.
    function put_text(rest) {
      print " " held rest
      held = ""
    }
    # Reads on in a comment that may hold others; returns what is behind it.
    function comment(rest) {
      while (depth && match(rest, /\/\*|\*\//)) {
        depth += substr(rest, RSTART, 1) == "/" ? 1 : -1
        rest = substr(rest, RSTART + 2)
      }
      if (!depth) held = held " "
      return depth ? "" : rest
    }
    # Holds a text up to its end; returns what is behind it.
    function text(rest,    long) {
      if (raw) long = index(rest, closes) ? index(rest, closes) + length(closes) - 1 : 0
      else long = match(rest, /^([^"\\]|\\.)*"/) ? RLENGTH : 0
      if (!long) {
        put_text(rest)
        return ""
      }
      held = held substr(rest, 1, long)
      closes = ""
      return substr(rest, long + 1)
    }
    # Holds code up to the next text, character or comment; returns what is behind its beginning.
    function code(rest,    first, begins, long) {
      if (!match(rest, /"|\047([^\047\\]|[\300-\377][\200-\277]+|\\[^\047]+|\\\047)\047|\/\/|\/\*/)) {
        held = held rest
        return ""
      }
      begins = RSTART
      long = RLENGTH
      first = substr(rest, begins, 2)
      held = held substr(rest, 1, begins - 1)
      if (first == "//") return ""
      if (first == "/*") depth = 1
      else {
        if (substr(first, 1, 1) == "\"") {
          raw = match(held, /(^|[^A-Za-z0-9_])b?r#*$/)
          closes = raw ? substr(held, RSTART) : ""
          gsub(/[^#]/, "", closes)
          closes = "\"" closes
        }
        held = held substr(rest, begins, long)
      }
      return substr(rest, begins + long)
    }
    function rattle(rest) {
      do {
        if (depth) rest = comment(rest)
        else if (closes != "") rest = text(rest)
        else rest = code(rest)
      } while (rest != "")
      if (closes != "" && held != "") put_text("")
      else if (!depth && closes == "") {
        put(held)
        held = ""
      }
    }
    function ends() {
      put(held)
      held = closes = ""
      depth = 0
    }
    FNR == 1 { ends(); print "file " FILENAME; is_rattle = FILENAME ~ /\.rt$/ }
    is_rattle && !depth && closes == "" && $0 !~ /["\047\/]/ { put(held $0); held = ""; next }
    is_rattle { rattle($0); next }
    { sub(/(^|[ \t])--([ \t].*)?$/, ""); put($0) }
    END { ends() }' "$@"
}

# SHA-256 of all that the program, or another crate, is built of: the crates' lines, what HANDLES allows, and each file's name and code;
# of a file that is no source its SHA-256. Nothing, and a status that is not 0, where a file cannot be read.
sum_of_sources() { # FOLDER [CRATE]
  local lines parts sum
  find_parts "$@"
  sum=$(
    set -o pipefail
    cd "$1" && {
      printf '%s\n' "${lines[@]}" && cat HANDLES && find "${parts[@]}" -type f -print | LC_ALL=C sort &&
        find "${parts[@]}" -type f \( -name '*.rt' -o -name '*.antt' \) -print0 | LC_ALL=C sort -z | code_of_list &&
        find "${parts[@]}" -type f ! -name '*.rt' ! -name '*.antt' -print0 | LC_ALL=C sort -z | xargs -0 -r sha256sum
    } | sha256sum
  ) && echo "${sum%% *}"
}

# The code of the files whose names are read, each with a zero byte at its end.
code_of_list() {
  local files
  mapfile -d '' files
  [ ${#files[@]} -eq 0 ] || code_in "${files[@]}"
}

# Whether a file that was built of the program's sources, or of those of another crate, is older than one of them.
is_older() { # FILE FOLDER [CRATE]
  local lines parts
  find_parts "$2" "${3:-$main}"
  [ -n "$(cd "$2" && find crates.txt HANDLES "${parts[@]}" -newer "$1" -print -quit)" ]
}
