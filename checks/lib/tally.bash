# For the scripts of this folder: counts what a check tried, says what it could not try, and ends it.
name=$(basename "$0" .sh)
passed=0 failed=0

# Passes if the two texts are equal. A check that has failed 20 times, and passed nothing, ends, as with tally.py.
holds() { # WHAT FOUND WANTED
  if [ "$2" = "$3" ]; then
    passed=$((passed + 1))
    return
  fi
  failed=$((failed + 1))
  printf '%s:\n  %s\nand not\n  %s\n' "$1" "$2" "$3"
  if [ "$passed" -eq 0 ] && [ "$failed" -ge 20 ]; then
    echo "$name: nothing passed so far, and the rest is not tried"
    ends
  fi
}

# Ends the check if the rest cannot be tried since something is wrong.
gives_up() { # WHY
  failed=$((failed + 1))
  echo "$name: $1"
  ends
}

# How long to wait by the clock for what takes an idle machine so many seconds: twice that, and as much again for each process that
# waits for a processor. machine.py has the same for Python.
patience() { # SECONDS
  local load=0 processors
  processors=$(nproc 2>/dev/null) || processors=1
  { read -r load _ </proc/loadavg; } 2>/dev/null
  echo $((2 * $1 * (processors + ${load%.*}) / processors))
}

# Prints the last line, and ends the check.
ends() {
  echo "$name: $passed passed, $failed failed"
  [ "$failed" -eq 0 ] && [ "$passed" -gt 0 ]
  exit
}

# Ends the script if a tool is not there.
wants() { # TOOL PACKAGE
  ! command -v "$1" >/dev/null 2>&1 || return 0
  skips "$1" "$2"
}

# Ends the script for want of a tool.
skips() { # TOOL PACKAGE
  echo "$name: skipped, no $1 (Debian package $2)"
  exit 77
}

# Ends the script if cc is not there, or has no headers of the C library: gcc only recommends the package that has them.
wants_cc() {
  wants cc gcc
  echo '#include <dlfcn.h>' | cc -E -o /dev/null - 2>/dev/null || skips dlfcn.h libc6-dev
}

# Ends the script for want of an archive of the C library that is of these sources; else `archive` is its path.
# `top` is set by program.bash.
wants_archive() {
  . "$top/tools/archive.bash"
  archive=$(find_archive "$top") && return 0
  echo "$name: skipped, no archive of these sources (rt lib in crates/interlaken_c makes it)"
  exit 77
}

# Whether verilator is there, of version 5 or later: it is the first that runs a bench with delays.
has_verilator() {
  case $(verilator --version 2>/dev/null) in
    'Verilator '[5-9]* | 'Verilator '[1-9][0-9]*) ;;
    *) return 1 ;;
  esac
}

# Whether a tool is not there that a part of the check needs, which is then told.
lacks() { # TOOL PACKAGE PART
  ! command -v "$1" >/dev/null 2>&1 || return 1
  echo "$name: not tried, no $1 (Debian package $2): $3"
}
