# For the scripts of this folder that try the program: what tally.bash has, top for the repository, and program for what
# INTERLAKEN_PROGRAM names, or else for what ./interlaken would run, which it builds if it has to.
top=$(cd "$(dirname "${BASH_SOURCE[0]}")/../.." && pwd)
. "$top/checks/lib/tally.bash"
program=${INTERLAKEN_PROGRAM:-$(INTERLAKEN_WHICH=1 "$top/interlaken")}
[ ! -e "$program" ] || program=$(readlink -f "$program")
[ -x "$program" ] || gives_up 'there is no program to try'
