#!/usr/bin/env bash
# Makes tables of lanes as logic analysers and benches write them, and has tools/lanes make the lanes of them by recipes; mutates such
# tables and captures, of which tools/lanes and tools/pcap then take what is whole, or tell the fault in one line.
set -u
top=$(cd "$(dirname "${BASH_SOURCE[0]}")/.." && pwd)
. "$top/checks/lib/tally.bash"
wants python3 python3
[ -d "$top/tools/lib/lanes" ] || gives_up 'there is no tools/lib/lanes'
exec python3 -B "$top/checks/tables.py" "$top"
