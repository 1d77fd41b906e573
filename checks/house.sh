#!/usr/bin/env bash
# Checks that crates.txt and the lists of proofs say which crates use which, that each crate has its row in CRATES and its place in the
# picture of layers, and that each definition exists once, except for those in twice.csv.
set -u
top=$(cd "$(dirname "${BASH_SOURCE[0]}")/.." && pwd)
. "$top/checks/lib/tally.bash"
wants python3 python3
exec python3 -B "$top/checks/house.py" "$top"
