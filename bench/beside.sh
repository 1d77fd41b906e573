#!/usr/bin/env bash
# This program beside an earlier one, on one computer: instructions, seconds, peak memory, and whether both write the same.
#
#     bench/beside.sh [--shapes] [--commands NAME,..] [--instructions|--seconds] EARLIER [MEGABYTES [SIZE..]]
#
# --help says what each argument is. No part of the gate.
set -eu
top=$(cd "$(dirname "$0")/.." && pwd)
command -v python3 >/dev/null 2>&1 || { echo 'beside: no python3 (Debian package python3)' >&2; exit 1; }
exec python3 -B "$top/bench/beside.py" "$@"
