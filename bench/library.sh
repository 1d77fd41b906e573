#!/usr/bin/env bash
# Processor seconds of the C library over the lanes of bench/run.sh, in pieces of several sizes, beside `receive` of the same lanes.
# Arguments: the megabytes of the capture, 100 if none are given, and the size of its packets, 1514. No part of the gate.
set -eu
case ${1:-} in -h | --help)
  sed -n '2,/^set/s/^# //p' "$0"
  exit
  ;;
esac
top=$(cd "$(dirname "$0")/.." && pwd)
program=${INTERLAKEN_PROGRAM:-$(INTERLAKEN_WHICH=1 "$top/interlaken")}
exec python3 -B "$top/bench/library.py" "$program" "$@"
