#!/usr/bin/env bash
# Processor seconds and peak memory of each command, with md5sum over the same capture in the same run.
# Arguments: the megabytes of the capture, 100 if none are given, and then the sizes of its packets, 1514 and 64.
# No part of the gate: the numbers depend on the machine.
set -eu
case ${1:-} in -h | --help)
  sed -n '2,/^set/s/^# //p' "$0"
  exit
  ;;
esac
top=$(cd "$(dirname "$0")/.." && pwd)
program=${INTERLAKEN_PROGRAM:-$(INTERLAKEN_WHICH=1 "$top/interlaken")}
exec python3 -B "$top/bench/measure.py" "$program" "$@"
