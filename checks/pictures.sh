#!/usr/bin/env bash
# Draws the examples, three generated cases, a link of 64 lanes and the tour by tools/picture, and compares the lanes, packets, spans and
# peaks of the pictures with the program's output; then gives it missing, odd and foreign files.
set -u
. "$(dirname "$0")/lib/program.bash"
wants python3 python3
if ! python3 -c 'import csv, xml.etree.ElementTree' 2>/dev/null; then
  echo "pictures: skipped, no library of python3 for XML (Debian package libpython3-stdlib)"
  exit 77
fi
exec python3 -B "$top/checks/pictures.py" "$program" "$top"
