#!/usr/bin/env bash
# Compares the project's checksums with a public catalogue of CRCs (Debian package python3-crccheck): the CRC24 of words of `burst`, the
# checksum of samples of `oobwrite`, the CRC32 of lanes of `send`, and both CRCs of tools/lib/reading. The CRC32 has another bit order than
# in the catalogue.
set -u
. "$(dirname "$0")/lib/program.bash"
wants python3 python3
for python in python3 /usr/bin/python3; do
  ! "$python" -c 'import crccheck.crc' 2>/dev/null || exec "$python" -B "$top/checks/catalogue.py" "$program" "$top"
done
skips crccheck python3-crccheck
