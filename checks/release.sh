#!/usr/bin/env bash
# Checks that release/ belongs to this tree: its program is whole, runs, and is byte for byte the program that the gate built, and its
# archive of the C library too; its sums are those of the sources. Another kit may build other bytes, so then its build is not compared.
# INTERLAKEN_BUILT names the program of the gate; without it a program or archive that was built in this checkout counts if it is not older
# than its sources.
set -u
top=$(cd "$(dirname "${BASH_SOURCE[0]}")/.." && pwd)
. "$top/checks/lib/tally.bash"
. "$top/tools/sources.bash" || gives_up 'there is no tools/sources.bash'
cd "$top" || exit 1
built=${INTERLAKEN_BUILT:-}
if [ -z "$built" ] && [ -x "crates/$main/out/$main" ] && ! is_older "crates/$main/out/$main" .; then
  built=crates/$main/out/$main
fi
archive=crates/$library/out/lib$library.a

holds 'the SHA-256 of the program' "$(cd release && sha256sum "${release##*/}" 2>&1)" "$(cat "$release.sha256" 2>&1)"
holds 'the sum of the sources (after a change tools/release makes another)' "$(sum_of_sources .)" "$(cat release/sources.sha256 2>&1)"
if [ -f "$library_release" ]; then
  holds 'the SHA-256 of the archive' "$(cd release && sha256sum "${library_release##*/}" 2>&1)" "$(cat "$library_release.sha256" 2>&1)"
  holds "the sum of the C library's sources" "$(sum_of_sources . "$library")" "$(cat release/library_sources.sha256 2>&1)"
else
  echo "release: not tried, no archive in the release: whether it is whole and of these sources"
fi
kit=$(rt version 2>/dev/null) || kit=
holds 'the kit that made the release has a name' "$(grep -c . release/kit 2>&1)" 1
same_kit=
[ -n "$kit" ] && [ "$kit" != "$(cat release/kit 2>&1)" ] || same_kit=yes
if [ -z "$same_kit" ]; then
  echo "release: not tried, no kit $(cat release/kit) but $kit: whether what was built here is the release byte for byte"
elif [ -f "$library_release" ] && [ -f "$archive" ] && ! is_older "$archive" . "$library"; then
  holds 'the archive that was built, beside that of the release' "$(cmp "$archive" "$library_release" 2>&1)" ''
else
  echo "release: not tried, no archive that the gate has built here, or none in the release: whether these are one"
fi
if [ "$(uname -sm)" != 'Linux x86_64' ]; then
  echo "release: not tried, no Linux on x86-64: the program of the release"
  ends
fi
text=$("$release" 2>&1 </dev/null)
holds 'the program without words, which prints its usage' "$? ${text%%:*}" '2 usage'
if [ -z "$same_kit" ]; then
  :
elif [ -n "$built" ]; then
  holds 'the program that was built, beside that of the release' "$(cmp "$built" "$release" 2>&1)" ''
else
  echo "release: not tried, no program that the gate has built here: whether the release is that program"
fi
ends
