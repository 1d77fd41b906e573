# For tools/library and the checks of the C library: where the archive of these sources is.
. "$(dirname "${BASH_SOURCE[0]}")/sources.bash"

# Whether the archive of the release is of these sources, whole, and for this machine.
is_released() { # FOLDER
  local sum
  [ "$(uname -sm)" = 'Linux x86_64' ] && (cd "$1/release" && sha256sum --status -c "${library_release##*/}.sha256") 2>/dev/null &&
    read -r sum 2>/dev/null <"$1/release/library_sources.sha256" && [ "$sum" = "$(sum_of_sources "$1" "$library")" ]
}

# Prints the path of an archive of these sources: what was built in this checkout, if it is not older than a file that it is built
# of, or else that of the release. A status that is not 0 if there is neither.
find_archive() { # FOLDER
  local built=$1/crates/$library/out/lib$library.a
  if [ -f "$built" ] && ! is_older "$built" "$1" "$library"; then
    echo "$built"
  else
    is_released "$1" && echo "$1/$library_release"
  fi
}
