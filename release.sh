#!/usr/bin/env bash
# release.sh FILE.tar.gz: packs what install.sh installs, and the licence, for machines that have only the C library.
set -euo pipefail

usage="usage: release.sh FILE.tar.gz   (builds the programs if that is due; packs them, man pages and completions)"
if [[ $# -eq 1 && ($1 == --help || $1 == -h) ]]; then
  printf '%s\n' "$usage"
  exit 0
fi
if [[ $# -ne 1 || $1 == -* || $1 != *?.tar.gz ]]; then
  printf '%s\n' "$usage" >&2
  exit 2
fi
top=$(cd "$(dirname "$(readlink -f "${BASH_SOURCE[0]}")")" && pwd)
archive=$1

# check_archive: stops before anything is built if the archive can't be written.
check_archive() {
  if [[ -d $archive ]]; then
    printf '%s\n' "release.sh: $archive is a folder" >&2
    exit 1
  fi
  if ! new=$(mktemp "$archive.XXXXXX"); then
    printf '%s\n' "release.sh: $archive can not be written" >&2
    exit 1
  fi
}

# needed PROGRAM: the libraries that a program needs, one in each line.
needed() {
  readelf -d -- "$1" | sed -n 's/.*(NEEDED).*\[\(.*\)\].*/\1/p'
}

# check_program PROGRAM: stops if a program needs more than the C library.
check_program() {
  local libraries library
  libraries=$(needed "$1")
  for library in $libraries; do
    case $library in
      libc.so.* | libm.so.* | libpthread.so.* | libdl.so.* | ld-linux*.so.*) ;;
      *)
        printf '%s\n' "release.sh: ${1##*/} needs $library" >&2
        exit 1
        ;;
    esac
  done
}

# clean: removes what was made on the way.
clean() {
  rm -rf -- "${work:-}" "${new:-}"
}

new=
work=
trap clean EXIT
if ! command -v readelf >/dev/null; then
  printf '%s\n' "release.sh: the command readelf is needed, to see which libraries the programs ask for" >&2
  exit 3
fi
check_archive
work=$(mktemp -d)
"$top/install.sh" "$work/asnc" >/dev/null
install -m 644 -- "$top/LICENSE" "$work/asnc/LICENSE"
for program in "$work/asnc/bin"/*; do
  check_program "$program"
done
# The same files give the same archive: names in order, no owners, no times.
tar -C "$work" --sort=name --owner=0 --group=0 --numeric-owner --mtime=@0 -cf - asnc | gzip -n >"$new"
chmod 644 -- "$new"
mv -- "$new" "$archive"
new=
printf '%s\n' "$archive"
