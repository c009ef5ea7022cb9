#!/usr/bin/env bash
# install.sh PREFIX: copies the programs, under their product names, into PREFIX/bin, and the man pages and the
# completions of bash and zsh into PREFIX/share.
set -euo pipefail

usage="usage: install.sh PREFIX   (builds the programs if that is due; copies them, man pages and completions there)"
if [[ $# -eq 1 && ($1 == --help || $1 == -h) ]]; then
  printf '%s\n' "$usage"
  exit 0
fi
if [[ $# -ne 1 || -z $1 || $1 == -* ]]; then
  printf '%s\n' "$usage" >&2
  exit 2
fi
top=$(cd "$(dirname "$(readlink -f "${BASH_SOURCE[0]}")")" && pwd)
prefix=$1
# Whoever may read PREFIX can enter the folders, whatever the caller's mask is.
umask 022
folders=(bin share/man/man1 share/bash-completion/completions share/zsh/site-functions)

# check_prefix: stops before anything is built if a folder of PREFIX can't be written.
check_prefix() {
  local folder trial
  for folder in "${folders[@]}"; do
    if ! mkdir -p -- "$prefix/$folder" || ! trial=$(mktemp "$prefix/$folder/.asnc.XXXXXX"); then
      printf '%s\n' "install.sh: $prefix/$folder is not a folder that can be written to" >&2
      exit 1
    fi
    rm -f -- "$trial"
  done
}

# put MODE FROM TO: copies a file to its place below PREFIX.
put() {
  install -D -m "$1" -- "$2" "$prefix/$3"
  printf '%s\n' "$prefix/$3"
}

# place CRATE NAME: copies the program of a crate under a name.
place() {
  local built=$top/crates/$1/out/$1
  if [[ ! -x $built ]]; then
    printf '%s\n' "install.sh: $built is not there" >&2
    exit 1
  fi
  put 755 "$built" "bin/$2"
}

check_prefix
"$top/asnc" --help >/dev/null
"$top/octcheck" --help >/dev/null
place asnc_main asnc
place octcheck octcheck
for name in asnc octcheck; do
  put 644 "$top/man/$name.1" "share/man/man1/$name.1"
  put 644 "$top/completions/$name.bash" "share/bash-completion/completions/$name"
  put 644 "$top/completions/_$name" "share/zsh/site-functions/_$name"
done
