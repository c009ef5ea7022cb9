#!/usr/bin/env bash
# Runs each command that README.md and docs/TOUR.md show after "$ ./asnc" or "$ ./octcheck", and compares what it prints
# with what they show.
set -euo pipefail

usage="usage: tour.sh [PAGE..]   (runs the commands of these pages, README.md and docs/TOUR.md if none is named)"
if [[ $# -eq 1 && ($1 == --help || $1 == -h) ]]; then
  printf '%s\n' "$usage"
  exit 0
fi
top=$(dirname "$(readlink -f "${BASH_SOURCE[0]}")")
pages=()
for page in "$@"; do
  if [[ $page == -* ]]; then
    printf '%s\n' "$usage" >&2
    exit 2
  fi
  if [[ ! -f $page ]]; then
    printf '%s\n' "tour.sh: $page is not there" >&2
    exit 2
  fi
  pages+=("$(readlink -f -- "$page")")
done
[[ $# -gt 0 ]] || pages=("$top/README.md" "$top/docs/TOUR.md")
cd "$top"
ran=0
failed=0
command=
shown=

# check: runs the command at hand, if there is one, and compares.
check() {
  [[ -n $command ]] || return 0
  local printed
  printed=$(eval "$command" 2>&1) || true
  ran=$((ran + 1))
  if [[ $printed != "${shown%$'\n'}" ]]; then
    failed=$((failed + 1))
    printf '%s\n' "tour: $command" "shown:" "${shown%$'\n'}" "printed:" "$printed" >&2
  fi
  command=
  shown=
}

# run_page PAGE: runs the commands of a page.
run_page() {
  local line indent=
  while IFS= read -r line; do
    if [[ $line == '    $ '* ]]; then
      indent='    '
    elif [[ $line == '$ '* ]]; then
      indent=
    fi
    line=${line#"$indent"}
    if [[ $line == '$ '*'./asnc '* || $line == '$ '*'./octcheck '* ]]; then
      check
      command=${line#\$ }
    elif [[ -z $line || $line == '```'* || $line == '$ '* ]]; then
      check
    elif [[ -n $command ]]; then
      shown+=$line$'\n'
    fi
  done <"$1"
  check
}

./asnc --help >/dev/null
./octcheck --help >/dev/null
names=
for page in "${pages[@]}"; do
  run_page "$page"
  names+="${names:+ and }$(basename "$page")"
done
printf '%s\n' "tour: $ran commands of $names, $failed differ"
[[ $ran -gt 0 && $failed -eq 0 ]]
