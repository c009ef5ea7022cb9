# bash completion of octcheck: its words, and the names of files. It doesn't run the program.

# _octcheck: the words that can be at the place of the cursor.
_octcheck() {
  local current=${COMP_WORDS[COMP_CWORD]}
  local before=${COMP_WORDS[COMP_CWORD - 1]}
  COMPREPLY=()
  if [[ $before == --type || $before == --value || $before == --notation || $before == --hex ]]; then
    return
  fi
  if [[ $current == -* ]]; then
    mapfile -t COMPREPLY < <(compgen -W '--type --value --notation --hex --account --context --help -h --version -V' -- "$current")
    return
  fi
  compopt -o filenames 2>/dev/null
  mapfile -t COMPREPLY < <(compgen -f -- "$current")
}

complete -F _octcheck octcheck
