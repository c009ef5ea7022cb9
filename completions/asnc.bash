# bash completion of asnc: its subcommands, its words, and the names of files. It doesn't run the program.

# _asnc: the words that can be at the place of the cursor.
_asnc() {
  local current=${COMP_WORDS[COMP_CWORD]}
  local before=${COMP_WORDS[COMP_CWORD - 1]}
  COMPREPLY=()
  if [[ $COMP_CWORD -eq 1 ]]; then
    mapfile -t COMPREPLY < <(compgen -W 'der ber uper unper account list later show --help -h --version -V' -- "$current")
    return
  fi
  local words
  case ${COMP_WORDS[1]} in
    der) words='--type --value --notation --lines --raw --context --help -h' ;;
    uper) words='--type --value --notation --lines --raw --context --help -h' ;;
    account) words='--type --value --notation --context --help -h' ;;
    ber) words='--type --hex --lines --strict --context --help -h' ;;
    unper) words='--type --hex --lines --context --help -h' ;;
    show) words='--type --hex --context --help -h' ;;
    list) words='--context --help -h' ;;
    later) words='--type --newer --context --help -h' ;;
    *) return ;;
  esac
  if [[ $before == --type || $before == --value || $before == --notation || $before == --hex ]]; then
    return
  fi
  if [[ $current == -* ]]; then
    mapfile -t COMPREPLY < <(compgen -W "$words" -- "$current")
    return
  fi
  compopt -o filenames 2>/dev/null
  mapfile -t COMPREPLY < <(compgen -f -- "$current")
}

complete -F _asnc asnc
