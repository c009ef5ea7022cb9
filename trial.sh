#!/usr/bin/env bash
# Tries the wrong bodies of crates/NAME/trial, each in its own function, which the prover must refuse. It tries many of
# them in one check, on a copy of the crate outside this folder. Run `rt check` in a crate first: what it has proved is
# used again.
set -euo pipefail
export LC_ALL=C

top=$(cd "$(dirname "$(readlink -f "${BASH_SOURCE[0]}")")" && pwd)
usage="usage: trial.sh [--all] [--jobs N] [CRATE..]; trial.sh --table | --rows [CRATE..]"

# help: what the words mean.
help() {
  printf '%s\n' "$usage" "" \
    "Tries the edits crates/CRATE/trial/*.edit, of all crates if none is named, and prints a table: the crate, the" \
    "edit, the function that it changes, whether the prover refused it there, and the seconds of the check it was in." \
    "Edits of definitions are tried alone; a line 'with: CRATE' in one names the crate above whose check refuses it." \
    "The status is 1 if an edit passes, doesn't compile or can't be applied, and 2 for words that are not known." "" \
    "  --all      tries the edits of must-fail too, which rt ci tries" \
    "  --jobs N   lets a check have N jobs (1)" \
    "  --table    tries nothing; prints how many edits each crate has or, of the crates named, each edit: whether the" \
    "             gate or trial.sh tries it, the file that it changes first, and its line 'found:' if it has one" \
    "  --rows     tries nothing; prints which row needs which clause of a definition (crates/CRATE/trial/clauses.txt);" \
    "             the status is 1 if a row that is named there is in no file"
}

# refuse: says what is wrong with the words, and how they go.
refuse() {
  printf '%s\n' "trial.sh: $1" "$usage" >&2
  exit 2
}

# say: how far the trial is, on standard error.
say() {
  printf '%s\n' "trial: $*" >&2
}

# below CRATE: the libraries of the repository that a crate needs.
below() {
  awk -v crate="$1" '
    { sub(/#.*/, ""); if (split($0, part, ":") == 2) { split(part[1], name, " "); uses[name[1]] = part[2] } }
    END {
      todo[many = 1] = crate
      for (i = 1; i <= many; i++) {
        count = split(uses[todo[i]], low, " ")
        for (k = 1; k <= count; k++) {
          if (!(low[k] in uses) || low[k] in seen) continue
          seen[low[k]]
          todo[++many] = low[k]
          print low[k]
        }
      }
    }' "$top/crates.txt"
}

# copy CRATE PART: copies a crate's files into the room, with a part of what earlier checks kept.
copy() {
  local part
  mkdir -p "$room/crates/$1/out"
  for part in src specs proofs "$2"; do
    rm -rf "${room:?}/crates/$1/$part"
    if [[ -d $top/crates/$1/$part ]]; then
      cp -a "$top/crates/$1/$part" "$room/crates/$1/$part"
    fi
  done
}

# furnish CRATE: makes the room a repository of this crate and of those that it needs. What is there already stays.
furnish() {
  local crate low
  low=$(below "$1")
  for crate in $low; do
    [[ -d $room/crates/$crate ]] || copy "$crate" out/rlib
  done
  copy "$1" out/incremental
  awk -v kept=" $1 ${low//$'\n'/ } " '{ split($0, part, /[ :]/); if (index(kept, " " part[1] " ")) print }' \
    "$top/crates.txt" >"$room/crates.txt"
}

# prove CRATE: checks the crate in the room, and prints the last word of the verdict.
prove() {
  (cd "$room/crates/$1" && rt check --jobs "$jobs") >"$log" 2>&1 || true
  verdict=$(sed -n 's/^logic=\([a-z-]*\).*/\1/p' "$log" | tail -n 1)
}

# swap FILE OLD NEW: replaces OLD, which must be there once, by NEW. \n in them means a line end.
swap() {
  [[ -f $1 ]] || return 1
  OLD=${2//\\n/$'\n'} NEW=${3//\\n/$'\n'} awk '
    { text = text $0 "\n" }
    END {
      old = ENVIRON["OLD"]
      while ((at = index(text, old)) > 0) {
        printf "%s", substr(text, 1, at - 1) ENVIRON["NEW"]
        text = substr(text, at + length(old))
        found++
      }
      printf "%s", text
      exit found != 1
    }' "$1" >"$1.swapped" && mv "$1.swapped" "$1" && return 0
  rm -f "$1.swapped"
  return 1
}

# apply EDIT: makes the changes of an edit in the copy of its crate. A line 'found:', which says what the edit found,
# and a line 'with:' change nothing.
apply() {
  local line file='' old=''
  while IFS= read -r line || [[ -n $line ]]; do
    case $line in
      'file: '*) file=${line#file: } ;;
      'old: '*) old=${line#old: } ;;
      'new:'*)
        line=${line#new:}
        swap "$room/crates/$crate/$file" "$old" "${line# }" || return 1
        ;;
    esac
  done <"$folder/$1"
}

# places EDIT: each place that an edit changes, as file, number of line.
places() {
  local line file='' number
  while IFS= read -r line || [[ -n $line ]]; do
    case $line in
      'file: '*) file=${line#file: } ;;
      'old: '*)
        line=${line#old: }
        number=$(grep -nF -m 1 -e "${line%%\\n*}" "$folder/$file" | cut -d : -f 1) || true
        printf '%s %s\n' "$file" "${number:-0}"
        ;;
    esac
  done <"$folder/$1"
}

# function_at FILE LINE: the whole name of the function at this line, and the cycle of functions that it is in, or -. It
# prints nothing if there is no function at this line.
function_at() {
  local module=${1#src/} found cycle type name names
  module=${module%.rt}
  module=${module//\//::}
  [[ $module == lib || $module == main ]] && module=
  found=$(awk -v line="$2" '
    NR > line { exit }
    /^impl/ {
      type = $0
      sub(/ *\{.*/, "", type); sub(/^impl(<[^>]*>)? */, "", type); sub(/<\x27[^>]*>/, "", type)
    }
    /^}/ && !inside { type = "" }
    /^ *#\[cycle\(/ { cycle = $0; gsub(/.*\(|\).*/, "", cycle) }
    /^ *(pub(\([a-z]+\))? )?(const )?fn [a-z_0-9]+/ {
      match($0, /^ */); indent = RLENGTH
      if (!indent) type = ""
      name = $0
      sub(/^ *(pub(\([a-z]+\))? )?(const )?fn /, "", name); sub(/[^a-z_0-9].*/, "", name)
      inside = 1; its = cycle; cycle = ""
    }
    inside && NR < line && match($0, /^ *\}$/) && RLENGTH == indent + 1 { inside = 0 }
    END { if (inside) print (its == "" ? "-" : its), name, type }' "$folder/$1")
  [[ -n $found ]] || return 0
  read -r cycle name type <<<"$found"
  if [[ $type == *' for '* ]]; then
    type=${type##* for }${type%% for *}
  fi
  type=${type//[^A-Za-z0-9]/}
  names=$(grep -E "^$crate::${module:+$module::}([A-Za-z0-9_]+::)*$name\$" "$names_of" || true)
  if [[ $names == *$'\n'* ]]; then
    names=$(grep -F "::$type::$name" <<<"$names" || true)
  fi
  if [[ -n $names && $names != *$'\n'* ]]; then
    [[ $cycle == - ]] || cycle=$crate::${module:+$module::}+$cycle
    printf '%s %s\n' "$names" "$cycle"
  fi
}

# study EDIT: notes the functions that an edit changes, and whether it has to be tried alone.
study() {
  local file line found
  functions[$1]=
  units[$1]=
  while read -r file line; do
    found=
    if [[ $file == src/* && $line != 0 ]]; then
      found=$(function_at "$file" "$line")
    fi
    if [[ -n $found ]]; then
      functions[$1]+=" ${found%% *}"
      [[ $found == *' -' ]] || functions[$1]+=" ${found##* }"
      [[ $found == *' -' ]] && units[$1]+=" ${found%% *}" || units[$1]+=" ${found##* }"
    elif [[ $file != src/* ]]; then
      alone[$1]=definition
    fi
  done < <(places "$1")
  [[ -n ${functions[$1]} ]] || alone[$1]=${alone[$1]:-place}
}

# refused_in FUNCTION: whether the last check refused this function, or cycle of functions, for itself: a written answer
# broke, or a goal stayed open. What only waits for a function that it calls isn't refused.
refused_in() {
  local path=${1#"$crate"::}
  grep -F "proofs/${path//:://}/" "$log" | grep -v 'was not admitted' |
    grep -qE '^[^ ]+\.antt:[0-9]+:[0-9]+: error' && return 0
  grep -F "fn $1: " "$log" | grep -qE ': not proved$|did not prove'
}

# told_elsewhere: the first function that the last check refused for itself.
told_elsewhere() {
  local told
  told=$(sed -nE 's/^fn ([^ ]+): (not proved$|.*did not prove).*/\1/p' "$log" | head -n 1)
  [[ -n $told ]] ||
    told=$(sed -nE 's/^(\.\/)?(proofs|specs)\/([^:]+)\.antt:.*: error.*/\2\/\3/p' "$log" | head -n 1)
  printf '%s' "$told"
}

# is_unread: whether the last check could not read a definition, so that nothing was tried.
is_unread() {
  grep -E '^(\./)?(src|specs)/[^ ]+: error: ' "$log" | grep -vE 'error: `[^`]*`: ' | grep -q . && return 0
  grep -E '^(\./)?(src|specs)/[^ ]+: error: ' "$log" |
    grep -qE 'is not in scope|has no field|is no name|operand is missing|expected the end|cannot continue'
}

# tell EDIT FUNCTION ANSWER: adds a row to the table.
tell() {
  local name=${1##*/}
  rows+=("$crate"$'\t'"${name%.edit}"$'\t'"${2:--}"$'\t'"$3"$'\t'"$took")
  settled=$((settled + 1))
  [[ $3 == refused ]] || wrong=$((wrong + 1))
  unset "pending[$1]"
}

# first_function EDIT: the first function that an edit changes.
first_function() {
  local function
  for function in ${functions[$1]}; do
    printf '%s' "${function#"$crate"::}"
    break
  done
}

# judge_alone EDIT: what a check with this edit alone says of it.
judge_alone() {
  local function
  if [[ $verdict == proved ]]; then
    tell "$1" "$(first_function "$1")" PASSED
  elif [[ -z $verdict ]] && grep -qE '^(\./)?src/[^ ]+:[0-9]+:[0-9]+: error' "$log"; then
    tell "$1" "$(first_function "$1")" "DOESN'T COMPILE"
  elif [[ -z $verdict ]]; then
    tell "$1" "$(first_function "$1")" "NO VERDICT"
  elif [[ ${alone[$1]:-} == definition ]] && is_unread; then
    tell "$1" "$(told_elsewhere)" "CAN'T BE READ"
  else
    for function in ${functions[$1]}; do
      refused_in "$function" && tell "$1" "${function#"$crate"::}" refused && return 0
    done
    function=$(told_elsewhere)
    tell "$1" "${function#"$crate"::}" refused
  fi
}

# judge EDIT: what a check with several edits says of this one. What it doesn't settle is tried again alone. That is the
# case if its function was proved, or if the crate wasn't read to the end and the check names a file that the edit
# changes.
judge() {
  local function file line
  for function in ${functions[$1]}; do
    if [[ -n $verdict ]] && refused_in "$function"; then
      tell "$1" "${function#"$crate"::}" refused
      return 0
    fi
  done
  if [[ -n $verdict ]]; then
    for function in ${functions[$1]}; do
      ! grep -qxF "fn $function: proved" "$log" || alone[$1]=proved
    done
    return 0
  fi
  while read -r file line; do
    ! grep -qE "^(\./)?$file:[0-9]+:[0-9]+: error" "$log" || alone[$1]=broken
  done < <(places "$1")
}

# renew: puts the sources of the crate back, and what the first check kept.
renew() {
  local part
  for part in src specs proofs; do
    rm -rf "${room:?}/crates/$crate/$part"
    [[ ! -d $folder/$part ]] || cp -a "$folder/$part" "$room/crates/$crate/$part"
  done
  rm -rf "${room:?}/crates/$crate/out/incremental"
  cp -a "$kept" "$room/crates/$crate/out/incremental"
}

# fill: makes the changes of the next round: edits of different functions, or one that is to be tried alone.
fill() {
  local edit unit taken=' '
  round=()
  renew
  for edit in "${edits[@]}"; do
    [[ -n ${pending[$edit]:-} && -z ${alone[$edit]:-} ]] || continue
    for unit in ${units[$edit]}; do
      [[ $taken != *" $unit "* ]] || continue 2
    done
    if ! apply "$edit"; then
      alone[$edit]=place
      fill
      return 0
    fi
    round+=("$edit")
    taken+="${units[$edit]# } "
  done
}

# one_alone: makes the changes of one edit that is to be tried alone.
one_alone() {
  local edit
  for edit in "${edits[@]}"; do
    if [[ -n ${pending[$edit]:-} ]]; then
      round=("$edit")
      took=0
      apply "$edit" && return 0
      tell "$edit" - "CAN'T BE APPLIED"
      renew
    fi
  done
  return 1
}

# try_round: fills a round, checks it, and judges its edits.
try_round() {
  local edit began=$SECONDS before=$settled
  fill
  if [[ ${#round[@]} -eq 0 ]]; then
    one_alone || return 0
  fi
  prove "$crate"
  took=$((SECONDS - began))
  if [[ ${#round[@]} -eq 1 ]]; then
    judge_alone "${round[0]}"
    return 0
  fi
  for edit in "${round[@]}"; do
    judge "$edit"
  done
  say "$crate: a round of ${#round[@]} edits, $((settled - before)) settled, $took s"
  [[ $settled -eq $before ]] || return 0
  for edit in "${round[@]}"; do
    [[ -z ${alone[$edit]:-} ]] || return 0
  done
  for edit in "${round[@]}"; do
    alone[$edit]=waits
  done
}

# try_above EDIT: tries an edit that has a line "with: CRATE" by a check of that crate, which needs the edited one.
try_above() {
  local upper began=$SECONDS
  upper=$(sed -n 's/^with: //p' "$folder/$1")
  rm -rf "${room:?}"
  furnish "$upper"
  if apply "$1"; then
    prove "$upper"
    took=$((SECONDS - began))
    judge_alone "$1"
  else
    tell "$1" - "CAN'T BE APPLIED"
  fi
  rm -rf "${room:?}"
}

# list_edits: notes the crate's edits, of its folder trial and with --all of must-fail too.
list_edits() {
  local edit
  edits=() above=() pending=() alone=() functions=() units=()
  for edit in "$folder"/trial/*.edit ${all:+"$folder"/must-fail/*.edit}; do
    [[ -f $edit ]] || continue
    edit=${edit#"$folder/"}
    edits+=("$edit")
    if grep -q '^with: ' "$folder/$edit"; then
      above+=("$edit")
    else
      pending[$edit]=yes
    fi
  done
}

# try_crate CRATE: tries the edits of a crate, in rounds.
try_crate() {
  local edit
  crate=$1
  folder=$top/crates/$crate
  list_edits
  [[ ${#edits[@]} -gt 0 ]] || return 0
  furnish "$crate"
  prove "$crate"
  if [[ $verdict != proved ]]; then
    printf '%s\n' "trial.sh: $crate is not proved without an edit, so no edit of it was tried" >&2
    tail -n 5 "$log" >&2
    unproved+=("$crate")
    return 0
  fi
  mv "$room/crates/$crate/out/incremental" "$kept"
  sed -nE 's/^fn ([^ ]+): .*/\1/p' "$log" >"$names_of"
  for edit in "${edits[@]}"; do
    study "$edit"
  done
  while [[ ${#pending[@]} -gt 0 ]]; do
    try_round
  done
  for edit in "${above[@]}"; do
    try_above "$edit"
  done
  rm -rf "$kept" "${room:?}/crates/$crate"
}

# table: what was tried, how many, and the seconds that it took and that processors worked.
table() {
  local row many=${#rows[@]} worked
  for row in "${rows[@]}"; do
    printf '%s\n' "$row"
  done | awk -F '\t' '{ printf "%-11s %-46s %-44s %-18s %5d s\n", $1, $2, $3, $4, $5 }'
  times >"$log"
  worked=$(awk -F '[ms ]+' 'NR == 2 { printf "%.0f", 60 * ($1 + $3) + $2 + $4 }' "$log")
  printf '%s\n' "trial: $many edits, $((many - wrong)) refused, $wrong not; $SECONDS s, $worked processor seconds"
}

# edits_of CRATE: the files of a crate's edits, those of the gate first.
edits_of() {
  find "$top/crates/$1/must-fail" "$top/crates/$1/trial" -name '*.edit' 2>/dev/null | sort || true
}

# count_edits: how many edits each crate has, in the gate and in trial, and how many of these change a definition first.
count_edits() {
  local name
  printf '%-20s %8s %8s %15s\n' crate gate trial 'of definitions'
  for name in "${crates[@]}"; do
    edits_of "$name"
  done | xargs -r -s 1000000 awk '
    FNR == 1 { count = split(FILENAME, part, "/"); name = part[count - 2]; kind = part[count - 1]; first = 1 }
    /^file: / && first {
      first = 0
      number[name, kind]++
      if ($2 ~ /^(specs|proofs)\//) definitions[name]++
      if (!(name in seen)) { seen[name]; names[++many] = name }
    }
    END {
      for (i = 1; i <= many; i++) {
        name = names[i]
        printf "%-20s %8d %8d %15d\n", name, number[name, "must-fail"], number[name, "trial"], definitions[name]
        gate += number[name, "must-fail"]; trial += number[name, "trial"]; all += definitions[name]
      }
      printf "%-20s %8d %8d %15d\n", "all", gate, trial, all
    }'
}

# show_edits: each edit of the crates that are named: who tries it, the file that it changes first, and what was found.
show_edits() {
  local name
  for name in "${crates[@]}"; do
    edits_of "$name"
  done | xargs -r -s 1000000 awk '
    function show() { if (name != "") printf "%-16s %-6s %-46s %-24s %s\n", crate, kind, name, file, found }
    FNR == 1 {
      show()
      count = split(FILENAME, part, "/")
      crate = part[count - 2]; kind = part[count - 1] == "trial" ? "trial" : "gate"
      name = part[count]; sub(/\.edit$/, "", name)
      file = ""; found = ""
    }
    /^file: / && file == "" { file = $2 }
    /^found: / { found = substr($0, 8) }
    END { show() }'
}

# row_names: the names of all rows: lemmas, laws and rows of data; and those of crates, files of rows and edits.
row_names() {
  find "$top/crates" -name out -prune -o \( -name '*.antt' -o -name '*.rt' \) -print0 |
    xargs -0 sed -nE "s/^ *((pub|abbrev) )*([a-z][A-Za-z0-9_']*) :.*/\3/p; s/^ *(pub )?fn ([a-z_0-9]+).*/\2/p"
  sed -nE 's/^=== //p' "$top"/crates/*/data/{,*/}*.rows | tr ' ' '\n'
  printf '%s\n' "$top"/crates/* "$top"/crates/*/data/{,*/}*.rows "$top"/crates/*/trial/*.edit | sed -E 's/.*\///; s/\.[a-z]+$//'
}

# show_rows: which rows need which clause, and the status 1 where a row that is named is in no file.
show_rows() {
  local name lost
  for name in "${crates[@]}"; do
    if [[ -f $top/crates/$name/trial/clauses.txt ]]; then
      cat "$top/crates/$name/trial/clauses.txt"
    fi
  done
  lost=$(for name in "${crates[@]}"; do
    cat "$top/crates/$name/trial/clauses.txt" 2>/dev/null || true
  done | grep -v '^#' | sed -E 's/^[^|]*//' | grep -oE "\b[a-z0-9]+([-_][a-z0-9']+)+\b" | sort -u |
    comm -23 - <(row_names | sort -u))
  [[ -n $lost ]] || return 0
  printf '%s\n' "trial.sh: no row has one of these names:" "$lost" >&2
  return 1
}

all= jobs=1 show= crates=()
while [[ $# -gt 0 ]]; do
  case $1 in
    --help) help && exit 0 ;;
    --all) all=yes ;;
    --table | --rows) show=${1#--} ;;
    --jobs)
      [[ ${2:-} =~ ^[1-9][0-9]?$ ]] || refuse "--jobs takes a number"
      jobs=$2
      shift
      ;;
    -*) refuse "no option '$1'" ;;
    *)
      [[ $1 =~ ^[a-z_0-9]+$ && -d $top/crates/$1/src ]] || refuse "no crate '$1'"
      crates+=("$1")
      ;;
  esac
  shift
done
named=${#crates[@]}
if [[ $named -eq 0 ]]; then
  mapfile -t crates < <(sed -nE 's/#.*//; s/^([a-z_0-9]+).*:.*/\1/p' "$top/crates.txt")
fi
case $show in
  rows)
    show_rows
    exit
    ;;
  table)
    [[ $named -eq 0 ]] || show_edits
    count_edits
    exit
    ;;
esac
command -v rt >/dev/null || refuse "the command rt of the Rattle kit is needed"

work=$(mktemp -d)
trap 'rm -rf "$work"' EXIT
trap 'table; exit 1' INT TERM
room=$work/room kept=$work/kept log=$work/log names_of=$work/names
declare -A pending alone functions units
rows=() unproved=() edits=() above=() round=() wrong=0 settled=0 took=0
for crate in "${crates[@]}"; do
  try_crate "$crate"
done
table
[[ $wrong -eq 0 && ${#unproved[@]} -eq 0 ]]
