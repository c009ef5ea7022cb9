#!/usr/bin/env bash
# Counts the instructions that encoding and decoding take, by valgrind's callgrind: those of the calls write_der and
# read_ber in the program rows, which measures after the word bench, for a call or for each of its members. The counts
# don't depend on what else the machine does, and what the program does besides isn't counted. The program repeats its
# work for its own times, so this takes some minutes.
set -euo pipefail

usage="usage: count.sh [--program FILE]   (counts the instructions of the codec, by valgrind)
  --program: another executable of rows than the proved one, which is built if it is missing"
top=$(dirname "$(readlink -f "${BASH_SOURCE[0]}")")
crate=$top/crates/rows
program=$crate/out/rows
if [[ ${1:-} == --help || ${1:-} == -h ]]; then
  printf '%s\n' "$usage"
  exit 0
fi
if [[ ${1:-} == --program && $# -eq 2 ]]; then
  if [[ ! -x $2 ]]; then
    printf 'count.sh: no executable %s\n' "$2" >&2
    exit 2
  fi
  program=$(readlink -f "$2")
  shift 2
fi
if [[ $# -ne 0 ]]; then
  printf '%s\n' "$usage" >&2
  exit 2
fi
[[ -x $program ]] || (cd "$crate" && mapfile -t words <args && rt run -- "${words[@]}" >/dev/null)
folder=$(mktemp -d)
trap 'rm -rf "$folder"' EXIT
cp "$crate"/data/bench/*.asn "$folder/"
"$top/bench" --write "$folder" --only 50000 codec >/dev/null
cd "$folder"

# run WORDS..: measures the value that the words name, and leaves the counts of all calls in the file counts.
run() {
  if ! valgrind --tool=callgrind --callgrind-out-file=counts "$program" bench codec "$@" >said 2>log </dev/null; then
    cat log >&2
    exit 1
  fi
}

# taken FUNCTIONS MEMBERS: the instructions of one call of each function, added up, for each of the members.
taken() {
  awk -v wanted=" $1 " -v members="$2" '
    match($0, /^c?fn=\([0-9]+\)/) {
      id = substr($0, index($0, "("), RLENGTH - index($0, "(") + 1)
      if (length($0) > RLENGTH) names[id] = substr($0, RLENGTH + 2)
      called = names[id]
    }
    /^calls=/ {
      count = substr($1, 7)
      getline
      if (index(wanted, " " called " ")) { calls[called] += count; cost[called] += $2 }
    }
    END {
      for (one in calls) sum += cost[one] / calls[one] / members
      if (sum) printf "%d", sum + 0.5; else printf "-"
    }' counts
}

# What write_der calls: it is a part of its caller itself.
writing="der_layout::encoding::encode octet_account::account::Account::of"
printf '%-46s%10s%10s\n' "instructions" written read
while IFS=: read -r members name words; do
  # shellcheck disable=SC2086 # the words have no blanks in them
  run $words
  printf '%-46s%10s%10s\n' "$name" "$(taken "$writing" "$members")" "$(taken ber_reader::read::read_ber "$members")"
done <<'ROWS'
50000:an element of a SEQUENCE OF small SEQUENCEs:rows-50000 -- Long.R Long.rows-50000
50000:an INTEGER in a SEQUENCE OF:numbers-50000 -- Long.N Long.numbers-50000
50000:an INTEGER in a SET OF of 50,000:set-50000 -- Long.S Long.set-50000
1:a response of SNMPv1, 602 octets:snmp.asn x509.asn messages.asn -- SNMPv1.Message Messages.walk
1:a tbsCertificate, 898 octets:snmp.asn x509.asn messages.asn -- PKIX.TBSCertificate Messages.harbour
ROWS
