#!/usr/bin/env bash
# Prints how long the program takes to open modules of growing size. Some are ordinary ones, and some cost a careless
# front end more than their length. The time is the least processor time of five runs, in milliseconds. The memory is
# the most that one more run had resident, in megabytes, if /usr/bin/time can measure it. Both grow in line with the
# text. The texts named short are those that take most memory for their octets. If the program rows is built, this runs
# ./bench bounds: it prints how long constraints take, among them one of 60,000 numbers, how long it takes to type the
# notation of a long value, and to print its value. Then it prints how long it takes to open and to settle modules full
# of types, values and DEFAULTs, and how long to compare two of their types. Each is one run, in milliseconds.
set -euo pipefail

if [[ $# -eq 1 && ($1 == --help || $1 == -h) ]]; then
  printf '%s\n' "usage: open_time.sh   (says how long the program takes to open modules of growing size)"
  exit 0
fi
if [[ $# -ne 0 ]]; then
  printf '%s\n' "usage: open_time.sh" >&2
  exit 2
fi
here=$(dirname "$(readlink -f "${BASH_SOURCE[0]}")")
"$here/asnc" --help >/dev/null
program=$here/crates/asnc_main/out/asnc_main
file=$(mktemp)
newer=$(mktemp)
most=$(mktemp)
trap 'rm -f "$file" "$newer" "$most"' EXIT

# in_module: the lines of standard input, as a module of a text.
in_module() {
  printf '%s\n' "M DEFINITIONS ::= BEGIN"
  cat
  printf '%s\n' "END"
}

# records N: N type assignments, each a SEQUENCE of three, and one value.
records() {
  awk -v n="$1" 'BEGIN {
    print "Flag ::= BOOLEAN"
    for (i = 1; i < n; i++) print "Record" i " ::= SEQUENCE { number INTEGER, name OCTET STRING, flag Flag }"
    print "v Record1 ::= { number " n ", name \x27" "01\x27H, flag TRUE }" }' | in_module
}

# tagged_chain N: N types, each with fourteen tags before the next one.
tagged_chain() {
  awk -v n="$1" 'BEGIN {
    for (i = 0; i < n; i++) {
      printf "A%d ::= ", i
      for (j = 0; j < 14; j++) printf "[1] "
      if (i + 1 < n) print "A" i + 1; else print "NULL"
    } }' | in_module
}

# referred_values N: a chain of 4,000 references, and N values of its first type.
referred_values() {
  awk -v v="$1" 'BEGIN {
    for (i = 0; i < 3999; i++) print "A" i " ::= A" i + 1
    print "A3999 ::= BOOLEAN"
    for (i = 0; i < v; i++) print "v" i " A0 ::= TRUE" }' | in_module
}

# referred_members N: a chain of 3,700 references, and N members of its first type, 250 in a list.
referred_members() {
  awk -v m="$1" 'BEGIN {
    for (i = 0; i < 3699; i++) print "A" i " ::= A" i + 1
    print "A3699 ::= BOOLEAN"
    for (i = 0; i < m; i++) {
      if (i % 250 == 0) printf "%sL%d ::= SEQUENCE {", (i ? "}\n" : ""), i / 250; else printf ", "
      printf "c%d A0", i % 250
    }
    print "}" }' | in_module
}

# alike_numbers N: an INTEGER with N named numbers that have the same low 64 bits.
alike_numbers() {
  awk -v n="$1" 'function times(digits, carry,   out, k, d) {
      out = ""
      for (k = length(digits); k > 0; k--) {
        d = substr(digits, k, 1) * 1 + substr(carry, length(carry) - (length(digits) - k), 1) * 1 + over
        over = int(d / 10)
        out = (d % 10) out
      }
      return out
    }
    BEGIN {
      step = "000000000000000000018446744073709551616"
      sum  = "000000000000000000002611923443488327907"
      printf "A ::= INTEGER {"
      for (i = 0; i < n; i++) {
        shown = sum
        sub(/^0+/, "", shown)
        printf "%sn%d(%s)", (i ? ", " : ""), i, shown
        over = 0
        sum = times(sum, step)
      }
      print "}" }' | in_module
}

# defaulted_chain N: N lists, each with a DEFAULT of the one before.
defaulted_chain() {
  awk -v n="$1" 'BEGIN {
    print "A0 ::= SEQUENCE {}"
    for (i = 1; i < n; i++) print "A" i " ::= SEQUENCE {a A" i - 1 " DEFAULT {}}" }' | in_module
}

# referred_items N: an enumeration of 1,000 items, and N components of its type, 250 in a list.
referred_items() {
  awk -v m="$1" 'BEGIN {
    printf "E ::= ENUMERATED {"
    for (i = 0; i < 1000; i++) printf "%si%d", (i ? ", " : ""), i
    print "}"
    for (i = 0; i < m; i++) {
      if (i % 250 == 0) printf "%sL%d ::= SEQUENCE {", (i ? "}\n" : ""), i / 250; else printf ", "
      printf "c%d E", i % 250
    }
    print "}" }' | in_module
}

# referred_union N: an INTEGER with a union of N numbers, and N/5 components of its type, 200 in a list.
referred_union() {
  awk -v n="$1" 'BEGIN {
    printf "U ::= INTEGER (0"
    for (i = 1; i < n; i++) printf " | %d", 2 * i
    print ")"
    for (i = 0; i < n / 5; i++) {
      if (i % 200 == 0) printf "%sL%d ::= SEQUENCE {", (i ? "}\n" : ""), i / 200; else printf ", "
      printf "c%d [%d] U", i % 200, i % 200
    }
    print "}" }' | in_module
}

# narrowed_union N: an INTEGER with a union of N numbers, and N/5 types that each narrow it to six of them.
narrowed_union() {
  awk -v n="$1" 'BEGIN {
    printf "U ::= INTEGER (0"
    for (i = 1; i < n; i++) printf " | %d", 2 * i
    print ")"
    for (i = 0; i < n / 5; i++) print "T" i " ::= U (" 2 * i ".." 2 * i + 10 ")" }' | in_module
}

# narrowed_in_turn N: an INTEGER with a union of N numbers, and N more constraints after it, each of one range.
narrowed_in_turn() {
  awk -v n="$1" 'BEGIN {
    printf "T ::= INTEGER (0"
    for (i = 1; i < n; i++) printf " | %d", 2 * i
    printf ")"
    for (i = 0; i < n; i++) printf "(0..%d)", 4 * n - i
    print "" }' | in_module
}

# long_default N: a value of N numbers, and N/20 components with that DEFAULT, 200 in a list.
long_default() {
  awk -v n="$1" 'BEGIN {
    print "Numbers ::= SEQUENCE OF INTEGER"
    printf "long Numbers ::= {1"
    for (i = 1; i < n; i++) printf ", 1"
    print "}"
    for (i = 0; i < n / 20; i++) {
      if (i % 200 == 0) printf "%sL%d ::= SEQUENCE {", (i ? "}\n" : ""), i / 200; else printf ", "
      printf "c%d [%d] Numbers DEFAULT long", i % 200, i % 200
    }
    print "}" }' | in_module
}

# doubled_values N: lists of lists, each value naming the one before twice, N levels of them.
doubled_values() {
  awk -v n="$1" 'BEGIN {
    print "T0 ::= NULL"
    for (i = 1; i <= n; i++) print "T" i " ::= SEQUENCE OF T" i - 1
    print "v0 T0 ::= NULL"
    for (i = 1; i <= n; i++) print "v" i " T" i " ::= {v" i - 1 ", v" i - 1 "}" }' | in_module
}

# doubled_defaults N: such a value of 17 levels, as the DEFAULT of N components, 200 in a list.
doubled_defaults() {
  awk -v n="$1" 'BEGIN {
    print "T0 ::= NULL"
    for (i = 1; i <= 17; i++) print "T" i " ::= SEQUENCE OF T" i - 1
    print "v0 T0 ::= NULL"
    for (i = 1; i <= 17; i++) print "v" i " T" i " ::= {v" i - 1 ", v" i - 1 "}"
    for (i = 0; i < n; i++) {
      if (i % 200 == 0) printf "%sL%d ::= SEQUENCE {", (i ? "}\n" : ""), i / 200; else printf ", "
      printf "c%d [%d] T17 DEFAULT v17", i % 200, i % 200
    }
    print "}" }' | in_module
}

# chained_values N: N values, each of a constrained type of its own, and each the next one.
chained_values() {
  awk -v n="$1" 'BEGIN {
    for (i = 1; i < n; i++) print "c" i " INTEGER (0.." i + 8 ") ::= c" i + 1
    print "c" n " INTEGER ::= 7" }' | in_module
}

# numbered_values N: N values, each of an INTEGER with a named number of its own, and each the next one.
numbered_values() {
  awk -v n="$1" 'BEGIN {
    for (i = 1; i < n; i++) print "c" i " INTEGER {a" i "(" i ")} ::= c" i + 1
    print "c" n " INTEGER ::= 7" }' | in_module
}

# named_chain N: two INTEGERs with N named numbers each, and N values of them in turn, each the next one.
named_chain() {
  awk -v n="$1" 'BEGIN {
    for (t = 0; t < 2; t++) {
      printf "T%d ::= INTEGER {", t
      for (i = 0; i < n; i++) printf "%sn%d(%d)", (i ? ", " : ""), i, i
      print "}"
    }
    for (i = 1; i < n; i++) print "c" i " T" i % 2 " ::= c" i + 1
    print "c" n " T0 ::= 7" }' | in_module
}

# chained_ends N: an INTEGER with a named number, N values, each the next one, and a union of N ends, the first 100 values
# in turn.
chained_ends() {
  awk -v n="$1" 'BEGIN {
    print "T ::= INTEGER {a(1)}"
    for (i = 1; i < n; i++) print "c" i " INTEGER ::= c" i + 1
    print "c" n " INTEGER ::= 7"
    printf "U ::= T (c1"
    for (i = 1; i < n; i++) printf "|c%d", i % 100 + 1
    print ")" }' | in_module
}

# ends_in_turn N: two INTEGERs with N named numbers each, N values, each the next one, and N components of these types in
# turn, each with one of the first values as an end, 250 in a list.
ends_in_turn() {
  awk -v n="$1" 'BEGIN {
    for (t = 0; t < 2; t++) {
      printf "T%d ::= INTEGER {", t
      for (i = 0; i < n; i++) printf "%sn%d(%d)", (i ? ", " : ""), i, i
      print "}"
    }
    for (i = 1; i < n; i++) print "c" i " INTEGER ::= c" i + 1
    print "c" n " INTEGER ::= 7"
    for (i = 0; i < n; i++) {
      if (i % 250 == 0) printf "%sL%d ::= SEQUENCE {", (i ? "}\n" : ""), i / 250; else printf ", "
      printf "m%d [%d] T%d (c%d)", i % 250, i % 250, i % 2, i % 100 + 1
    }
    print "}" }' | in_module
}

# own_names N: N values, each the next one, and N INTEGERs with a name of their own, each with one of the first 100 values as
# an end, 250 in a list.
own_names() {
  awk -v n="$1" 'BEGIN {
    for (i = 1; i < n; i++) print "c" i " INTEGER ::= c" i + 1
    print "c" n " INTEGER ::= 7"
    for (i = 0; i < n; i++) {
      if (i % 250 == 0) printf "%sL%d ::= SEQUENCE {", (i ? "}\n" : ""), i / 250; else printf ", "
      printf "m%d [%d] INTEGER {a%d(1)} (c%d)", i % 250, i % 250, i, i % 100 + 1
    }
    print "}" }' | in_module
}

# own_names_met N: the same, where the name of each INTEGER is that of a value.
own_names_met() {
  awk -v n="$1" 'BEGIN {
    for (i = 1; i < n; i++) print "c" i " INTEGER ::= c" i + 1
    print "c" n " INTEGER ::= 7"
    for (i = 0; i < n; i++) {
      if (i % 250 == 0) printf "%sL%d ::= SEQUENCE {", (i ? "}\n" : ""), i / 250; else printf ", "
      printf "m%d [%d] INTEGER {c%d(1)} (c%d)", i % 250, i % 250, i * 7919 % n + 1, i % 100 + 1
    }
    print "}" }' | in_module
}

# named_numbers N: an INTEGER with N named numbers, and N values of it, each one of these names.
named_numbers() {
  awk -v n="$1" 'BEGIN {
    printf "T ::= INTEGER {"
    for (i = 0; i < n; i++) printf "%sn%d(%d)", (i ? ", " : ""), i, i
    print "}"
    for (i = 0; i < n; i++) print "w" i " T ::= n" i }' | in_module
}

# named_ends N: an INTEGER with N named numbers, and a union of these names.
named_ends() {
  awk -v n="$1" 'BEGIN {
    printf "T ::= INTEGER {"
    for (i = 0; i < n; i++) printf "%sn%d(%d)", (i ? ", " : ""), i, i
    print "}"
    printf "U ::= T (n0"
    for (i = 1; i < n; i++) printf "|n%d", i
    print ")" }' | in_module
}

# named_bits N: a BIT STRING with N named bits, and a value that sets them all.
named_bits() {
  awk -v n="$1" 'BEGIN {
    printf "T ::= BIT STRING {"
    for (i = 0; i < n; i++) printf "%sn%d(%d)", (i ? ", " : ""), i, i
    print "}"
    printf "w T ::= {n0"
    for (i = 1; i < n; i++) printf ", n%d", i
    print "}" }' | in_module
}

# bit_values N: a value of N bit strings, in each of which bit 65,535 is set.
bit_values() {
  awk -v n="$1" 'BEGIN {
    print "T ::= BIT STRING {a(65535)}"
    print "S ::= SEQUENCE OF T"
    printf "w S ::= {{a}"
    for (i = 1; i < n; i++) printf ", {a}"
    print "}" }' | in_module
}

# named_items N: an enumeration of 1,000 items, and a value of N of them.
named_items() {
  awk -v n="$1" 'BEGIN {
    printf "T ::= ENUMERATED {n0"
    for (i = 1; i < 1000; i++) printf ", n%d", i
    print "}"
    print "S ::= SEQUENCE OF T"
    printf "w S ::= {n0"
    for (i = 1; i < n; i++) printf ", n%d", i % 1000
    print "}" }' | in_module
}

# listed_values N: N values, each of a SEQUENCE OF type of its own, and each the next one.
listed_values() {
  awk -v n="$1" 'BEGIN {
    for (i = 1; i < n; i++) print "c" i " SEQUENCE OF INTEGER (0.." i + 8 ") ::= c" i + 1
    print "c" n " SEQUENCE OF INTEGER ::= {7}" }' | in_module
}

# record_values N: N values of a SEQUENCE of three, one of them constrained.
record_values() {
  awk -v n="$1" 'BEGIN {
    print "Record1 ::= SEQUENCE { number INTEGER (0..1000000), name OCTET STRING, flag BOOLEAN DEFAULT FALSE }"
    print "v Record1 ::= { number 1, name \x27" "01\x27H }"
    for (i = 1; i < n; i++) print "v" i " Record1 ::= { number " i ", name \x27" "0102\x27H, flag TRUE }" }' | in_module
}

# short_numbers N: a value of N numbers of one digit, two octets each.
short_numbers() {
  awk -v n="$1" 'BEGIN {
    print "S ::= SEQUENCE OF INTEGER"
    printf "v S ::= {1"
    for (i = 1; i < n; i++) printf ",1"
    print "}" }' | in_module
}

# short_names N: a value of N names of one letter.
short_names() {
  awk -v n="$1" 'BEGIN {
    print "S ::= SEQUENCE OF INTEGER"
    print "a INTEGER ::= 1"
    printf "v S ::= {a"
    for (i = 1; i < n; i++) printf ",a"
    print "}" }' | in_module
}

# short_union N: a union of N names of one letter.
short_union() {
  awk -v n="$1" 'BEGIN {
    print "a INTEGER ::= 1"
    printf "U ::= INTEGER (a"
    for (i = 1; i < n; i++) printf "|a"
    print ")" }' | in_module
}

# short_constraints N: a type with N constraints of three octets each.
short_constraints() {
  awk -v n="$1" 'BEGIN { printf "A ::= INTEGER"; for (i = 0; i < n; i++) printf "(1)"; print "" }' | in_module
}

# short_members N: a list of N members of four octets each, which are too many.
short_members() {
  awk -v n="$1" 'BEGIN {
    print "T ::= NULL"
    printf "S ::= SEQUENCE {a T"
    for (i = 1; i < n; i++) printf ",a T"
    print "}" }' | in_module
}

# circle N: N lists, each of the next one, and the last of the first.
circle() {
  awk -v n="$1" 'BEGIN { for (i = 0; i < n; i++) print "A" i " ::= SEQUENCE OF A" (i + 1) % n }' | in_module
}

# endless N: N thousand assignments of types, and no END.
endless() {
  printf '%s\n' "M DEFINITIONS ::= BEGIN"
  awk -v n="$1" 'BEGIN { for (i = 0; i < n * 1000; i++) print "Type" i " ::= INTEGER" }'
}

# long_name N: a name of N million letters, at a place where no name may be.
long_name() {
  awk -v n="$1" 'BEGIN { printf "M DEFINITIONS ::= BEGIN "; for (i = 0; i < n * 1000; i++) printf "%01000d", 0 }' | tr 0 a
}

# resident WORDS..: the most memory that the program had resident with these words, in megabytes, or nothing without a
# tool for it.
resident() {
  [[ -x /usr/bin/time ]] || return 0
  /usr/bin/time -f ' %M' -o "$most" "$program" "$@" >/dev/null 2>&1 || true
  awk 'END { printf "%7.1f MB", $NF / 1024 }' "$most"
}

# spent WORDS..: the processor time that the program took with these words, in microseconds.
spent() {
  local took TIMEFORMAT='%3U %3S'
  took=$({ time "$program" "$@" >/dev/null 2>&1 || true; } 2>&1)
  awk '{ printf "%d", ($1 + $2) * 1000000 }' <<<"$took"
}

# measure SHAPE SIZE..: the least times of a shape at these sizes, a line each.
measure() {
  local shape=$1 size took least
  shift
  for size in "$@"; do
    "$shape" "$size" >"$file"
    least=
    for _ in 1 2 3 4 5; do
      took=$(spent der --type M.Record1 --value M.v "$file")
      [[ -n $least && $least -le $took ]] || least=$took
    done
    printf '%-16s %6d %9d octets %6d.%d ms%s\n' "$shape" "$size" "$(stat -c %s "$file")" $((least / 1000)) $((least % 1000 / 100)) "$(resident der --type M.Record1 --value M.v "$file")"
  done
}

# compare N..: the time of comparing a circle of N lists and one of N + 1, which have N * (N + 1) pairs, a line each.
compare() {
  local size took
  for size in "$@"; do
    circle "$size" >"$file"
    circle $((size + 1)) >"$newer"
    took=$(spent later --type M.A0 "$file" --newer "$newer")
    printf '%-16s %6d %9d pairs  %6d.%d ms%s\n' compare "$size" $((size * (size + 1))) $((took / 1000)) \
      $((took % 1000 / 100)) "$(resident later --type M.A0 "$file" --newer "$newer")"
  done
}

measure records 1000 2000 4000
measure tagged_chain 1000 2000 4000
measure referred_values 15000 30000 60000
measure referred_members 7000 14000 28000
measure alike_numbers 16000 32000 64000
measure defaulted_chain 1000 2000 4000
measure referred_items 1000 2000 4000
measure referred_union 5000 10000 20000
measure narrowed_union 5000 10000 20000
measure narrowed_in_turn 5000 10000 20000
measure long_default 5000 10000 20000
measure doubled_values 16 17 18
measure doubled_values 24
measure doubled_defaults 5 10 20
measure record_values 10000 20000 40000
measure chained_values 4000 8000 16000
measure numbered_values 4000 8000 16000
measure named_chain 4000 8000 16000
measure chained_ends 4000 8000 16000
measure ends_in_turn 4000 8000 16000
measure own_names 4000 8000 16000
measure own_names_met 4000 8000 16000
measure named_numbers 5000 10000 20000
measure named_ends 5000 10000 20000
measure named_bits 5000 10000 20000
measure bit_values 10000 20000 40000
measure named_items 5000 10000 20000
measure listed_values 4000 8000 16000
measure short_numbers 1000000 2000000 4000000
measure short_names 1000000 2000000 4000000
measure short_union 1000000 2000000 4000000
measure short_constraints 500000 1000000 2000000
measure short_members 500000 1000000 2000000
measure endless 180 360 720
measure long_name 1 2 4
compare 511 1023 2047

# settlings: lays out what rows says of modules that were opened and settled, and of types that were compared.
settlings() {
  awk -F '[:,] ' '
    function tell(call, what, words,   took) {
      split(words, took, " ")
      printf "%-21s %19s %6.1f ms\n", call, what, took[2] / 1000
    }
    $3 ~ /^compared/ { tell("compared", $2, $3); next }
    { tell("opened " $1, $2, $3); tell("settled " $1, $2, $4) }'
}

# The program rows measures constraints and long notations alone. It settles and compares types too: modules of 2,048 and
# of 4,096 types, and as many as fit.
rows=$here/crates/rows
if [[ -x $rows/out/rows ]]; then
  "$here/bench" bounds
  { (cd "$rows/data" && "$rows/out/rows" modules/speed.rows >/dev/null); } 2>&1 | settlings
else
  printf '%s\n' "bounds, settlings: rows is not built (rt run in crates/rows)"
fi
