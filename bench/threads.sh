#!/bin/sh
# Measures requests by 1, 2 and 4 threads, of which each requests a record without links of its own, or
# the first of a chain of ten. Prints a table of the calls of all threads in a millisecond by the engine
# (engine-bench, built without proof) and by a plain Rust program (plain/plain.rs), and the ratio. Each
# figure is the middle of several rounds. The two programs run in turn, so that what else the machine
# does slows both, and before all other programs if that is allowed (chrt, by root).
# Usage: threads.sh [ROUNDS [CALLS [LENGTHS]]], where LENGTHS are those of the chains, "1 10" if none
# are given.
set -eu
rounds=${1:-9} calls=${2:-400000} lengths=${3:-1 10}
bench=$(cd "$(dirname "$0")" && pwd)
work=$(mktemp -d)
trap 'rm -rf "$work"' EXIT
"$bench/../build" engine-bench > "$work/log" || { cat "$work/log" >&2; exit 1; }
rustc -O --edition 2021 -o "$work/plain" "$bench/plain/plain.rs"
first=$(chrt -f 1 echo chrt -f 1 2> /dev/null || true)

rate() { # WORDS..: the calls a millisecond that a program prints
  $first "$@" 2>&1 < /dev/null | awk '/ a millisecond/ { print $(NF - 3) }'
}

measure() { # LENGTH THREADS: a line with a figure of each program. The longer a chain, the fewer calls
  some=$((calls * 10 / ($1 + 9)))
  echo "$1 $2 $(rate "$bench/../bin/engine-bench" "$some" "$2" "$1" chain) $(rate "$work/plain" "$some" "$2" "$1")"
}

for round in $(seq "$rounds"); do
  for length in $lengths; do
    for threads in 1 2 4; do measure "$length" "$threads"; done
  done
done > "$work/figures"

middle() { # FIELD: the middle of a field of the lines
  sort -n -k "$1,$1" | awk -v field="$1" '{ kept[NR] = $field } END { print kept[int((NR + 1) / 2)] }'
}

echo "| Records of a chain | Threads | Engine | Plain program | Ratio |"
echo "|---|---|---|---|---|"
for length in $lengths; do
  for threads in 1 2 4; do
    awk -v l="$length" -v t="$threads" '$1 == l && $2 == t' "$work/figures" > "$work/some"
    engine=$(middle 3 < "$work/some") plain=$(middle 4 < "$work/some")
    ratio=$(awk -v a="$engine" -v b="$plain" 'BEGIN { printf "%.2f", a / b }')
    echo "| $length | $threads | $engine | $plain | $ratio |"
  done
done
