#!/bin/sh
# Measures calls of the engine (engine-bench, built without proof as ioc-replay is): instructions by
# valgrind's callgrind, and memory as the system reports it. Prints tables.
# Usage: engine.sh
set -eu
bench=$(cd "$(dirname "$0")" && pwd)
bin=$bench/../bin
work=$(mktemp -d)
trap 'rm -rf "$work"' EXIT
"$bench/../build" engine-bench ioc-replay > "$work/log" || { cat "$work/log" >&2; exit 1; }

counted() { # FILE WORDS..: runs a program, and writes the instructions of each function and its callees
  file=$1
  shift
  valgrind --tool=callgrind --callgrind-out-file="$work/out" "$@" > /dev/null 2>&1 < /dev/null
  callgrind_annotate --inclusive=yes --threshold=100 "$work/out" > "$file"
}

by_engine() { # RECORDS WORK
  for rounds in 1000 2000; do counted "$work/$rounds" "$bin/engine-bench" "$rounds" 1 "$1" "$2"; done
}

by_replay() { # RECORDS
  for rounds in 1000 2000; do
    sh "$bench/chain.sh" "$1" "$rounds" "$work"
    counted "$work/$rounds" "$bin/ioc-replay" "$work/chain.db" "$work/chain.script"
  done
}

inside() { # FILE FUNCTION: its instructions
  awk -v name="$2" '$0 ~ name { gsub(",", "", $1); print $1; exit }' "$1"
}

each() { # FUNCTION: its instructions a round, of the second thousand
  echo $((($(inside "$work/2000" "$1") - $(inside "$work/1000" "$1")) / 1000))
}

memory() { # WORDS..: megabytes at most, and after ten seconds
  mkfifo "$work/input"
  sleep 20 > "$work/input" &
  "$@" < "$work/input" > /dev/null 2>&1 &
  sleep 10
  awk '/VmHWM/ { most = $2 } /VmRSS/ { rest = $2 } END { printf "%d | %d\n", most / 1000, rest / 1000 }' "/proc/$!/status"
  kill "$!"
  rm "$work/input"
}

echo "| Records of a chain | On one map (\`Machine::process\`) | By the engine |"
echo "|---|---|---|"
for records in 1 4 10 16 32 100; do
  by_replay "$records"
  map=$(each Machine::process)
  by_engine "$records" chain
  echo "| $records | $map | $(each 'PROGRAM TOTALS') |"
done
echo
echo "| Records of a chain | Nobody watches | All are watched, and marked | All are watched, and looked at |"
echo "|---|---|---|---|"
for records in 1 10; do
  row="| $records"
  for work in chain marked watched; do
    by_engine "$records" "$work"
    row="$row | $(each 'PROGRAM TOTALS')"
  done
  echo "$row |"
done
echo
echo "| A round | Beside it | Instructions |"
echo "|---|---|---|"
for work_and_size in "put 0" "notify 0" "link 1000" "link 131000" "cancel 1000" "cancel 131000" "post 1"; do
  size=${work_and_size#* }
  by_engine "$size" "${work_and_size% *}"
  echo "| ${work_and_size% *} | $size records | $(each 'PROGRAM TOTALS') |"
done
echo
echo "| 131,072 records | MB at most | MB at rest |"
echo "|---|---|---|"
echo "| engine | $(memory "$bin/engine-bench" 1 1 131072 hold) |"
"$bench/load.sh" 131072 "$work"
mkfifo "$work/none"
sleep 20 > "$work/none" &
echo "| ioc-replay | $(memory "$bin/ioc-replay" "$work/load.db" "$work/none") |"
