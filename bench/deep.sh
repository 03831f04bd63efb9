#!/bin/sh
# Writes databases of many records that lead to each other, and their scripts: chains by FLNK, by INP with PP and by OUT with PP, the first two
# also in a ring; a tree of fanouts with sixteen links each; and a star, whose records all read the first one with PP and are scanned. Runs each on
# a stack of 64 KiB, with an empty script and with its own, and shows what is printed, the time and the memory.
# Usage: deep.sh PROGRAM RECORDS FOLDER
set -eu
program=$1 records=$2 folder=$3
mkdir -p "$folder"
last=$((records - 1))
: > "$folder/empty.script"
chain() { # NAME TYPE FIELD WORDS LAST
  awk -v n="$records" -v type="$2" -v field="$3" -v words="$4" -v last="$5" 'BEGIN {
    for (i = 1; i < n; i++) printf "record(%s,\"r%d\"){field(%s,\"r%d%s\")}\n", type, i - 1, field, i, words
    printf "record(%s,\"r%d\"){field(%s,\"%s\")}\n", type, n - 1, field, last
  }' > "$folder/$1.db"
}
chain forward longin FLNK "" ""
printf 'at 7\nprocess r0\nget r%d.TIME\ntally\nnotify r0.VAL 1\n' "$last" > "$folder/forward.script"
chain ring longin FLNK "" r0
printf 'at 7\nprocess r0\nget r0.LCNT\ntally\n' > "$folder/ring.script"
chain read longin INP " PP" 5
printf 'process r0\nget r0.VAL\ntally\n' > "$folder/read.script"
chain read_ring longin INP " PP" "r0 PP"
printf 'process r0\nget r0.LCNT\ntally\n' > "$folder/read_ring.script"
chain write longout OUT " PP" ""
printf 'put r0.VAL 5\nget r%d.VAL\ntally\n' "$last" > "$folder/write.script"
awk -v n="$records" 'BEGIN {
  for (i = 0; i < n; i++) {
    printf "record(fanout,\"r%d\"){", i
    for (j = 0; j < 16 && 16 * i + j + 1 < n; j++) printf "field(LNK%s,\"r%d\")", substr("0123456789ABCDEF", j + 1, 1), 16 * i + j + 1
    print "}"
  }
}' > "$folder/tree.db"
printf 'at 7\nprocess r0\nget r%d.TIME\ntally\nnotify r0.VAL 1\n' "$last" > "$folder/tree.script"
awk -v n="$records" 'BEGIN {
  print "record(longin,\"r0\"){field(INP,\"5\")}"
  for (i = 1; i < n; i++) printf "record(longin,\"r%d\"){field(INP,\"r0 PP\")field(SCAN,\"1 second\")}\n", i
}' > "$folder/star.db"
printf 'scan 1 second\nget r%d.VAL\ntally\n' "$last" > "$folder/star.script"
ulimit -s 64
for name in forward ring read read_ring write tree star; do
  echo "$name:"
  for script in empty "$name"; do
    /usr/bin/time -f "$script script: %e s, %U s of processor time, %M KB" "$program" "$folder/$name.db" "$folder/$script.script"
  done
done
