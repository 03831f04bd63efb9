#!/bin/sh
# Four worked examples, each with every growth of memory refused in turn, every read failed and every write (failing.py): a limit with
# hysteresis; a link cut while a device is awaited; two records that a link joins and parts; two puts with notification, of which one waits for
# the other. The last once more with many gets between, so that the script is read and its replies are written in several pieces.
# Usage: failed.sh PROGRAM FOLDER
set -eu
bench=$(cd "$(dirname "$0")" && pwd)
program=$1 folder=$2
mkdir -p "$folder"
echo 'record(longin,"h"){field(HIGH,10) field(HSV,MINOR) field(HYST,2)}' > "$folder/limits.db"
printf 'put h.VAL %d\nget h.STAT\n' 10 9 7 > "$folder/limits.script"
echo 'record(longin,"a"){field(INP,"@d") field(FLNK,"b")} record(longin,"b"){}' > "$folder/cut.db"
printf '%s\n' 'process a' sets 'link a.FLNK' sets 'done a 1 4' 'done a 1 4' 'get a.VAL' > "$folder/cut.script"
echo 'record(longin,"a"){} record(longin,"b"){}' > "$folder/pair.db"
printf '%s\n' sets 'link a.INP b' sets 'link a.INP' sets > "$folder/pair.script"
echo 'record(longin,"a"){} record(longin,"p"){field(INP,"@d")} record(fanout,"f"){field(LNK1,"a") field(LNK2,"p")}' > "$folder/spread.db"
printf '%s\n' 'notify f.VAL 1' 'notify p.VAL 7' 'done p 1 5' 'get p.VAL' 'done p 2 8' 'get p.VAL' 'cancel 2' > "$folder/spread.script"
cp "$folder/spread.db" "$folder/long.db"
awk '{ print; for (i = 0; i < 1000; i++) print "get p.VAL" }' "$folder/spread.script" > "$folder/long.script"
for example in limits cut pair spread long; do
  echo "$example:"
  python3 "$bench/failing.py" "$program" "$folder/$example.db" "$folder/$example.script"
done
