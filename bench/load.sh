#!/bin/sh
# Writes a database text of many records with one field each, and an empty script.
# Usage: load.sh RECORDS FOLDER
set -eu
records=$1 folder=$2
mkdir -p "$folder"
awk -v n="$records" 'BEGIN { for (i = 0; i < n; i++) printf "record(longin,\"rec%d\"){field(VAL,\"%d\")}\n", i, i }' > "$folder/load.db"
: > "$folder/load.script"
