#!/bin/sh
# Writes a chain of records by FLNK, and a script that requests its first record again and again. With TYPE (longin or ai) each record
# reads the one before it by INP, and has limits that its value doesn't reach.
# Usage: chain.sh RECORDS REQUESTS FOLDER [TYPE]
set -eu
records=$1 requests=$2 folder=$3 kind=${4-}
mkdir -p "$folder"
awk -v n="$records" -v kind="$kind" 'BEGIN {
  limits = " field(HIHI,\"90\") field(LOLO,\"-90\") field(HIGH,\"80\") field(LOW,\"-80\") field(HHSV,\"MAJOR\") field(LLSV,\"MAJOR\")" \
    " field(HSV,\"MINOR\") field(LSV,\"MINOR\") field(HYST,\"2\")"
  if (kind != "") printf "record(%s,\"source\"){field(VAL,\"5\")}\n", kind
  for (i = 0; i < n; i++) {
    source = i ? "r" (i - 1) : "source"
    if (kind == "") printf "record(longin,\"r%d\"){field(INP,\"%d\")", i, i
    else printf "record(%s,\"r%d\"){field(INP,\"%s\")%s", kind, i, source, limits
    if (i + 1 < n) printf " field(FLNK,\"r%d\")", i + 1
    print "}"
  }
}' > "$folder/chain.db"
awk -v n="$requests" 'BEGIN { for (i = 0; i < n; i++) print "process r0" }' > "$folder/chain.script"
