#!/bin/sh
# Counts the instructions of ioc-replay on a database and a script, by valgrind's callgrind.
# Usage: count.sh PROGRAM DB SCRIPT
set -eu
valgrind --tool=callgrind --callgrind-out-file=/dev/null "$1" "$2" "$3" 2>&1 >/dev/null | awk '/Collected/ { print $4 }'
