#!/usr/bin/env bash
# Runs the test of ioc_stress_tests (eight threads with a thousand calls of every kind each, two workers, checkpoints, a close, and an audit
# of the journal) with other seeds, one after another, for so many seconds. Its sources are built as a program, without proof.
# Usage: stress.sh SECONDS [FIRST]
set -euo pipefail
[[ ${1-} =~ ^[1-9][0-9]*$ ]] || { echo 'usage: stress.sh SECONDS [FIRST]' >&2; exit 2; }
top=$(cd "$(dirname "$0")/.." && pwd)
work=$(mktemp -d)
trap 'rm -rf "$work"' EXIT
(cd "$top" && tar cf - HANDLES crates.txt crates/*/src) | tar xf - -C "$work"
tests=$top/tests/ioc_stress_tests
mkdir -p "$work/crates/stress/src"
mkdir "$work/crates/stress/src/seeded"
for file in "$tests"/tests/*.rs; do cp "$file" "$work/crates/stress/src/seeded/$(basename "$file" .rs).rt"; done
sed 's/^mod /pub mod /' "$tests/tests.rs" > "$work/crates/stress/src/seeded.rt"
sed -i 's/crate::tests::/crate::seeded::/' "$work"/crates/stress/src/seeded/*.rt
# The test itself is replaced by `main`.
sed -i -e '/^#\[test\]/,$d' -e '/^use std::test::Fail;$/d' -e 's/^fn run_drawn/pub fn run_drawn/' "$work/crates/stress/src/seeded/running.rt"
cat > "$work/crates/stress/src/main.rt" << 'END'
//! Runs the stress test with the seed that the command line names.
#![tactic(auto)]

mod seeded;

use crate::seeded::running::run_drawn;
use std::env;
use std::process::ExitCode;

// Returns the seed of the command line.
fn seed(rt: &HostRuntime) -> u64 {
    match env::args(rt) {
        Ok(words) => match words.last() {
            Some(word) => word.parse().unwrap_or(0),
            None => 0,
        },
        Err(_) => 0,
    }
}

fn main(rt: HostRuntime) -> ExitCode {
    let seed = seed(&rt);
    match run_drawn(&rt, rt.alloc(), seed) {
        Ok(true) => ExitCode::SUCCESS,
        _ => ExitCode::FAILURE,
    }
}
END
sed -n 's/^ioc_stress_tests [^:]*/stress/p' "$top/tests/libraries.txt" >> "$work/crates.txt"
sh "$top/tools/unproved.sh" "$work" stress > "$work/log" 2>&1 || { cat "$work/log" >&2; exit 1; }
seed=${2-1}
end=$((SECONDS + $1))
count=0
while [ "$SECONDS" -lt "$end" ]; do
  timeout 60 "$work/program" "$seed" || { echo "seed $seed: status $?" >&2; exit 1; }
  seed=$((seed + 1))
  count=$((count + 1))
done
echo "$count runs, each with a journal that agrees, by the seeds from ${2-1} on"
