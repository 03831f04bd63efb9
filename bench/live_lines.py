#!/usr/bin/env python3
"""Draws lines for `ioc` with devices outside, by `--live` and by `--console`, and compares what comes of them.

    bench/live_lines.py [RUNS [SEED]]

Each run ends with status 0, its journal agrees by `ioc-audit --whole`, the asks of each device have the numbers 1, 2, 3 and so on, and of each watched field
TIME never goes back, nothing is told twice, and the first line has all. It prints each run that doesn't, by its seed, and ends with status 1 then.
"""
import collections
import pathlib
import random
import subprocess
import sys
import tempfile

TOP = pathlib.Path(__file__).resolve().parent.parent
BIN = TOP / "bin"
DATABASE = """record(longin, "a") { field(INP, "@x") field(FLNK, "s") }
record(longout, "b") { field(OUT, "@y z") field(FLNK, "a") }
record(stringout, "s") { field(OUT, "@t") }
record(bo, "o") { field(OUT, "@o") field(ZNAM, Off) field(ONAM, On) }
record(longin, "e") { field(SCAN, Event) field(EVNT, ev) field(INP, "@e 1") }
record(longin, "i") { field(SCAN, "I/O Intr") field(INP, "@card 1") }
record(longin, "c") { field(SCAN, ".1 second") field(INP, a) }
"""
FORMS = [
    "process {record}", "put {record} {value}", "notify {record} {value}", "done {record} {number} {value}", "done {record} {number} a\\tb",
    "fault {record} {number}", "get {record}.STAT", "event ev", "io card", "status", "read {record} VAL SEVR#", "scan .1 second", "put {record}.DISA {bit}",
    "link c.INP {record}", "cancel {number}", "sets", "tick", "done {record} {number} \\q", "", "# a comment", "done {record}", "checkpoint",
    "put# {record} {bit}", "notify# {record} {bit}", "watch {record}.VAL", "watch {record}.VAL#", "watch {record}.SEVR", "unwatch {record}.VAL",
]  # fmt: skip
MASKS = ["vla", "v", "l", "a", "vl", "va", "la"]


def drawn(chance):
    """A line, with a tag or without one."""
    line = chance.choice(FORMS).format(record=chance.choice("abseico"), value=chance.randrange(100), number=chance.randrange(40), bit=chance.randrange(2))
    return f"@{chance.randrange(100)} {line}" if chance.random() < 0.2 else line


def faults(folder, seed):
    """What is wrong with a run."""
    chance = random.Random(seed)
    database, journal = folder / "drawn.db", folder / f"{seed}.journal"
    database.write_text(DATABASE)
    lines = "".join(drawn(chance) + "\n" for _ in range(chance.randrange(5, 400)))
    words = [BIN / "ioc", database, chance.choice(["--live", "--console"]), "--devices", "outside", "--workers", str(chance.randrange(1, 5))]
    ran = subprocess.run([*words, "--journal", journal], input=lines, capture_output=True, text=True, timeout=120)
    audited = subprocess.run([BIN / "ioc-audit", database, journal, "--whole"], capture_output=True, text=True, timeout=120)
    if ran.returncode or audited.returncode:
        yield f"status {ran.returncode}, audit {audited.returncode}: {audited.stdout}{audited.stderr}"
    asked = collections.Counter()
    for line in ran.stdout.splitlines():
        if line.startswith("? "):
            _, record, number, _ = line.split(" ", 3)
            asked[record] += 1
            if int(number) != asked[record]:
                yield f"ask {asked[record]} of {record}: {line}"
    told = {}
    for line in ran.stdout.splitlines():
        if line.startswith("! "):
            _, word, mask, status, severity, moment, value = line.split(" ", 6)
            now = status, severity, int(moment), value
            if mask not in (MASKS if word in told else MASKS[:1]):
                yield f"a mask: {line}"
            if word in told and (told[word][2] > now[2] or mask != "vla" and told[word] == now):
                yield f"a watch: {line} behind {told[word]}"
            told[word] = now


def main():
    runs, first = (int(word) for word in (sys.argv[1:] + ["60", "0"][len(sys.argv) - 1 :])[:2])
    failed = 0
    with tempfile.TemporaryDirectory() as folder:
        for seed in range(first, first + runs):
            for fault in faults(pathlib.Path(folder), seed):
                failed = 1
                print(f"seed {seed}: {fault}")
    return failed


if __name__ == "__main__":
    sys.exit(main())
