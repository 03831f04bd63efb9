#!/usr/bin/env python3
"""Counts the calls of the project's functions on the way of one call of the engine, by crate.

It builds engine-bench without proof and without inlining, and runs it under valgrind's callgrind with 1,000 and with 2,000 rounds, so that
what is counted is the difference. Functions of std and of other crates of the kit aren't counted, nor are destructors, steps of passes,
which a proved program leaves out, and accessors: functions with at most eight instructions of their own that call no other function of
the project but such ones. `--list` prints each function with its calls and its own instructions.

Usage: calls.py [WORK] [--list], where WORK is one of engine-bench, `put` if none is given
"""
import os
import re
import shutil
import subprocess
import sys
import tempfile
from collections import Counter
from pathlib import Path

TOP = Path(__file__).resolve().parent.parent
OWN = re.compile(r"(ioc|rec)_\w+::")
LEFT_OUT = re.compile(r"\+Destruct::|^ioc_journal::pass::")
ROUNDS = (1000, 2000)


def built(folder: Path) -> Path:
    """The program, without inlining."""
    for part in ("crates.txt", "HANDLES"):
        shutil.copy(TOP / part, folder)
    shutil.copytree(TOP / "crates", folder / "crates", ignore=lambda at, names: [it for it in names if it == "out"])
    to = folder / "crates/engine_bench/src"
    to.mkdir(parents=True)
    for file in (TOP / "tests/engine_bench").glob("*.rs"):
        shutil.copy(file, to / f"{file.stem}.rt")
    lines = [it for it in (TOP / "tests/libraries.txt").read_text().splitlines() if it.startswith("engine_bench:")]
    with open(folder / "crates.txt", "a") as text:
        print(*lines, sep="\n", file=text)
    script = [TOP / "tools/unproved.sh", folder, "engine_bench"]
    subprocess.run(["sh", *script], check=True, env={**os.environ, "UNPROVED_INLINE": "no"}, stdout=subprocess.DEVNULL)
    return folder / "program"


def counted(program: Path, rounds: int, work: str, folder: Path) -> tuple[Counter, Counter]:
    """The calls from function to function, and the instructions of each function alone."""
    out = folder / f"calls.{rounds}"
    command = ["valgrind", "--tool=callgrind", f"--callgrind-out-file={out}", program, str(rounds), "1", "1", work]
    subprocess.run(command, check=True, stdout=subprocess.DEVNULL, stderr=subprocess.DEVNULL)
    names: dict[str, str] = {}

    def name_of(text: str) -> str:
        number, _, name = text.partition(" ")
        if name:
            names[number] = name
        return names.get(number, text)

    calls, own = Counter(), Counter()
    caller = callee = ""
    is_inclusive = False
    for line in out.read_text().splitlines():
        if line.startswith("fn="):
            caller = name_of(line[3:])
        elif line.startswith("cfn="):
            callee = name_of(line[4:])
        elif line.startswith("calls="):
            calls[caller, callee] += int(line[6:].split()[0])
            is_inclusive = True
        elif re.match(r"[0-9*+-]", line):
            if not is_inclusive:
                own[caller] += int(line.split()[-1])
            is_inclusive = False
    return calls, own


def main() -> None:
    words = [it for it in sys.argv[1:] if it != "--list"]
    work = words[0] if words else "put"
    with tempfile.TemporaryDirectory() as made:
        folder = Path(made)
        program = built(folder)
        (few, few_own), (more, more_own) = (counted(program, rounds, work, folder) for rounds in ROUNDS)
    each = ROUNDS[1] - ROUNDS[0]
    callees: dict[str, set[str]] = {}
    times = Counter()
    for (caller, callee), count in more.items():
        a_round = round((count - few[caller, callee]) / each)
        if a_round:
            callees.setdefault(caller, set()).add(callee)
            times[callee] += a_round
    of_project = {it for it in times if OWN.match(it) and not LEFT_OUT.search(it)}
    lengths = {it: (more_own[it] - few_own[it]) / each / times[it] for it in of_project}
    accessors: set[str] = set()
    while more_found := {it for it in of_project - accessors
                         if lengths[it] <= 8 and not (callees.get(it, set()) & of_project) - accessors}:
        accessors |= more_found
    kept = sorted(of_project - accessors)
    if "--list" in sys.argv:
        for it in kept:
            print(f"{times[it]:4} {lengths[it]:6.0f}  {it}")
    by_crate = Counter()
    for it in kept:
        by_crate[it.split("::")[0]] += times[it]
    for crate, count in by_crate.most_common():
        print(f"{count:4} {crate}")
    print(f"{sum(by_crate.values()):4} calls in {len(by_crate)} crates, beside {sum(times[it] for it in accessors)} of accessors")


main()
