#!/usr/bin/env python3
"""What `ioc` and `ioc-audit` cost in processor time, beside a plain Rust program that does the same: the least of several rounds, and
the middle of the ratios within each round. The programs run before all others if that is allowed (chrt, by root).

Usage: bench/ioc.py [TICKS [ROUNDS]], with bin/ioc and bin/ioc-audit, and rustc on the path for bench/plain/plain.rs. The database has
10,000 records in 1,000 lock sets, all with SCAN .1 second; the first record of a set reads a device, and each other one the record
before it. A journal takes 60 MB for each 100 ticks.
"""
import pathlib
import resource
import shutil
import statistics
import subprocess
import sys
import tempfile

BENCH = pathlib.Path(__file__).resolve().parent
BIN = BENCH.parent / "bin"


def database():
    """The text of the database."""
    lines = []
    for lock_set in range(1000):
        for number in range(10):
            source = f"r{lock_set}:{number - 1} NPP" if number else f"@gauge {lock_set}"
            lines.append(f'record(longin, "r{lock_set}:{number}") {{ field(SCAN, ".1 second") field(INP, "{source}") }}')
    return "\n".join(lines) + "\n"


def first():
    """The words that let a program run before all others, if that is allowed."""
    words = ["chrt", "-f", "1"]
    allowed = shutil.which("chrt") and subprocess.run([*words, "true"], stderr=subprocess.DEVNULL).returncode == 0
    return words if allowed else []


def cost(*words):
    """The seconds of processor time that a program takes."""
    before = resource.getrusage(resource.RUSAGE_CHILDREN)
    subprocess.run(words, stdout=subprocess.DEVNULL, check=True)
    after = resource.getrusage(resource.RUSAGE_CHILDREN)
    return after.ru_utime + after.ru_stime - before.ru_utime - before.ru_stime


def runs(folder, ticks):
    """The words of each program that is run."""
    text, journal, plain = folder / "scanned.db", folder / "run.journal", folder / "plain"
    text.write_text(database())
    subprocess.run(["rustc", "-O", "--edition", "2021", "-o", plain, BENCH / "plain" / "plain.rs"], check=True)
    ioc = lambda count, workers: (BIN / "ioc", text, "--ticks", count, "--workers", workers)
    return {
        "start": ioc("1", "1"),
        "1 worker": ioc(ticks, "1"),
        "2 workers": ioc(ticks, "2"),
        "4 workers": ioc(ticks, "4"),
        "1 worker, with a journal": (*ioc(ticks, "1"), "--overwrite", "--journal", journal),
        "audit of this journal": (BIN / "ioc-audit", text, journal),
        "plain, start": (plain, "1", "1", "10", "scan"),
        "plain, 1 worker": (plain, ticks, "1", "10", "scan"),
        "plain, 2 workers": (plain, ticks, "2", "10", "scan"),
        "plain, 4 workers": (plain, ticks, "4", "10", "scan"),
    }


def main():
    ticks = sys.argv[1] if len(sys.argv) > 1 else "100"
    rounds = int(sys.argv[2]) if len(sys.argv) > 2 else 5
    taken, before = {}, first()
    with tempfile.TemporaryDirectory() as name:
        programs = runs(pathlib.Path(name), ticks)
        for _ in range(rounds):
            for title, words in programs.items():
                taken.setdefault(title, []).append(cost(*before, *words))
    for title, seconds in taken.items():
        start, one = ("plain, start", "plain, 1 worker") if title.startswith("plain") else ("start", "1 worker")
        times = statistics.median(mine / other for mine, other in zip(seconds, taken[one]))
        rates = [10 * (int(ticks) - 1) / (mine - other) for mine, other in zip(seconds, taken[start]) if mine > other]
        rate = f", {statistics.median(rates):.0f} requests a ms" if title.endswith(("worker", "workers")) else ""
        print(f"{title}: {min(seconds):.2f} s at least, {times:.2f} times one worker{rate}")


main()
