#!/usr/bin/env python3
"""Seconds of the processor that a console takes for lines of put and get through pipes, without a journal and with one, in turn.

Usage: lines.py [LINES [ROUNDS]]. It wants bin/ioc.
"""
import pathlib
import resource
import statistics
import subprocess
import sys
import tempfile

IOC = pathlib.Path(__file__).resolve().parent.parent / "bin" / "ioc"


def seconds(words, lines):
    """What a run on a file of lines takes, with the two processes that feed it and read it."""
    before = resource.getrusage(resource.RUSAGE_CHILDREN)
    shell = 'cat "$0" | "$@" | cat > /dev/null'
    subprocess.run(["sh", "-c", shell, lines, *words], check=True)
    after = resource.getrusage(resource.RUSAGE_CHILDREN)
    return after.ru_utime - before.ru_utime + after.ru_stime - before.ru_stime


def main():
    count = int(sys.argv[1]) if len(sys.argv) > 1 else 1_000_000
    rounds = int(sys.argv[2]) if len(sys.argv) > 2 else 5
    with tempfile.TemporaryDirectory() as name:
        folder = pathlib.Path(name)
        (folder / "one.db").write_text('record(longin, "a") {}\n')
        (folder / "lines").write_text("put a.VAL 3\nget a.VAL\n" * (count // 2))
        console = [IOC, folder / "one.db", "--console", "--workers", "1"]
        runs = {"without a journal": console, "with one": [*console, "--overwrite", "--journal", folder / "run.journal"]}
        taken = {name: [] for name in runs}
        for _ in range(rounds):
            for name, words in runs.items():
                taken[name].append(seconds(words, folder / "lines"))
    for name, times in taken.items():
        print(f"{count} lines {name}: {statistics.median(times):.2f} s ({min(times):.2f} to {max(times):.2f})")


main()
