#!/usr/bin/env python3
"""Runs ioc-replay with and without --trace on databases and scripts that drawn.py draws at random.

The lines of a trace begin with two spaces. Without them each run must print what it prints without --trace. Each request and each late answer
must be closed by a line of its own record, at its own indentation, before the reply, and what stands between must be indented once more. At the
end the counts of `tally` must be those of the requests, by their outcomes, and of the late answers in the trace.

Usage: traces.py PROGRAM RUNS [SEED]
"""
import random
import re
import subprocess
import sys
import tempfile
from collections import Counter

from drawn import drawn_database, drawn_script

OUTCOMES = ("processed", "disabled", "active", "reprocess")
LATER = re.compile(r"device (read|write .*): later")


class Unfit(Exception):
    """What is wrong with a trace."""


def counted(lines):
    """The counts of a trace, whose requests must be closed in their order before each reply."""
    counts, lines_of, opened = Counter(), Counter(), []
    for line in lines:
        depth, (name, _, said) = len(line) - len(line.lstrip(" ")), line.lstrip(" ").partition(": ")
        closes = said in OUTCOMES or said == "completed"
        if depth == 0:
            if opened:
                raise Unfit(f"{opened[-1]} is open at {line!r}")
            continue
        if closes:
            if not opened or opened.pop() != (name, depth):
                raise Unfit(f"{line!r} closes nothing")
        elif depth != min(64, 2 * len(opened) + 2):
            raise Unfit(f"{line!r} is indented as if it were not below {opened}")
        if said == "request" or said.startswith("late answer: "):
            opened.append((name, depth))
        counts["begun"] += said == "request"
        counts["completed"] += said == "completed"
        counts["started"] += bool(LATER.fullmatch(said))
        counts[said] += said in OUTCOMES
        lines_of[said.split(" ")[0]] += 1
    return counts, lines_of


def fault_of(plain, traced, seen):
    """What is wrong with a run with --trace beside the same without, or None."""
    lines = traced.stdout.decode("latin-1").split("\n")
    if "\n".join(line for line in lines if not line.startswith("  ")) != plain.stdout.decode("latin-1"):
        return "the replies differ"
    if (plain.returncode, plain.stderr) != (traced.returncode, traced.stderr):
        return "the endings differ"
    if plain.returncode:
        return None
    try:
        counts, lines_of = counted(lines)
    except Unfit as unfit:
        return str(unfit)
    seen += lines_of
    tally = dict(word.split("=") for word in lines[-2].split(" ")[1:])
    wrong = [name for name, count in tally.items() if name != "dropped" and int(count) != counts[name]]
    return f"the trace has other counts than {tally}: {wrong}" if wrong else None


def main():
    program, runs = sys.argv[1], int(sys.argv[2])
    seed = int(sys.argv[3]) if len(sys.argv) > 3 else 1
    generator = random.Random(seed)
    seen = Counter()
    with tempfile.TemporaryDirectory() as folder:
        for run in range(runs):
            of = drawn_database(generator, good=True)
            script = drawn_script(generator, of) + b"\ntally\n"
            # The text of a field may have an escaped line end, which would bring one into a reply.
            of.text = of.text.replace(b"\\n", b"")
            for name, content in (("db", of.text), ("script", script)):
                with open(f"{folder}/{name}", "wb") as file:
                    file.write(content)
            words = [f"{folder}/db", f"{folder}/script", *of.macros]
            plain, traced = (subprocess.run([program, *flags, *words], capture_output=True, timeout=20) for flags in ([], ["--trace"]))
            if fault := fault_of(plain, traced, seen):
                print(f"run {run} of seed {seed}: {fault}\n{of.macros!r}\ntext {of.text.decode('latin-1')!r}\nscript {script.decode('latin-1')!r}")
                return 1
    print(f"{runs} runs, seed {seed}: every trace agrees; " + ", ".join(f"{what} {count}" for what, count in sorted(seen.items())))
    return 0


if __name__ == "__main__":
    sys.exit(main())
