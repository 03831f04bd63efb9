#!/usr/bin/env python3
"""What the gate takes by crate: seconds of the processor of each proof, of tests and of wrong bodies.

Usage: gate_times.py FOLDER [FILE], beside a run of `.ci/run` in FOLDER. It looks once a second at the processes that `rt ci` has begun, until that
has ended. FILE then holds, and once a minute before that, a row for each crate and task as tools/gate.tsv has them: seconds of the processor, the most
memory in MB; and behind these at which seconds of the run it began and was seen last. Without FILE the rows are printed. What a process took in its
last second is missed.
"""
import os
import pathlib
import re
import sys
import time

TICK = os.sysconf("SC_CLK_TCK")
HEAD = "# crate\ttask\tseconds of the processor\tmegabytes\tbegan\tended\n"


def look_at(pid):
    """A process: when it began, its parent, the seconds of it and of those that it has waited for, its words and its folder."""
    at = pathlib.Path("/proc") / pid
    fields = (at / "stat").read_text().rpartition(")")[2].split()
    words = (at / "cmdline").read_bytes().decode(errors="replace").split("\0")
    return fields[19], fields[1], sum(map(int, fields[11:15])) / TICK, words, os.readlink(at / "cwd")


def memory_of(pid):
    """The memory of a process in MB, in which what several share is divided between them."""
    try:
        found = re.search(r"Pss:\s+(\d+)", pathlib.Path(f"/proc/{pid}/smaps_rollup").read_text())
    except OSError:
        return 0
    return int(found[1]) // 1000 if found else 0


def kind_of(words, folder):
    if "rt-edit" in folder:
        return "edits"
    return "tests" if "--test" in words else "proof"


def is_gate(words, where, folder):
    return where == folder and (words[-2:] == ["ci", ""] or any(it.endswith("tools/gate") for it in words))


def processes():
    found = {}
    for pid in filter(str.isdigit, os.listdir("/proc")):
        try:
            found[pid] = look_at(pid)
        except (OSError, IndexError):
            continue
    return found


def sample(folder, begin, seen, with_memory):
    """Notes what each task of the gate in the folder has taken. Does the gate still run?"""
    found = processes()
    runs = {pid for pid, it in found.items() if is_gate(it[3], it[4], folder)}
    children = {}
    for pid, it in found.items():
        children.setdefault(it[1], []).append(pid)
    for pid, (began, parent, _, words, where) in found.items():
        if parent not in runs or "--crate-name" not in words:
            continue
        family = [pid]
        for it in family:
            family += children.get(it, [])
        key = words[words.index("--crate-name") + 1], kind_of(words, where), pid, began
        row = seen.setdefault(key, [0, 0, time.monotonic() - begin, 0])
        row[0] = max(row[0], sum(found[it][2] for it in family))
        row[1] = max(row[1], sum(map(memory_of, family)) if with_memory else 0)
        row[3] = time.monotonic() - begin
    return bool(runs)


def rows_of(seen):
    rows = {}
    for (crate, kind, _, _), (seconds, most, began, ended) in seen.items():
        row = rows.setdefault((crate, kind), [0, 0, began, 0])
        row[:] = row[0] + seconds, max(row[1], most), min(row[2], began), max(row[3], ended)
    lines = sorted(rows.items(), key=lambda it: -it[1][0])
    return HEAD + "".join("\t".join([*key, *(f"{it:.0f}" for it in row)]) + "\n" for key, row in lines)


def main():
    if len(sys.argv) not in (2, 3):
        sys.exit(__doc__)
    folder, seen, begin, count = os.path.abspath(sys.argv[1]), {}, time.monotonic(), 0
    while sample(folder, begin, seen, count % 5 == 0) or count < 5:
        count += 1
        if len(sys.argv) == 3 and count % 60 == 0:
            pathlib.Path(sys.argv[2]).write_text(rows_of(seen))
        time.sleep(1)
    if len(sys.argv) == 3:
        pathlib.Path(sys.argv[2]).write_text(rows_of(seen))
    else:
        print(rows_of(seen), end="")


if __name__ == "__main__":
    main()
