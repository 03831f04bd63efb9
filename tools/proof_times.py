#!/usr/bin/env python3
"""What a crate's proof takes by function: seconds of the processor, from nothing, with one job.

Usage: proof_times.py CRATE [--test] [--only PATH], at the top of the repository. The libraries below the crate have to be built. The first row that
was checked holds what is read before it, and a row may hold what its callees share: compare whole crates, or one function by `--only`, and two forms
of the same text right after each other.
"""
import importlib.machinery
import importlib.util
import os
import pathlib
import resource
import subprocess
import sys

TICK = os.sysconf("SC_CLK_TCK")


def kit_module():
    """The kit's own module, which knows the words of a check."""
    doc = subprocess.run(["rt", "doc"], capture_output=True, text=True, check=True).stdout.strip()
    loader = importlib.machinery.SourceFileLoader("rtlib", str(pathlib.Path(doc).parent / "bin" / "rtlib.py"))
    module = importlib.util.module_from_spec(importlib.util.spec_from_loader("rtlib", loader))
    sys.modules["rtlib"] = module
    loader.exec_module(module)
    return module


def seconds_of(pid):
    fields = pathlib.Path(f"/proc/{pid}/stat").read_text().rpartition(")")[2].split()
    return sum(map(int, fields[11:15])) / TICK


def main():
    sys.dont_write_bytecode = True
    name, *flags = sys.argv[1:]
    kit, top = kit_module(), os.getcwd()
    crate = kit.Crate(f"{top}/crates/{name}", top, {})
    words = [kit.RATTLE, "check", *crate.words(["--jobs", "1"], tests="--test" in flags, keeps=False), "--progress"]
    words += [flag for flag in flags if flag != "--test"]
    rows, last = [], 0.0
    with subprocess.Popen(words, cwd=crate.folder, stdin=subprocess.DEVNULL, stdout=subprocess.PIPE, stderr=subprocess.STDOUT, text=True) as check:
        for line in check.stdout:
            if line.startswith("checked "):
                now = seconds_of(check.pid)
                rows.append((now - last, line.split()[1].rstrip(",")))
                last = now
            elif "error" in line or line.startswith(("logic=", "only=")):
                print(line.rstrip())
    used = resource.getrusage(resource.RUSAGE_CHILDREN)
    for seconds, function in sorted(rows, reverse=True)[:40]:
        print(f"{seconds:7.1f} {function}")
    print(f"{used.ru_utime + used.ru_stime:7.1f} all")


main()
