#!/usr/bin/env python3
"""Runs requests of engine-bench by one thread or by four, each thread on a core of its own and before all other programs (SCHED_FIFO,
which takes root), and prints what the program prints, the processor time, and how often a thread fell asleep. Each thread requests a
chain of its own. In mode `apart` four programs of one thread run at a time, each on a core of its own: as much as the machine gives to
four threads that share nothing.
Usage: cores.py PROGRAM MODE CALLS RECORDS, where MODE is one, four or apart, and RECORDS the length of a chain."""
import os
import resource
import subprocess
import sys
import time


def put_first():
    os.sched_setscheduler(0, os.SCHED_FIFO, os.sched_param(1))


def pin(pid, count, first=0):
    """Gives each of so many threads a core, from this one on, once they are there."""
    end = time.time() + 2
    while time.time() < end:
        try:
            threads = sorted(int(name) for name in os.listdir(f"/proc/{pid}/task"))
            if len(threads) >= count:
                for core, thread in enumerate(threads):
                    os.sched_setaffinity(thread, {(first + core) % os.cpu_count()})
                return
        except (FileNotFoundError, ProcessLookupError):
            return


def main():
    program, mode, calls, records = sys.argv[1:]
    threads = 4 if mode == "four" else 1
    words = [program, calls, str(threads), records, "chain"]
    pipes = {"stdout": subprocess.PIPE, "stderr": subprocess.STDOUT}
    runs = [subprocess.Popen(words, **pipes, preexec_fn=put_first) for _ in range(4 if mode == "apart" else 1)]
    for place, run in enumerate(runs):
        pin(run.pid, threads, place)
    said = "; ".join(run.communicate()[0].decode().split("chain: ")[-1].strip() for run in runs)
    used = resource.getrusage(resource.RUSAGE_CHILDREN)
    print(f"{said}, {used.ru_utime:.2f} s of its own and {used.ru_stime:.2f} s of the system's, fell asleep {used.ru_nvcsw} times")


main()
