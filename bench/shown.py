#!/usr/bin/env python3
"""Puts into records of `ioc --live` at a rate, first where nobody watches them and then where each is watched, and prints what the changes cost.

    bench/shown.py [SECONDS [CHANGES]]

For SECONDS (20) it puts CHANGES (10,000) values a second into 1,000 records, each another value than before. It prints seconds of the processor a
second of both runs, how many lines told of changes, and the microseconds that a told change costs beside its put.
"""
import os
import pathlib
import subprocess
import sys
import tempfile
import threading
import time

from live import BIN, processor

RECORDS = 1_000
PIECES_A_SECOND = 50


class Told:
    """Reads what `ioc` prints, and counts the lines that tell of a change."""

    def __init__(self, output):
        self.changes = 0
        self.output = output
        self.thread = threading.Thread(target=self.run)
        self.thread.start()

    def run(self):
        rest = b""
        while piece := os.read(self.output.fileno(), 1 << 20):
            *lines, rest = (rest + piece).split(b"\n")
            self.changes += sum(line.startswith(b"! ") for line in lines)


def run(database, seconds, changes, watched):
    """Seconds of the processor a second, and how many changes were told."""
    words = [BIN / "ioc", database, "--live", "--workers", "1"]
    process = subprocess.Popen(words, stdin=subprocess.PIPE, stdout=subprocess.PIPE)
    told = Told(process.stdout)
    if watched:
        process.stdin.write(b"".join(b"watch r%d.VAL\n" % number for number in range(RECORDS)))
        process.stdin.flush()
    time.sleep(1)
    first, before, begun = told.changes, processor(process.pid), time.monotonic()
    each = changes // PIECES_A_SECOND
    for piece in range(seconds * PIECES_A_SECOND):
        lines = b"".join(b"put r%d %d\n" % (at % RECORDS, at) for at in range(piece * each, piece * each + each))
        process.stdin.write(lines)
        process.stdin.flush()
        time.sleep(max(0, begun + (piece + 1) / PIECES_A_SECOND - time.monotonic()))
    took, used = time.monotonic() - begun, processor(process.pid) - before
    time.sleep(0.5)
    count = told.changes - first
    process.stdin.close()
    told.thread.join()
    process.wait()
    return used / took, count


def main():
    seconds, changes = [int(word) for word in sys.argv[1:]] + [20, 10_000][len(sys.argv) - 1 :]
    with tempfile.TemporaryDirectory() as name:
        database = pathlib.Path(name) / "shown.db"
        database.write_text("".join(f'record(longout, "r{number}") {{ }}\n' for number in range(RECORDS)))
        alone, _none = run(database, seconds, changes, False)
        shown, count = run(database, seconds, changes, True)
    print(f"{changes} puts a second: {alone:.3f} s of the processor a second where nobody watches, {shown:.3f} where each is watched")
    print(f"{count} changes told, {(shown - alone) * seconds / max(count, 1) * 1e6:.1f} microseconds each")


main()
