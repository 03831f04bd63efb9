#!/usr/bin/env python3
"""Floods `ioc --live` with puts, and prints its memory after a minute and at the end.

    bench/flood.py [SECONDS [PUTS]]

For SECONDS (3,600) it sends PUTS a second (20,000) to the records of examples/plant.db that take one, with a journal that goes on in another
file at each 64 MB and whose old files are removed, and reads all replies. It prints the puts that were answered, ticks and those that were
missed, memory in MB after a minute and each tenth of the time, and seconds of the processor. The status is 1 if a reply wasn't `ok`, or if
the memory at the end is more than a tenth above that after a minute.
"""
import os
import pathlib
import subprocess
import sys
import tempfile
import threading
import time

from live import BIN, TOP, memory, processor

PIECES_A_SECOND = 20
JOURNAL_BYTES = 64_000_000


class Replies:
    """Reads what `ioc` prints: counts the good replies, and keeps the other lines."""

    def __init__(self, output):
        self.good, self.others = 0, []
        self.output = output
        self.thread = threading.Thread(target=self.run)
        self.thread.start()

    def run(self):
        rest = b""
        while piece := os.read(self.output.fileno(), 1 << 20):
            *lines, rest = (rest + piece).split(b"\n")
            good = sum(line.startswith(b"ok") for line in lines)
            self.good += good
            if good < len(lines):
                self.others = (self.others + [line for line in lines if not line.startswith(b"ok")])[-100:]


def send(ioc, piece):
    view = memoryview(piece)
    while view:
        view = view[os.write(ioc.stdin.fileno(), view):]


def remove_old(folder):
    files = sorted(pathlib.Path(folder).glob("flood.journal*"), key=lambda it: it.stat().st_mtime)
    for file in files[:-2]:
        file.unlink()


def flood(ioc, seconds, puts, folder):
    """Sends the puts, and returns the memory after a minute and at each tenth of the time."""
    begin, rows, count, number = time.monotonic(), [], seconds * PIECES_A_SECOND, 0
    each = puts // PIECES_A_SECOND
    for piece in range(count):
        lines = []
        for _ in range(each):
            number += 1
            lines.append(f"put plant:level.HIGH {number % 90000}\n" if number % 2 else f"put plant:name tank {number % 9999}\n")
        send(ioc, "".join(lines).encode())
        passed = time.monotonic() - begin
        if piece + 1 == min(60 * PIECES_A_SECOND, count) or (piece + 1) % (count // 10) == 0:
            rows.append((round(passed), memory(ioc.pid)))
            remove_old(folder)
        time.sleep(max(0.0, (piece + 1) / PIECES_A_SECOND - passed))
    return rows


def main():
    seconds = int(sys.argv[1]) if len(sys.argv) > 1 else 3600
    puts = int(sys.argv[2]) if len(sys.argv) > 2 else 20_000
    with tempfile.TemporaryDirectory() as folder:
        words = [BIN / "ioc", TOP / "examples/plant.db", "--live", "--workers", "2", "--devices", "counting"]
        words += ["--journal", f"{folder}/flood.journal", "--journal-size", str(JOURNAL_BYTES)]
        ioc = subprocess.Popen(words, stdin=subprocess.PIPE, stdout=subprocess.PIPE)
        replies = Replies(ioc.stdout)
        rows = flood(ioc, seconds, puts, folder)
        send(ioc, b"status\n")
        time.sleep(2)
        spent = processor(ioc.pid)
        ioc.stdin.close()
        replies.thread.join()
        status = ioc.wait()
    for passed, megabytes in rows:
        print(f"after {passed:5} s: {megabytes} MB")
    told = [line.decode() for line in replies.others if line.startswith(b"- ")]
    print(f"{replies.good} replies, {spent:.0f} s of the processor, status {status};", "; ".join(told))
    others = [line for line in replies.others if not line.startswith((b"- ", b"plant:", b"tally"))]
    if others:
        print("other lines:", others[:5])
    early = next((megabytes for passed, megabytes in rows if passed >= 59), rows[0][1])
    return 1 if others or status or rows[-1][1] > 1.1 * early else 0


if __name__ == "__main__":
    sys.exit(main())
