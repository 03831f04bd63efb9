#!/usr/bin/env python3
"""Runs `ioc --live` with RECORDS records that are scanned ten times a second, each with a device outside, for SECONDS, and prints how it went.

    bench/live.py [RECORDS [SECONDS]]

It answers for the devices at once, keeps the journal, audits it, and prints the ticks, those that were missed, by how many microseconds the
last one was late, asks and their answers, the entries, seconds of the processor of `ioc`, and its memory after a third of the time and at the end.
"""
import os
import pathlib
import subprocess
import sys
import tempfile
import threading
import time

TOP = pathlib.Path(__file__).resolve().parent.parent
BIN = TOP / "bin"


def memory(number):
    """The memory of a process in MB."""
    text = pathlib.Path(f"/proc/{number}/status").read_text()
    return int(text.split("VmRSS:")[1].split()[0]) // 1024


def processor(number):
    """The seconds of the processor that a process took."""
    words = pathlib.Path(f"/proc/{number}/stat").read_text().rpartition(")")[2].split()
    return (int(words[11]) + int(words[12])) / os.sysconf("SC_CLK_TCK")


class Driver:
    """Answers what is asked, by pieces of the output, and keeps the other lines."""

    def __init__(self, words):
        self.ioc = subprocess.Popen(words, stdin=subprocess.PIPE, stdout=subprocess.PIPE)
        self.others, self.asks, self.refused = [], 0, 0
        self.thread = threading.Thread(target=self.run)
        self.thread.start()

    def run(self):
        rest = b""
        while piece := os.read(self.ioc.stdout.fileno(), 1 << 20):
            *lines, rest = (rest + piece).split(b"\n")
            answers = []
            for line in lines:
                if line.startswith(b"? "):
                    _, record, wait, _ = line.split(b" ", 3)
                    answers.append(b"done %b %b %b\n" % (record, wait, wait))
                elif line != b"ok":
                    self.others.append(line)
            self.asks += len(answers)
            try:
                os.write(self.ioc.stdin.fileno(), b"".join(answers))
            except (BrokenPipeError, ValueError):
                pass  # the run ends

    def status(self):
        """The counts that `status` prints."""
        begin = len(self.others)
        os.write(self.ioc.stdin.fileno(), b"status\n")
        while not any(line.startswith(b"ok ") for line in self.others[begin:]):
            time.sleep(0.01)
        return {line.split()[1].decode(): int(line.split()[2]) for line in self.others[begin:] if line.startswith(b"- ")}


def main():
    records = int(sys.argv[1]) if len(sys.argv) > 1 else 1000
    seconds = float(sys.argv[2]) if len(sys.argv) > 2 else 60.0
    with tempfile.TemporaryDirectory() as folder:
        database, journal = pathlib.Path(folder, "live.db"), pathlib.Path(folder, "live.journal")
        database.write_text("".join(f'record(longin, "r{n}") {{ field(SCAN, ".1 second") field(INP, "@d {n}") }}\n' for n in range(records)))
        driver = Driver([BIN / "ioc", database, "--live", "--workers", "2", "--journal", journal])
        time.sleep(seconds / 3)
        early = memory(driver.ioc.pid)
        time.sleep(seconds * 2 / 3)
        counts, late, used = driver.status(), memory(driver.ioc.pid), processor(driver.ioc.pid)
        driver.ioc.stdin.close()
        driver.ioc.wait()
        driver.thread.join()
        audited = subprocess.run([BIN / "ioc-audit", database, journal, "--whole"], capture_output=True, text=True)
    print(", ".join(f"{name} {count}" for name, count in counts.items()))
    print(f"asks {driver.asks}, processor {used:.2f} s, memory {early} MB and {late} MB, audit: {audited.stdout.strip()}")
    return audited.returncode


if __name__ == "__main__":
    sys.exit(main())
