#!/usr/bin/env python3
"""Answers for the devices of tank.db: a tank, into which a pump brings water. It starts bin/ioc, puts a speed, and ends after two seconds."""
import pathlib
import subprocess
import sys
import threading
import time

HERE = pathlib.Path(__file__).resolve().parent
words = [HERE.parent.parent / "bin" / "ioc", HERE / "tank.db", "--live", "--workers", "2", *sys.argv[1:]]
ioc = subprocess.Popen(words, stdin=subprocess.PIPE, stdout=subprocess.PIPE, text=True)
tank = {"level": 0, "speed": 0}


def send(line):
    try:
        ioc.stdin.write(line + "\n")
        ioc.stdin.flush()
    except BrokenPipeError:
        pass  # it has ended meanwhile


def scene():
    send("put tank:pump 3")
    time.sleep(2)
    send("exit")


threading.Thread(target=scene).start()
for line in ioc.stdout:
    print(line, end="")
    if line.startswith("? "):
        _, record, wait, verb, what = line.rstrip("\n").split(" ", 4)
        if verb == "write":
            tank["speed"] = int(what.split("\t")[1])
            send(f"done {record} {wait}")
        else:
            tank["level"] += tank["speed"]
            send(f"done {record} {wait} {tank['level']}")
sys.exit(ioc.wait())
