#!/usr/bin/env python3
"""A stand-in for `ioc DB --live`, which runs bin/ioc behind it: puts with notification to records `late*` end only when that is asked for.

`put late:release N` ends N of them, the oldest first; `late:live` and `late:cancelled` show how many are live and were cancelled, and
`late:watches` how many words watch. The record `torn` is processed again and again between readings, and `off` is disabled and enabled.
A reply of bin/ioc that doesn't come ends the stand-in by SIGALRM, so the front ends too, and its test fails.
"""
import pathlib
import random
import signal
import subprocess
import sys
from typing import List, Set

IOC = pathlib.Path(__file__).resolve().parent.parent.parent / "bin" / "ioc"
MOST_LIVE = 256
# How long a reply of bin/ioc may take.
SECONDS = 5


class Stand:
    """The program, with the puts that are live."""

    def __init__(self, words: List[str]) -> None:
        self.ioc = subprocess.Popen([IOC, *words], stdin=subprocess.PIPE, stdout=subprocess.PIPE, stderr=subprocess.DEVNULL)
        self.live: List[int] = []
        self.number = self.cancelled = 0
        self.watching: Set[bytes] = set()
        self.is_high, self.chance = False, random.Random(7)

    def ask(self, line: bytes) -> List[bytes]:
        """The replies of the program to a line."""
        assert self.ioc.stdin is not None and self.ioc.stdout is not None
        self.ioc.stdin.write(line + b"\n")
        self.ioc.stdin.flush()
        signal.alarm(SECONDS)
        replies = [self.ioc.stdout.readline().rstrip(b"\n")]
        while replies[-1].startswith((b"- ", b"? ", b"! ")):  # a device may be asked at any time, and a field may change
            replies.append(self.ioc.stdout.readline().rstrip(b"\n"))
        signal.alarm(0)
        return replies

    def notify(self, words: bytes) -> List[bytes]:
        if len(self.live) >= MOST_LIVE:
            return [b"E9 QueueFull"]
        self.number += 1
        if words.startswith(b"late"):
            self.live.append(self.number)
            return [b"ok notify %d place 0" % self.number]
        *asked, reply = self.ask(b"put# " + words)
        if not reply.startswith(b"ok"):
            return [*asked, reply]
        place = reply.rpartition(b" ")[2]
        return [*asked, b"ok notify %d place %b" % (self.number, place), b"ended %d" % self.number]

    def read(self, words: bytes) -> List[bytes]:
        """The reply to a reading: records that show counts take them first."""
        name = words.partition(b" ")[0]
        counts = {b"late:live": len(self.live), b"late:cancelled": self.cancelled, b"late:watches": len(self.watching)}
        if name in counts:
            self.ask(b"put %b.VAL %d" % (name, counts[name]))
        if name in (b"torn", b"off") and self.chance.random() < 1 / 6:
            self.is_high = not self.is_high
            self.ask(b"put torn.VAL %d" % (500 if self.is_high else 5))
            self.ask(b"put off.DISA %d" % self.is_high)
            self.ask(b"process off")
        return self.ask(b"read " + words)

    def answer(self, line: bytes) -> List[bytes]:
        """The replies to a line."""
        verb, _, words = line.partition(b" ")
        if verb == b"read":
            return self.read(words)
        if verb == b"notify#":
            return self.notify(words)
        if verb in (b"watch", b"unwatch"):
            (self.watching.add if verb == b"watch" else self.watching.discard)(words)
        if verb == b"cancel":
            if int(words) not in self.live:
                return [b"E8 Stale"]
            self.live.remove(int(words))
            self.cancelled += 1
            return [b"ok"]
        if verb == b"put#" and words.startswith(b"late:release.VAL "):
            count = int(words.split(b" ")[1])
            ended, self.live = self.live[:count], self.live[count:]
            return [b"ok processed place 0", *(b"ended %d" % number for number in ended)]
        return self.ask(line)

    def run(self) -> int:
        """Answers lines up to the end of the input."""
        for line in sys.stdin.buffer:
            sys.stdout.buffer.write(b"".join(reply + b"\n" for reply in self.answer(line.rstrip(b"\n"))))
            sys.stdout.buffer.flush()
        assert self.ioc.stdin is not None and self.ioc.stdout is not None
        self.ioc.stdin.close()
        signal.alarm(SECONDS)
        sys.stdout.buffer.write(self.ioc.stdout.read())
        return self.ioc.wait()


if __name__ == "__main__":
    sys.exit(Stand(sys.argv[1:]).run())
