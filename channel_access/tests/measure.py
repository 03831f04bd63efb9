"""What the front costs, by libca on loopback: `python3 -m channel_access.tests.measure [SECONDS]`.

It prints of gets, puts and put callbacks how many a second, and microseconds of processor each: of the front, of the IOC, of this client.
With `changes [SECONDS]` it prints the same of what 10,000 monitors are told of records that change ten times a second.
"""
import os
import pathlib
import struct
import sys
import time
from typing import Any, Callable, List, Tuple

from .libca import NORMAL, Library
from .support import DATABASE, Front, free_ports

LONG, TIME_LONG = 5, 19
AT_ONCE = 500
MOVING = 10_000


def processor(process: int) -> float:
    """Seconds of processor that a process has taken, all its threads."""
    words = pathlib.Path(f"/proc/{process}/stat").read_text().rsplit(")", 1)[1].split()
    return (int(words[11]) + int(words[12])) / os.sysconf("SC_CLK_TCK")


class Measure:
    """A front, its IOC, and the library."""

    def __init__(self, seconds: float, database: str, names: List[str]) -> None:
        port, repeater = free_ports(2)
        self.seconds = seconds
        self.front = Front("--allow-write", "*", port=port, repeater=repeater, has_journal=True, database=database)
        self.ca = Library(port, repeater)
        channels = self.ca.channels(names, 60)
        assert channels is not None
        self.channels: List[Any] = channels
        (self.ioc,) = self.front.children()

    def times(self) -> Tuple[float, float, float]:
        return processor(self.front.process.pid), processor(self.ioc), time.process_time()

    def show(self, name: str, once: Callable[[], int]) -> None:
        """Does something over and over, and prints what it costs."""
        before, begun, count = self.times(), time.monotonic(), 0
        while time.monotonic() - begun < self.seconds:
            count += once()
        lasted, spent = time.monotonic() - begun, [after - earlier for after, earlier in zip(self.times(), before)]
        each = ", ".join(f"{whose} {one / count * 1e6:.1f}" for whose, one in zip(("front", "ioc", "client"), spent))
        print(f"{name}: {count / lasted:,.0f} a second; microseconds of processor each: {each}", flush=True)

    def gets(self, form: int) -> int:
        buffers = [bytearray(self.ca.size(form)) for _ in self.channels]
        for channel, buffer in zip(self.channels, buffers):
            self.ca.ca.ca_array_get(form, 1, channel, bytes(buffer))
        assert self.ca.ca.ca_pend_io(10.0) == NORMAL
        return len(self.channels)

    def puts(self) -> int:
        for number, channel in enumerate(self.channels):
            self.ca.put(channel, LONG, struct.pack("<i", number))
        self.ca.ca.ca_array_get(LONG, 1, self.channels[0], bytes(4))
        assert self.ca.ca.ca_pend_io(10.0) == NORMAL  # all puts are done
        return len(self.channels)

    def put_callbacks(self) -> int:
        ended: List[int] = []
        for channel in self.channels:
            self.ca.put_callback(channel, LONG, struct.pack("<i", 7), ended=ended)
        assert self.ca.until(lambda: len(ended) == len(self.channels), 10)
        return len(self.channels)


    def monitor_all(self) -> List[int]:
        """Monitors each channel. The list has how many values came."""
        count = [0]

        def told(data: object) -> None:
            count[0] += 1

        for channel in self.channels:
            self.ca.subscribe(channel, TIME_LONG, 1, told)
        assert self.ca.until(lambda: count[0] >= len(self.channels), 60)
        return count


def changes(seconds: float) -> None:
    names = [f"m{number}" for number in range(MOVING)]
    database = "".join(f'record(longin, "{name}") {{ field(SCAN, ".1 second") field(INP, "@{name}") }}\n' for name in names)
    measure = Measure(seconds, database, names)
    count = measure.monitor_all()

    def one_second() -> int:
        before = count[0]
        measure.ca.pend(1.0)
        return count[0] - before

    measure.show(f"changes to {MOVING:,} monitors, {MOVING * 10:,} a second", one_second)
    measure.front.clean()
    os._exit(0)


def main(seconds: float) -> None:
    measure = Measure(seconds, DATABASE, [f"n{number}" for number in range(AT_ONCE)])
    measure.show("idle", lambda: time.sleep(0.1) or 1)  # type: ignore[func-returns-value]
    measure.show("gets of a value", lambda: measure.gets(LONG))
    measure.show("gets with alarm and time stamp", lambda: measure.gets(TIME_LONG))
    measure.show("puts", measure.puts)
    measure.show("put callbacks", measure.put_callbacks)
    measure.monitor_all()

    def one_second() -> int:
        measure.ca.pend(1.0)
        return 1

    before = measure.front.journal.stat().st_size
    measure.show(f"a second of {AT_ONCE} monitors without changes", one_second)
    print(f"journal: {(measure.front.journal.stat().st_size - before) / seconds / 1e6:.1f} MB a second of these")
    measure.front.clean()
    os._exit(0)


if __name__ == "__main__":
    words = sys.argv[1:]
    run = changes if words[:1] == ["changes"] else main
    run(float(words[-1]) if words and words[-1] != "changes" else 3.0)
