"""What tests share: a database of all record types, fronts that run on loopback, raw circuits, bounded waits."""
import os
import pathlib
import re
import signal
import socket
import subprocess
import sys
import tempfile
import threading
import time
import unittest
from typing import Callable, List, Optional, Sequence, Tuple

from ..client import Client, Refused

TOP = pathlib.Path(__file__).resolve().parent.parent.parent
BIN = TOP / "bin"
PATIENCE = 10.0
# How long a front may take to start, on a machine that is busy.
START_PATIENCE = 20.0
# What programs are started with: libca's tests change the environment of this process.
ENVIRONMENT = {**os.environ, "PYTHONPATH": str(TOP)}

# An expression of as many bytes as one may have.
LONG_EXPRESSION = "A" + "+0" * 39

DATABASE = """
record(longin, "li") { field(VAL, "42") field(HIGH, 50) field(HSV, MINOR) field(HIHI, 90) field(HHSV, MAJOR) field(EGU, "mm")
  field(HOPR, 100) field(LOPR, -100) alias("li:alias") }
record(longout, "lo") { field(DRVH, 80) field(DRVL, 1) field(FLNK, "copy") field(HIGH, 70) field(HSV, MAJOR) }
record(longin, "copy") { field(INP, "lo") }
record(int64in, "i6") { field(VAL, "9007199254740993") }
record(int64out, "o6") { field(VAL, "-7") field(DRVH, 80) field(DRVL, -80) }
record(bi, "b") { field(ZNAM, Off) field(ONAM, On) field(VAL, 1) }
record(bo, "bo") { field(ZNAM, Off) field(ONAM, On) }
record(mbbi, "mi") { field(ZRST, Zero) field(ONST, One) field(TWST, Two) field(VAL, 2) }
record(mbbo, "mo") { field(ZRST, 1) field(ONST, 0) }
record(stringin, "si") { field(VAL, "a text") }
record(stringout, "so") { field(VAL, "17") }
record(event, "ev") { field(VAL, "tea") }
record(fanout, "fan") { field(VAL, "3") field(LNK1, "copy") }
record(ai, "ai") { field(VAL, "-2.5") field(PREC, 2) field(EGU, "C") field(HOPR, 10.25) field(LOPR, -1e-3) field(HIGH, 8.5) field(HSV, MINOR) }
record(ao, "ao") { field(DRVH, 7.5) field(DRVL, 0.125) field(PREC, 1) field(MDEL, 0.5) field(ADEL, 1) }
record(calc, "calc") { field(CALC, "A*B+0.5") field(INPA, "2") field(INPB, "-1.5") field(PREC, 1) field(EGU, "V") field(HOPR, 9) field(LOPR, -9.5)
  field(PINI, YES) field(LOLO, -2) field(LLSV, MAJOR) field(ADEL, 2) }
record(calcout, "out") { field(CALC, "LONG_EXPRESSION") field(OUT, "written") field(PREC, 3) field(IVOV, 1.25) }
record(ai, "written") { }
record(sel, "sel") { field(SELM, "High Signal") field(INPC, "out") field(INPL, "7.25") field(PREC, 2) field(PINI, YES) }
record(longin, "scan") { field(INP, "@d") field(SCAN, ".1 second") }
record(longin, "locked") { field(DISP, 1) }
record(longout, "deadband") { field(MDEL, 5) field(ADEL, 10) }
record(longout, "always") { field(MDEL, -1) }
record(longout, "switch") { field(SDIS, "lo.DISA") field(DISV, 7) field(DISS, MAJOR) }
record(stringout, "unit") { field(OUT, "lo.EGU") }
record(longin, "a:name:of:more:than:39:bytes:that:an:alias:leads:to") { alias("short") }
""".replace("LONG_EXPRESSION", LONG_EXPRESSION) + "".join(f'record(longout, "n{number}") {{}}\n' for number in range(1000))  # fmt: skip


def until(is_done: Callable[[], object], seconds: float = PATIENCE, pause: float = 0.005) -> bool:
    """Waits until something holds, and returns whether it does."""
    end = time.monotonic() + seconds
    while not is_done():
        if time.monotonic() > end:
            return False
        time.sleep(pause)
    return True


def free_ports(count: int) -> List[int]:
    """Returns ports of loopback that are free for TCP and UDP."""
    held: List[socket.socket] = []
    ports: List[int] = []
    while len(ports) < count:
        tcp, udp = socket.socket(), socket.socket(socket.AF_INET, socket.SOCK_DGRAM)
        held += [tcp, udp]
        tcp.bind(("127.0.0.1", 0))
        port = tcp.getsockname()[1]
        try:
            udp.bind(("127.0.0.1", port))
        except OSError:
            continue
        ports.append(port)
    for one in held:
        one.close()
    return ports


class Front:
    """A running front. Its standard error is kept in a file."""

    def __init__(
        self, *options: str, port: Optional[int] = None, repeater: Optional[int] = None, database: str = DATABASE, has_journal: bool = False
    ) -> None:
        self.port = port or free_ports(1)[0]
        self.folder = tempfile.TemporaryDirectory()
        self.database = pathlib.Path(self.folder.name, "test.db")
        self.database.write_text(database)
        self.journal = self.database.with_suffix(".journal")
        self._errors = open(pathlib.Path(self.folder.name, "errors"), "w+")
        words = [sys.executable, "-m", "channel_access", str(self.database), "--port", str(self.port), *options]
        words += ["--repeater-port", str(repeater or free_ports(1)[0])]
        words += ["--journal", str(self.journal)] if has_journal else []
        self.process = subprocess.Popen(words, stdout=subprocess.PIPE, stderr=self._errors, env=ENVIRONMENT, start_new_session=True)
        assert self.process.stdout is not None
        too_late = threading.Timer(START_PATIENCE, self.kill)
        too_late.start()
        self.ready = self.process.stdout.readline().decode()
        too_late.cancel()

    def kill(self) -> None:
        """Ends it and what it has started in its own session, whatever they do."""
        os.killpg(self.process.pid, signal.SIGKILL)

    def children(self, process: Optional[int] = None) -> List[int]:
        """The process numbers of its children, or of another process."""
        process = process or self.process.pid
        text = pathlib.Path(f"/proc/{process}/task/{process}/children").read_text()
        return [int(word) for word in text.split()]

    def memory(self) -> int:
        """Its memory in bytes."""
        found = re.search(r"VmRSS:\s+(\d+) kB", pathlib.Path(f"/proc/{self.process.pid}/status").read_text())
        assert found is not None
        return int(found[1]) * 1024

    def errors(self) -> str:
        """What it has written on standard error."""
        return pathlib.Path(self._errors.name).read_text()

    def end(self, number: int = signal.SIGTERM) -> int:
        """Ends it by a signal, and returns its status."""
        if self.process.poll() is None:
            self.process.send_signal(number)
        try:
            status = self.process.wait(PATIENCE)
        except subprocess.TimeoutExpired:
            self.kill()
            raise
        assert self.process.stdout is not None
        self.process.stdout.close()
        self._errors.close()
        return status

    def clean(self) -> None:
        """Ends it if it runs, and removes its files."""
        if not self._errors.closed:
            self.end()
        self.folder.cleanup()


def audit(database: pathlib.Path, journal: pathlib.Path, *options: str) -> Tuple[int, str]:
    """Returns the status of `ioc-audit`, and what it printed."""
    run = subprocess.run([BIN / "ioc-audit", database, journal, *options], capture_output=True, text=True, timeout=60)
    return run.returncode, run.stdout + run.stderr


def replay(database: pathlib.Path, lines: Sequence[str], *options: str) -> "subprocess.CompletedProcess[str]":
    """Runs `ioc-replay` on lines."""
    words = [str(BIN / "ioc-replay"), *options, str(database), "-"]
    return subprocess.run(words, input="".join(line + "\n" for line in lines), capture_output=True, text=True, timeout=60)


def is_ended(client: Client) -> bool:
    """Whether the server has ended the circuit, perhaps after some replies."""
    try:
        for _ in client.replies():
            pass
    except Refused as refused:
        return "ended" in str(refused) or "reset" in str(refused)
    return False


class WithFront(unittest.TestCase):
    """Tests of a front with a journal, which is started for each."""

    options: Tuple[str, ...] = ()

    def setUp(self) -> None:
        self.front = Front(*self.options, has_journal=True)
        self.addCleanup(self.front.clean)

    def client(self) -> Client:
        client = Client("127.0.0.1", self.front.port)
        self.addCleanup(client.connection.close)
        return client
