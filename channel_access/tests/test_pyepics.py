"""The example for pyepics, where Debian's python3-pyepics is installed."""
import os
import subprocess
import sys
import unittest

from .support import TOP, Front, free_ports

FOLDER = TOP / "examples" / "channel_access"


def has_pyepics(program: str) -> bool:
    return subprocess.run([program, "-c", "import epics"], capture_output=True).returncode == 0


PYTHON = next((program for program in (sys.executable, "/usr/bin/python3") if has_pyepics(program)), None)


@unittest.skipUnless(PYTHON, "there is no python3-pyepics: its example wasn't tried")
class Example(unittest.TestCase):
    def test_what_it_prints(self) -> None:
        port, repeater = free_ports(2)
        database = (TOP / "examples" / "heater.db").read_text()
        front = Front("--allow-write", "heater:current", port=port, repeater=repeater, database=database)
        self.addCleanup(front.clean)
        ports = {"EPICS_CA_SERVER_PORT": str(port), "EPICS_CA_REPEATER_PORT": str(repeater)}
        where = {"EPICS_CA_ADDR_LIST": "127.0.0.1", "EPICS_CA_AUTO_ADDR_LIST": "NO"}
        words = [PYTHON or "", str(FOLDER / "heater.py")]
        run = subprocess.run(words, env={**os.environ, **where, **ports}, stdout=subprocess.PIPE, text=True, timeout=60)
        self.assertEqual(run.stdout, (FOLDER / "heater.out").read_text())
