"""Records whose devices are instruments on loopback, through a whole front with drivers."""
import pathlib
import re
import struct
import tempfile
import time
import unittest
from typing import Callable, Dict, List, Tuple

from ..client import Client
from ..protocol import WITH_TIME, Base, Command, Status, pack
from .instruments import Counter, Plc, Rack, Supply
from .support import PATIENCE, TOP, Front, audit, until

INVALID = 3
DATABASE = """
record(longin, "volt") { field(INP, "@psu volt") field(SCAN, ".1 second") field(PINI, YES) field(HIGH, 10) field(HSV, MINOR) }
record(longout, "set") { field(OUT, "@psu set") }
record(longout, "slow") { field(OUT, "@psu slow") field(FLNK, "other") }
record(stringin, "name") { field(INP, "@psu name") field(SCAN, ".5 second") }
record(longin, "level") { field(INP, "@plc holding 7 int16") field(SCAN, ".5 second") }
record(bo, "pump") { field(OUT, "@plc coil 4") field(ZNAM, Off) field(ONAM, On) }
record(mbbo, "mode") { field(OUT, "@plc holding 9") field(ZRST, Stop) field(ONST, Run) field(ZRVL, 3) field(ONVL, 300) }
record(longin, "count") { field(INP, "@counter now") field(SCAN, "I/O Intr") }
record(longin, "raises") { field(INP, "@own raises") field(SCAN, ".1 second") }
record(longin, "hangs") { field(INP, "@own hangs") field(SCAN, ".1 second") }
record(stringin, "odd") { field(INP, "@own odd") field(SCAN, ".1 second") }
record(longin, "lost:1") { field(INP, "@nobody 1") field(SCAN, ".1 second") }
record(longin, "lost:2") { field(INP, "@nobody 2") field(SCAN, ".1 second") }
record(longout, "other") { }
record(longin, "?") { field(INP, "@own ?") field(PINI, YES) }
record(longin, "ended") { }
record(ai, "temp") { field(INP, "@psu temp") field(SCAN, ".1 second") field(PREC, 2) field(HIGH, 21) field(HSV, MINOR) }
record(ai, "third") { field(INP, "@own third") field(SCAN, ".1 second") field(PREC, 3) }
record(ao, "gain") { field(OUT, "@own keep") }
record(ai, "kept") { field(INP, "@own kept") field(SCAN, ".1 second") }
"""  # fmt: skip
DRIVERS = """
import asyncio
from channel_access.drivers import Modbus, Stream

class Counter:
    async def run(self, interrupt):
        reader, _ = await asyncio.open_connection("127.0.0.1", COUNTER)
        async for line in reader:
            self.count = int(line)
            interrupt("counter")
        raise ConnectionError("the counter has hung up")

    async def read(self, words):
        return self.count

class Own:
    patience = 0.3
    kept = 0

    async def write(self, words, value):
        self.kept = float(value)

    async def read(self, words):
        if words == "third":
            return 1 / 3
        if words == "kept":
            return self.kept
        if words == "hangs":
            await asyncio.sleep(1000)
        if words == "odd":
            return "a\\tb\\\\c\\nd"
        raise ValueError(words)

COMMANDS = {"volt": ("VOLT?", "VOLT %d"), "set": ("VOLT %d", "OK"), "slow": ("VOLT %d", "OK"), "name": ("NAME?", "%c"),
            "temp": ("TEMP? 3", "T3=%f C")}
DRIVERS = {
    "psu": Stream("127.0.0.1", PSU, COMMANDS, "\\r\\n", "\\r\\n", timeout=0.8),
    "plc": Modbus("127.0.0.1", PLC),
    "counter": Counter(),
    "own": Own(),
}
"""


class WithInstruments(unittest.TestCase):
    """A front with drivers of a supply, a PLC and a counter. Its journal is audited at the end."""

    def setUp(self) -> None:
        self.rack, self.supply, self.plc, self.counter = Rack(), Supply(), Plc(), Counter()
        self.addCleanup(self.rack.end)
        ports = {"PSU": self.rack.start(self.supply), "PLC": self.rack.start(self.plc), "COUNTER": self.rack.start(self.counter)}
        self.port = ports["PSU"]
        database, drivers = self.texts({name: str(port) for name, port in ports.items()})
        folder = tempfile.TemporaryDirectory()
        self.addCleanup(folder.cleanup)
        file = pathlib.Path(folder.name, "drivers.py")
        file.write_text(drivers)
        self.front = Front("--drivers", str(file), "--allow-write", "*", database=database, has_journal=True)
        self.addCleanup(self.front.clean)
        self.client = Client("127.0.0.1", self.front.port)
        self.addCleanup(self.client.connection.close)

    def texts(self, ports: Dict[str, str]) -> Tuple[str, str]:
        """The texts of the database and of the drivers."""
        return DATABASE, re.sub(r"\b(PSU|PLC|COUNTER)\b", lambda found: ports[found[0]], DRIVERS)

    def tearDown(self) -> None:
        begun = time.monotonic()
        self.assertEqual(self.front.end(), 0)
        self.assertLess(time.monotonic() - begun, PATIENCE / 2, "what drivers do doesn't hold the end up")
        self.assertNotIn("Traceback", self.front.errors())
        status, told = audit(self.front.database, self.front.journal)
        self.assertEqual((status, told.endswith("entries agree\n")), (0, True), told)

    def shows(self, name: str, *want: object) -> bool:
        """Waits until a channel shows a value, and perhaps a severity."""
        return until(lambda: self.client.read(name)[: len(want)] == want)

    def has_severity(self, name: str, severity: int) -> bool:
        return until(lambda: self.client.read(name)[1] == severity)

    def put(self, name: str, value: int) -> Callable[[], int]:
        """Begins a put callback. Returns what waits for its end, and tells its status."""
        client = Client("127.0.0.1", self.front.port)
        self.addCleanup(client.connection.close)
        number, _, _ = client.channel(name)
        client.send(pack(Command.WRITE_NOTIFY, struct.pack(">i4x", value), Base.LONG, 1, number, 1))
        return lambda: client.reply(Command.WRITE_NOTIFY).first


class Devices(WithInstruments):
    def test_what_is_read_reaches_clients(self) -> None:
        self.assertTrue(self.shows("volt", "5", 0))
        self.assertTrue(self.shows("name", "supply one", 0))
        self.assertTrue(self.shows("level", "-2", 0))
        self.assertTrue(self.shows("odd", "a\tb\\c\nd", 0))
        self.assertLess(abs(self.client.read("volt")[2] - time.time()), 5)
        number, _, _ = self.client.channel("volt")
        self.client.send(pack(Command.EVENT_ADD, struct.pack(">12xH2x", 1), WITH_TIME + Base.LONG, 1, number, 1))
        seen: List[Tuple[int, int]] = []
        for value in (12, 6):
            self.supply.volt = value
            while not seen or seen[-1][1] != value:
                seen.append(struct.unpack_from(">2xh8xi", self.client.reply(Command.EVENT_ADD).body))
        self.assertEqual(seen[-2:], [(1, 12), (0, 6)])

    def test_what_is_put_reaches_the_instruments(self) -> None:
        for name, value in (("set", 12), ("pump", 1), ("mode", 1)):
            self.assertEqual(self.put(name, value)(), Status.NORMAL)
            self.assertEqual(self.client.read(name)[1], 0)
        self.assertEqual((self.supply.volt, "VOLT 12" in self.supply.lines), (12, True))
        self.assertEqual((self.plc.coils[4], self.plc.registers[9]), (1, 300))
        self.assertEqual(self.put("pump", 0)(), Status.NORMAL)
        self.assertEqual(self.plc.coils[4], 0)

    def test_doubles_keep_all_their_bits(self) -> None:
        def number(name: str) -> bytes:
            channel, _, _ = self.client.channel(name)
            self.client.send(pack(Command.READ_NOTIFY, b"", Base.DOUBLE, 1, channel, 1))
            return self.client.reply(Command.READ_NOTIFY).body

        self.assertTrue(self.shows("temp", "21.50", 1))
        self.assertTrue(self.shows("third", "0.333", 0))
        self.assertEqual(number("third"), struct.pack(">d", 1 / 3))
        client = Client("127.0.0.1", self.front.port)
        self.addCleanup(client.connection.close)
        for value in (0.1 + 0.2, -0.0, 5e-324, float("-inf")):
            channel, _, _ = client.channel("gain")
            client.send(pack(Command.WRITE_NOTIFY, struct.pack(">d", value), Base.DOUBLE, 1, channel, 1))
            self.assertEqual(client.reply(Command.WRITE_NOTIFY).first, Status.NORMAL)
            self.assertTrue(until(lambda: number("kept") == struct.pack(">d", value)), value)

    def test_a_put_callback_ends_when_its_driver_answers(self) -> None:
        self.assertTrue(self.shows("volt", "5", 0))
        self.supply.delay = 0.5
        begun = time.monotonic()
        ended = self.put("slow", 9)
        self.assertEqual(self.client.read("slow.PACT")[0], "1")
        self.assertEqual(self.client.read("other")[0], "0", "other requests don't wait")
        self.assertEqual(ended(), Status.NORMAL)
        self.assertGreaterEqual(time.monotonic() - begun, 0.45)
        self.assertEqual((self.supply.volt, self.client.read("slow.PACT")[0]), (9, "0"))
        self.assertGreater(self.client.read("other")[2], 0, "the forward link was processed")

    def test_a_dead_instrument(self) -> None:
        self.assertTrue(self.shows("volt", "5", 0))
        self.rack.do(self.supply.die)
        self.assertTrue(self.has_severity("volt", INVALID))
        self.assertEqual(self.client.read("volt.STAT")[0], "READ")
        self.assertEqual(self.put("set", 7)(), Status.NORMAL)
        self.assertEqual((self.client.read("set")[1], self.client.read("set.STAT")[0]), (INVALID, "WRITE"))
        self.assertTrue(self.shows("level", "-2", 0), "the others go on")
        time.sleep(0.5)
        self.assertLess(self.front.errors().count("volt: @psu volt: "), 4, "a fault is told once")
        self.rack.start_again(self.supply, self.port)
        self.assertTrue(self.shows("volt", "5", 0), "it is back")
        self.assertEqual(self.put("set", 7)(), Status.NORMAL)
        self.assertTrue(self.shows("volt", "7", 0))
        self.assertEqual(self.client.read("set")[1], 0)

    def test_a_hung_instrument(self) -> None:
        self.assertTrue(self.shows("volt", "5", 0))
        self.supply.delay = 5.0
        ended = self.put("set", 7)
        self.assertTrue(self.has_severity("volt", INVALID))
        self.assertEqual(ended(), Status.NORMAL)
        self.assertEqual(self.client.read("set")[1], INVALID)
        self.assertTrue(until(lambda: "volt: @psu volt: DeviceFault('no answer in 0.8 seconds')\n" in self.front.errors()))

    def test_interrupts(self) -> None:
        self.assertTrue(until(lambda: self.counter.writers))
        self.assertEqual(self.client.read("count")[1:], (INVALID, 0))
        for count in (7, 8):
            self.rack.do(lambda: self.counter.tell(count))
            self.assertTrue(self.shows("count", str(count), 0))
        self.rack.do(self.counter.hang_up)
        self.assertTrue(until(lambda: "driver counter: ConnectionError('the counter has hung up')" in self.front.errors()))
        self.assertTrue(until(lambda: self.counter.writers), "it is called again")
        self.rack.do(lambda: self.counter.tell(9))
        self.assertTrue(self.shows("count", "9", 0))

    def test_drivers_that_fail(self) -> None:
        for name in ("raises", "hangs", "?", "lost:1", "lost:2"):
            self.assertTrue(until(lambda: self.client.read(f"{name}.STAT")[0] == "READ"), name)
            self.assertEqual(self.client.read(name)[1], INVALID)
        time.sleep(0.3)
        errors = self.front.errors()
        self.assertEqual([errors.count(f"{name}: @own {name}: ") for name in ("raises", "hangs", "?")], [1, 1, 1])
        self.assertEqual(errors.count("there is no driver nobody"), 1)

    def test_an_end_while_an_instrument_is_asked(self) -> None:
        self.assertTrue(self.shows("volt", "5", 0))
        self.supply.delay = 5.0
        self.put("slow", 9)
        self.assertTrue(self.shows("slow.PACT", "1"))


class Manual(WithInstruments):
    """The example of the manual, with the ports of the instruments."""

    def texts(self, ports: Dict[str, str]) -> Tuple[str, str]:
        manual = pathlib.Path(TOP, "docs", "DRIVERS.md").read_text()
        (database,) = re.findall(r"```\n(record.*?)```", manual, re.S)
        (drivers,) = re.findall(r"```python\n(.*?)```", manual, re.S)
        for port, instrument in (("7001", "PSU"), ("502", "PLC"), ("7002", "PSU"), ("7003", "COUNTER")):
            self.assertEqual(len(re.findall(rf"\b{port}\b", drivers)), 1)
            drivers = re.sub(rf"\b{port}\b", ports[instrument], drivers)
        return database, drivers

    def test_the_example(self) -> None:
        self.assertTrue(self.shows("psu:volt", "5", 0))
        self.assertTrue(self.shows("plc:level", "65534", 0))
        self.assertTrue(self.shows("scale:weight", "12", 0))
        self.assertEqual((self.put("psu:set", 8)(), self.put("plc:pump", 1)()), (Status.NORMAL, Status.NORMAL))
        self.assertEqual((self.supply.volt, self.plc.coils[2]), (8, 1))
        self.assertTrue(until(lambda: self.counter.writers))
        self.rack.do(lambda: self.counter.tell(41))
        self.assertTrue(self.shows("counter:count", "41", 0))


if __name__ == "__main__":
    unittest.main()
