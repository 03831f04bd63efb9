"""Drivers against instruments on loopback, without a front."""
import asyncio
import contextlib
import io
import time
import unittest
from typing import Any, Callable, List, Tuple

from ..drivers import Desk, DeviceFault, Modbus, Stream, Value, converted
from ..interface import Ask, DeviceAnswers
from .instruments import Plc, Supply

COMMANDS = {
    "volt": ("VOLT?", "VOLT %d"),
    "set": ("VOLT %d", "OK"),
    "temp": ("TEMP? $1", "T3=%f C"),
    "mode": ("MODE?", "%x"),
    "name": ("NAME?", "%c"),
    "bye": ("BYE", "%s"),
    "quiet": ("VOLT 9", None),
}
Told = Tuple[str, bytes, int, str]


class Answers(DeviceAnswers):
    """Keeps what is answered."""

    def __init__(self) -> None:
        self.told: List[Told] = []

    def done(self, record: bytes, number: int, value: str) -> None:
        self.told.append(("done", record, number, value))

    def fault(self, record: bytes, number: int) -> None:
        self.told.append(("fault", record, number, ""))

    def interrupt(self, word: str) -> None:
        self.told.append(("interrupt", b"", 0, word))


class Own:
    """A driver that reads values one after another, and takes a while to write. What it does beside fails once."""

    patience = 5.0

    def __init__(self, values: List[Value]) -> None:
        self.values, self.runs = values, 0

    async def read(self, words: str) -> Value:
        return self.values.pop(0)

    async def write(self, words: str, value: str) -> None:
        await asyncio.sleep(0.3)

    async def run(self, interrupt: Callable[[str], None]) -> None:
        self.runs += 1
        interrupt("own")
        if self.runs == 1:
            raise ConnectionError("lost")


class Patterns(unittest.TestCase):
    def test_answers(self) -> None:
        wants: List[Tuple[str, str, Value]] = [
            ("VOLT 12", "VOLT %d", 12), ("-3", "%d", -3), ("0xff", "%x", 255), ("1.5e3 V", "%f V", 1500.0), ("on", "%s", "on"),
            ("a b", "%c", "a b"), ("50%", "%d%%", 50), ("OK", "OK", ""), ("a+b", "a+b", ""),
        ]  # fmt: skip
        for answer, pattern, want in wants:
            self.assertEqual(converted(answer, pattern), want)

    def test_answers_that_differ(self) -> None:
        for answer, pattern in (("VOLT 12 ", "VOLT %d"), ("VOLT", "VOLT %d"), ("12.5", "%d"), ("aab", "a+b"), ("", "OK")):
            with self.assertRaises(DeviceFault):
                converted(answer, pattern)


class Lines(unittest.IsolatedAsyncioTestCase):
    async def asyncSetUp(self) -> None:
        self.supply = Supply()
        self.stream = Stream("127.0.0.1", await self.supply.start(), COMMANDS, "\r\n", "\r\n", timeout=0.5)
        self.addCleanup(self.supply.server.close)

    async def test_reads_and_writes(self) -> None:
        for words, want in (("volt", 5), ("temp 3", 21.5), ("mode", 31), ("name", "supply one")):
            self.assertEqual(await self.stream.read(words), want)
        await self.stream.write("set", "12")
        self.assertEqual((await self.stream.read("volt"), self.supply.connections), (12, 1))

    async def test_faults(self) -> None:
        for words in ("temp 4", "unknown", ""):
            with self.assertRaises(DeviceFault):
                await self.stream.read(words)
        with self.assertRaises(ValueError):
            await self.stream.write("set", "twelve")
        await self.stream.write("quiet", "1")

    async def test_a_timeout_counts_from_when_the_line_is_free(self) -> None:
        self.supply.delay = 0.2
        self.assertEqual(await asyncio.gather(*(self.stream.read("volt") for _ in range(4))), [5] * 4)

    async def test_a_timeout_closes_the_line(self) -> None:
        self.supply.delay = 0.7
        begun = time.monotonic()
        with self.assertRaises(DeviceFault):
            await self.stream.read("volt")
        self.assertLess(time.monotonic() - begun, 0.7)
        self.supply.delay = 0.0
        self.assertEqual(await self.stream.read("mode"), 31)
        await asyncio.sleep(0.3)
        self.assertEqual((await self.stream.read("name"), self.supply.connections), ("supply one", 2))

    async def test_a_line_that_the_instrument_closes(self) -> None:
        with self.assertRaises(asyncio.IncompleteReadError):
            await self.stream.read("bye")
        self.assertEqual(await self.stream.read("volt"), 5)

    async def test_nobody_listens(self) -> None:
        self.supply.server.close()
        await self.supply.server.wait_closed()
        with self.assertRaises(OSError):
            await self.stream.read("volt")


class Registers(unittest.IsolatedAsyncioTestCase):
    async def asyncSetUp(self) -> None:
        self.plc = Plc()
        self.modbus = Modbus("127.0.0.1", await self.plc.start(), timeout=0.5)
        self.addCleanup(self.plc.server.close)

    async def test_registers_and_coils(self) -> None:
        for words, want in (("holding 7", 0xFFFE), ("holding 7 int16", -2), ("input 8", 300), ("coil 2", 1), ("discrete 3", 0)):
            self.assertEqual(await self.modbus.read(words), want)
        await self.modbus.write("holding 9", "65535")
        await self.modbus.write("holding 10 int16", "-5")
        await self.modbus.write("coil 4", "1")
        await self.modbus.write("coil 2", "0")
        self.assertEqual((self.plc.registers[9], self.plc.registers[10], self.plc.coils), (65535, 65531, {2: 0, 4: 1}))

    async def test_faults(self) -> None:
        for words in ("holding 100", "holding x", "holding", "register 7", "holding 7 int32"):
            with self.assertRaises((DeviceFault, ValueError)):
                await self.modbus.read(words)
        with self.assertRaises(DeviceFault):
            await self.modbus.write("input 8", "1")
        self.assertEqual(await self.modbus.read("input 8"), 300)


class Asks(unittest.IsolatedAsyncioTestCase):
    async def asyncSetUp(self) -> None:
        self.supply, self.answers = Supply(), Answers()
        self.addCleanup(lambda: self.supply.server.close())
        stream = Stream("127.0.0.1", await self.supply.start(), COMMANDS, "\r\n", "\r\n", timeout=0.3)
        self.desk = Desk({"psu": stream}, self.answers)

    async def told(self, count: int) -> List[Told]:
        for _ in range(500):
            if len(self.answers.told) >= count:
                break
            await asyncio.sleep(0.01)
        return sorted(self.answers.told)

    async def test_asks_are_answered(self) -> None:
        asks = [("r", 1, "psu set", "12"), ("s", 2, "psu nothing", None), ("t", 3, "plc 7", None)]
        for record, number, text, value in asks:
            self.desk.ask(Ask(record.encode(), number, text, value))
        self.assertEqual(await self.told(3), [("done", b"r", 1, ""), ("fault", b"s", 2, ""), ("fault", b"t", 3, "")])
        self.desk.ask(Ask(b"r", 4, "psu volt", None))
        self.assertIn(("done", b"r", 4, "12"), await self.told(4))

    async def test_a_hung_instrument_is_a_fault(self) -> None:
        self.supply.delay = 5
        self.desk.ask(Ask(b"r", 1, "psu volt", None))
        self.assertEqual(await self.told(1), [("fault", b"r", 1, "")])

    async def test_values_as_texts(self) -> None:
        values: List[Any] = [7, -7, 12.0, 12.5, 1e300, 0.1, float("inf"), True, "a text", b"12", None, [1]]
        wants = ["7", "-7", "12", "12.5", "1.0000000000000001e+300", "0.10000000000000001", "inf", "1", "a text", "12"]
        desk = Desk({"own": Own(values)}, self.answers)
        for number in range(len(values)):
            desk.ask(Ask(b"r", number, "own", None))
            await self.told(number + 1)
        told = [("done", b"r", number, want) for number, want in enumerate(wants)]
        self.assertEqual(self.answers.told, [*told, ("fault", b"r", 10, ""), ("fault", b"r", 11, "")])

    async def test_patience(self) -> None:
        self.supply.delay = 0.2
        for patience, want in ((0.1, "fault"), (5.0, "done")):
            patient = Own([])
            patient.patience = patience
            Desk({"own": patient}, self.answers).ask(Ask(b"r", 1, "own wait", "7"))
            await self.told(1)
            self.assertEqual(self.answers.told.pop()[0], want)

    async def test_what_fails_runs_again(self) -> None:
        own = Own([])
        with contextlib.redirect_stderr(io.StringIO()) as errors:
            Desk({"own": own}, self.answers).start()
            self.assertEqual(await self.told(2), [("interrupt", b"", 0, "own")] * 2)
        self.assertEqual((own.runs, errors.getvalue()), (2, "driver own: ConnectionError('lost')\n"))
