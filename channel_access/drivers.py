"""Drivers: what a device link `@NAME WORDS` asks, a driver NAME answers, over TCP. docs/DRIVERS.md has an example.

A driver has two coroutines: `read(words)` returns a value, and `write(words, value)` returns when it is written. Whatever they raise is a
fault of the device, and so is more than 60 seconds, or the driver's `patience`: the record has the alarm READ or WRITE, INVALID. A driver may
have a third one, `run(interrupt)`, which runs beside them: `interrupt(word)` processes records with SCAN `I/O Intr`.
"""
import asyncio
import importlib.util
import re
import struct
import sys
from typing import Any, Awaitable, Callable, Coroutine, Dict, Mapping, Optional, Protocol, Set, Tuple, TypeVar, Union

from .interface import Ask, DeviceAnswers

Value = Union[int, float, str]
T = TypeVar("T")
Talk = Callable[[asyncio.StreamReader, asyncio.StreamWriter], Awaitable[T]]


class Driver(Protocol):
    """What a file of drivers gives for each name. A value to be written comes as a text: a state or menu as its number."""

    async def read(self, words: str) -> Value:
        """Reads what the words behind the driver's name say."""

    async def write(self, words: str, value: str) -> None:
        """Writes a value there."""


class DeviceFault(Exception):
    """An instrument doesn't answer, or not as it should."""


class Line:
    """A TCP connection to an instrument, on which one exchange is under way at a time.

    The time-out of an exchange counts from when the line is free. Any fault closes the connection, so that a late answer isn't taken for
    the next one; the next exchange opens it again.
    """

    def __init__(self, address: str, port: int, timeout: float) -> None:
        self._place, self._timeout = (address, port), timeout
        self._lock: Optional[asyncio.Lock] = None
        self._streams: Optional[Tuple[asyncio.StreamReader, asyncio.StreamWriter]] = None

    async def exchange(self, talk: Talk[T]) -> T:
        """Waits until the line is free, and talks over it."""
        self._lock = self._lock or asyncio.Lock()  # of the loop that runs
        async with self._lock:
            try:
                return await asyncio.wait_for(self._talk(talk), self._timeout)
            except BaseException as fault:
                if self._streams is not None:
                    self._streams[1].close()
                self._streams = None
                if isinstance(fault, asyncio.TimeoutError):
                    raise DeviceFault(f"no answer in {self._timeout} seconds") from None
                raise

    async def _talk(self, talk: Talk[T]) -> T:
        if self._streams is None or self._streams[0].at_eof():  # the instrument may have closed an idle line
            self._streams = await asyncio.open_connection(*self._place)
        return await talk(*self._streams)


# What a conversion of an answer matches, and the value of what it matched; what a conversion of a question makes of a value.
_ANSWERED: Dict[str, Tuple[str, Callable[[str], Value]]] = {
    "d": (r"\s*([+-]?\d+)", int),
    "x": (r"\s*(?:0[xX])?([0-9a-fA-F]+)", lambda text: int(text, 16)),
    "f": (r"\s*([+-]?(?:\d+\.?\d*|\.\d+)(?:[eE][+-]?\d+)?)", float),
    "s": (r"\s*(\S+)", str),
    "c": (r"(.*)", str),
}
_SENT: Dict[str, Callable[[str], str]] = {"d": lambda text: str(int(text)), "x": lambda text: f"{int(text):X}", "f": str, "s": str}
_CONVERSION = re.compile(r"%([a-zA-Z%])")


def converted(answer: str, pattern: str) -> Value:
    """Returns the value that the conversion of a pattern finds in an answer, which has to match the whole; an empty text for no conversion."""
    expression, convert = "", None
    for at, part in enumerate(_CONVERSION.split(pattern)):
        if at % 2 and part != "%":
            part, convert = _ANSWERED[part]
            expression += part
        else:
            expression += re.escape(part)
    found = re.fullmatch(expression, answer)
    if found is None:
        raise DeviceFault(f"the answer {answer!r} isn't {pattern!r}")
    return convert(found[1]) if convert is not None else ""


class Stream:
    """An instrument that answers lines, as users of StreamDevice write them.

    `commands` has, by the first word behind the driver's name, a question and the pattern of its answer (None: there is none):
    `{"volt": ("VOLT? $1", "VOLT %d"), "set": ("VOLT %d", "OK")}`. In a question `$1` to `$9` stand for the further words of the link, and a
    conversion for the value that is written. The conversion of an answer gives the value that is read: `%d` a decimal number, `%x` a
    hexadecimal one, `%f` one with a fraction, `%s` a word, `%c` all to the end.
    """

    def __init__(
        self, address: str, port: int, commands: Mapping[str, Tuple[str, Optional[str]]], out_terminator: str = "\n",
        in_terminator: str = "\n", timeout: float = 2.0,
    ) -> None:  # fmt: skip
        self._line, self._commands = Line(address, port, timeout), commands
        self._out_terminator, self._in_terminator = out_terminator.encode("latin-1"), in_terminator.encode("latin-1")

    async def read(self, words: str) -> Value:
        return await self._ask(words, "")

    async def write(self, words: str, value: str) -> None:
        await self._ask(words, value)

    async def _ask(self, words: str, value: str) -> Value:
        """Sends the question of the words, and returns the value in its answer."""
        name, *further = words.split() or [""]
        if name not in self._commands:
            raise DeviceFault(f"there is no command {name!r}")
        question, pattern = self._commands[name]
        for number, word in enumerate(further, 1):
            question = question.replace(f"${number}", word)
        sent = _CONVERSION.sub(lambda found: "%" if found[1] == "%" else _SENT[found[1]](value), question)

        async def talk(reader: asyncio.StreamReader, writer: asyncio.StreamWriter) -> str:
            writer.write(sent.encode("latin-1") + self._out_terminator)
            answer = b"" if pattern is None else await reader.readuntil(self._in_terminator)
            return answer[: -len(self._in_terminator)].decode("latin-1")

        return converted(await self._line.exchange(talk), pattern or "")


class Modbus:
    """A PLC over Modbus TCP: `@plc holding 7`, `input 7`, `coil 7`, `discrete 7`; holding registers and coils can be written.

    A register is a number from 0 to 65535, or with `int16` behind it from -32768 to 32767; a coil is 0 or 1.
    """

    _READ = {"coil": 1, "discrete": 2, "holding": 3, "input": 4}
    _WRITE = {"coil": 5, "holding": 6}

    def __init__(self, address: str, port: int = 502, unit: int = 1, timeout: float = 2.0) -> None:
        self._line, self._unit, self._number = Line(address, port, timeout), unit, 0

    async def read(self, words: str) -> Value:
        function, place, letter = self._place(words, self._READ)
        answer = await self._ask(struct.pack(">BHH", function, place, 1))
        return answer[2] & 1 if function < 3 else int(struct.unpack_from(letter, answer, 2)[0])

    async def write(self, words: str, value: str) -> None:
        function, place, letter = self._place(words, self._WRITE)
        number = int(value) if function == 6 else 0xFF00 * (int(value) != 0)
        await self._ask(struct.pack(">BH", function, place) + struct.pack(letter, number))

    @staticmethod
    def _place(words: str, functions: Mapping[str, int]) -> Tuple[int, int, str]:
        table, place, *form = words.split()
        if table not in functions or form not in ([], ["int16"]):
            raise DeviceFault(f"there is no {words!r} to read or write")
        return functions[table], int(place), ">h" if form else ">H"

    async def _ask(self, request: bytes) -> bytes:
        number = self._number = self._number + 1 & 0xFFFF

        async def talk(reader: asyncio.StreamReader, writer: asyncio.StreamWriter) -> bytes:
            writer.write(struct.pack(">HHHB", number, 0, len(request) + 1, self._unit) + request)
            answered, _, size, _ = struct.unpack(">HHHB", await reader.readexactly(7))
            answer = await reader.readexactly(size - 1)
            if answered != number or answer[0] & 0x7F != request[0]:
                raise DeviceFault("an answer to another request")
            return answer

        answer = await self._line.exchange(talk)
        if answer[0] & 0x80:
            raise DeviceFault(f"Modbus exception {answer[1]}")
        return answer


def load_drivers(path: str) -> Mapping[str, Driver]:
    """Returns `DRIVERS` of a Python file: drivers by the first words of device links."""
    spec = importlib.util.spec_from_file_location("site_drivers", path)
    assert spec is not None and spec.loader is not None, "its name doesn't end with .py"
    module: Any = importlib.util.module_from_spec(spec)
    sys.modules[spec.name] = module
    spec.loader.exec_module(module)
    return dict(module.DRIVERS)


class Desk:
    """Hands what records ask to drivers, and their answers back."""

    def __init__(self, drivers: Mapping[str, Driver], answers: DeviceAnswers) -> None:
        self._drivers, self._answers = drivers, answers
        self._tasks: "Set[asyncio.Task[None]]" = set()
        self._told: Dict[Union[bytes, str], str] = {}  # the last fault of each record or driver

    def start(self) -> None:
        """Begins what drivers do beside their asks."""
        for name, driver in self._drivers.items():
            if hasattr(driver, "run"):
                self._begin(self._run(name, getattr(driver, "run")))

    def ask(self, ask: Ask) -> None:
        """Begins an ask: its answer, or a fault, follows."""
        self._begin(self._serve(ask))

    def _begin(self, work: Coroutine[Any, Any, None]) -> None:
        task = asyncio.get_running_loop().create_task(work)
        self._tasks.add(task)
        task.add_done_callback(self._tasks.discard)

    def _tell(self, whose: Union[bytes, str], what: str, fault: Exception) -> None:
        """Writes a fault on standard error, unless it is the one that was written before."""
        if self._told.get(whose) != repr(fault):
            print(f"{what}: {fault!r}", file=sys.stderr)
        self._told[whose] = repr(fault)

    async def _run(self, name: str, run: Callable[[Callable[[str], None]], Awaitable[None]]) -> None:
        """Runs a driver beside its asks, and a second after a fault again."""
        while True:
            try:
                return await run(self._answers.interrupt)
            except Exception as fault:
                self._tell(name, f"driver {name}", fault)
            await asyncio.sleep(1.0)

    async def _serve(self, ask: Ask) -> None:
        name, _, words = ask.text.partition(" ")
        driver: Any = self._drivers.get(name)
        try:
            if driver is None:
                raise DeviceFault(f"there is no driver {name}")
            work = driver.read(words) if ask.value is None else driver.write(words, ask.value)
            answer = await asyncio.wait_for(work, getattr(driver, "patience", 60.0))
            value: Value = answer if ask.value is None else ""  # a float without a fraction has no point, to fit a whole number
            text = f"{value:.17g}" if isinstance(value, float) else value if isinstance(value, str) else str(int(value))
            self._answers.done(ask.record, ask.number, text)
            self._told.pop(ask.record, None)
        except Exception as fault:  # whatever a driver raises is a fault of its device
            self._tell(name if driver is None else ask.record, f"{ask.record.decode('latin-1')}: @{ask.text}", fault)
            self._answers.fault(ask.record, ask.number)
