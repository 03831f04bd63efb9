"""Instruments on loopback: a power supply that answers lines, a PLC that speaks Modbus TCP, and a counter that speaks unasked."""
import asyncio
import struct
import threading
from typing import Callable, Dict, List, Optional, Set, Tuple, Union

Streams = Tuple[asyncio.StreamReader, asyncio.StreamWriter]


class Supply:
    """A power supply. `delay` is how long it takes to answer; `lines` are the questions that it got, `connections` how many lines."""

    def __init__(self, terminator: bytes = b"\r\n") -> None:
        self.terminator, self.delay, self.connections = terminator, 0.0, 0
        self.volt = 5
        self.lines: List[str] = []
        self.writers: Set[asyncio.StreamWriter] = set()

    async def start(self, port: int = 0) -> int:
        """Begins to serve, and returns its port."""
        self.server = await asyncio.start_server(self.serve, "127.0.0.1", port)
        return int(self.server.sockets[0].getsockname()[1])

    def die(self) -> None:
        """Ends its service and all its lines."""
        self.server.close()
        for writer in self.writers:
            writer.close()

    async def serve(self, reader: asyncio.StreamReader, writer: asyncio.StreamWriter) -> None:
        self.connections += 1
        self.writers.add(writer)
        try:
            while True:
                line = (await reader.readuntil(self.terminator))[: -len(self.terminator)].decode()
                self.lines.append(line)
                answer, delay = self.answer(line), self.delay
                await asyncio.sleep(delay)
                if answer is None:
                    break
                writer.write(answer.encode() + self.terminator)
        except (asyncio.IncompleteReadError, asyncio.CancelledError, ConnectionError):
            pass
        self.writers.discard(writer)
        writer.close()

    def answer(self, line: str) -> Optional[str]:
        """The answer to a question; None ends the line."""
        if line.startswith("VOLT "):
            self.volt = int(line[5:])
            return "OK"
        answers = {"VOLT?": f"VOLT {self.volt}", "TEMP? 3": "T3=21.5 C", "MODE?": "0x1F", "NAME?": "supply one", "S": "S 12.5 g", "BYE": None}
        return answers.get(line, "?")


class Plc:
    """A PLC with registers and coils."""

    def __init__(self) -> None:
        self.registers: Dict[int, int] = {7: 0xFFFE, 8: 300}
        self.coils: Dict[int, int] = {2: 1}

    async def start(self) -> int:
        self.server = await asyncio.start_server(self.serve, "127.0.0.1", 0)
        return int(self.server.sockets[0].getsockname()[1])

    async def serve(self, reader: asyncio.StreamReader, writer: asyncio.StreamWriter) -> None:
        try:
            while True:
                number, _, size, unit = struct.unpack(">HHHB", await reader.readexactly(7))
                answer = self.answer(await reader.readexactly(size - 1))
                writer.write(struct.pack(">HHHB", number, 0, len(answer) + 1, unit) + answer)
        except (asyncio.IncompleteReadError, asyncio.CancelledError, ConnectionError):
            pass
        writer.close()

    def answer(self, request: bytes) -> bytes:
        function, place, value = struct.unpack(">BHH", request)
        if place >= 100:
            return struct.pack(">BB", function | 0x80, 2)
        if function in (1, 2):
            return struct.pack(">BBB", function, 1, self.coils.get(place, 0))
        if function in (3, 4):
            return struct.pack(">BBH", function, 2, self.registers.get(place, 0))
        if function == 5:
            self.coils[place] = 1 if value == 0xFF00 else 0
        else:
            self.registers[place] = value
        return request


class Counter:
    """A counter, which sends a line with its count to all that are connected."""

    def __init__(self) -> None:
        self.writers: Set[asyncio.StreamWriter] = set()

    async def start(self) -> int:
        self.server = await asyncio.start_server(self.serve, "127.0.0.1", 0)
        return int(self.server.sockets[0].getsockname()[1])

    async def serve(self, reader: asyncio.StreamReader, writer: asyncio.StreamWriter) -> None:
        self.writers.add(writer)

    def tell(self, count: int) -> None:
        for writer in self.writers:
            writer.write(b"%d\n" % count)

    def hang_up(self) -> None:
        """Ends all its lines; new ones may be opened."""
        for writer in self.writers:
            writer.close()
        self.writers.clear()


class Rack:
    """A thread in which instruments run, beside a test that waits."""

    def __init__(self) -> None:
        self.loop = asyncio.new_event_loop()
        self.thread = threading.Thread(target=self.loop.run_forever, daemon=True)
        self.thread.start()

    def start(self, instrument: Union[Supply, Plc, Counter]) -> int:
        """Starts an instrument, and returns its port."""
        return asyncio.run_coroutine_threadsafe(instrument.start(), self.loop).result(5)

    def start_again(self, supply: Supply, port: int) -> None:
        asyncio.run_coroutine_threadsafe(supply.start(port), self.loop).result(5)

    def do(self, what: Callable[[], None]) -> None:
        """Has something done in the thread."""
        self.loop.call_soon_threadsafe(what)

    def end(self) -> None:
        self.loop.call_soon_threadsafe(self.loop.stop)
        self.thread.join(5)
        for task in asyncio.all_tasks(self.loop):
            task.cancel()
        self.loop.run_until_complete(asyncio.sleep(0))
        self.loop.close()
