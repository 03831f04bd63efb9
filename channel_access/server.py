"""What all clients share: names, rights, the log of puts, searches by UDP, beacons."""
import asyncio
import re
import socket
import sys
import time
from functools import partial
from typing import Any, Callable, Dict, Iterable, List, Optional, Tuple

from . import protocol
from .channels import Circuit
from .interface import Given, Ioc, Kind, Record
from .monitors import Monitors
from .protocol import Command, Message, pack
from .puts import Puts
from .values import Served, served

MOST_NAMES_IN_A_DATAGRAM = 256
_FIRST_BEACON, _LONGEST_BEACON = 0.02, 15.0
_CHANNEL_NAME = re.compile(rb"([^.]+?)(?:\.([A-Z0-9]{1,8}))?(\$?)\Z")


class Rights:
    """Who may write what: nobody anything, unless a pattern allows it, and no link fields unless they are allowed.

    In a pattern `*` stands for any bytes and `?` for one. A pattern with a dot is for REC.F, any other for all fields of records. Records
    have their own names here, also if a client uses an alias.
    """

    def __init__(self, patterns: Iterable[str], allow_links: bool) -> None:
        expressions = ((pattern, re.escape(pattern).replace(r"\*", ".*").replace(r"\?", ".")) for pattern in patterns)
        self._patterns = [(re.compile(expression), "." in pattern) for pattern, expression in expressions]
        self._allow_links = allow_links

    def may_write(self, channel: Served) -> bool:
        """Returns whether the field can be put, and a client may."""
        if not channel.field.can_put or (channel.field.kind is Kind.LINK and not self._allow_links):
            return False
        record = channel.record.name.decode("latin-1")
        return any(pattern.fullmatch(f"{record}.{channel.field.name}" if has_field else record) for pattern, has_field in self._patterns)


class Server(asyncio.DatagramProtocol):
    """The front: circuits are made for its clients, and use what is in it. It is the protocol of the socket of searches too."""

    def __init__(self, ioc: Ioc, rights: Rights, address: str, port: int) -> None:
        self.ioc, self.rights, self.address, self.port = ioc, rights, address, port
        self.puts, self.monitors = Puts(ioc), Monitors(ioc)
        self.circuits: Dict[Circuit, None] = {}
        self.channel_count = self.subscription_count = 0

    async def start(self) -> None:
        """Begins to serve. OSError if the port is taken."""
        loop = asyncio.get_running_loop()
        await loop.create_datagram_endpoint(lambda: self, local_addr=(self.address, self.port))
        self._tcp = await loop.create_server(lambda: Circuit(self), self.address, self.port, backlog=512)

    def close(self) -> None:
        """Ends the service, and all circuits."""
        self._udp.close()
        self._tcp.close()
        for circuit in list(self.circuits):
            circuit.abort()

    def find(self, name: bytes, done: Callable[[Optional[Served]], None]) -> None:
        """Finds what a channel's name leads to: REC, REC.F, REC.F$. None if it leads nowhere."""
        match = _CHANNEL_NAME.match(name)
        if match is None:
            return done(None)
        field, is_long_text = (match[2] or b"VAL").decode(), bool(match[3])

        def found(record: Optional[Record]) -> None:
            try:
                channel = served(record, record.fields[field], is_long_text) if record is not None else None
            except (KeyError, ValueError):
                channel = None
            done(channel)

        self.ioc.find(match[1], found)

    def log_put(self, circuit: Circuit, channel: Served, given: Given, refusal: Optional[str], place: Optional[int]) -> None:
        """Writes a line for a put: when, who, what, and what came of it, with the place in the journal. The client says user and host."""
        now, record = time.time(), channel.record.name.decode("latin-1")
        stamp = time.strftime("%Y-%m-%dT%H:%M:%S", time.gmtime(now)) + f".{int(now % 1 * 1e6):06}Z"
        user, host, text = (ascii(part.decode("latin-1")) if isinstance(part, bytes) else part for part in (circuit.user, circuit.host, given))
        said = (refusal or "ok") + (f" at place {place}" if place is not None else "")
        print(f"{stamp} put {record}.{channel.field.name} {text} by {user} at {host} ({circuit.peer}): {said}", file=sys.stderr)

    def connection_made(self, transport: Any) -> None:
        self._udp = transport
        self._udp.get_extra_info("socket").setsockopt(socket.SOL_SOCKET, socket.SO_RCVBUF, 1 << 20)

    def datagram_received(self, data: bytes, sender: Any) -> None:
        """Answers the names of a datagram that lead somewhere, when all of them are looked up."""
        version = pack(Command.VERSION, count=protocol.MINOR_VERSION)
        asked: List[Message] = []
        for message in protocol.messages(data):
            if message.command == Command.VERSION:  # its number tells which datagram is answered
                version = pack(Command.VERSION, b"", message.form, protocol.MINOR_VERSION, message.first)
            elif message.command == Command.SEARCH and len(asked) < MOST_NAMES_IN_A_DATAGRAM:
                asked.append(message)
        answers: List[bytes] = []

        def looked_up(message: Message, channel: Optional[Served]) -> None:
            answers.append(protocol.found(self.port, message.first) if channel is not None else b"")
            found = [one for one in answers if one] if len(answers) == len(asked) else []
            for begin in range(0, len(found), 40):  # in datagrams short of 1,024 bytes
                self._udp.sendto(version + b"".join(found[begin : begin + 40]), sender)

        for message in asked:
            self.find(message.text(), partial(looked_up, message))

    async def send_beacons(self, places: Iterable[Tuple[str, int]]) -> None:
        """Tells these places that there is a server: soon after the start, then ever more slowly."""
        number, wait = 0, _FIRST_BEACON
        with socket.socket(socket.AF_INET, socket.SOCK_DGRAM) as sender:
            sender.setblocking(False)
            while True:
                for place in places:
                    try:
                        sender.sendto(protocol.beacon(self.port, number), place)
                    except OSError:
                        pass  # nobody listens there
                number, wait = number + 1, min(wait * 2, _LONGEST_BEACON)
                await asyncio.sleep(wait)
