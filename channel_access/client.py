"""A small client, with which one can try a server where EPICS isn't installed: connects, reads one channel after another, prints."""
import socket
import struct
import sys
import time
from typing import Iterable, Iterator, Tuple

from . import protocol
from .protocol import WITH_TIME, Base, Command, Message, Status, pack
from .values import EPICS_EPOCH

PATIENCE = 5.0
_SEVERITIES = "NO_ALARM MINOR MAJOR INVALID".split()


class Refused(Exception):
    """The server has refused a request, or doesn't answer."""


class Client:
    """A circuit to a server. OSError if there is none."""

    def __init__(self, address: str, port: int) -> None:
        self.connection = socket.create_connection((address, port), PATIENCE)
        self._input, self._last = b"", 0
        self.send(pack(Command.VERSION, count=protocol.MINOR_VERSION))

    def send(self, message: bytes) -> None:
        """Sends a message."""
        self.connection.sendall(message)

    def replies(self) -> Iterator[Message]:
        """Yields messages as they come. Refused if none comes in time."""
        while True:
            message, offset = protocol.take_message(self._input, 0)
            if message is not None:
                self._input = self._input[offset:]
                yield message
                continue
            try:
                data = self.connection.recv(65536)
            except OSError as fault:
                raise Refused(f"no answer: {fault}") from None
            if not data:
                raise Refused("the server has ended the circuit")
            self._input += data

    def reply(self, *commands: int) -> Message:
        """Returns the next reply to one of these commands. Refused if a request is refused in place of it, or if none comes in time."""
        end = time.monotonic() + 6 * PATIENCE  # however many others come
        for message in self.replies():
            if message.command in commands:
                return message
            if message.command == Command.CREATE_FAILED:
                raise Refused("no such channel")
            if time.monotonic() > end:
                break
        raise Refused("no reply")

    def channel(self, name: str) -> Tuple[int, int, int]:
        """Opens a channel. Returns its number at the server, what it is served as, and how many elements it has."""
        self._last += 1
        self.send(pack(Command.CREATE_CHANNEL, name.encode("latin-1") + b"\0", 0, 0, self._last, protocol.MINOR_VERSION))
        reply = self.reply(Command.CREATE_CHANNEL)
        return reply.second, reply.form, reply.elements

    def read(self, name: str) -> Tuple[str, int, float]:
        """Returns a channel's value as a text, its severity, and its time stamp in seconds since 1970."""
        number, base, count = self.channel(name)
        form = WITH_TIME + (Base.CHAR if base == Base.CHAR and count > 1 else Base.STRING)
        self.send(pack(Command.READ_NOTIFY, b"", form, 0, number, self._last))
        reply = self.reply(Command.READ_NOTIFY)
        if reply.first != Status.NORMAL:
            raise Refused(f"status {reply.first}")
        _, severity, seconds, nanoseconds = struct.unpack_from(">hhII", reply.body)
        text = reply.body[15 if form == WITH_TIME + Base.CHAR else 12 :].split(b"\0")[0]
        return text.decode("utf-8", "replace"), severity, seconds + EPICS_EPOCH + nanoseconds / 1e9 if seconds else 0


def get(address: str, port: int, names: Iterable[str]) -> int:
    """Prints channels: name, value, severity, time stamp in UTC. Returns the status, 1 if one couldn't be read."""
    status = 0
    try:
        client = Client(address, port)
    except OSError as fault:
        print(f"ioc-ca: no server at {address}:{port}: {fault.strerror or fault}", file=sys.stderr)
        return 1
    for name in names:
        try:
            text, severity, seconds = client.read(name)
        except Refused as refused:
            print(f"{name}: {refused}", file=sys.stderr)
            status = 1
            continue
        stamp = time.strftime("%Y-%m-%dT%H:%M:%S", time.gmtime(seconds)) + f".{int(seconds % 1 * 1000):03}Z"
        print(f"{name} {text} {_SEVERITIES[severity]} {stamp}")
    client.connection.close()
    return status
