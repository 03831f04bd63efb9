"""The bytes of Channel Access 4.13: messages, commands, statuses, forms of values."""
import enum
import struct
from typing import Iterator, NamedTuple, Optional, Tuple

MINOR_VERSION = 13
MOST_PAYLOAD = 16384
NO_ADDRESS = 0xFFFFFFFF
MAY_READ, MAY_WRITE = 1, 2
_HEADER = struct.Struct(">HHHHII")
_LONG_HEADER = struct.Struct(">II")


class Command(enum.IntEnum):
    """What a message asks for or answers."""

    VERSION, EVENT_ADD, EVENT_CANCEL, READ, WRITE = range(5)
    SEARCH = 6
    EVENTS_OFF, EVENTS_ON, READ_SYNC, ERROR, CLEAR_CHANNEL, BEACON = range(8, 14)
    READ_NOTIFY = 15
    CREATE_CHANNEL, WRITE_NOTIFY, CLIENT_NAME, HOST_NAME, ACCESS_RIGHTS, ECHO = range(18, 24)
    CREATE_FAILED = 26


class Status(enum.IntEnum):
    """ECA codes: what a request came to."""

    NORMAL = 1
    NO_MEMORY = 48
    TOO_LARGE = 72
    BAD_TYPE = 114
    INTERNAL = 142
    GET_FAILED = 152
    PUT_FAILED = 160
    BAD_COUNT = 176
    NO_WRITE_ACCESS = 376


class Base(enum.IntEnum):
    """What the value of a form is."""

    STRING, SHORT, FLOAT, ENUM, CHAR, LONG, DOUBLE = range(7)


# The first forms with an alarm beside the value, with a time stamp too, with units and limits, and with control limits; before them come
# the bases alone. Then four forms of one base each, of which two put what isn't kept here.
WITH_ALARM, WITH_TIME, WITH_UNITS, WITH_CONTROL = 7, 14, 21, 28
PUT_ACKT, PUT_ACKS, STSACK_STRING, CLASS_NAME = 35, 36, 37, 38


class Message(NamedTuple):
    """A message, with its numbers by their places: what they mean differs by command."""

    command: int
    form: int
    elements: int
    first: int
    second: int
    body: bytes
    header: bytes

    def text(self) -> bytes:
        """The body up to its first NUL."""
        return self.body.split(b"\0", 1)[0]


class MessageError(Exception):
    """Bytes behind which nothing can be read: the status of the refusal, its words, and the header of the message."""

    def __init__(self, status: Status, words: str, header: bytes) -> None:
        super().__init__(words)
        self.status, self.header = status, header


def pack(command: int, body: bytes = b"", form: int = 0, count: int = 0, first: int = 0, second: int = 0) -> bytes:
    """Returns the bytes of a message; its body is filled up to eight bytes with NUL."""
    padding = -len(body) % 8
    return _HEADER.pack(command, len(body) + padding, form, count, first, second) + body + bytes(padding)


def take_message(data: bytes, offset: int) -> Tuple[Optional[Message], int]:
    """Returns the message that begins at an offset, and where the next one begins; None if it isn't complete.

    MessageError if its body is too large, or no multiple of eight bytes.
    """
    begin = offset + _HEADER.size
    if len(data) < begin:
        return None, offset
    command, size, form, elements, first, second = _HEADER.unpack_from(data, offset)
    if size == 0xFFFF and elements == 0:
        if len(data) < begin + _LONG_HEADER.size:
            return None, offset
        size, elements = _LONG_HEADER.unpack_from(data, begin)
        begin += _LONG_HEADER.size
    header = data[offset : offset + _HEADER.size]
    if size > MOST_PAYLOAD or size % 8:
        raise MessageError(Status.TOO_LARGE, f"a body of {size} bytes", header)
    if len(data) < begin + size:
        return None, offset
    return Message(command, form, elements, first, second, data[begin : begin + size], header), begin + size


def messages(data: bytes) -> Iterator[Message]:
    """Yields the messages of a datagram, up to the first that isn't whole."""
    offset = 0
    try:
        message, offset = take_message(data, offset)
        while message is not None:
            yield message
            message, offset = take_message(data, offset)
    except MessageError:
        return


def error(header: bytes, status: int, words: str, channel: int = NO_ADDRESS) -> bytes:
    """Returns the refusal of the message with this header; `channel` is the client's number of it."""
    return pack(Command.ERROR, header + words.encode("latin-1", "replace")[:200] + b"\0", 0, 0, channel, status)


def found(port: int, client_number: int) -> bytes:
    """Returns the answer to the search for a name that is served at the sender's address and this port."""
    return pack(Command.SEARCH, struct.pack(">H6x", MINOR_VERSION), port, 0, NO_ADDRESS, client_number)


def beacon(port: int, number: int) -> bytes:
    """Returns the message that tells of a server at the sender's address."""
    return pack(Command.BEACON, b"", MINOR_VERSION, port, number & 0xFFFFFFFF, 0)
