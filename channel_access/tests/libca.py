"""libca, the client library of EPICS Base, by ctypes: Debian's package libca4.13.5. One context for the whole process."""
import ctypes as C
import os
import struct
import time
from typing import Any, Callable, List, Optional, Union

LIBRARY = "libca.so.4.13.5"
NORMAL, TIMEOUT = 1, 80
CONNECTED, DISCONNECTED = 6, 7
VALUE, LOG, ALARM, PROPERTY = 1, 2, 4, 8
_PACKED = ["", "<h", "<f", "<H", "<B", "<i", "<d"]


class _Event(C.Structure):
    _fields_ = [("usr", C.c_void_p), ("chid", C.c_void_p), ("type", C.c_long), ("count", C.c_long), ("dbr", C.c_void_p), ("status", C.c_int)]


class _Connection(C.Structure):
    _fields_ = [("chid", C.c_void_p), ("op", C.c_long)]


class _Exception(C.Structure):
    _fields_ = [
        ("usr", C.c_void_p), ("chid", C.c_void_p), ("type", C.c_long), ("count", C.c_long), ("addr", C.c_void_p), ("stat", C.c_long),
        ("op", C.c_long), ("ctx", C.c_char_p), ("file", C.c_char_p), ("line", C.c_uint),
    ]  # fmt: skip


_EVENT, _CONNECTION, _EXCEPTION = C.CFUNCTYPE(None, _Event), C.CFUNCTYPE(None, _Connection), C.CFUNCTYPE(None, _Exception)
_ARGUMENTS = {
    "ca_pend_io": [C.c_double],
    "ca_pend_event": [C.c_double],
    "ca_create_channel": [C.c_char_p, C.c_void_p, C.c_void_p, C.c_uint, C.POINTER(C.c_void_p)],
    "ca_array_get": [C.c_long, C.c_ulong, C.c_void_p, C.c_void_p],
    "ca_array_get_callback": [C.c_long, C.c_ulong, C.c_void_p, C.c_void_p, C.c_void_p],
    "ca_array_put": [C.c_long, C.c_ulong, C.c_void_p, C.c_void_p],
    "ca_array_put_callback": [C.c_long, C.c_ulong, C.c_void_p, C.c_void_p, C.c_void_p, C.c_void_p],
    "ca_create_subscription": [C.c_long, C.c_ulong, C.c_void_p, C.c_long, C.c_void_p, C.c_void_p, C.c_void_p],
    "ca_clear_subscription": [C.c_void_p],
    "ca_add_exception_event": [C.c_void_p, C.c_void_p],
    **{f"ca_{name}": [C.c_void_p] for name in "field_type element_count state read_access write_access clear_channel".split()},
}


def is_there() -> bool:
    """Returns whether the library can be loaded."""
    try:
        C.CDLL(LIBRARY)
    except OSError:
        return False
    return True


class Library:
    """The library, which looks for servers on one port of loopback alone."""

    def __init__(self, port: int, repeater: int) -> None:
        os.environ.update(EPICS_CA_ADDR_LIST="127.0.0.1", EPICS_CA_AUTO_ADDR_LIST="NO", EPICS_CA_SERVER_PORT=str(port))
        os.environ.update(EPICS_CA_REPEATER_PORT=str(repeater), EPICS_CA_CONN_TMO="5", PATH="/nowhere")  # no caRepeater is looked for
        self.ca: Any = C.CDLL(LIBRARY)
        for name, arguments in _ARGUMENTS.items():
            getattr(self.ca, name).argtypes = arguments
        self.ca.ca_field_type.restype = C.c_short
        self.ca.ca_element_count.restype = C.c_ulong
        self._sizes = (C.c_ushort * 39).in_dll(self.ca, "dbr_size")
        self._value_sizes = (C.c_ushort * 39).in_dll(self.ca, "dbr_value_size")
        self._offsets = (C.c_ushort * 39).in_dll(self.ca, "dbr_value_offset")
        self.exceptions: List[int] = []
        self._kept: List[object] = []
        self.ca.ca_context_create(0)
        self.ca.ca_add_exception_event(self._keep(_EXCEPTION(lambda fault: self.exceptions.append(fault.stat))), None)

    def _keep(self, callback: Any) -> Any:
        self._kept.append(callback)
        return callback

    def size(self, form: int, count: int = 1) -> int:
        return int(self._sizes[form] + (count - 1) * self._value_sizes[form])

    def value(self, form: int, data: bytes) -> Union[str, int, float]:
        """The value in the bytes of a form."""
        base, part = form % 7 if form < 35 else 0, data[self._offsets[form] :]
        if base == 0:
            return part[:40].split(b"\0")[0].decode("latin-1")
        number: Union[int, float] = struct.unpack_from(_PACKED[base], part)[0]
        return number

    def pend(self, seconds: float) -> None:
        self.ca.ca_pend_event(seconds)

    def until(self, is_done: Callable[[], object], seconds: float = 10.0) -> bool:
        """Lets callbacks come until something holds, and returns whether it does."""
        end = time.monotonic() + seconds
        while not is_done() and time.monotonic() < end:
            self.pend(0.002)
        return bool(is_done())

    def channels(self, names: List[str], seconds: float = 10.0) -> Optional[List[Any]]:
        """Connects channels; None if they aren't there."""
        numbers = [C.c_void_p() for _ in names]
        for name, number in zip(names, numbers):
            self.ca.ca_create_channel(name.encode("latin-1"), None, None, 0, C.byref(number))
        return numbers if self.ca.ca_pend_io(seconds) == NORMAL else None

    def channel(self, name: str, seconds: float = 10.0) -> Any:
        numbers = self.channels([name], seconds)
        return numbers[0] if numbers is not None else None

    def watch_connection(self, name: str, states: List[int]) -> Any:
        """A channel that tells when it is connected and disconnected."""
        number = C.c_void_p()
        told = self._keep(_CONNECTION(lambda connection: states.append(connection.op)))
        self.ca.ca_create_channel(name.encode(), told, None, 0, C.byref(number))
        return number

    def get(self, channel: Any, form: int, count: int = 1) -> Optional[bytes]:
        """The bytes of a form; None if the server refuses it."""
        got: List[Optional[bytes]] = []
        told = self._keep(
            _EVENT(lambda event: got.append(C.string_at(event.dbr, self.size(form, event.count)) if event.status == NORMAL else None))
        )
        if self.ca.ca_array_get_callback(form, count, channel, told, None) != NORMAL:
            return None
        self.ca.ca_flush_io()
        if not self.until(lambda: got):
            raise TimeoutError
        return got[0]

    def read(self, name: str, form: int = 0) -> Union[str, int, float, None]:
        """The value of a channel."""
        data = self.get(self.channel(name), form)
        return None if data is None else self.value(form, data)

    def put(self, channel: Any, form: int, data: bytes, count: int = 1) -> int:
        """Puts without an answer; returns what the library says to it."""
        return int(self.ca.ca_array_put(form, count, channel, data))

    def put_callback(self, channel: Any, form: int, data: bytes, count: int = 1, ended: Optional[List[int]] = None) -> int:
        """The status of a put callback; with a list it isn't waited for, and the list gets it."""
        got: List[int] = [] if ended is None else ended
        told = self._keep(_EVENT(lambda event: got.append(event.status)))
        status = int(self.ca.ca_array_put_callback(form, count, channel, data, told, None))
        self.ca.ca_flush_io()
        if status != NORMAL or ended is not None:
            return status
        if not self.until(lambda: got):
            raise TimeoutError
        return got[0]

    def put_text(self, name: str, text: str) -> int:
        return self.put_callback(self.channel(name), 0, text.encode("latin-1").ljust(40, b"\0"))

    def monitor(self, name: str, form: int, mask: int, told: Callable[[Any], None], count: int = 1) -> Any:
        """A subscription: `told` gets the bytes of each value, or the status of a failure."""
        return self.subscribe(self.channel(name), form, mask, told, count)

    def subscribe(self, channel: Any, form: int, mask: int, told: Callable[[Any], None], count: int = 1) -> Any:
        """As `monitor`, of a channel that is connected."""
        number = C.c_void_p()
        heard = self._keep(
            _EVENT(lambda event: told(C.string_at(event.dbr, self.size(form, event.count)) if event.status == NORMAL else event.status))
        )
        self.ca.ca_create_subscription(form, count, channel, mask, heard, None, C.byref(number))
        self.ca.ca_flush_io()
        return number
