"""A client's circuit: its channels, and what it asks of them."""
import asyncio
import socket
import struct
from typing import TYPE_CHECKING, Callable, Dict, List, NamedTuple, Optional, Set

from . import protocol
from .interface import Reading
from .monitors import Subscription
from .protocol import CLASS_NAME, PUT_ACKS, PUT_ACKT, STSACK_STRING, Command, Message, MessageError, Status, pack
from .values import NO_VALUE, Served, empty_payload, extent_of, given_value, payload

if TYPE_CHECKING:
    from .server import Server

# The limits of one circuit: requests under way, bytes that wait to be sent before its requests wait, channels, and subscriptions.
MOST_REQUESTS = 500
MOST_UNSENT = 65536
MOST_CHANNELS = MOST_SUBSCRIPTIONS = 20_000
# The limit of circuits, and those of channels and of subscriptions of all circuits.
MOST_CIRCUITS = 400
MOST_IN_ALL = 200_000


class Channel(NamedTuple):
    """A channel of a client, with its number there."""

    client_number: int
    served: Served
    may_write: bool
    subscriptions: Set[Subscription]


class Circuit(asyncio.Protocol):
    """The TCP connection of a client. It is read no further while too many requests are under way or its replies aren't taken."""

    _transport: asyncio.Transport

    def __init__(self, server: "Server") -> None:
        self._server = server
        self.user = self.host = b""
        self.peer = ""
        self._channels: Dict[int, Channel] = {}
        self._subscriptions: Dict[int, Subscription] = {}
        self.kept: Dict[int, Subscription] = {}
        self._input = b""
        self._out: List[bytes] = []
        self._last_channel = self._requests = 0
        self._is_unread = self._are_events_off = self._is_closed = False

    # The connection.

    def connection_made(self, transport: asyncio.BaseTransport) -> None:
        assert isinstance(transport, asyncio.Transport)
        self._transport, self._loop = transport, asyncio.get_running_loop()
        self.peer = "%s:%d" % transport.get_extra_info("peername")[:2]
        if len(self._server.circuits) >= MOST_CIRCUITS:
            return transport.abort()
        connection = transport.get_extra_info("socket")
        connection.setsockopt(socket.IPPROTO_TCP, socket.TCP_NODELAY, 1)
        connection.setsockopt(socket.SOL_SOCKET, socket.SO_KEEPALIVE, 1)
        connection.setsockopt(socket.SOL_SOCKET, socket.SO_SNDBUF, MOST_UNSENT)  # what the kernel keeps is old when it is read
        transport.set_write_buffer_limits(high=MOST_UNSENT)
        self._server.circuits[self] = None
        self._send(pack(Command.VERSION, count=protocol.MINOR_VERSION))

    def connection_lost(self, error: Optional[Exception]) -> None:
        self._is_closed = True
        self._server.circuits.pop(self, None)
        for subscription in list(self._subscriptions.values()):
            self._unsubscribe(subscription)
        self._server.puts.give_up(self)
        self._server.channel_count -= len(self._channels)
        self._channels.clear()

    def abort(self) -> None:
        """Ends the connection."""
        self._transport.abort()

    def pause_writing(self) -> None:
        self._is_unread = True

    def resume_writing(self) -> None:
        self._is_unread = False
        self._resend()
        self._go_on()

    def data_received(self, data: bytes) -> None:
        self._input += data
        self._go_on()

    def _is_full(self) -> bool:
        return self._is_unread or self._requests >= MOST_REQUESTS

    def _go_on(self) -> None:
        """Does what the messages at hand ask for, as far as may be."""
        if self._is_closed or self._transport.is_closing():
            return
        data, offset = self._input, 0
        try:
            while not self._is_full():
                message, offset = protocol.take_message(data, offset)
                if message is None:
                    break
                action = _ACTIONS.get(message.command)
                if action is None:
                    raise MessageError(Status.INTERNAL, f"no command {message.command}", message.header)
                action(self, message)
        except MessageError as fault:
            self._send(protocol.error(fault.header, fault.status, str(fault)))
            self._flush()
            return self._transport.close()
        self._input = data[offset:]
        if self._is_full():
            self._transport.pause_reading()
        else:
            self._transport.resume_reading()

    def end_request(self) -> None:
        """Counts a request that isn't under way any more."""
        self._requests -= 1
        if self._requests == MOST_REQUESTS // 2:
            self._loop.call_soon(self._go_on)

    def _send(self, message: bytes) -> None:
        if not self._out:
            self._loop.call_soon(self._flush)
        self._out.append(message)

    def _flush(self) -> None:
        if self._out and not self._is_closed:
            self._transport.write(b"".join(self._out))
        self._out.clear()

    def _channel(self, message: Message) -> Channel:
        """The channel of a request. A client that gives the number of none is out of step, and its circuit ends."""
        channel = self._channels.get(message.first)
        if channel is None:
            raise MessageError(Status.INTERNAL, f"no channel {message.first}", message.header)
        return channel

    # Names and channels.

    def _ignore(self, message: Message) -> None:
        """VERSION, and READ_SYNC of old clients."""

    def _client_name(self, message: Message) -> None:
        self.user = message.text()[:60]

    def _host_name(self, message: Message) -> None:
        self.host = message.text()[:60]

    def _echo(self, message: Message) -> None:
        self._send(pack(Command.ECHO, message.body, message.form, message.elements, message.first, message.second))

    def _search(self, message: Message) -> None:
        def found(served: Optional[Served]) -> None:
            self.end_request()
            if served is not None:
                self._send(protocol.found(self._server.port, message.first))

        self._requests += 1
        self._server.find(message.text(), found)

    def _create(self, message: Message) -> None:
        def found(served: Optional[Served]) -> None:
            self.end_request()
            if self._is_closed:
                return
            if served is None or len(self._channels) >= MOST_CHANNELS or self._server.channel_count >= MOST_IN_ALL:
                return self._send(pack(Command.CREATE_FAILED, first=message.first))
            self._last_channel += 1
            self._server.channel_count += 1
            channel = self._channels[self._last_channel] = Channel(message.first, served, self._server.rights.may_write(served), set())
            rights = protocol.MAY_READ | (protocol.MAY_WRITE if channel.may_write else 0)
            self._send(pack(Command.ACCESS_RIGHTS, first=message.first, second=rights))
            self._send(pack(Command.CREATE_CHANNEL, b"", served.base, served.elements, message.first, self._last_channel))

        self._requests += 1
        self._server.find(message.text(), found)

    def _clear(self, message: Message) -> None:
        for subscription in list(self._channel(message).subscriptions):
            self._unsubscribe(subscription)
        del self._channels[message.first]
        self._server.channel_count -= 1
        self._send(pack(Command.CLEAR_CHANNEL, b"", message.form, message.elements, message.first, message.second))

    # Gets.

    @staticmethod
    def _refusal(message: Message, channel: Channel, most_form: int) -> Optional[Status]:
        """Why a value in the form and count of a message can't be given."""
        if message.form > most_form or message.form in (PUT_ACKT, PUT_ACKS):
            return Status.BAD_TYPE
        return Status.BAD_COUNT if message.elements > channel.served.elements else None

    def _get(self, message: Message) -> None:
        channel = self._channel(message)
        is_old = message.command == Command.READ

        def refuse(status: Status) -> None:
            if is_old:
                self._send(protocol.error(message.header, status, "no value", channel.client_number))
            else:
                self._send(pack(Command.READ_NOTIFY, bytes(8), message.form, message.elements, status, message.second))

        def got(reading: Optional[Reading]) -> None:
            self.end_request()
            try:
                if reading is None:
                    raise ValueError
                body, count = payload(channel.served, message.form, message.elements, reading)
            except NO_VALUE:
                return refuse(Status.GET_FAILED)
            self._send(pack(message.command, body, message.form, count, channel.client_number if is_old else Status.NORMAL, message.second))

        refusal = self._refusal(message, channel, CLASS_NAME)
        if refusal is not None:
            return refuse(refusal)
        self._requests += 1
        self._server.ioc.read(channel.served.record, channel.served.field, extent_of(message.form), got)

    # Puts.

    def _put(self, message: Message) -> None:
        channel = self._channel(message)
        record, field = channel.served.record, channel.served.field
        has_callback = message.command == Command.WRITE_NOTIFY

        def done(status: Status, words: str) -> None:
            if has_callback:
                self._send(pack(Command.WRITE_NOTIFY, b"", message.form, message.elements, status, message.second))
            elif status is not Status.NORMAL:
                self._send(protocol.error(message.header, status, f"{field.name}: {words}", channel.client_number))

        def put(refusal: Optional[str], place: Optional[int]) -> None:
            if not has_callback:
                self.end_request()
            self._server.log_put(self, channel.served, given, refusal, place)
            done(Status.NORMAL if refusal is None else Status.PUT_FAILED, refusal or "")

        if not channel.may_write:
            return done(Status.NO_WRITE_ACCESS, "it may not be written")
        if message.elements > channel.served.elements:
            return done(Status.BAD_COUNT, "too many elements")
        try:
            given = given_value(channel.served, message.form, message.elements, message.body)
        except NO_VALUE:
            return done(Status.PUT_FAILED, "no value")
        if not has_callback:
            self._requests += 1
            self._server.ioc.put(record, field, given, put)
        elif not self._server.puts.begin(self, record, field, given, put):
            put("too many put callbacks wait", None)

    # Subscriptions.

    def _subscribe(self, message: Message) -> None:
        channel = self._channel(message)
        refusal = self._refusal(message, channel, STSACK_STRING)
        if len(message.body) < 16:
            refusal = Status.BAD_COUNT
        elif len(self._subscriptions) >= MOST_SUBSCRIPTIONS or self._server.subscription_count >= MOST_IN_ALL:
            refusal = Status.NO_MEMORY
        elif message.second in self._subscriptions:
            refusal = Status.INTERNAL
        if refusal is not None:
            return self._send(protocol.error(message.header, refusal, "no subscription", channel.client_number))
        mask = struct.unpack_from(">H", message.body, 12)[0]
        subscription = Subscription(self, channel.served, message.first, message.second, message.form, message.elements, mask)
        self._subscriptions[message.second] = subscription
        channel.subscriptions.add(subscription)
        self._server.subscription_count += 1
        self._requests += 1
        self._server.monitors.subscribe(subscription)

    def _cancel_subscription(self, message: Message) -> None:
        subscription = self._subscriptions.get(message.second)
        if subscription is not None:
            self._unsubscribe(subscription)
            self._send(pack(Command.EVENT_ADD, b"", message.form, message.elements, message.first, message.second))

    def _unsubscribe(self, subscription: Subscription) -> None:
        del self._subscriptions[subscription.number]
        self._channels[subscription.server_number].subscriptions.remove(subscription)
        self._server.subscription_count -= 1
        self.kept.pop(subscription.number, None)
        self._server.monitors.cancel(subscription)

    def _events_off(self, message: Message) -> None:
        self._are_events_off = True

    def _events_on(self, message: Message) -> None:
        self._are_events_off = False
        self._resend()

    def _resend(self) -> None:
        kept, self.kept = self.kept, {}
        for subscription in kept.values():
            if subscription.kept is not None:
                subscription.post(subscription.kept)

    def may_send(self) -> bool:
        """Whether the client takes values now. If not, those of subscriptions that are `kept` are sent when it does."""
        return not self._is_unread and not self._are_events_off

    def send_value(self, subscription: Subscription, reading: Optional[Reading]) -> None:
        """Sends a value of a subscription, or that there is none."""
        form, count, status = subscription.form, subscription.count, Status.NORMAL
        try:
            if reading is None:
                raise ValueError
            body, count = payload(subscription.channel, form, count, reading)
        except NO_VALUE:
            body, status = empty_payload(subscription.channel, form, count), Status.GET_FAILED
        self._send(pack(Command.EVENT_ADD, body, form, count, status, subscription.number))


_ACTIONS: Dict[int, Callable[[Circuit, Message], None]] = {
    Command.VERSION: Circuit._ignore,
    Command.EVENT_ADD: Circuit._subscribe,
    Command.EVENT_CANCEL: Circuit._cancel_subscription,
    Command.READ: Circuit._get,
    Command.WRITE: Circuit._put,
    Command.SEARCH: Circuit._search,
    Command.EVENTS_OFF: Circuit._events_off,
    Command.EVENTS_ON: Circuit._events_on,
    Command.READ_SYNC: Circuit._ignore,
    Command.CLEAR_CHANNEL: Circuit._clear,
    Command.READ_NOTIFY: Circuit._get,
    Command.CREATE_CHANNEL: Circuit._create,
    Command.WRITE_NOTIFY: Circuit._put,
    Command.CLIENT_NAME: Circuit._client_name,
    Command.HOST_NAME: Circuit._host_name,
    Command.ECHO: Circuit._echo,
}
