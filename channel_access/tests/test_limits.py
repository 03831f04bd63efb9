"""Clients that ask too much, read nothing, or send rubbish; limits."""
import asyncio
import random
import socket
import struct
import time
import unittest
import unittest.mock
from typing import Callable, Iterator, Optional, cast

from .. import channels, protocol, server
from ..client import Client, Refused
from ..interface import Field, GotReading, Ioc, Kind, Record, Told, Wanted, Watch
from ..protocol import WITH_CONTROL, WITH_TIME, Base, Command, Status, pack
from .support import WithFront, audit, free_ports, is_ended, until

LONG_TIME = WITH_TIME + Base.LONG
WHOLE_MASK = struct.pack(">12xH2x", 5)
RANDOM_MESSAGES = 100_000

class Limits(WithFront):
    options = ("--allow-write", "*")

    def test_messages_that_are_none(self) -> None:
        large = struct.pack(">HHHHIIII", Command.ECHO, 0xFFFF, 0, 0, 0, 0, 1 << 30, 1)
        for message in (large, pack(99), pack(Command.READ_NOTIFY, b"", 5, 1, 12345, 1), struct.pack(">HHHHII", Command.ECHO, 7, 0, 0, 0, 0)):
            client = self.client()
            client.send(message)
            self.assertTrue(is_ended(client))
        self.assertEqual(self.client().read("li")[0], "42")

    def test_requests_that_are_refused(self) -> None:
        client = self.client()
        number, _, _ = client.channel("n1")
        for form, count in ((35, 1), (36, 1), (39, 1), (Base.LONG, 2)):
            client.send(pack(Command.READ_NOTIFY, b"", form, count, number, 5))
            self.assertIn(client.reply(Command.READ_NOTIFY).first, (Status.BAD_TYPE, Status.BAD_COUNT))
            client.send(pack(Command.EVENT_ADD, WHOLE_MASK, form, count, number, 5))
            self.assertIn(client.reply(Command.ERROR).second, (Status.BAD_TYPE, Status.BAD_COUNT))
            client.send(pack(Command.WRITE_NOTIFY, bytes(8), form if form > 6 else 7, 1, number, 5))
            self.assertEqual(client.reply(Command.WRITE_NOTIFY).first, Status.PUT_FAILED)
        client.send(pack(Command.WRITE_NOTIFY, bytes(16), Base.LONG, 2, number, 5))
        self.assertEqual(client.reply(Command.WRITE_NOTIFY).first, Status.BAD_COUNT)
        client.send(pack(Command.READ, b"", Base.LONG, 1, number, 5))
        self.assertEqual(client.reply(Command.READ).body, bytes(8), "an old client gets its value")

    def test_a_state_by_its_number_at_once(self) -> None:
        """The texts of the states of `mo` are 1 and 0, and nothing was read yet."""
        client = self.client()
        number, _, _ = client.channel("mo")
        for state in (1, 0, 3):
            client.send(pack(Command.WRITE_NOTIFY, struct.pack(">H6x", state), Base.ENUM, 1, number, 5))
            self.assertEqual(client.reply(Command.WRITE_NOTIFY).first, Status.NORMAL)
            client.send(pack(Command.READ_NOTIFY, b"", Base.ENUM, 1, number, 5))
            self.assertEqual(client.reply(Command.READ_NOTIFY).body[:2], struct.pack(">H", state))

    def test_properties_are_put_and_read_at_once(self) -> None:
        client = self.client()
        number, _, _ = client.channel("mi.TWST")
        value, _, _ = client.channel("mi")
        for text in (b"Second", b"Third", b"Two"):
            put = pack(Command.WRITE, text.ljust(40, b"\0"), Base.STRING, 1, number, 0)
            client.send((pack(Command.READ_NOTIFY, b"", WITH_TIME + Base.ENUM, 1, value, 5) + put) * 3)
            client.send(pack(Command.READ_NOTIFY, b"", WITH_CONTROL + Base.ENUM, 1, value, 6))
            while True:
                reply = client.reply(Command.READ_NOTIFY)
                self.assertEqual((reply.first, reply.body[-8:][6:] if reply.second == 6 else reply.body[14:16]), (Status.NORMAL, b"\0\2"))
                if reply.second == 6:
                    break
            self.assertEqual(reply.body[6 + 52 : 6 + 78].rstrip(b"\0"), text)
        other, _, _ = client.channel("mi.ONST")  # the texts of two states change places
        for at, text in ((number, b"One"), (other, b"Two")):
            client.send(pack(Command.WRITE, text.ljust(40, b"\0"), Base.STRING, 1, at, 0))
        client.send(pack(Command.READ_NOTIFY, b"", Base.ENUM, 1, value, 7))
        self.assertEqual(client.reply(Command.READ_NOTIFY).body[:2], b"\0\2")

    def test_circuits(self) -> None:
        held = [self.client() for _ in range(channels.MOST_CIRCUITS)]
        self.assertEqual(held[-1].read("li")[0], "42")
        self.assertTrue(is_ended(self.client()))
        for client in held:
            client.connection.close()
        self.assertTrue(until(lambda: not is_ended_soon(self.client())))

    def test_channels_and_subscriptions(self) -> None:
        client = self.client()
        create = b"".join(pack(Command.CREATE_CHANNEL, b"li\0", 0, 0, at, protocol.MINOR_VERSION) for at in range(channels.MOST_CHANNELS))
        client.send(create)
        client.send(pack(Command.CREATE_CHANNEL, b"li\0", 0, 0, 7, protocol.MINOR_VERSION))
        self.assertEqual(client.reply(Command.CREATE_FAILED).first, 7)
        for _ in range(2):
            client.send(pack(Command.EVENT_ADD, WHOLE_MASK, Base.LONG, 1, 1, 5))
        self.assertEqual(client.reply(Command.ERROR).second, Status.INTERNAL)

    def test_requests_of_one_client(self) -> None:
        """More requests at once than may be under way: all are answered, in their order."""
        client = self.client()
        number, _, _ = client.channel("li")
        count = 20 * channels.MOST_REQUESTS
        client.send(b"".join(pack(Command.READ_NOTIFY, b"", LONG_TIME, 1, number, at) for at in range(count)))
        replies = (message for message in client.replies() if message.command == Command.READ_NOTIFY)
        self.assertEqual([message.second for _, message in zip(range(count), replies)], list(range(count)))

    def test_many_subscriptions_of_one_client(self) -> None:
        client = self.client()
        number, _, _ = client.channel("li")
        count = 4 * channels.MOST_REQUESTS
        client.send(b"".join(pack(Command.EVENT_ADD, WHOLE_MASK, Base.LONG, 1, number, at) for at in range(count)))
        events = (message.second for message in client.replies() if message.command == Command.EVENT_ADD)
        self.assertEqual(sorted(at for _, at in zip(range(count), events)), list(range(count)))

    def test_a_client_that_reads_nothing(self) -> None:
        deaf, other = self.client(), self.client()
        for at in range(200):
            number, _, _ = deaf.channel(f"n{at}")
            deaf.send(pack(Command.EVENT_ADD, WHOLE_MASK, LONG_TIME, 1, number, at))
        target, _, _ = other.channel("n7")
        refused = 0
        before = self.front.memory()
        for value in range(1, 200):
            deaf.connection.setblocking(False)
            try:
                for _ in range(100):  # echoes that it doesn't read either
                    deaf.connection.send(pack(Command.ECHO, bytes(8000)))
            except BlockingIOError:
                refused += 1
            other.send(pack(Command.WRITE_NOTIFY, struct.pack(">i4x", value), Base.LONG, 1, target, value))
            self.assertEqual(other.reply(Command.WRITE_NOTIFY).first, Status.NORMAL)
        deaf.connection.settimeout(5)
        time.sleep(0.3)
        self.assertGreater(refused, 100, "the front reads no further")
        self.assertLess(self.front.memory() - before, 20 << 20)
        events = (message for message in deaf.replies() if message.command == Command.EVENT_ADD and message.second == 7)
        values = (struct.unpack_from(">i", message.body, 12)[0] for message in events)
        self.assertTrue(any(value == 199 for value in values), "the latest value comes when it reads")

    def test_events_off(self) -> None:
        client, other = self.client(), self.client()
        number, _, _ = client.channel("n5")
        client.send(pack(Command.EVENT_ADD, WHOLE_MASK, Base.LONG, 1, number, 1))
        client.reply(Command.EVENT_ADD)
        client.send(pack(Command.EVENTS_OFF))
        target, _, _ = other.channel("n5")
        for value in range(1, 4):
            other.send(pack(Command.WRITE, struct.pack(">i4x", value), Base.LONG, 1, target, 0))
            time.sleep(0.25)
        client.send(pack(Command.ECHO))
        self.assertEqual(client.reply(Command.EVENT_ADD, Command.ECHO).command, Command.ECHO)
        client.send(pack(Command.EVENTS_ON))
        self.assertEqual(struct.unpack_from(">i", client.reply(Command.EVENT_ADD).body)[0], 3, "the latest alone")

    def test_a_subscription_that_is_cancelled(self) -> None:
        client = self.client()
        number, _, _ = client.channel("scan")
        for request in (Command.EVENT_ADD, Command.EVENT_CANCEL):
            client.send(pack(request, WHOLE_MASK, Base.LONG, 1, number, 1))
        while client.reply(Command.EVENT_ADD).body:
            pass
        time.sleep(0.4)
        client.send(pack(Command.ECHO))
        self.assertEqual(client.reply(Command.EVENT_ADD, Command.ECHO).command, Command.ECHO)
        client.send(pack(Command.EVENT_ADD, WHOLE_MASK, Base.LONG, 1, number, 1) + pack(Command.CLEAR_CHANNEL, b"", 0, 0, number, 1))
        client.reply(Command.CLEAR_CHANNEL)
        time.sleep(0.4)
        client.send(pack(Command.ECHO))
        self.assertEqual(client.reply(Command.EVENT_ADD, Command.ECHO).command, Command.ECHO)

    def test_a_user_cant_forge_the_log(self) -> None:
        client = self.client()
        client.send(pack(Command.CLIENT_NAME, b"me\n2026 put n1.VAL 5 by\0") + pack(Command.HOST_NAME, b"\x1b[2J\0"))
        number, _, _ = client.channel("so")
        client.send(pack(Command.WRITE_NOTIFY, b"a\r\x1b\xff".ljust(40, b"\0"), Base.STRING, 1, number, 3))
        self.assertEqual(client.reply(Command.WRITE_NOTIFY).first, Status.NORMAL)
        self.assertTrue(until(lambda: "put so.VAL" in self.front.errors()))
        line = self.front.errors()
        self.assertEqual((line.count("\n"), "\x1b" in line), (1, False))
        self.assertIn(r"'a\r\x1b\xff' by 'me\n2026 put n1.VAL 5 by' at '\x1b[2J'", line)


def is_ended_soon(client: Client) -> bool:
    """Whether a circuit that was just opened is refused."""
    try:
        client.read("li")
    except (Refused, OSError):
        return True
    return False


class Rubbish(WithFront):
    """Random messages: half of them rubbish, half of them nearly right, by many circuits."""

    options = ("--allow-write", "*", "--allow-links")

    def message(self, chance: random.Random) -> bytes:
        """A message that has a known command mostly, and numbers that exist sometimes."""
        request = chance.choice((*Command, *Command, chance.randrange(1 << 16)))
        body = chance.choice((b"", WHOLE_MASK, chance.randbytes(chance.choice((8, 16, 40, 4000)))))
        if request in (Command.CREATE_CHANNEL, Command.SEARCH):
            body = chance.choice((b"n%d\0" % chance.randrange(1100), b"lo.SCAN\0", b"mo\0", b"so.VAL$\0", b"fan.LNK1\0", body))
        form, count = chance.choice((0, 1, 5, 14, 28, chance.randrange(45))), chance.choice((0, 1, 1, chance.randrange(300)))
        number, other = (chance.choice((1, 1, 2, 3, chance.randrange(1 << 32))) for _ in range(2))
        return pack(request, body, form, count, number, other)

    def right_message(self, chance: random.Random) -> bytes:
        """A request of one of four channels that there are."""
        request = chance.choice((Command.READ_NOTIFY, Command.WRITE, Command.WRITE_NOTIFY, Command.EVENT_ADD, Command.EVENT_CANCEL, Command.ECHO))
        body = WHOLE_MASK if request == Command.EVENT_ADD else chance.getrandbits(320).to_bytes(40, "big")
        return pack(request, body, chance.randrange(39), 1, chance.randrange(1, 5), chance.randrange(9))

    def burst(self, chance: random.Random) -> Iterator[bytes]:
        yield b"".join(pack(Command.CREATE_CHANNEL, name, 0, 0, at, 13) for at, name in enumerate((b"n1\0", b"so\0", b"mo\0", b"b.DISP\0")))
        for _ in range(250):
            yield self.right_message(chance) if chance.random() < 0.997 else self.message(chance)

    def test_random_messages(self) -> None:
        chance = random.Random(7)
        udp = socket.socket(socket.AF_INET, socket.SOCK_DGRAM)
        sent = answered = 0
        while sent < RANDOM_MESSAGES:
            burst = list(self.burst(chance))
            with socket.create_connection(("127.0.0.1", self.front.port)) as tcp:
                tcp.settimeout(5)
                try:
                    tcp.sendall(b"".join(burst) + pack(Command.ECHO, b"the last"))
                    udp.sendto(burst[-1][: chance.randrange(1, 1400)], ("127.0.0.1", self.front.port))
                    data = b""
                    while b"the last" not in data:
                        data += tcp.recv(1 << 16) or b"the last"
                    answered += sum(1 for _ in protocol.messages(data))
                except OSError:
                    pass
            sent += len(burst)
        udp.close()
        self.assertGreater(answered, RANDOM_MESSAGES // 4)
        self.assertEqual(self.client().read("mi")[0], "Two")
        self.assertLess(self.front.memory(), 120 << 20)
        self.assertNotIn("Traceback", self.front.errors())
        self.assertEqual(self.front.end(), 0)
        self.assertEqual(audit(self.front.database, self.front.journal)[0], 0)


class InAll(unittest.IsolatedAsyncioTestCase):
    """Limits of all circuits, made small for the test."""

    async def test_channels_and_subscriptions_of_all_circuits(self) -> None:
        front = server.Server(cast(Ioc, StandIn()), server.Rights((), False), "127.0.0.1", free_ports(1)[0])
        await front.start()
        self.addCleanup(front.close)
        with unittest.mock.patch.object(channels, "MOST_IN_ALL", 3):
            streams = [await asyncio.open_connection("127.0.0.1", front.port) for _ in range(2)]
            for at, (_, writer) in enumerate(streams * 2):
                writer.write(pack(Command.CREATE_CHANNEL, b"rec\0", 0, 0, at, 13))
                await asyncio.sleep(0.05)
            replies = [message.command for reader, _ in streams for message in protocol.messages(await reader.read(1000))]
            self.assertEqual((replies.count(Command.CREATE_CHANNEL), replies.count(Command.CREATE_FAILED)), (3, 1))
            streams[1][1].write(b"".join(pack(Command.EVENT_ADD, WHOLE_MASK, Base.LONG, 1, 1, at) for at in range(4)))
            refused = next(protocol.messages(await streams[1][0].read(1000)))
            self.assertEqual((refused.command, refused.second, front.subscription_count), (Command.ERROR, Status.NO_MEMORY, 3))
            for _, writer in streams:
                writer.close()
            for _ in range(100):
                await asyncio.sleep(0.01)
                if not front.circuits:
                    break
            self.assertEqual((front.channel_count, front.subscription_count), (0, 0))


class StandIn:
    """An IOC with one record, which never answers."""

    most_live_puts = 256
    record = Record(b"rec", "longin", {"VAL": Field("VAL", Kind.LONG, True)})

    def find(self, name: bytes, done: Callable[[Optional[Record]], None]) -> None:
        done(self.record)

    def watch(self, wanted: Wanted, told: Told) -> Watch:
        return Watch(wanted, told)

    def look(self, watch: Watch, first: GotReading) -> None:
        pass

    def unwatch(self, watch: Watch) -> None:
        pass
