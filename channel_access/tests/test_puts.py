"""Put callbacks that end late: fair shares, and circuits that end; records that are processed while they are read. The IOC is a stand-in."""
import os
import pathlib
import signal
import struct
import time
import unittest
from typing import Callable, Dict, List, Optional, cast

from ..client import Client, Refused
from ..interface import Done, Field, Given, Ioc, Kind, PutCallback, Record
from ..protocol import WITH_TIME, Base, Command, Status, pack
from ..puts import MOST_WAITING, Puts
from .support import DATABASE, PATIENCE, Front, until

FIELD = Field("VAL", Kind.LONG, True)
RECORD = Record(b"rec", "longout", {"VAL": FIELD})
LATE_IOC = str(pathlib.Path(__file__).with_name("late_ioc.py"))
LATE = DATABASE + "".join(f'record(longout, "late:{name}") {{}}\n' for name in ("release", "live", "cancelled", "watches", "a", "b"))
LATE += """record(longout, "torn") { field(HIGH, 100) field(HSV, MAJOR) }
record(longout, "off") { field(VAL, 5) field(DISS, MAJOR) }
"""


class LateIoc:
    """Keeps puts with notification live until the test ends them."""

    most_live_puts = 256

    def __init__(self) -> None:
        self.live: Dict[PutCallback, Done] = {}
        self.freed: List[Callable[[], None]] = []

    def notify(self, record: Record, field: Field, given: Given, done: Done) -> PutCallback:
        begun = PutCallback()
        self.live[begun] = done
        return begun

    def cancel(self, begun: PutCallback, freed: Callable[[], None]) -> None:
        del self.live[begun]
        self.freed.append(freed)


class FairPuts(unittest.TestCase):
    def setUp(self) -> None:
        self.ioc = LateIoc()
        self.puts = Puts(cast(Ioc, self.ioc))
        self.ended: List[str] = []

    def begin(self, owner: str, count: int) -> List[bool]:
        return [self.puts.begin(owner, RECORD, FIELD, 1, lambda refusal, place: self.ended.append(owner)) for _ in range(count)]

    def end_one(self) -> None:
        begun = next(iter(self.ioc.live))
        self.ioc.live.pop(begun)(None, None)

    def test_no_client_has_all_places(self) -> None:
        self.begin("greedy", 300)
        self.assertEqual(len(self.ioc.live), 128)
        self.begin("second", 300)
        self.assertEqual(len(self.ioc.live), 128 + 64)
        self.begin("late comer", 1)
        self.assertEqual(len(self.ioc.live), 128 + 64 + 1)

    def test_shares_become_equal_and_all_end(self) -> None:
        self.begin("greedy", 500)
        self.begin("second", 500)
        while self.ioc.live:
            self.end_one()
            self.assertLessEqual(len(self.ioc.live), 256)
        self.assertEqual((self.ended.count("greedy"), self.ended.count("second")), (500, 500))
        half = self.ended[: len(self.ended) // 2]
        self.assertGreaterEqual(half.count("second"), 200, "the second one didn't wait for the first")

    def test_too_many_wait(self) -> None:
        self.assertEqual(self.begin("greedy", 128 + MOST_WAITING + 2), [True] * (128 + MOST_WAITING) + [False] * 2)

    def test_a_place_is_free_when_the_cancel_is_done(self) -> None:
        self.begin("greedy", 300)
        self.puts.give_up("greedy")
        self.assertEqual(len(self.ioc.live), 0)
        self.begin("second", 300)
        self.assertEqual(len(self.ioc.live), 64)
        for freed in self.ioc.freed:
            freed()
        self.assertEqual(len(self.ioc.live), 128)
        self.assertEqual(self.ended, [])


class LateFront(unittest.TestCase):
    """A front on a stand-in, with raw clients."""

    def setUp(self) -> None:
        self.front = Front("--ioc", LATE_IOC, "--allow-write", "late:*", "--allow-write", "n*", database=LATE)
        self.addCleanup(self.front.clean)

    def client(self) -> Client:
        client = Client("127.0.0.1", self.front.port)
        self.addCleanup(client.connection.close)
        return client

    def begin(self, client: Client, name: str, count: int) -> None:
        number, _, _ = client.channel(name)
        for at in range(count):
            client.send(pack(Command.WRITE_NOTIFY, struct.pack(">i4x", at), Base.LONG, 1, number, at))

    def shows(self, name: str, want: int) -> bool:
        client = self.client()
        return until(lambda: client.read(name)[0] == str(want))

    def release(self, count: int) -> None:
        client = self.client()
        number, _, _ = client.channel("late:release")
        client.send(pack(Command.WRITE, struct.pack(">i4x", count), Base.LONG, 1, number, 0))

    def ended(self, client: Client, count: int) -> List[Optional[int]]:
        replies = (message for message in client.replies() if message.command == Command.WRITE_NOTIFY)
        return [message.first if message.first != Status.NORMAL else None for _, message in zip(range(count), replies)]

    def test_a_put_callback_waits(self) -> None:
        client = self.client()
        self.begin(client, "late:a", 3)
        self.assertTrue(self.shows("late:live", 3))
        self.assertEqual(client.read("n1")[0], "0", "other requests don't wait")
        self.release(3)
        self.assertEqual(self.ended(client, 3), [None] * 3)

    def test_a_reply_that_never_comes(self) -> None:
        """The stand-in gives up, and so do the front and its client, in seconds."""
        client = self.client()
        self.assertEqual(client.read("late:a")[0], "0")
        number, _, _ = client.channel("late:a")
        (stand_in,) = self.front.children()
        (ioc,) = self.front.children(stand_in)
        os.kill(ioc, signal.SIGSTOP)
        self.addCleanup(os.kill, ioc, signal.SIGKILL)
        begun = time.monotonic()
        client.send(pack(Command.READ_NOTIFY, b"", Base.LONG, 1, number, 1))
        with self.assertRaises(Refused):
            client.reply(Command.READ_NOTIFY)
        self.assertEqual(self.front.process.wait(PATIENCE), 128 + signal.SIGALRM)
        self.assertLess(time.monotonic() - begun, 15)

    def test_one_client_with_300(self) -> None:
        greedy, other = self.client(), self.client()
        self.begin(greedy, "late:a", 300)
        self.assertTrue(self.shows("late:live", 128))
        self.begin(other, "n2", 1)
        self.assertEqual(self.ended(other, 1), [None])
        for left in (128, 44, 0):
            self.release(128)
            self.assertTrue(self.shows("late:live", left))
        self.assertEqual(self.ended(greedy, 300), [None] * 300)

    def test_a_reading_is_of_one_moment(self) -> None:
        client = self.client()
        for name, often, at_first in (("torn", {(4, 2, 500), (0, 0, 5)}, (17, 3, 0)), ("off", {(18, 2, 5), (0, 0, 5)}, (17, 0, 5))):
            number, _, _ = client.channel(name)
            seen = set()
            for at in range(200):
                client.send(pack(Command.READ_NOTIFY, b"", WITH_TIME + Base.LONG, 1, number, at))
                seen.add(struct.unpack_from(">hh8xi", client.reply(Command.READ_NOTIFY).body))
            self.assertLessEqual(often, seen)
            self.assertLessEqual(seen, {*often, at_first})

    def test_the_end_of_a_circuit_ends_its_subscriptions(self) -> None:
        client = self.client()
        for name in ("torn", "off"):
            number, _, _ = client.channel(name)
            client.send(pack(Command.EVENT_ADD, struct.pack(">12xH2x", 1), Base.LONG, 1, number, number))
            client.reply(Command.EVENT_ADD)
        self.assertTrue(self.shows("late:watches", 2))
        client.connection.close()
        self.assertTrue(self.shows("late:watches", 0))

    def test_the_end_of_a_circuit_cancels(self) -> None:
        client = self.client()
        self.begin(client, "late:a", 300)
        self.assertTrue(self.shows("late:live", 128))
        client.connection.close()
        self.assertTrue(self.shows("late:live", 0))
        self.assertTrue(self.shows("late:cancelled", 128))
