"""The front as a program, without libca: its start and its end, rights, names."""
import os
import pathlib
import re
import signal
import socket
import struct
import subprocess
import sys
import tempfile
import threading
import unittest
from typing import List

from .. import protocol
from ..child.survey import survey
from ..client import Client, Refused
from ..interface import Kind
from ..protocol import Base, Command, Message, Status, pack
from .support import BIN, ENVIRONMENT, TOP, Front, WithFront, audit, free_ports, is_ended, replay, until


def command(*words: str) -> "subprocess.CompletedProcess[str]":
    """Runs the package's command line to its end."""
    return subprocess.run([sys.executable, "-m", "channel_access", *words], capture_output=True, text=True, timeout=30, env=ENVIRONMENT)


class Starts(unittest.TestCase):
    def test_a_database_that_is_refused(self) -> None:
        with tempfile.NamedTemporaryFile("w", suffix=".db") as file:
            file.write('record(longin, "a") { field(HIGHEST, 1) }')
            file.flush()
            run = command(file.name, "--port", str(free_ports(1)[0]))
        told = f"ioc-ca: E13 BadDb line 1: unknown field\nioc-check {file.name} says more\n"
        self.assertEqual((run.returncode, run.stdout, run.stderr), (1, "", told))

    def test_a_text_with_a_line_feed(self) -> None:
        """A text with bytes that end lines, and with what escapes look like, is read as it is."""
        database = 'record(stringin, "a") { field(VAL, "$(TEXT)") }\nrecord(stringin, "b") { field(DESC, "a\\\\nb\\tc") }'
        for text, wanted in (("a\nok 5", "a\nok 5"), ("\\n", "\n")):
            front = Front("-m", f"TEXT={text}", database=database)
            self.addCleanup(front.clean)
            client = Client("127.0.0.1", front.port)
            self.assertEqual((client.read("a")[0], client.read("b.DESC")[0]), (wanted, "a\\nb\tc"))

    def test_another_address_and_more_workers(self) -> None:
        front = Front("--interface", "127.0.0.2", "--workers", "3")
        self.addCleanup(front.clean)
        self.assertEqual(Client("127.0.0.2", front.port).read("li")[0], "42")
        with self.assertRaises(OSError):
            Client("127.0.0.1", front.port)

    def test_macros(self) -> None:
        front = Front("-m", "NAME=tank", "-m", "HIGH=7", database='record(longin, "$(NAME):level") { field(HIGH, $(HIGH)) }')
        self.addCleanup(front.clean)
        self.assertEqual(Client("127.0.0.1", front.port).read("tank:level.HIGH")[0], "7")

    def test_saved_values(self) -> None:
        """What a run saves at its end is there again in the next one."""
        with tempfile.TemporaryDirectory() as name:
            folder = pathlib.Path(name)
            (folder / "a.req").write_text("a\n")
            (folder / "a.sav").write_text("a.VAL 7\n<END>\n")
            for _ in range(2):
                front = Front(
                    "--restore", str(folder / "a.sav"), "--save", str(folder / "a.req"), "--save-to", str(folder / "a.sav"), "--save-every", "60",
                    database='record(longin, "a") { }',
                )  # fmt: skip
                self.addCleanup(front.clean)
                self.assertEqual(Client("127.0.0.1", front.port).read("a")[0], "7")
                self.assertEqual((front.end(), front.errors()[:5]), (0, "tally"))
                self.assertEqual((folder / "a.sav").read_text().splitlines()[1:], ["a.VAL 7", "<END>"])

    def test_wrong_words(self) -> None:
        database = str(TOP / "examples" / "plant.db")
        for words in ("", "--port", f"{database} --nothing", f"{database} --port 99999", f"{database} --ioc /nowhere/ioc"):
            self.assertEqual(command(*words.split()).returncode, 2, words)
        front = Front("--journal", "/nowhere/journal")
        self.addCleanup(front.clean)
        self.assertEqual(front.process.wait(10), 3)
        self.assertIn("/nowhere/journal", front.errors())
        with socket.socket() as taken:
            taken.bind(("127.0.0.1", 0))
            run = command(database, "--port", str(taken.getsockname()[1]))
            self.assertEqual((run.returncode, "already in use" in run.stderr), (2, True))

    def test_drivers_that_are_none(self) -> None:
        database = str(TOP / "examples" / "plant.db")
        with tempfile.TemporaryDirectory() as folder:
            for name, text, want in (
                ("drivers.py", "DRIVERS = {", "SyntaxError: "),
                ("drivers.py", "import nothing_of_this_name", "ModuleNotFoundError: No module named 'nothing_of_this_name'"),
                ("drivers.py", "DRIVER = {}", "AttributeError: module 'site_drivers' has no attribute 'DRIVERS'"),
                ("drivers.py", "DRIVERS = 7", "TypeError: 'int' object is not iterable"),
                ("drivers.txt", "DRIVERS = {}", "AssertionError: its name doesn't end with .py"),
            ):
                file = pathlib.Path(folder, name)
                file.write_text(text)
                run = command(database, "--drivers", str(file))
                self.assertEqual((run.returncode, run.stdout), (2, ""))
                self.assertIn(f"ioc-ca: --drivers {file}: {want}", run.stderr)
            run = command(database, "--drivers", f"{folder}/nothing.py")
            self.assertEqual((run.returncode, "FileNotFoundError" in run.stderr), (2, True))


class Ends(WithFront):
    options = ("--allow-write", "n*")

    def put(self) -> None:
        client = self.client()
        number, _, _ = client.channel("n1")
        client.send(pack(Command.WRITE_NOTIFY, struct.pack(">i4x", 9), Base.LONG, 1, number, 3))
        self.assertEqual(client.reply(Command.WRITE_NOTIFY).first, Status.NORMAL)

    def is_in_the_journal(self) -> None:
        status, told = audit(self.front.database, self.front.journal, "--trace", "n1")
        self.assertEqual((status, "VAL 0 -> 9" in told), (0, True))

    def test_signals(self) -> None:
        for number in (signal.SIGTERM, signal.SIGINT):
            self.put()
            (child,) = self.front.children()
            if number == signal.SIGINT:
                os.killpg(self.front.process.pid, number)  # as a terminal does
                self.front.process.wait(10)
            self.assertEqual(self.front.end(number), 0)
            self.assertFalse(pathlib.Path(f"/proc/{child}").exists())
            self.is_in_the_journal()
            self.assertIn("tally begun=", self.front.errors())
            self.front.clean()
            self.setUp()

    def test_a_front_that_dies(self) -> None:
        self.put()
        (child,) = self.front.children()
        self.front.end(signal.SIGKILL)
        self.assertTrue(until(lambda: not pathlib.Path(f"/proc/{child}").exists()))
        self.is_in_the_journal()

    def put_on(self, client: Client) -> None:
        """Puts until the circuit ends."""
        number, _, _ = client.channel("n2")
        puts = b"".join(pack(Command.WRITE_NOTIFY, struct.pack(">i4x", at), Base.LONG, 1, number, at) for at in range(100))
        try:
            while True:
                client.send(puts)
                for _ in range(100):
                    client.reply(Command.WRITE_NOTIFY)
        except (Refused, OSError):
            pass

    def test_ends_under_load(self) -> None:
        for number, status in ((signal.SIGKILL, -signal.SIGKILL), (signal.SIGTERM, 0)):
            threads = [threading.Thread(target=self.put_on, args=(self.client(),)) for _ in range(3)]
            for thread in threads:
                thread.start()
            self.put()
            (child,) = self.front.children()
            self.assertEqual(self.front.end(number), status)
            for thread in threads:
                thread.join()
            self.assertTrue(until(lambda: not pathlib.Path(f"/proc/{child}").exists()))
            self.is_in_the_journal()
            self.front.clean()
            self.setUp()

    def test_an_ioc_that_dies(self) -> None:
        client = self.client()
        client.read("n1")
        (child,) = self.front.children()
        os.kill(child, signal.SIGKILL)
        self.assertEqual(self.front.process.wait(10), 128 + signal.SIGKILL)
        self.assertIn("ioc has ended with status 137", self.front.errors())
        self.assertTrue(is_ended(client))


class SafeByDefault(WithFront):
    def test_nothing_is_written(self) -> None:
        client = self.client()
        number, _, _ = client.channel("n1")
        for request in (Command.WRITE, Command.WRITE_NOTIFY):
            client.send(pack(request, struct.pack(">i4x", 9), Base.LONG, 1, number, 3))
            refused = client.reply(Command.WRITE_NOTIFY, Command.ERROR)
            self.assertIn(Status.NO_WRITE_ACCESS, (refused.first, refused.second))
        self.assertEqual(client.read("n1")[0], "0")

    def test_it_is_bound_to_loopback(self) -> None:
        place = f"0100007F:{self.front.port:04X}"
        for kind in ("tcp", "udp"):
            lines = pathlib.Path(f"/proc/net/{kind}").read_text().splitlines()[1:]
            self.assertEqual([line.split()[1] for line in lines if line.split()[1].endswith(f":{self.front.port:04X}")][:1], [place])

    def test_the_small_client(self) -> None:
        run = command("--port", str(self.front.port), "--get", "mi", "li:alias", "copy.INP$", "nothing")
        self.assertEqual((run.returncode, run.stderr), (1, "nothing: no such channel\n"))
        never = "1970-01-01T00:00:00.000Z"
        self.assertEqual(run.stdout, f"mi Two NO_ALARM {never}\nli:alias 42 NO_ALARM {never}\ncopy.INP$ lo.VAL NPP NMS INVALID {never}\n")
        self.assertEqual(command("--port", str(free_ports(1)[0]), "--get", "mi").returncode, 1)


class RightsOfAliases(unittest.TestCase):
    def test_a_record_goes_by_its_own_name(self) -> None:
        for pattern, status in (("li", Status.NORMAL), ("li:alias", Status.NO_WRITE_ACCESS), ("?i", Status.NORMAL), ("i", Status.NO_WRITE_ACCESS)):
            front = Front("--allow-write", pattern)
            self.addCleanup(front.clean)
            client = Client("127.0.0.1", front.port)
            self.addCleanup(client.connection.close)
            number, _, _ = client.channel("li:alias")
            client.send(pack(Command.WRITE_NOTIFY, struct.pack(">i4x", 9), Base.LONG, 1, number, 3))
            self.assertEqual((pattern, client.reply(Command.WRITE_NOTIFY).first), (pattern, status))


class Names(WithFront):
    def search(self, *names: bytes, count: int) -> List[Message]:
        """The answers to one datagram, of which so many are expected."""
        with socket.socket(socket.AF_INET, socket.SOCK_DGRAM) as sender:
            asked = [pack(Command.SEARCH, name + b"\0", 5, protocol.MINOR_VERSION, at, at) for at, name in enumerate(names)]
            sender.sendto(pack(Command.VERSION, b"", 1, protocol.MINOR_VERSION, 77) + b"".join(asked), ("127.0.0.1", self.front.port))
            got: List[Message] = []
            try:
                while True:
                    sender.settimeout(5 if sum(message.command == Command.SEARCH for message in got) < count else 0.3)
                    data = sender.recv(2048)
                    self.assertLessEqual(len(data), 1024)
                    got += protocol.messages(data)
            except socket.timeout:
                return got

    def test_searches(self) -> None:
        got = self.search(b"li", b"nothing", b"li:alias", b"li.NOPE", b"so.VAL$", b"li$", b"", b"x\nput li 5", b'"', b"li.RTYP", count=4)
        self.assertEqual((got[0].command, got[0].first), (Command.VERSION, 77), "the number of the datagram comes back")
        self.assertEqual(sorted(message.second for message in got[1:]), [0, 2, 4, 9])
        self.assertEqual({(message.form, message.first) for message in got[1:]}, {(self.front.port, protocol.NO_ADDRESS)})
        self.assertEqual(self.search(b"nothing", count=0), [])

    def test_a_name_is_no_line(self) -> None:
        for name in ("x\nput li 5", "li\nput li 5\nget li", "li 5", " li", 'li"', "li\r", "li\0put", "x" * 61, "li\x7f"):
            with self.assertRaises(Refused):
                self.client().channel(name.replace("\0", "\x01"))
        self.assertEqual(self.client().read("li")[0], "42")

    def test_many_names_in_a_datagram(self) -> None:
        got = self.search(*(b"n%d" % number for number in range(300)), count=256)
        self.assertEqual(sorted(message.second for message in got if message.command == Command.SEARCH), list(range(256)))

    def test_a_search_over_tcp(self) -> None:
        client = self.client()
        client.send(pack(Command.SEARCH, b"li\0", 5, protocol.MINOR_VERSION, 8, 8))
        self.assertEqual(client.reply(Command.SEARCH).second, 8)

    def test_an_alias_of_a_long_name(self) -> None:
        self.assertEqual(self.client().read("short.RTYP")[0], "longin")

    def test_beacons(self) -> None:
        with socket.socket(socket.AF_INET, socket.SOCK_DGRAM) as repeater:
            repeater.bind(("127.0.0.1", 0))
            repeater.settimeout(5)
            front = Front("--beacon", "127.0.0.1", "--beacon", "127.0.0.2", repeater=repeater.getsockname()[1])
            self.addCleanup(front.clean)
            beacons = [next(protocol.messages(repeater.recv(100))) for _ in range(4)]
        self.assertEqual([(one.command, one.elements, one.first) for one in beacons], [(Command.BEACON, front.port, number) for number in range(4)])

    def test_kinds_are_those_of_the_rules(self) -> None:
        """The kinds that `ioc` tells are compared with those that `ioc-replay` names when it refuses a value."""
        words = {"Long": Kind.LONG, "ULong": Kind.ULONG, "Short": Kind.SHORT, "UShort": Kind.USHORT, "UChar": Kind.UCHAR, "Int64": Kind.INT64}
        records = survey([str(BIN / "ioc"), str(self.front.database)])
        compared = 0
        for name in ("li", "lo", "i6", "o6", "b", "bo", "mi", "mo", "si", "so", "ev", "fan"):
            fields = records[name.encode()].fields
            explained = replay(self.front.database, [f"put {name}.{field} x!" for field in fields if field != "RTYP"], "--explain")
            for field, kind in re.findall(r"doesn't fit \S+\.(\w+) \((\w+)", explained.stderr):
                if kind in words:
                    self.assertEqual((name, field, fields[field].kind), (name, field, words[kind]))
                    compared += 1
        self.assertGreater(compared, 150)
