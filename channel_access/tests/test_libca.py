"""The front against libca itself."""
import ctypes
import re
import signal
import struct
import subprocess
import sys
import time
import unittest
from typing import Any, Dict, List, Optional, Tuple, Union

from . import libca
from .libca import ALARM, LOG, NORMAL, PROPERTY, VALUE, Library
from .support import LONG_EXPRESSION, TOP, Front, audit, free_ports

Value = Union[str, int, float, None]
STRING, SHORT, FLOAT, ENUM, CHAR, LONG, DOUBLE = range(7)
STATUS_FORMS, TIME_FORMS, GRAPHIC_FORMS, CONTROL_FORMS = range(7, 14), range(14, 21), range(21, 28), range(28, 35)
PUT_FAILED, NO_WRITE_ACCESS = 160, 376
EPOCH = 631152000


def numbers(number: int, text: Optional[str] = None) -> List[Value]:
    """A number in each of the seven bases, as C converts it."""
    wrapped = (number + 2**15) % 2**16 - 2**15, number % 2**16, number % 2**8, (number + 2**31) % 2**32 - 2**31
    return [text or str(number), wrapped[0], struct.unpack("<f", struct.pack("<f", number))[0], *wrapped[1:], float(number)]


def text(value: str) -> List[Value]:
    """A text in each of the seven bases: as a number it is refused, unless it is one."""
    return numbers(int(value)) if value.isdigit() else [value] + [None] * 6


# The value of one record of each type, its alarm, and what its VAL is served as.
RECORDS: Dict[str, Tuple[List[Value], Tuple[int, int], int]] = {
    "li": (numbers(42), (17, 0), LONG),
    "lo": (numbers(0), (17, 3), LONG),
    "i6": (numbers(9007199254740993), (17, 0), DOUBLE),
    "o6": (numbers(-7), (17, 0), DOUBLE),
    "b": (numbers(1, "On"), (17, 0), ENUM),
    "bo": (numbers(0, "Off"), (17, 3), ENUM),
    "mi": (numbers(2, "Two"), (17, 0), ENUM),
    "mo": (numbers(0, "1"), (17, 3), ENUM),
    "si": (text("a text"), (17, 0), STRING),
    "so": (text("17"), (17, 0), STRING),
    "ev": (text("tea"), (17, 0), STRING),
    "fan": (numbers(3), (17, 0), LONG),
    "ai": (["-2.50", -2, -2.5, 65534, 254, -2, -2.5], (17, 0), DOUBLE),
    "ao": (["0.0", 0, 0.0, 0, 0, 0, 0.0], (17, 3), DOUBLE),
    "calc": (["-2.5", -2, -2.5, 65534, 254, -2, -2.5], (5, 2), DOUBLE),
    "out": (["0.000", 0, 0.0, 0, 0, 0, 0.0], (17, 3), DOUBLE),
    "sel": (["7.25", 7, 7.25, 7, 7, 7, 7.25], (0, 0), DOUBLE),
}


@unittest.skipUnless(libca.is_there(), f"there is no {libca.LIBRARY}: libca wasn't tried")
class WithLibrary(unittest.TestCase):
    """Tests in the order of their names, since some change the records."""

    front: Front
    ca: Library
    port: int
    repeater: int

    @classmethod
    def setUpClass(cls) -> None:
        cls.port, cls.repeater = free_ports(2)
        cls.front = Front("--allow-write", "*", port=cls.port, repeater=cls.repeater)
        cls.ca = Library(cls.port, cls.repeater)

    @classmethod
    def tearDownClass(cls) -> None:
        cls.front.clean()

    def test_10_types_of_channels(self) -> None:
        wants = {name: (base, 1) for name, (_, _, base) in RECORDS.items()}
        wants.update({"li.SCAN": (ENUM, 1), "li.PACT": (CHAR, 1), "li.PHAS": (SHORT, 1), "li.RTYP": (STRING, 1), "li:alias": (LONG, 1)})
        wants.update({"so.VAL$": (CHAR, 40), "li.INP$": (CHAR, 121), "mi.ONST": (STRING, 1), "b.RVAL": (DOUBLE, 1), "fan.SELN": (LONG, 1)})
        wants.update({"calc.CALC": (STRING, 1), "calc.CALC$": (CHAR, 80), "calc.INPA$": (CHAR, 121), "calc.A": (DOUBLE, 1), "sel.SELN": (LONG, 1)})
        wants.update({"fan.SHFT": (SHORT, 1), "mi.SHFT": (LONG, 1), "mo.IVOV": (LONG, 1), "o6.HIGH": (DOUBLE, 1), "so.IVOV": (STRING, 1)})
        for name, want in wants.items():
            with self.subTest(name):
                channel = self.ca.channel(name)
                self.assertEqual((self.ca.ca.ca_field_type(channel), self.ca.ca.ca_element_count(channel)), want)

    def test_11_every_form_of_every_type(self) -> None:
        for name, (values, alarm, _) in RECORDS.items():
            channel = self.ca.channel(name)
            for form in range(35):
                with self.subTest(name, form=form):
                    data = self.ca.get(channel, form)
                    if values[form % 7] is None:
                        self.assertIsNone(data)
                        continue
                    assert data is not None
                    self.assertEqual(self.ca.value(form, data), values[form % 7])
                    if form >= 7:
                        self.assertEqual(struct.unpack_from("<hh", data), alarm)
            data = self.ca.get(channel, 37)
            assert data is not None
            self.assertEqual((struct.unpack_from("<hhHH", data), data[8:].split(b"\0")[0].decode()), ((*alarm, 1, 0), values[0]))

    def test_12_class_names(self) -> None:
        types = {"li": "longin", "lo": "longout", "i6": "int64in", "o6": "int64out", "b": "bi", "bo": "bo", "mi": "mbbi", "mo": "mbbo"}
        types.update({"si": "stringin", "so": "stringout", "ev": "event", "fan": "fanout", "ai": "ai", "ao": "ao"})
        types.update({"calc": "calc", "out": "calcout", "sel": "sel"})
        for name, record_type in types.items():
            self.assertEqual((self.ca.read(name, 38), self.ca.read(name + ".RTYP")), (record_type, record_type))

    def test_13_units_and_limits(self) -> None:
        channel = self.ca.channel("li")
        for base, letter, offset in ((SHORT, "h", 12), (LONG, "i", 12), (CHAR, "B", 12)):
            wants = [100, -100 % 256 if base == CHAR else -100, 90, 50, 0, 0]
            for form in (21 + base, 28 + base):
                more = wants[:2] if form >= 28 else []
                data = self.ca.get(channel, form)
                assert data is not None
                self.assertEqual((data[4:6], list(struct.unpack_from(f"<{6 + len(more)}{letter}", data, offset))), (b"mm", wants + more))
        for base, letter in ((FLOAT, "f"), (DOUBLE, "d")):
            data = self.ca.get(channel, 28 + base)
            assert data is not None
            got = struct.unpack_from(f"<8{letter}", data, 16)
            self.assertEqual((data[8:10], got[:4], got[6:]), (b"mm", (100, -100, 90, 50), (100, -100)))
            self.assertTrue(got[4] != got[4] and got[5] != got[5], "a limit without a severity is NaN")
        data = self.ca.get(self.ca.channel("o6"), 28 + DOUBLE)
        assert data is not None
        self.assertEqual(struct.unpack_from("<2d", data, 16 + 48), (80, -80))

        for name, digits, wants in (("ai", 2, (10.25, -1e-3, 8.5)), ("ai.HIGH", 2, (10.25, -1e-3, 8.5)), ("ao.OVAL", 1, (0, 0))):
            data = self.ca.get(self.ca.channel(name), 28 + DOUBLE)
            assert data is not None
            got = struct.unpack_from("<8d", data, 16)
            self.assertEqual((struct.unpack_from("<h", data, 4)[0], (*got[:2], got[3])[: len(wants)]), (digits, wants))
            self.assertEqual(got[6:], (7.5, 0.125) if name == "ao.OVAL" else (10.25, -1e-3))

    def test_14_texts_of_states(self) -> None:
        for name, texts in (("mi", ["Zero", "One", "Two"]), ("b", ["Off", "On"]), ("li.SEVR", ["NO_ALARM", "MINOR", "MAJOR", "INVALID"])):
            for form in (21 + ENUM, 28 + ENUM):
                data = self.ca.get(self.ca.channel(name), form)
                assert data is not None
                count = struct.unpack_from("<h", data, 4)[0]
                self.assertEqual([data[6 + 26 * at : 32 + 26 * at].split(b"\0")[0].decode() for at in range(count)], texts)

    def test_15_fields_and_aliases(self) -> None:
        self.assertEqual(self.ca.read("li:alias"), "42")
        self.assertEqual(self.ca.read("li.INP"), "")
        self.assertEqual(self.ca.read("copy.INP"), "lo.VAL NPP NMS")
        self.assertEqual(self.ca.read("scan.SCAN", ENUM), 9)
        self.assertEqual(self.ca.read("short.NAME"), "a:name:of:more:than:39:bytes:that:an:al")
        self.assertEqual(self.ca.read("i6"), "9007199254740993")
        self.assertEqual([self.ca.channel(name, 0.3) for name in ("nothing", "li.NOPE", "li$", "li.val")], [None] * 4)

    def test_17_the_example_of_the_manual(self) -> None:
        (example,) = re.findall(r"```python\n(.*?)```", (TOP / "docs" / "CHANNEL_ACCESS.md").read_text(), re.S)
        run = subprocess.run([sys.executable, "-c", example.replace("plant:level", "mi")], capture_output=True, text=True, timeout=30)
        self.assertEqual((run.returncode, run.stdout), (0, "Two\n"))

    def test_16_long_texts(self) -> None:
        channel = self.ca.channel("copy.INP$")
        for count, want in ((121, b"lo.VAL NPP NMS".ljust(121, b"\0")), (6, b"lo.VAL")):
            self.assertEqual(self.ca.get(channel, CHAR, count), want)
        data = self.ca.get(channel, 14 + CHAR, 121)
        assert data is not None
        self.assertEqual(data[15:29], b"lo.VAL NPP NMS")
        self.assertEqual(self.ca.put_callback(self.ca.channel("so.VAL$"), CHAR, b"long\0", 5), NORMAL)
        self.assertEqual(self.ca.read("so"), "long")

    def test_20_put_and_its_chain(self) -> None:
        self.assertEqual(self.ca.put_text("lo", "75"), NORMAL)
        self.assertEqual(self.ca.read("copy", LONG), 75)
        data = self.ca.get(self.ca.channel("lo"), 14 + LONG)
        assert data is not None
        status, severity, seconds, nanoseconds = struct.unpack_from("<hhII", data)
        self.assertEqual((status, severity), (4, 2))
        stamp = str((seconds + EPOCH) * 10**9 + nanoseconds)
        self.assertEqual(stamp, self.ca.read("lo.TIME"))
        self.assertLess(abs(seconds + EPOCH - time.time()), 5)

    def test_21_puts_in_each_base(self) -> None:
        data = {SHORT: "<h", FLOAT: "<f", ENUM: "<H", CHAR: "<B", LONG: "<i", DOUBLE: "<d"}
        for base, letter in data.items():
            with self.subTest(base=base):
                self.assertEqual(self.ca.put_callback(self.ca.channel("n1"), base, struct.pack(letter, 20 + base)), NORMAL)
                self.assertEqual(self.ca.read("n1", LONG), 20 + base)
                self.assertEqual(self.ca.put_callback(self.ca.channel("so"), base, struct.pack(letter, 30 + base)), NORMAL)
                self.assertEqual(self.ca.read("so"), str(30 + base))
        self.assertEqual(self.ca.put_callback(self.ca.channel("n1"), DOUBLE, struct.pack("<d", 3.9)), NORMAL)
        self.assertEqual(self.ca.read("n1", LONG), 3)

        for base, letter, value in ((DOUBLE, "<d", 0.1 + 0.2), (FLOAT, "<f", 2.5), (LONG, "<i", 3), (DOUBLE, "<d", 1e-300), (DOUBLE, "<d", float("inf"))):
            self.assertEqual(self.ca.put_callback(self.ca.channel("ai"), base, struct.pack(letter, value)), NORMAL)
            self.assertEqual(self.ca.read("ai", DOUBLE), value)
        self.assertEqual((self.ca.put_text("ai", "1.005"), self.ca.read("ai"), self.ca.read("ai", DOUBLE)), (NORMAL, "1.00", 1.005))
        self.assertEqual(self.ca.put_text("ai", "1.5 C"), PUT_FAILED)

    def test_22_puts_that_fail(self) -> None:
        self.assertEqual([self.ca.put_text("lo", value) for value in ("abc", "9999999999", "1\n2", "")], [PUT_FAILED] * 4)
        for value in (float("nan"), float("inf"), 1e300):
            self.assertEqual(self.ca.put_callback(self.ca.channel("lo"), DOUBLE, struct.pack("<d", value)), PUT_FAILED)
        self.assertEqual(self.ca.put_text("locked", "1"), PUT_FAILED)
        self.assertEqual(self.ca.read("lo", LONG), 75)
        before = len(self.ca.exceptions)
        self.ca.put(self.ca.channel("lo"), STRING, b"abc".ljust(40, b"\0"))
        self.ca.ca.ca_flush_io()
        self.assertTrue(self.ca.until(lambda: self.ca.exceptions[before:] == [PUT_FAILED]), "a put without a callback is refused by an exception")

    def test_23_states_by_text_and_number(self) -> None:
        self.assertEqual((self.ca.put_text("b", "Off"), self.ca.read("b", ENUM)), (NORMAL, 0))
        self.assertEqual((self.ca.put_text("b", "On"), self.ca.read("b", ENUM)), (NORMAL, 1))
        for number in (1, 0, 1):  # the texts of its states are 1 and 0
            self.assertEqual(self.ca.put_callback(self.ca.channel("mo"), ENUM, struct.pack("<H", number)), NORMAL)
            self.assertEqual(self.ca.read("mo", ENUM), number)
        self.assertEqual(self.ca.put_callback(self.ca.channel("lo.SCAN"), ENUM, struct.pack("<H", 6)), NORMAL)
        self.assertEqual(self.ca.read("lo.SCAN"), "1 second")
        self.assertEqual(self.ca.put_text("lo.SCAN", "Passive"), NORMAL)

    def test_25_expressions(self) -> None:
        self.assertEqual(self.ca.read("out.CALC"), LONG_EXPRESSION[:39])
        self.assertEqual(self.ca.get(self.ca.channel("out.CALC$"), CHAR, 80), LONG_EXPRESSION.encode().ljust(80, b"\0"))
        self.assertEqual((self.ca.put_text("out.A", "0.0625"), self.ca.read("written", DOUBLE), self.ca.read("out")), (NORMAL, 0.0625, "0.063"))
        for name, writes in (("out.A", 1), ("out.LA", 0), ("calc.CALC", 0), ("calc", 1), ("sel", 0), ("sel.SELN", 1)):
            self.assertEqual((name, self.ca.ca.ca_write_access(self.ca.channel(name))), (name, writes))
        self.assertEqual((self.ca.put_text("calc", "4"), self.ca.read("calc"), self.ca.read("calc.A")), (NORMAL, "4.0", "2.0"))
        told: Dict[int, List[Any]] = {VALUE: [], LOG: []}
        for mask, seen in told.items():
            self.ca.monitor("calc", DOUBLE, mask, seen.append)
        self.assertTrue(self.ca.until(lambda: all(told.values())))
        for count, value in ((2, "1"), (3, "0")):
            self.assertEqual(self.ca.put_text("calc.A", value), NORMAL)
            self.assertTrue(self.ca.until(lambda: len(told[VALUE]) == count))
        self.assertEqual([self.values(seen, DOUBLE) for seen in told.values()], [[4, -1, 0.5], [4, 0.5]])

    def test_24_read_only_fields(self) -> None:
        for name, want in (("li.VAL", 1), ("li.STAT", 0), ("li.NAME", 0), ("li.RTYP", 0), ("b.MASK", 0), ("li.INP", 0), ("li.DESC", 1)):
            channel = self.ca.channel(name)
            self.assertEqual((name, self.ca.ca.ca_read_access(channel), self.ca.ca.ca_write_access(channel)), (name, 1, want))

    def values(self, seen: List[Any], form: int) -> List[Value]:
        return [self.ca.value(form, data) for data in seen]

    def puts(self, name: str, *values: float) -> None:
        """Puts, each when the one before has been seen: by a monitor of the time stamp, which is read together with other fields."""
        stamps: List[Any] = []
        self.ca.monitor(name + ".TIME", STRING, VALUE, stamps.append)
        for count, value in enumerate(values, 1):
            self.assertTrue(self.ca.until(lambda: len(stamps) >= count))
            self.assertEqual(self.ca.put_text(name, str(value)), NORMAL)
        self.assertTrue(self.ca.until(lambda: len(stamps) > len(values)))

    def test_30_masks(self) -> None:
        seen: Dict[int, List[Any]] = {VALUE: [], LOG: [], ALARM: [], PROPERTY: []}
        for mask, told in seen.items():
            self.ca.monitor("lo", LONG, mask, told.append)
        self.assertTrue(self.ca.until(lambda: all(seen.values())))
        self.puts("lo", 10, 11, 75, 76, 12)
        self.assertEqual(self.values(seen[VALUE], LONG), [75, 10, 11, 75, 76, 12])
        self.assertEqual(self.values(seen[LOG], LONG), [75, 10, 11, 75, 76, 12])
        self.assertEqual(self.values(seen[ALARM], LONG), [75, 10, 75, 12])
        self.assertEqual(self.values(seen[PROPERTY], LONG), [75])
        self.assertEqual(self.ca.put_text("lo.EGU", "kV"), NORMAL)
        self.assertTrue(self.ca.until(lambda: len(seen[PROPERTY]) == 2), "a change of units is told")

    def test_31_properties_in_a_monitor(self) -> None:
        seen: List[Any] = []
        self.ca.monitor("lo", 28 + LONG, VALUE | PROPERTY, seen.append)
        self.assertTrue(self.ca.until(lambda: seen))
        self.ca.put_text("lo.HOPR", "77")
        self.assertTrue(self.ca.until(lambda: struct.unpack_from("<i", seen[-1], 12)[0] == 77))
        self.assertEqual(seen[-1][4:6], b"kV")
        self.ca.put_text("unit", "MV")
        self.assertTrue(self.ca.until(lambda: seen[-1][4:6] == b"MV"), "a change by a link is told within a second")

    def test_32_deadbands(self) -> None:
        values: List[Any] = []
        logs: List[Any] = []
        always: List[Any] = []
        self.ca.monitor("deadband", LONG, VALUE, values.append)
        self.ca.monitor("deadband", LONG, LOG, logs.append)
        self.ca.monitor("always", 14 + LONG, VALUE, always.append)
        self.assertTrue(self.ca.until(lambda: values and logs and always))
        self.puts("deadband", 3, 6, 11, 12, 17)
        self.assertEqual(self.values(values, LONG), [0, 6, 12])
        self.assertEqual(self.values(logs, LONG), [0, 11])
        self.puts("always", 0, 0)
        self.assertEqual(len(always), 3)
        told: Dict[int, List[Any]] = {VALUE: [], LOG: []}
        for mask, seen in told.items():
            self.ca.monitor("ao", DOUBLE, mask, seen.append)
        self.assertTrue(self.ca.until(lambda: all(told.values())))
        self.puts("ao", 0.5, 0.625, 1.5, 2.25)
        self.assertEqual([self.values(seen, DOUBLE) for seen in told.values()], [[0, 0.625, 1.5, 2.25], [0, 1.5]])

    def test_33_scanned_values_and_cancel(self) -> None:
        seen: List[Any] = []
        number = self.ca.monitor("scan", LONG, VALUE, seen.append)
        self.assertTrue(self.ca.until(lambda: len(seen) >= 8))
        values = [struct.unpack("<i", data)[0] for data in seen]
        steps = [after - before for before, after in zip(values, values[1:])]
        self.assertGreaterEqual(steps.count(1), len(steps) // 2, "each tick is told, but for those of a machine that was busy")
        self.ca.ca.ca_clear_subscription(number)
        self.ca.pend(0.2)
        count = len(seen)
        self.ca.pend(0.4)
        self.assertEqual(len(seen), count)

    def test_34_disabled_by_a_link(self) -> None:
        seen: List[Any] = []
        self.ca.monitor("switch", 7 + LONG, ALARM, seen.append)
        self.assertTrue(self.ca.until(lambda: seen))
        self.ca.put_text("switch", "1")
        self.assertTrue(self.ca.until(lambda: len(seen) == 2))
        self.ca.put_text("lo.DISA", "7")
        self.ca.put_text("switch", "2")
        self.assertTrue(self.ca.until(lambda: len(seen) == 3))
        self.assertEqual([struct.unpack_from("<hh", data) for data in seen], [(17, 3), (0, 0), (18, 2)])

    def test_35_a_text_that_is_no_number(self) -> None:
        failed: List[Any] = []
        self.ca.monitor("si", LONG, VALUE, failed.append)
        self.assertTrue(self.ca.until(lambda: failed))
        self.assertIsInstance(failed[0], int)

    def test_40_a_thousand_channels(self) -> None:
        names = [f"n{number}" for number in range(1000)]
        channels = self.ca.channels(names, 10)
        assert channels is not None
        data = [bytearray(4) for _ in names]
        buffers = [(ctypes.c_char * 4).from_buffer(one) for one in data]
        for channel, buffer in zip(channels, buffers):
            self.ca.ca.ca_array_get(LONG, 1, channel, buffer)
        self.assertEqual(self.ca.ca.ca_pend_io(10.0), NORMAL)
        ended: List[int] = []
        for number, channel in enumerate(channels):
            self.ca.put_callback(channel, LONG, struct.pack("<i", number), ended=ended)
        self.assertTrue(self.ca.until(lambda: len(ended) == 1000, 10))
        self.assertEqual(set(ended), {NORMAL})
        for channel, buffer in zip(channels, buffers):
            self.ca.ca.ca_array_get(LONG, 1, channel, buffer)
        self.assertEqual(self.ca.ca.ca_pend_io(10.0), NORMAL)
        self.assertEqual([struct.unpack("<i", one)[0] for one in data], list(range(1000)))
        for channel in channels:
            self.ca.ca.ca_clear_channel(channel)
        self.ca.ca.ca_flush_io()

    def test_50_killed_and_back(self) -> None:
        states: List[int] = []
        channel = self.ca.watch_connection("n1", states)
        self.assertTrue(self.ca.until(lambda: states))
        seen: List[Any] = []
        self.ca.monitor("n2", LONG, VALUE, seen.append)
        self.assertTrue(self.ca.until(lambda: seen))
        self.front.end(signal.SIGKILL)
        self.assertTrue(self.ca.until(lambda: libca.DISCONNECTED in states, 10))
        self.front.clean()
        options = ("--allow-write", "n*", "--allow-write", "so.VAL", "--allow-links")  # the rest is read only now
        type(self).front = Front(*options, port=self.port, repeater=self.repeater, has_journal=True)
        self.assertTrue(self.ca.until(lambda: states == [libca.CONNECTED, libca.DISCONNECTED, libca.CONNECTED], 20))
        self.assertTrue(self.ca.until(lambda: len(seen) == 2), "the subscription is there again")
        self.assertEqual(self.ca.ca.ca_write_access(channel), 1)

    def test_51_rights_by_patterns(self) -> None:
        for name, want in (("n1", 1), ("n1.OUT", 1), ("li", 0), ("li.DESC", 0), ("so", 1), ("so.DESC", 0), ("short", 0)):
            self.assertEqual((name, self.ca.ca.ca_write_access(self.ca.channel(name))), (name, want))
        self.assertEqual(self.ca.put_text("n1", "5"), NORMAL)

    def test_52_links(self) -> None:
        self.assertEqual(self.ca.put_text("n3.OUT", "n4.VAL PP"), NORMAL)
        self.assertEqual(self.ca.read("n3.OUT"), "n4.VAL PP NMS")
        self.assertEqual(self.ca.put_text("n3.OUT", "n4 CA"), PUT_FAILED)
        self.assertEqual((self.ca.put_text("n3", "8"), self.ca.read("n4", LONG)), (NORMAL, 8))

    def test_53_a_put_is_in_the_journal(self) -> None:
        self.assertEqual(self.ca.put_text("so", "found"), NORMAL)
        self.assertEqual(self.front.end(), 0)
        status, told = audit(self.front.database, self.front.journal, "--trace", "so")
        self.assertEqual(status, 0)
        self.assertIn("VAL 17 -> found", told)
        logged = re.search(r"put so\.VAL 'found' by '\w+' at '[^']+' \(127\.0\.0\.1:\d+\): ok at place (\d+)\n", self.front.errors())
        assert logged is not None
        entries = [line.split("\t") for line in self.front.journal.read_text().splitlines()]
        self.assertIn('"found"', next(entry for entry in entries if entry[0] == logged[1]))


if __name__ == "__main__":
    unittest.main()
