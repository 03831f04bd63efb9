#!/usr/bin/env python3
"""Draws sessions of `ioc --console` with analog records, and compares every field and every ask of a device with a model of the rules.

    bench/analog.py [RUNS [SEED]]

The model is written from docs/RULES.md, in Python's doubles, which are those of IEEE 754: it shares no code with the programs. Each session has
a database of four records that read and write each other or devices outside, and some hundred lines that put values, change links and request
records. NaN, infinities, -0 and doubles of drawn bits go through every conversion, link mode, limit and device path. Doubles are compared bit by
bit, and by the text that they show. The journal goes on in files by size: each of them agrees by `ioc-audit`, and the last one's base has
the bits of each double. What differs is printed with its seed, and the status is 1 then.
"""
import pathlib
import random
import re
import struct
import subprocess
import sys
import tempfile
from fractions import Fraction

BIN = pathlib.Path(__file__).resolve().parent.parent / "bin"
NAN, INFINITY = float("nan"), float("inf")
BITS = "bits:"
NO_ALARM, READ, WRITE, HIHI, HIGH, LOLO, LOW, SCAN, LINK, UDF = 0, 1, 2, 3, 4, 5, 6, 13, 14, 17
MINOR, MAJOR, INVALID = 1, 2, 3
RAW = "Raw Soft Channel"
MENUS = {
    "severity": ["NO_ALARM", "MINOR", "MAJOR", "INVALID"], "linr": ["NO CONVERSION", "SLOPE", "LINEAR"], "omsl": ["supervisory", "closed_loop"],
    "oif": ["Full", "Incremental"], "ivoa": ["Continue normally", "Don't drive outputs", "Set output to IVOV"],
}
RANGES = {
    "long": (-(2**31), 2**31 - 1), "ulong": (0, 2**32 - 1), "short": (-(2**15), 2**15 - 1), "ushort": (0, 2**16 - 1), "uchar": (0, 255),
    "int64": (-(2**63), 2**63 - 1), "digits": (0, 15), "status": (0, 21), "state": (0, 2**16 - 1),
}
LIMITS = ["HIHI", "LOLO", "HIGH", "LOW"]
SEVERITIES = ["HHSV", "LLSV", "HSV", "LSV"]
SHARED = {"PREC": "digits", "EGU": "text", "HOPR": "double", "LOPR": "double", "MDEL": "double", "ADEL": "double", "MLST": "double", "ALST": "double"}
SCALE = {
    "LINR": "linr", "EGUF": "double", "EGUL": "double", "ESLO": "double", "EOFF": "double", "ASLO": "double", "AOFF": "double", "ROFF": "ulong", "RVAL": "long",
}
COMMON = {"DESC": "text", "DTYP": "text", "PHAS": "short", "UDF": "uchar", "UDFS": "severity", "STAT": "status", "SEVR": "severity", "NSTA": "status",
          "NSEV": "severity", "PACT": "uchar", "LCNT": "uchar"}


def limited(kind):
    """The fields of a type with limits."""
    return {"VAL": kind} | dict.fromkeys(LIMITS, kind) | dict.fromkeys(SEVERITIES, "severity") | {"HYST": kind, "LALM": kind}


# The fields of each type and their kinds.
KINDS = {
    "ai": COMMON | limited("double") | SHARED | SCALE | {"SMOO": "double", "INIT": "uchar"},
    "ao": COMMON | limited("double") | SHARED | SCALE | {
        "OMSL": "omsl", "OIF": "oif", "OROC": "double", "DRVH": "double", "DRVL": "double", "OVAL": "double", "PVAL": "double", "IVOA": "ivoa", "IVOV": "double"},
    "longin": COMMON | limited("long"), "int64in": COMMON | limited("int64"), "stringin": COMMON | {"VAL": "text"}, "bi": COMMON | {"VAL": "state"},
}
FIXED = set("STAT SEVR NSTA NSEV PACT LCNT LALM MLST ALST INIT OVAL PVAL".split())
PROCESSING = {"VAL", "UDF", *LIMITS, *SEVERITIES, "LINR", "ESLO", "EOFF", "ASLO", "AOFF", "ROFF", "DRVH", "DRVL", "IVOV"}
NUMBER = re.compile(rb" *([+-]?)(?:([0-9]+)|0x([0-9A-Fa-f]+)) *")
DECIMAL = re.compile(rb" *([+-]?(?:[0-9]+\.?[0-9]*|\.[0-9]+)(?:[eE][+-]?[0-9]+)?) *")
WORD = re.compile(rb" *([+-]?)(inf|infinity|nan) *", re.I)
REAL = re.compile(r"[+-]?(?:[0-9]+\.[0-9]*|\.[0-9]+)(?:[eE][+-]?[0-9]+)?|[+-]?[0-9]+[eE][+-]?[0-9]+")


def bits(double):
    """The bits of a double in hexadecimal; NaN has one pattern."""
    return "7ff8000000000000" if double != double else struct.pack(">d", double).hex()


def exact(value):
    """A number, which stands for a double with all its digits where it has BITS in front."""
    return BITS + bits(value) if isinstance(value, float) else str(value)


def quotient(one, other):
    """The IEEE quotient, which Python has for divisors other than 0."""
    if other != 0:
        return one / other
    if one == 0 or one != one:
        return NAN
    return INFINITY if (bits(one)[0] < "8") == (bits(other)[0] < "8") else -INFINITY


def double_of(text):
    """The double that a text spells, or none."""
    raw = text.encode("latin-1")
    if found := WORD.fullmatch(raw):
        size = NAN if found[2].lower() == b"nan" else INFINITY
        return -size if found[1] == b"-" else size
    if found := DECIMAL.fullmatch(raw):
        double = float(found[1])
        return None if double in (INFINITY, -INFINITY) else double
    if (found := NUMBER.fullmatch(raw)) and found[3]:
        size = int(found[3], 16)
        if size > 2**63 - (found[1] != b"-"):
            return None
        return -float(size) if found[1] == b"-" else float(size)
    return None


def text_of(double, digits):
    """The text of a double with so many digits behind the point."""
    size, sign = abs(double), "-" if double < 0 else ""
    if double != double:
        return "nan".rjust(digits + 7 if digits > 8 else 0)
    if size == INFINITY:
        return (sign + "inf").rjust(digits + 7)
    if digits > 8 or size > 1e16:
        return f"{sign}{size:.{digits}e}".rjust(digits + 7)
    if size > 1e7:
        few = min(digits, 3)
        text = str(round(Fraction(size) * 10**few))
        return sign + (f"{text[:-few]}.{text[-few:]}" if few else text)
    whole, behind = int(size), size - int(size)
    rounded = (int((behind * 10.0**digits) * 10.0) + 5) // 10
    if rounded == 10**digits:
        whole, rounded = whole + 1, 0
    return f"{sign}{whole}.{rounded:0{digits}d}" if digits else f"{sign}{whole}"


def number_of(text):
    """The whole number that a text spells, or none."""
    found = NUMBER.fullmatch(text.encode("latin-1"))
    if not found:
        return None
    size = int(found[2]) if found[2] else int(found[3], 16)
    return -size if found[1] == b"-" else size


def converted(value, kind):
    """A value as a field of this kind has it, or none."""
    if kind == "text":
        return (text_of(value, 6) if isinstance(value, float) else str(value))[:39]
    if kind == "double":
        return double_of(value) if isinstance(value, str) else float(value)
    if isinstance(value, str):
        if kind in MENUS and value in MENUS[kind]:
            return MENUS[kind].index(value)
        value = number_of(value)
        if kind == "state":
            return value if value in (0, 1) else None
    elif isinstance(value, float):
        value = None if value != value or abs(value) == INFINITY else int(value)
    least, most = (0, len(MENUS[kind]) - 1) if kind in MENUS else RANGES[kind]
    return value if value is not None and least <= value <= most else None


def has_moved(old, new, band):
    """Has a value moved by more than a deadband?"""
    if abs(old) < INFINITY and abs(new) < INFINITY:
        return abs(old - new) > band
    return (0.0 if bits(old) == bits(new) else INFINITY) > band


class Record:
    """A record, and what is to come of its device."""

    def __init__(self, name, kind):
        self.name, self.kind, self.kinds = name, kind, KINDS[kind]
        self.values = {field: "" if of == "text" else 0.0 if of == "double" else 0 for field, of in self.kinds.items()}
        self.values |= {"UDF": 1, "UDFS": INVALID}
        if "ESLO" in self.values:
            self.values |= {"ESLO": 1.0, "ASLO": 1.0}
        if "INIT" in self.values:
            self.values["INIT"] = 1
        self.links = {"ai": {"INP": ""}, "ao": {"OUT": "", "DOL": ""}}.get(kind, {})
        self.waits, self.waiting = 0, None

    def __getitem__(self, field):
        return self.values[field]

    def __setitem__(self, field, value):
        self.values[field] = value

    def is_raw(self):
        return self["DTYP"] == RAW

    def raise_alarm(self, status, severity):
        if severity > self["NSEV"]:
            self["NSTA"], self["NSEV"] = status, severity
            return True
        return False

    def inherit(self, mode, status, severity):
        if mode == "MS" or (mode == "MSI" and severity == INVALID):
            self.raise_alarm(LINK, severity)
        elif mode == "MSS":
            self.raise_alarm(status, severity)

    def settle(self):
        self["STAT"], self["SEVR"], self["NSTA"], self["NSEV"] = self["NSTA"], self["NSEV"], NO_ALARM, NO_ALARM

    def store(self, field, value):
        self[field] = value
        if field == "VAL":
            self["UDF"] = 0

    def test(self):
        """The alarm of an undefined value, or else those of limits."""
        if self["UDF"]:
            self.raise_alarm(UDF, self["UDFS"])
        elif "HIHI" in self.values:
            self.test_limits()

    def test_limits(self):
        value, last, band = self["VAL"], self["LALM"], self["HYST"]
        for field, severity, status in zip(LIMITS, SEVERITIES, [HIHI, LOLO, HIGH, LOW]):
            limit = self[field]
            if field in ("HIHI", "HIGH"):
                holds = value >= limit or (last == limit and value >= limit - band)
            else:
                holds = value <= limit or (last == limit and value <= limit + band)
            if holds and self[severity]:
                if self.raise_alarm(status, self[severity]):
                    self["LALM"] = limit
                return
        self["LALM"] = value

    def engineering(self):
        """The value in engineering units of RVAL."""
        value = float(self["RVAL"]) + float(self["ROFF"])
        if self["ASLO"] != 0:
            value *= self["ASLO"]
        value += self["AOFF"]
        return value * self["ESLO"] + self["EOFF"] if self["LINR"] else value

    def raw_of(self, value):
        """The raw value of one in engineering units."""
        if self["LINR"]:
            value = 0.0 if self["ESLO"] == 0 else quotient(value - self["EOFF"], self["ESLO"])
        value -= self["AOFF"]
        if self["ASLO"] != 0:
            value = quotient(value, self["ASLO"])
        value = value + 0.5 if value >= 0 else value - 0.5
        least, most = RANGES["long"]
        cut = least if value != value else int(min(max(value, least), most))
        return (cut - self["ROFF"] + 2**31) % 2**32 - 2**31

    def define(self, came):
        if came or self["VAL"] != self["VAL"]:
            self["UDF"] = int(self["VAL"] != self["VAL"])

    def take_input(self, got):
        """What an ai makes of a value, of none or of a fault."""
        what, value = got
        if what == "fault":
            self["INIT"] = 1
        elif what == "nothing" and not self.is_raw():
            self.define(False)
        else:
            if self.is_raw():
                self["RVAL"] = value if what == "value" else self["RVAL"]
                value = self.engineering()
            if self["SMOO"] != 0 and self["INIT"] == 0 and abs(self["VAL"]) < INFINITY:
                value = value * (1.0 - self["SMOO"]) + self["VAL"] * self["SMOO"]
            self["VAL"], self["INIT"] = value, 0
            self.define(True)
        self.test()

    def drive(self, value):
        if self["DRVH"] > self["DRVL"]:
            value = self["DRVH"] if value > self["DRVH"] else self["DRVL"] if value < self["DRVL"] else value
        self["VAL"] = self["PVAL"] = value
        if (most := self["OROC"]) != 0:
            step = value - self["OVAL"]
            if step < 0 and most < -step:
                value = self["OVAL"] - most
            elif not step < 0 and most < step:
                value = self["OVAL"] + most
        self["OVAL"], self["RVAL"] = value, self.raw_of(value)

    def take_output(self, got):
        """What an ao makes of a value, of none or of a fault: is anything written?"""
        what, value = got
        if what != "fault":
            came = what == "value"
            self.drive((value + self["PVAL"] if self["OIF"] else value) if came else self["VAL"])
            self.define(came)
        self.test()
        if self["NSEV"] == INVALID:
            if self["IVOA"] == 1:
                return False
            if self["IVOA"] == 2:
                self.drive(self["IVOV"])
        return True

    def written(self):
        return self["RVAL"] if self.is_raw() else self["OVAL"]

    def show(self):
        """The end of a body: the alarms settle, and MLST and ALST follow VAL."""
        self.settle()
        if "MLST" in self.values:
            for last, band in ("MLST", "MDEL"), ("ALST", "ADEL"):
                if has_moved(self[last], self["VAL"], self[band]):
                    self[last] = self["VAL"]
        self["PACT"] = 0

    def text(self, field):
        """The text of a field."""
        value = self[field]
        if isinstance(value, float):
            return text_of(value, self["PREC"])
        kind = self.kinds[field]
        return MENUS[kind][value] if kind in MENUS else str(value)


class Model:
    """Records, and the lines that tell of their devices."""

    def __init__(self, records):
        self.records, self.told = {record.name: record for record in records}, []

    def load(self, fields):
        """Fields in the order of the text; then constants, and what has followed VAL."""
        for record in self.records.values():
            for field, text in fields[record.name]:
                if field in record.links:
                    record.links[field] = text
                else:
                    record.store(field, converted(text, record.kinds[field]))
            record["STAT"], record["SEVR"] = UDF, record["UDFS"] if record["UDF"] else NO_ALARM
            for field, text in record.links.items():
                self.put_constant(record, field, text)
            for last in "LALM", "MLST", "ALST", "OVAL", "PVAL":
                if last in record.values:
                    record[last] = record["VAL"]
            if "OUT" in record.links:
                record.owned = record.links["OUT"]
            elif "INP" in record.links:
                record.owned = record.links["INP"]

    def doubles(self):
        """The bits of all doubles, by the numbers of their records and their fields."""
        return {(number, field): bits(record[field]) for number, record in enumerate(self.records.values()) for field, kind in record.kinds.items() if kind == "double"}

    def put_constant(self, record, field, text):
        if field == "OUT" or (number_of(text) is None and not REAL.fullmatch(text)):
            return
        constant = float(text) if REAL.fullmatch(text) else number_of(text)
        if record.kind == "ai" and record.is_raw():
            raw = converted(constant, "long")
            record["RVAL"] = record["RVAL"] if raw is None else raw
        else:
            record.store("VAL", float(constant))

    def target(self, link):
        """The record, the field, whether it is processed and the mode of a link; none if it is absent."""
        where, *words = link.split()
        name, _, field = where.partition(".")
        record = self.records.get(name)
        if record is None or (field or "VAL") not in record.kinds | {"PROC": "uchar"}:
            return None
        mode = next((word for word in ("NMS", "MSI", "MSS", "MS") if word in words), "NMS")
        return record, field or "VAL", "PP" in words and "NPP" not in words, mode

    def is_constant(self, link):
        return link == "" or number_of(link) is not None or REAL.fullmatch(link)

    def cause(self, source, target):
        kept, source["PACT"] = source["PACT"], 1
        self.request(target)
        source["PACT"] = kept

    def read(self, record, link, kind):
        if self.is_constant(link):
            return "nothing", None
        if found := None if link.startswith("@") else self.target(link):
            target, field, processes, mode = found
            if processes:
                self.cause(record, target)
            value = converted(target.text(field) if kind == "text" else 0 if field == "PROC" else target[field], kind)
            if value is not None:
                if target is not record:
                    record.inherit(mode, target["STAT"], target["SEVR"])
                return "value", value
        record.raise_alarm(LINK, INVALID)
        return "fault", None

    def write(self, record, link, value):
        if self.is_constant(link):
            return
        found = None if link.startswith("@") else self.target(link)
        if found is None:
            record.raise_alarm(LINK, INVALID)
            return
        target, field, processes, mode = found
        stored = None if field in FIXED else converted(value, "uchar" if field == "PROC" else target.kinds[field])
        if stored is not None and field != "PROC":
            target.store(field, stored)
        target.inherit(mode, record["NSTA"], record["NSEV"])
        if stored is None:
            record.raise_alarm(LINK, INVALID)
        elif processes or field == "PROC":
            self.cause(record, target)

    def ask(self, record, what, link, value=None):
        record.waits += 1
        record.waiting, record["PACT"] = what, 1
        text = "" if value is None else f"\t{exact(value)}"
        self.told.append(f"? {record.name} {record.waits} {what} {link[1:]}{text}")

    def request(self, record):
        if record["PACT"]:
            if record["STAT"] != SCAN:
                before, record["LCNT"] = record["LCNT"], min(record["LCNT"] + 1, 255)
                if before >= 10 and record["SEVR"] != INVALID:
                    record.raise_alarm(SCAN, INVALID)
                    record.settle()
            return
        record["LCNT"] = 0
        if record.kind == "ai":
            link = record.links["INP"]
            if link.startswith("@") and link == record.owned:
                self.ask(record, "read", link)
            else:
                self.take(record, self.read(record, link, "long" if record.is_raw() else "double"))
        elif record.kind == "ao":
            closed = record["OMSL"] == 1 and not self.is_constant(record.links["DOL"])
            self.take(record, self.read(record, record.links["DOL"], "double") if closed else ("nothing", None))
        else:
            record.test()
            record.show()

    def take(self, record, got):
        if record.kind == "ai":
            record.take_input(got)
        elif record.take_output(got):
            link = record.links["OUT"]
            if link.startswith("@") and link == record.owned:
                self.ask(record, "write", link, record.written())
                return
            self.write(record, link, record.written())
        record.show()

    def answer(self, record, text):
        """The late answer of a device: a text, or none for a fault."""
        what, record.waiting = record.waiting, None
        record["PACT"] = 0
        if what == "write":
            if text is None:
                record.raise_alarm(WRITE, INVALID)
            record.show()
            return
        value = None if text is None else converted(text, "long" if record.is_raw() else "double")
        if value is None:
            record.raise_alarm(READ, INVALID)
        self.take(record, ("fault", None) if value is None else ("value", value))

    def put(self, record, field, text):
        if field in FIXED:
            return "E3 NoMod"
        value = converted(text[:39] if record.kinds[field] == "text" else text, record.kinds[field])
        if value is None:
            return "E5 BadValue"
        record.store(field, value)
        if field in PROCESSING:
            self.request(record)
            return "ok processed"
        return "ok"


SPECIAL = ["nan", "inf", "-inf", "-0", "0", "-nan", "Infinity", "5e-324", "-5e-324", "1.7976931348623157e308", "-1.7976931348623157e308", "2.2250738585072014e-308"]
PLAIN = ["1", "-1", "0.5", "-0.5", "0.1", "2.5", "2.9", "-2.9", "3", "4", "10", "100", "1e10", "-3e9", "2147483647", "2147483648", "-2147483648.9", "65535.9", "15.9",
         "0x1F", "1.005", "0.125", "9007199254740993", " 7 ", "+3.", ".5e1", "1e16", "123456789.0625", "9999999.9999"]
BAD = ["1.5 mm", "1e400", ".", "0x1.8", "1e", "", "--1", "MINOR", "x"]


def drawn_double(chance):
    """The text of a double."""
    draw = chance.random()
    if draw < 0.25:
        return chance.choice(SPECIAL)
    if draw < 0.4:
        return chance.choice(PLAIN)
    if draw < 0.55:
        return repr(struct.unpack(">d", chance.randbytes(8))[0])
    if draw < 0.65:
        return repr(round(chance.uniform(-20, 20), chance.randrange(4)))
    # Few numbers, so that values reach limits and deadbands exactly.
    return repr(chance.randrange(-4, 5) / 2)


def drawn_value(chance, kind, good=False):
    """A text for a field of a kind."""
    if not good and chance.random() < 0.05:
        return chance.choice(BAD)
    if kind == "double":
        return drawn_double(chance)
    if kind in MENUS:
        return chance.choice(MENUS[kind])
    if kind == "text":
        return drawn_double(chance) if chance.random() < 0.8 else chance.choice(BAD)
    least, most = RANGES[kind]
    return str(chance.choice([0, 1, 2, 3, 7, least, most]) if kind != "state" else chance.choice([0, 1]))


def drawn_link(chance, field, record):
    """A text for a link, so that no record leads back to itself."""
    # The source and the target lead nowhere, and OUT alone to the input.
    name = chance.choice(["source", "target"] + ["input"] * (field == "OUT"))
    of = {"source": "ai", "input": "ai"}.get(name)
    kinds = KINDS[of] if of else COMMON | {"VAL": ""}
    draw = chance.random()
    if draw < 0.08:
        return ""
    if draw < 0.14:
        return chance.choice(["2.5", "-7", "1e3", "0x10", "-.5E-3", "3e9"])
    if draw < 0.17:
        return chance.choice(["nobody", "nan", "inf PP", "source.NOPE"])
    if draw < 0.4 and field != "DOL":
        return "@" + record.name
    fields = ["VAL"] * 12 + [it for it in kinds if it != "DTYP"] + (["PROC"] if field == "OUT" else [])
    words = chance.choices(["PP", "NPP", "NMS", "MS", "MSI", "MSS"], [6, 1, 1, 3, 3, 3], k=chance.randrange(4))
    return " ".join([name + chance.choice(["", ".VAL"]) if (at := chance.choice(fields)) == "VAL" else f"{name}.{at}", *words])


def quoted(text):
    return '"' + text.replace("\\", "\\\\").replace('"', '\\"') + '"'


def drawn_fields(chance, record):
    """Fields of a database text, in their order."""
    kinds = [(field, kind) for field, kind in record.kinds.items() if field not in FIXED | {"UDF"}]
    made = [(field, drawn_value(chance, kind, True)) for field, kind in chance.sample(kinds, chance.randrange(min(10, len(kinds))))]
    if record.kind in ("ai", "ao"):
        made = [(field, chance.choice([RAW, RAW, "Soft Channel"]) if field == "DTYP" else text) for field, text in made]
        made += [("HSV", "MINOR"), ("LLSV", "MAJOR"), ("HYST", "0.5")] * (chance.random() < 0.5)
        made += [("DTYP", RAW)] * (chance.random() < 0.4)
    if record.kind == "ao":
        made += [("OMSL", "closed_loop")] * (chance.random() < 0.7) + [("OIF", "Incremental")] * (chance.random() < 0.5)
    made = [(field, text) for field, text in made if converted(text, record.kinds[field]) is not None and len(text) < 39]
    for field in record.links:
        if record.name != "source":
            link = drawn_link(chance, field, record)
            record.links[field] = link
            if not (field != "OUT" and REAL.fullmatch(link) and double_of(link) is None):
                made.append((field, link))
    return made


def drawn_session(chance):
    """A database text, lines, their replies, what devices are asked, and the bits of all doubles behind each call."""
    target = chance.choice(["ai", "ao", "longin", "int64in", "stringin", "bi"])
    records = [Record(name, kind) for name, kind in [("source", "ai"), ("target", target), ("input", "ai"), ("output", "ao")]]
    if target == "ao":
        records[1].links = {"OUT": "", "DOL": ""}
    model = Model(records)
    fields = {record.name: [] if record.name == "target" else drawn_fields(chance, record) for record in records}
    fields["target"] = [it for it in drawn_fields(chance, records[1]) if it[0] not in records[1].links]
    for record in records:
        record.links = dict.fromkeys(record.links, "")
    text = "".join(
        f"record({record.kind}, {record.name}) {{ " + " ".join(f"field({field}, {quoted(it)})" for field, it in fields[record.name]) + " }\n" for record in records)
    model.load(fields)
    lines, replies, states = [], [], [model.doubles()]

    def say(line, reply):
        lines.append(line)
        replies.append(reply)
        # A reading has no entry in the journal, nor has a put to a field that can't be put.
        if not line.startswith("read ") and reply != "E3 NoMod":
            states.append(model.doubles())

    for _ in range(chance.choice([10, 60, 200])):
        record = chance.choice(records + records[2:])
        draw = chance.random()
        if draw < 0.35:
            model.request(record)
            say(f"process {record.name}", "ok processed")
        elif draw < 0.42 and record.links and record.name not in ("source", "target"):
            field = chance.choice(list(record.links))
            record.links[field] = link = drawn_link(chance, field, record)
            say(f"link {record.name}.{field} {link}".rstrip(), "ok")
        else:
            field = "VAL" if chance.random() < 0.4 else chance.choice([it for it in record.kinds if it != "DTYP"])
            put = drawn_value(chance, record.kinds[field])
            say(f"put {record.name}.{field} {put}", model.put(record, field, put))
        while waiting := [it for it in records if it.waiting]:
            it = waiting[0]
            number = it.waits
            if chance.random() < 0.1:
                model.answer(it, None)
                say(f"fault {it.name} {number}", "ok")
            else:
                given = drawn_value(chance, chance.choice(["double", "long"])) or "."
                model.answer(it, given)
                say(f"done {it.name} {number} {given}", "ok")
        for it in records:
            if chance.random() < 0.5:
                continue
            values = [it.text(field) if kind == "text" else exact(it[field]) for field, kind in it.kinds.items()]
            shown = [field for field, kind in it.kinds.items() if kind == "double"]
            words = [field if kind == "text" else field + "#" for field, kind in it.kinds.items()]
            say(f"read {it.name} {' '.join(words + shown)}", "=\t" + "\t".join(values + [it.text(field) for field in shown]))
    return text, lines, replies, model.told, states


def in_bits(line, wanted):
    """A line that was printed, with the bits of a double wherever the wanted line has those."""
    parts, others = line.split("\t"), wanted.split("\t")
    for at, (part, other) in enumerate(zip(parts, others)):
        if other.startswith(BITS) and re.fullmatch(r"-?([0-9.]+(e-?[0-9]+)?|inf)|nan", part):
            parts[at] = BITS + bits(float(part))
    return "\t".join(parts)


def calls_until(lines, place):
    """The lines up to a place that aren't readings, and the one there."""
    return "\n".join([*(line for line in lines[:place] if not line.startswith("read ")), lines[place]])


def differing(line, other):
    """The parts of a line that another one hasn't, with their places."""
    parts, others = line.split("\t"), other.split("\t")
    return [(at, part) for at, part in enumerate(parts) if others[at : at + 1] != [part]]


def base_fault(journal, states):
    """What is wrong with the doubles of the base with which a file goes on, if anything."""
    lines = [line.split("\t") for line in journal.read_text(encoding="latin-1").splitlines()]
    place = int(lines[0][-1])
    found = {(int(words[1]), words[2]): words[4] for words in lines if words[0] == "base" and len(words) == 5 and words[3] == "double"}
    for (number, field), wanted in states[place].items():
        # A base leaves out what a new record has.
        first = bits(1.0) if field in ("ESLO", "ASLO") else bits(0.0)
        if (it := found.get((number, field), first)) != wanted:
            return f"{field} of record {number} at place {place}: {it} for {wanted}"
    return None


def faults(folder, seed):
    """What is wrong with a session."""
    chance = random.Random(seed)
    text, lines, replies, asks, states = drawn_session(chance)
    database, journal = folder / f"{seed}.db", folder / f"{seed}.journal"
    database.write_text(text)
    # What the lines have made stands in the base of a further file.
    words = ["ioc", database, "--console", "--devices", "outside", "--workers", "1", "--journal", journal, "--journal-size", "1"]
    ran = subprocess.Popen([BIN / words[0], *words[1:]], stdin=subprocess.PIPE, stdout=subprocess.PIPE, stderr=subprocess.PIPE, text=True, encoding="latin-1")
    out, said = ran.communicate("".join(line + "\n" for line in lines))
    # What devices are asked comes as soon as they are, and replies in pieces.
    printed = out.splitlines()
    asked, told = [line for line in printed if line.startswith("? ")], [line for line in printed if not line.startswith("? ")]
    for at, line in enumerate(replies):
        it = in_bits(told[at], line) if at < len(told) else "no line"
        if it != line:
            yield f"{text}{calls_until(lines, at)}\nprinted {differing(it, line)}\nwanted {differing(line, it)}"
            return
    if fault := next((f"{it}\nwanted {ask}" for it, ask in zip(asked + ["no ask"], asks + ["no ask"]) if in_bits(it, ask) != ask), None):
        yield f"{text}{calls_until(lines, len(lines) - 1)}\nasked {fault}"
        return
    if ran.returncode:
        yield f"status {ran.returncode}: {said}\n{text}"
        return
    files = sorted(folder.glob(f"{seed}.journal*"), key=lambda file: (len(file.name), file.name))
    for file in files:
        audited = subprocess.run([BIN / "ioc-audit", database, file], capture_output=True, text=True, timeout=120)
        if audited.returncode:
            yield f"audit of {file.name}: {audited.stdout}{audited.stderr}"
        if file is not files[0] and (fault := base_fault(file, states)):
            yield f"base of {file.name}: {fault}"
    for file in [database, *files]:
        file.unlink()


def main():
    runs, first = (int(word) for word in (sys.argv[1:] + ["100", "0"][len(sys.argv) - 1 :])[:2])
    failed = 0
    with tempfile.TemporaryDirectory() as folder:
        for seed in range(first, first + runs):
            for fault in faults(pathlib.Path(folder), seed):
                failed = 1
                print(f"seed {seed}: {fault}")
    return failed


if __name__ == "__main__":
    sys.exit(main())
