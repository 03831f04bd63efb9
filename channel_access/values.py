"""The forms of a value: readings as the bytes of replies, and what clients put as values for the IOC.

`DBF` and `FORMATS` say how each kind of field is served; a kind that is added needs its rows there.
"""
import math
import struct
from typing import Dict, Mapping, NamedTuple, Tuple

from .interface import Extent, Field, Given, Kind, Reading, Record, number_of, state_texts
from .protocol import CLASS_NAME, STSACK_STRING, WITH_ALARM, WITH_CONTROL, WITH_TIME, WITH_UNITS, Base

EPICS_EPOCH = 631152000
TEXT_SIZE = 40
LONG_SIZES = {Kind.LINK: 121, Kind.EXPRESSION: 80}
# What is raised by a value that has no such form.
NO_VALUE = (ValueError, OverflowError, struct.error)

# What a field of a kind is served as.
DBF: Dict[Kind, Base] = {
    Kind.SHORT: Base.SHORT, Kind.LONG: Base.LONG, Kind.USHORT: Base.LONG, Kind.UCHAR: Base.CHAR,
    Kind.ULONG: Base.DOUBLE, Kind.INT64: Base.DOUBLE, Kind.DOUBLE: Base.DOUBLE,
    Kind.TEXT: Base.STRING, Kind.LINK: Base.STRING, Kind.EXPRESSION: Base.STRING, Kind.STATES: Base.ENUM, Kind.MENU: Base.ENUM,
}  # fmt: skip


class _Format(NamedTuple):
    """How a number is packed: its letter in `struct`, its bits (0 of a fraction), whether it has a sign, and the bytes in front of it."""

    letter: str
    bits: int
    is_signed: bool
    behind_alarm: int
    behind_time: int


FORMATS: Dict[Base, _Format] = {
    Base.SHORT: _Format("h", 16, True, 0, 2),
    Base.FLOAT: _Format("f", 0, True, 0, 0),
    Base.ENUM: _Format("H", 16, False, 0, 2),
    Base.CHAR: _Format("B", 8, False, 1, 3),
    Base.LONG: _Format("i", 32, True, 0, 0),
    Base.DOUBLE: _Format("d", 0, True, 4, 4),
}

# The fields whose values have the record's units and limits.
_LIMITED = frozenset("VAL HIHI HIGH LOW LOLO LALM MLST ALST OVAL PVAL DRVH DRVL HOPR LOPR IVOV".split())
_BOUNDS = "HIHI HIGH LOW LOLO HOPR LOPR DRVH DRVL".split()
_ALARM_LIMITS = (("HIHI", "HHSV"), ("HIGH", "HSV"), ("LOW", "LSV"), ("LOLO", "LLSV"))


class Served(NamedTuple):
    """A field as a client sees it; with a `$` behind its name a text is an array of characters."""

    record: Record
    field: Field
    is_long_text: bool
    base: Base
    elements: int


def served(record: Record, field: Field, is_long_text: bool) -> Served:
    """Returns how a field is served. ValueError for a long text of a field that isn't a text."""
    base = DBF[field.kind]
    if not is_long_text:
        return Served(record, field, False, base, 1)
    if base is not Base.STRING:
        raise ValueError(f"{field.name} is no text")
    return Served(record, field, True, Base.CHAR, LONG_SIZES.get(field.kind, TEXT_SIZE))


def _packed(value: float, base: Base) -> bytes:
    """Returns a number as C converts it: too large an integer loses its upper bits."""
    form = FORMATS[base]
    if form.bits == 0:
        return struct.pack(">" + form.letter, value)
    whole = int(value) % (1 << form.bits)
    if form.is_signed and whole >= 1 << (form.bits - 1):
        whole -= 1 << form.bits
    return struct.pack(">" + form.letter, whole)


def _value(channel: Served, reading: Reading, base: Base, count: int) -> Tuple[bytes, int]:
    """Returns a value and how many elements it has, as many as it needs for count 0. ValueError for a text that is no number."""
    if channel.is_long_text and base is Base.CHAR:
        text = reading.text[: channel.elements - 1] + b"\0"
        count = count or len(text)
        return text[:count].ljust(count, b"\0"), count
    if base is Base.STRING:
        return reading.text[: TEXT_SIZE - 1].ljust(TEXT_SIZE, b"\0"), 1
    return _packed(float(reading.text) if reading.number is None else reading.number, base), 1


def _limits(channel: Served, properties: Mapping[str, bytes], is_whole: bool) -> Tuple[float, ...]:
    """Returns limits in the order of the protocol: display high and low, alarm HIHI, HIGH, LOW, LOLO, control high and low."""
    if channel.field.name not in _LIMITED or "HOPR" not in properties:
        return (0,) * 8
    none, numbers = 0 if is_whole else math.nan, {name: number_of(properties.get(name, b"0")) for name in _BOUNDS}
    alarm = [numbers[limit] if properties[severity] != b"NO_ALARM" else none for limit, severity in _ALARM_LIMITS]
    display, control = (numbers["HOPR"], numbers["LOPR"]), (numbers["DRVH"], numbers["DRVL"])
    return (*display, *alarm, *(control if control[0] > control[1] else display))


def _graphic(channel: Served, reading: Reading, form: int, base: Base) -> bytes:
    """Returns what stands between the alarm and the value in a form with units and limits, or with the texts of states."""
    if base is Base.ENUM:
        texts = state_texts(reading.properties) if channel.field.kind is Kind.STATES else channel.field.choices[:16]
        return struct.pack(">h", len(texts)) + b"".join(text[:25].ljust(26, b"\0") for text in texts).ljust(416, b"\0")
    is_whole = FORMATS[base].bits > 0
    units = reading.properties.get("EGU", b"") if channel.field.name in _LIMITED else b""
    limits = _limits(channel, reading.properties, is_whole)[: 6 if form < WITH_CONTROL else 8]
    digits = int(reading.properties.get("PREC", b"0")) if channel.field.kind is Kind.DOUBLE else 0
    precision, padding = b"" if is_whole else struct.pack(">hxx", digits), b"\0" if base is Base.CHAR else b""
    return precision + units[:7].ljust(8, b"\0") + b"".join(_packed(limit, base) for limit in limits) + padding


def payload(channel: Served, form: int, count: int, reading: Reading) -> Tuple[bytes, int]:
    """Returns the body of a reply in a form, and how many elements it has. NO_VALUE if the value has none in this form."""
    if form == CLASS_NAME:
        return channel.record.type.encode().ljust(TEXT_SIZE, b"\0"), 1
    alarm = struct.pack(">hh", reading.status, reading.severity)
    if form == STSACK_STRING:
        return alarm + struct.pack(">HH", 1, 0) + _value(channel, reading, Base.STRING, 1)[0], 1
    base = Base(form % 7)
    value, count = _value(channel, reading, base, count)
    if form < WITH_ALARM:
        return value, count
    if WITH_TIME <= form < WITH_UNITS:
        seconds, nanoseconds = divmod(reading.time, 10**9)
        stamp = (seconds - EPICS_EPOCH, nanoseconds) if seconds >= EPICS_EPOCH else (0, 0)
        padding = 0 if base is Base.STRING else FORMATS[base].behind_time
        return alarm + struct.pack(">II", stamp[0] & 0xFFFFFFFF, stamp[1]) + bytes(padding) + value, count
    if form < WITH_TIME or base is Base.STRING:
        return alarm + bytes(0 if base is Base.STRING else FORMATS[base].behind_alarm) + value, count
    return alarm + _graphic(channel, reading, form, base) + value, count


def empty_payload(channel: Served, form: int, count: int) -> bytes:
    """Returns a body as long as a value of the form, for a reply that tells of a failure."""
    return payload(channel, form, count, Reading(b"0", 0, 0, 0, 0, {}))[0]


def extent_of(form: int) -> Extent:
    """Returns what has to be read for a form."""
    if form < WITH_ALARM or form == CLASS_NAME:
        return Extent.FIELD
    return Extent.PROPERTIES if WITH_UNITS <= form < STSACK_STRING else Extent.ALARM


def is_text_form(channel: Served, form: int) -> bool:
    """Returns whether a form has the text of a value, and not the number behind it."""
    return channel.is_long_text or form == STSACK_STRING or form % 7 == Base.STRING


def given_value(channel: Served, form: int, count: int, body: bytes) -> Given:
    """Returns what a client puts. NO_VALUE if it is none."""
    if form == Base.STRING:
        return body[:TEXT_SIZE].split(b"\0", 1)[0]
    if channel.is_long_text and form == Base.CHAR:
        return body[:count].split(b"\0", 1)[0]
    base = Base(form)
    value = struct.unpack_from(">" + FORMATS[base].letter, body)[0]
    if channel.field.kind is Kind.DOUBLE:
        return float(value)
    if DBF[channel.field.kind] is not Base.STRING:
        return int(value)  # what is behind the point is dropped, as in C; nan and inf raise
    return b"%d" % value if FORMATS[base].bits else (b"%.7g" if base is Base.FLOAT else b"%.15g") % float(value)
