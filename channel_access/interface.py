"""What the front asks of an IOC. `child` answers it with a child process; tests answer it with stand-ins.

Answers come by callbacks on the event loop's thread, never before the call that asks has returned, unless it says so.
"""
import dataclasses
import enum
import re
from typing import Callable, Mapping, NamedTuple, Optional, Protocol, Tuple, Union

# The fields that give a value its units, limits and the texts of its states, as far as a record has them.
STATE_TEXTS = tuple(f"{prefix}ST" for prefix in "ZR ON TW TH FR FV SX SV EI NI TE EL TV TT FT FF".split())
PROPERTIES = (*"EGU PREC HOPR LOPR HIHI HIGH LOW LOLO HHSV HSV LSV LLSV DRVH DRVL ZNAM ONAM".split(), *STATE_TEXTS)

# The bits of a monitor's mask.
VALUE, LOG, ALARM, PROPERTY = 1, 2, 4, 8

# A record's name or alias has 1 to 60 bytes from 33 to 126, and no quote, dot or dollar sign.
_RECORD_NAME = re.compile(rb"(?:(?![\"'.$])[!-~]){1,60}\Z")


def is_record_name(name: bytes) -> bool:
    """Returns whether bytes can be a record's name; nothing else reaches a line of the IOC."""
    return _RECORD_NAME.match(name) is not None


class Kind(enum.Enum):
    """What a field holds."""

    LONG, ULONG, SHORT, USHORT, UCHAR, INT64, DOUBLE, TEXT, LINK, EXPRESSION, STATES, MENU = range(12)


@dataclasses.dataclass(frozen=True, eq=False)
class Field:
    """A field of a record type. A menu has choices here; the texts of states are among the properties of each record."""

    name: str
    kind: Kind
    can_put: bool
    choices: Tuple[bytes, ...] = ()


@dataclasses.dataclass(frozen=True, eq=False)
class Record:
    """A record by its own name, with the fields of its type."""

    name: bytes
    type: str
    fields: Mapping[str, Field]


class Extent(enum.Enum):
    """What is read beside a field."""

    FIELD = 0  # nothing: alarm and time stamp stay 0
    ALARM = 1  # the record's alarm and time stamp
    PROPERTIES = 2  # and its properties


class Reading(NamedTuple):
    """A field with its record's alarm and time stamp, all of one moment.

    `number` stands behind the text of a number, state or menu. The time stamp is in nanoseconds since 1970, 0 before the record was
    processed. `properties` are texts of fields by their names: of that moment if they were asked for, else those known last.
    """

    text: bytes
    number: Optional[float]
    status: int
    severity: int
    time: int
    properties: Mapping[str, bytes]


def number_of(text: bytes) -> float:
    """Returns the number that a text of the IOC has: a whole one if it is written as one."""
    return int(text) if text.lstrip(b"-").isdigit() else float(text)


def state_texts(properties: Mapping[str, bytes]) -> Tuple[bytes, ...]:
    """Returns the texts of a record's states up to the last that isn't empty; of bi and bo both."""
    if "ZNAM" in properties:
        return properties["ZNAM"], properties["ONAM"]
    texts = [properties.get(name, b"") for name in STATE_TEXTS]
    while texts and not texts[-1]:
        texts.pop()
    return tuple(texts)


# What is put: a text, a double, or the number of another number, a state or a menu.
Given = Union[bytes, int, float]
# Is told None where a put was done, or the words of its refusal, and the place of the call in the journal if it has one.
Done = Callable[[Optional[str], Optional[int]], None]
GotReading = Callable[[Optional[Reading]], None]
# Is told of a change: which of VALUE, LOG, ALARM, PROPERTY it is due for, and the reading.
Told = Callable[[int, Reading], None]


class Wanted(NamedTuple):
    """What is watched: a field by its text, or by the number behind it if it has one, perhaps with the record's properties."""

    record: Record
    field: Field
    is_text: bool
    with_properties: bool


class Watch:
    """A field that is watched."""

    def __init__(self, wanted: Wanted, told: Told) -> None:
        self.wanted, self.told = wanted, told


class PutCallback:
    """A put with notification that was begun. `number` is the IOC's once it is known; `freed` is set where it was cancelled."""

    number: Optional[int] = None
    freed: Optional[Callable[[], None]] = None


class Ioc(Protocol):
    """An IOC's records, as the front uses them. At most `most_live_puts` puts with notification may be live."""

    most_live_puts: int

    def find(self, name: bytes, done: Callable[[Optional[Record]], None]) -> None:
        """Finds a record by its name or an alias. `done` may be called at once."""

    def read(self, record: Record, field: Field, extent: Extent, done: GotReading) -> None:
        """Reads a field and what is wanted beside it, of one moment. None if it can't be read."""

    def put(self, record: Record, field: Field, given: Given, done: Done) -> None:
        """Puts a value into a field, or a text into a link field."""

    def notify(self, record: Record, field: Field, given: Given, done: Done) -> PutCallback:
        """As `put`; `done` is told when all that the put caused has ended."""

    def cancel(self, begun: PutCallback, freed: Callable[[], None]) -> None:
        """Gives up a put with notification: its `done` is never called. `freed` is called when it has its place no more."""

    def watch(self, wanted: Wanted, told: Told) -> Watch:
        """Watches a field: `told` hears of each change from the first `look` on."""

    def look(self, watch: Watch, first: GotReading) -> None:
        """Gives a watched field as it is now. What comes to `told` behind `first` is of later moments."""

    def unwatch(self, watch: Watch) -> None:
        """Ends a watch: its `told` is never called again."""


class Ask(NamedTuple):
    """What a record asks its device: to read (`value` is None) or to write a value. `text` is what stands behind the `@` of its link."""

    record: bytes
    number: int
    text: str
    value: Optional[str]


class DeviceAnswers(Protocol):
    """Where the answers of devices go."""

    def done(self, record: bytes, number: int, value: str) -> None:
        """The device has answered an ask; of a write the value isn't looked at."""

    def fault(self, record: bytes, number: int) -> None:
        """The device has failed."""

    def interrupt(self, word: str) -> None:
        """Processes the records with SCAN `I/O Intr` whose device links have this first word. ValueError if it is no word."""
