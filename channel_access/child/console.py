"""`ioc DB --live` as a child: lines go out, and replies come back in the same order.

`read` shows fields of one moment. What watched fields have become comes at any time, and so does what devices are asked, for the drivers.
"""
import asyncio
import re
import sys
from collections import deque
from typing import Callable, Deque, Dict, List, Mapping, NamedTuple, Optional, Sequence, Tuple

from ..drivers import Desk, Driver
from ..interface import (
    ALARM, LOG, PROPERTIES, PROPERTY, VALUE, Ask, DeviceAnswers, Done, Extent, Field, Given, GotReading, Ioc, Kind, PutCallback, Reading,
    Record, Told, Wanted, Watch, is_record_name, number_of,
)  # fmt: skip
from .survey import ChildError
from .texts import escaped, unescaped

# How often the properties of records are read of which somebody wants to hear.
_PERIOD = 1.0
# A line has at most 4,096 bytes; verb, record and field take fewer than 100.
_MOST_TEXT = 3900
# How many names are looked up at a time and remembered.
_MOST_LOOKUPS = 1000
_MOST_NAMES = 100_000
# The kinds of fields that show a text and have a number behind it.
_NUMBERED = (Kind.DOUBLE, Kind.STATES, Kind.MENU)
# What the console writes on standard error for a refusal, which its reply has told.
_TOLD = re.compile(rb"line \d+: (E\d+ \w+|bad)\Z")
# What stands behind the reply to a put: its place in the journal.
_PLACED = re.compile(r"(.*) place (\d+)\Z")
# What comes unasked: the end of a put with notification; or what a device is asked, with the text of its link and perhaps a value.
_UNASKED = re.compile(rb"ended (\d+)\Z|\? (\S+) (\d+) (?:read|write) ([^\t]*)(?:\t(.*))?\Z")
# What a line of a watched field tells, by its letters.
_MASKS = {b"v": VALUE, b"l": LOG, b"a": ALARM, b"vl": VALUE | LOG, b"va": VALUE | ALARM, b"la": LOG | ALARM, b"vla": VALUE | LOG | ALARM}

Replied = Callable[[bytes], None]


class _Batch(NamedTuple):
    """The line of a reading, in which NUL stands for the record's name, and which properties it asks for."""

    text: bytes
    properties: Tuple[str, ...]


class _Watched:
    """A field that a word watches: what the IOC told of it last, and for whom."""

    last: Optional[Reading] = None

    def __init__(self, wanted: Wanted) -> None:
        self.record, self.field = wanted.record, wanted.field
        self.has_digits = not wanted.is_text or wanted.field.kind not in _NUMBERED
        self.watches: List[Watch] = []

    def tell(self, letters: bytes, status: bytes, severity: bytes, time: bytes, value: bytes, properties: Mapping[str, bytes]) -> None:
        """Tells what the field is now. All letters stand where it was asked for again, which may be nothing new."""
        fields, last, mask = self.record.fields, self.last, _MASKS[letters]
        alarm = fields["STAT"].choices.index(status), fields["SEVR"].choices.index(severity)
        now = self.last = _reading(self.record, self.field, value, value if self.has_digits else None, *alarm, int(time), properties)
        if mask == VALUE | LOG | ALARM and last is not None and last[2:4] == alarm:
            mask = VALUE | LOG if now.text != last.text else 0
        if mask:
            for watch in self.watches:
                watch.told(mask, now)


def _reading(
    record: Record, field: Field, text: bytes, digits: Optional[bytes], status: int, severity: int, time: int, properties: Mapping[str, bytes]
) -> Reading:
    """The reading of a field with this text, and these digits of the number behind it."""
    if field.name == "RTYP":
        text = record.type.encode()
    number = None if digits is None or field.kind in (Kind.TEXT, Kind.LINK, Kind.EXPRESSION) else number_of(digits)
    return Reading(text, number, status, severity, time, properties)


def _names(field: Field) -> Tuple[str, ...]:
    """The words that ask for a field. For RTYP, which is no field of the IOC, any is asked."""
    name = field.name if field.name != "RTYP" else "NAME"
    return (name, name + "#") if field.kind in _NUMBERED else (name,)


def _word(wanted: Wanted) -> bytes:
    """The word that watches a field."""
    return b"%b.%b" % (wanted.record.name, _names(wanted.field)[0 if wanted.is_text else -1].encode())


class Console(Ioc, DeviceAnswers, asyncio.SubprocessProtocol):
    """A running `ioc DB --live`. `ended` has its exit status when it and all that it printed have ended."""

    most_live_puts = 256

    def __init__(self, words: Sequence[str], records: Dict[bytes, Record], drivers: Mapping[str, Driver]) -> None:
        self._words, self.records, self._desk, self.last_line = words, records, Desk(drivers, self), b""
        # Who waits for the next replies.
        self._calls: Deque[Replied] = deque()
        self._out: List[bytes] = []
        self._rest: Dict[int, bytes] = {1: b"", 2: b""}
        self._names: Dict[bytes, Optional[Record]] = {}
        self._lookups = self._polls = 0
        self._known: Dict[bytes, Mapping[str, bytes]] = {}
        self._batches: Dict[Tuple[str, Optional[Field], bool], _Batch] = {}
        self._live: Dict[int, Callable[[], None]] = {}
        # What is watched by its words, and the watches with properties by their records.
        self._watched: Dict[bytes, _Watched] = {}
        self._propertied: Dict[Record, List[Watch]] = {}
        self._fault: Optional[str] = None

    # The process.

    async def start(self) -> None:
        """Starts the program, in a session of its own so that Ctrl-C reaches the front alone, and the drivers."""
        self._loop = asyncio.get_running_loop()
        self.ended: "asyncio.Future[int]" = self._loop.create_future()
        await self._loop.subprocess_exec(lambda: self, *self._words, start_new_session=True)
        self._desk.start()

    def connection_made(self, transport: asyncio.BaseTransport) -> None:
        assert isinstance(transport, asyncio.SubprocessTransport)
        stdin = transport.get_pipe_transport(0)
        assert isinstance(stdin, asyncio.WriteTransport)
        self._process, self._stdin = transport, stdin
        self._poll()

    def close(self) -> None:
        """Ends the program's input: it answers what was asked, prints its last lines and ends. Nothing more is asked."""
        self._flush()
        self._stdin.close()

    def pipe_data_received(self, fd: int, data: bytes) -> None:
        *lines, self._rest[fd] = (self._rest[fd] + data).split(b"\n")
        for line in lines:
            if fd == 1:
                self._take(line)
            elif not _TOLD.match(line):
                print("ioc:", line.decode("utf-8", "replace"), file=sys.stderr)

    def _take(self, line: bytes) -> None:
        """Takes a line that wasn't asked for, or the next one of the replies."""
        if line.startswith(b"! "):
            return self._changed(line)
        unasked = _UNASKED.match(line)
        if unasked and unasked[1]:
            self._live.pop(int(unasked[1]), lambda: None)()
        elif unasked:
            text, value = (None if part is None else unescaped(part).decode("latin-1") for part in unasked.group(4, 5))
            self._desk.ask(Ask(unasked[2], int(unasked[3]), text or "", value))
        elif self._calls:
            self._reply(line)
        elif self._stdin.is_closing():
            self.last_line = line
        else:
            self._out_of_step(line)

    def _reply(self, got: bytes) -> None:
        """Tells the reply to the first call. Replies stay in step whatever comes of it."""
        try:
            self._calls.popleft()(got)
        except Exception as fault:
            self._loop.call_exception_handler({"message": f"reply {got!r}", "exception": fault})

    def connection_lost(self, error: Optional[Exception]) -> None:
        self._clock.cancel()
        status = self._process.get_returncode() or 0
        if self._fault is not None:
            self.ended.set_exception(ChildError(self._fault, 1))
        else:
            self.ended.set_result(status if status >= 0 else 128 - status)

    def _out_of_step(self, got: bytes) -> None:
        """Nothing more is right if a reply is none of its line's."""
        self._fault = f"replies of ioc are out of step: {got!r}"
        self._process.kill()

    def _ask(self, text: bytes, done: Replied) -> None:
        if self._stdin.is_closing():
            return
        self._calls.append(done)
        if not self._out:
            self._loop.call_soon(self._flush)
        self._out.append(text)

    def _flush(self) -> None:
        self._stdin.write(b"".join(self._out))
        self._out.clear()

    # Records and readings.

    def find(self, name: bytes, done: Callable[[Optional[Record]], None]) -> None:
        record = self.records.get(name) or self._names.get(name)
        if record is not None or name in self._names or not is_record_name(name) or self._lookups >= _MOST_LOOKUPS:
            return done(record)

        def replied(got: bytes) -> None:
            self._lookups -= 1
            if len(self._names) >= _MOST_NAMES:
                self._names.clear()
            self._names[name] = self._named(unescaped(got[2:])) if got.startswith(b"=\t") else None
            done(self._names[name])

        self._lookups += 1
        self._ask(b"read %b NAME\n" % name, replied)

    def _named(self, text: bytes) -> Optional[Record]:
        """The record of which NAME shows these bytes, the first 39 of its name."""
        if len(text) < 39:
            return self.records.get(text)
        named = [record for name, record in self.records.items() if name.startswith(text)]
        return named[0] if len(named) == 1 else None

    def _read_moment(self, record: Record, field: Optional[Field], with_properties: bool, done: GotReading) -> None:
        """Reads a field, and the record's properties of the same moment."""
        batch = self._batch(record, field, with_properties)

        def replied(got: bytes) -> None:
            if not got.startswith(b"=\t"):
                return self._out_of_step(got)
            try:
                status, severity, time, *values = [unescaped(value) for value in got[2:].split(b"\t")]
                known = self._learn(record, dict(zip(batch.properties, values))) if with_properties else self._known.get(record.name, {})
                texts = values[len(batch.properties) :]
                reading = _reading(record, field, texts[0], texts[-1], int(status), int(severity), int(time), known) if field else None
            except (ValueError, IndexError):
                return self._out_of_step(got)
            done(reading)

        self._ask(batch.text.replace(b"\0", record.name), replied)

    def _batch(self, record: Record, field: Optional[Field], with_properties: bool) -> _Batch:
        """The line for a reading, the same for all records of a type."""
        key = record.type, field, with_properties
        batch = self._batches.get(key)
        if batch is None:
            properties = tuple(name for name in record.fields if name in PROPERTIES) if with_properties else ()
            exact = (name + "#" * (record.fields[name].kind is Kind.DOUBLE) for name in properties)
            names = ("STAT#", "SEVR#", "TIME", *exact, *(_names(field) if field else ()))
            batch = self._batches[key] = _Batch(b"read \0 %b\n" % " ".join(names).encode(), properties)
        return batch

    def _learn(self, record: Record, properties: Mapping[str, bytes]) -> Mapping[str, bytes]:
        """Keeps the properties that were read of a record, and tells whoever wants to hear if they have changed."""
        last = self._known.get(record.name)
        if last == properties:
            return last
        self._known[record.name] = properties
        for watch in () if last is None else self._propertied.get(record, ()):
            now = self._last(watch)
            if now is not None:
                watch.told(PROPERTY, now)
        return properties

    def read(self, record: Record, field: Field, extent: Extent, done: GotReading) -> None:
        self._read_moment(record, field, extent is Extent.PROPERTIES, done)

    # Puts, and answers of devices.

    def _put(self, verb: bytes, record: Record, field: Field, given: Given, replied: Callable[[str, Optional[int]], None]) -> None:
        """Sends a put; `replied` is told the reply and its place in the journal, or why the value can't stand in a line."""
        # A link has a verb of its own, and a state or menu is put by a number in the lines for programs alone.
        is_plain = isinstance(given, bytes) and field.kind in (Kind.LINK, Kind.STATES, Kind.MENU)
        text = (given if is_plain else escaped(given)) if isinstance(given, bytes) else repr(given).encode()
        if b"\n" in text or len(text) > _MOST_TEXT:
            self._loop.call_soon(replied, "a line feed, or too long", None)
            return
        verb = b"link" if field.kind is Kind.LINK else verb.rstrip(b"#") if is_plain else verb
        line = b"%b %b.%b %b\n" % (verb, record.name, field.name.encode(), text)

        def answered(got: bytes) -> None:
            reply = got.decode("latin-1")
            placed = _PLACED.match(reply)
            replied(placed[1] if placed else reply, int(placed[2]) if placed else None)

        self._ask(line, answered)
        if field.name in PROPERTIES:
            self._read_moment(record, None, True, lambda reading: None)

    def put(self, record: Record, field: Field, given: Given, done: Done) -> None:
        self._put(b"put#", record, field, given, lambda reply, place: done(None if reply.startswith("ok") else reply, place))

    def notify(self, record: Record, field: Field, given: Given, done: Done) -> PutCallback:
        begun = PutCallback()

        def replied(reply: str, place: Optional[int]) -> None:
            if reply.startswith("ok notify "):
                begun.number = int(reply[10:])
                self._live[begun.number] = lambda: done(None, place)
                if begun.freed is not None:
                    self.cancel(begun, begun.freed)
            elif begun.freed is not None:
                begun.freed()
            else:  # a link change has ended with its reply
                done(None if reply.startswith("ok") else reply, place)

        self._put(b"notify#", record, field, given, replied)
        return begun

    def cancel(self, begun: PutCallback, freed: Callable[[], None]) -> None:
        begun.freed = freed
        if begun.number is not None:
            self._live.pop(begun.number, None)
            self._ask(b"cancel %d\n" % begun.number, lambda got: freed())

    def done(self, record: bytes, number: int, value: str) -> None:
        text = escaped(value.encode("latin-1")[: _MOST_TEXT // 4])
        self._ask(b"done %b %d %b\n" % (record, number, text), lambda got: None)  # or E8: the record waits no more

    def fault(self, record: bytes, number: int) -> None:
        self._ask(b"fault %b %d\n" % (record, number), lambda got: None)

    def interrupt(self, word: str) -> None:
        if not re.fullmatch("[!-~]{1,100}", word):
            raise ValueError(f"{word!r} is no word")
        self._ask(b"io %b\n" % word.encode(), lambda got: None)

    # Watches.

    def watch(self, wanted: Wanted, told: Told) -> Watch:
        watch = Watch(wanted, told)
        self._watched.setdefault(_word(wanted), _Watched(wanted)).watches.append(watch)
        if wanted.with_properties:
            self._propertied.setdefault(wanted.record, []).append(watch)
        return watch

    def look(self, watch: Watch, first: GotReading) -> None:
        if watch.wanted.with_properties:
            self._read_moment(watch.wanted.record, None, True, lambda reading: None)
        self._ask(b"watch %b\n" % _word(watch.wanted), lambda got: first(self._last(watch) if got == b"ok" else None))

    def unwatch(self, watch: Watch) -> None:
        word, record = _word(watch.wanted), watch.wanted.record
        self._watched[word].watches.remove(watch)
        if not self._watched[word].watches:
            del self._watched[word]
            self._ask(b"unwatch %b\n" % word, lambda got: None)
        if watch.wanted.with_properties:
            self._propertied[record].remove(watch)
            if not self._propertied[record]:
                del self._propertied[record]

    def _last(self, watch: Watch) -> Optional[Reading]:
        """What was told last of a watched field, with the properties that are known now."""
        watched = self._watched.get(_word(watch.wanted))
        last = None if watched is None else watched.last
        return last and last._replace(properties=self._known.get(watch.wanted.record.name, {}))

    def _changed(self, line: bytes) -> None:
        """Takes the line of a watched field, or of one that was watched until a moment ago."""
        _, word, letters, status, severity, time, value = line.split(b" ", 6)
        watched = self._watched.get(word)
        if watched is not None:
            watched.tell(letters, status, severity, time, unescaped(value), self._known.get(watched.record.name, {}))

    def _poll(self) -> None:
        """Reads the properties that somebody wants to hear of, unless readings of the time before are under way."""
        self._clock = self._loop.call_later(_PERIOD, self._poll)
        if self._polls == 0:
            self._polls = len(self._propertied)
            for record in self._propertied:
                self._read_moment(record, None, True, self._polled)

    def _polled(self, reading: Optional[Reading]) -> None:
        self._polls -= 1
