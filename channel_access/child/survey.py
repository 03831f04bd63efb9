"""Which records a database has, of which types, with which fields: found by asking a scratch `ioc DB --console`."""
import subprocess
from typing import IO, Dict, List, Sequence, Tuple

from ..interface import Field, Kind, Record

_KINDS = {kind.name.lower(): kind for kind in Kind}


class ChildError(Exception):
    """The database can't be served: the words say why, and the status is for the front's end."""

    def __init__(self, words: str, status: int) -> None:
        super().__init__(words)
        self.status = status


class _Asking:
    """A console that is asked one line after another."""

    def __init__(self, lines: IO[bytes], replies: IO[bytes]) -> None:
        self._lines, self._replies = lines, replies

    def ask(self, line: str) -> List[bytes]:
        """Returns the lines of a reply behind `- `, without the count at their end. EOFError if the program has ended."""
        self._lines.write(line.encode("latin-1") + b"\n")
        self._lines.flush()
        got: List[bytes] = []
        for reply in self._replies:
            if not reply.startswith(b"- "):
                return got
            got.append(reply[2:-1])
        raise EOFError


def _fields(asking: _Asking, record_type: str, menus: Dict[str, Tuple[bytes, ...]]) -> Dict[str, Field]:
    """The fields of a record type. A link is put by a change of the link, so it can be put, though not as a value."""
    fields = {"RTYP": Field("RTYP", Kind.TEXT, False)}
    for line in asking.ask(f"fields {record_type}"):
        name, kind, *more = line.decode().split(" ")
        menu = more[0] if kind == "menu" else ""
        if menu and menu not in menus:
            menus[menu] = tuple(choice.split(b" ", 1)[1] for choice in asking.ask(f"menu {menu}"))
        fields[name] = Field(name, _KINDS[kind], kind == "link" or more[-1:] == ["put"], menus.get(menu, ()))
    return fields


def _records(asking: _Asking) -> Dict[bytes, Record]:
    """All records, by their names."""
    types: Dict[str, Dict[str, Field]] = {}
    menus: Dict[str, Tuple[bytes, ...]] = {}
    records = {}
    for line in asking.ask("records"):
        name, record_type = line.rsplit(b" ", 1)
        word = record_type.decode()
        if word not in types:
            types[word] = _fields(asking, word, menus)
        records[name] = Record(name, word, types[word])
    return records


def survey(words: Sequence[str]) -> Dict[bytes, Record]:
    """Returns the records of a database by their names. The words are a program `ioc`, the database and macros."""
    run = subprocess.Popen([*words, "--console", "--workers", "1"], stdin=subprocess.PIPE, stdout=subprocess.PIPE, stderr=subprocess.PIPE)
    assert run.stdin is not None and run.stdout is not None
    records: Dict[bytes, Record] = {}
    try:
        records = _records(_Asking(run.stdin, run.stdout))
    except (EOFError, OSError):
        pass  # its status and its words say why
    _, told = run.communicate(timeout=300)
    if run.returncode:
        raise ChildError(told.decode("utf-8", "replace").strip() or "ioc has ended", run.returncode)
    return records
