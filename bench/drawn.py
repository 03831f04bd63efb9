"""Databases and scripts for hostile.py, drawn at random over all record types, fields, menus, forms of links and lines of a script.

Most are good, so that runs come far: puts with notification under way while links change, devices that are awaited, records that are disabled,
put down to be processed once more, or on scan lists. Some hold what must be refused, and some are mutated.
"""
import random
import re
from dataclasses import dataclass, field

COMMON = ("NAME DESC ASG DTYP SCAN PINI PHAS EVNT TSE DISV DISA SDIS DISS PROC DISP PRIO UDF UDFS FLNK STAT NSTA SEVR NSEV LCNT PACT PUTF RPRO"
          " TIME")
LIMITS = "VAL HIHI LOLO HIGH LOW HHSV LLSV HSV LSV HYST LALM ADEL MDEL HOPR LOPR EGU"
DRIVE = " OUT DOL OMSL IVOA IVOV"
BINARY = "VAL RVAL MASK ZNAM ONAM ZSV OSV COSV LALM"
STATES = [state + part for state in "ZR ON TW TH FR FV SX SV EI NI TE EL TV TT FT FF".split() for part in ("VL", "ST", "SV")]
MULTI = "VAL RVAL MASK SHFT NOBT UNSV COSV LALM " + " ".join(STATES)
ANALOG = ("VAL PREC EGU HOPR LOPR HIHI LOLO HIGH LOW HHSV LLSV HSV LSV HYST MDEL ADEL LALM MLST ALST LINR EGUF EGUL ESLO EOFF ASLO AOFF"
          " ROFF RVAL")
SHOWN = "VAL PREC EGU HOPR LOPR HIHI LOLO HIGH LOW HHSV LLSV HSV LSV HYST MDEL ADEL LALM MLST ALST"
LETTERS = "ABCDEFGHIJKL"
INPUTS = " ".join([*LETTERS, *("L" + letter for letter in LETTERS), *("INP" + letter for letter in LETTERS)])
CALC = SHOWN + " CALC " + INPUTS
SLOTS = ["LNK" + digit for digit in "0123456789ABCDEF"]
TYPES = {
    kind: f"{COMMON} {own}".split()
    for kind, own in {
        "longin": LIMITS + " INP", "longout": LIMITS + DRIVE + " DRVH DRVL",
        "int64in": LIMITS + " INP", "int64out": LIMITS + DRIVE + " DRVH DRVL",
        "bi": BINARY + " INP", "bo": BINARY + DRIVE, "mbbi": MULTI + " INP", "mbbo": MULTI + DRIVE,
        "stringin": "VAL INP", "stringout": "VAL" + DRIVE, "event": "VAL INP", "fanout": "VAL SELM SELN SELL OFFS SHFT " + " ".join(SLOTS),
        "ai": ANALOG + " INP SMOO INIT", "ao": ANALOG + DRIVE + " DRVH DRVL OIF OROC OVAL PVAL",
        "calc": CALC, "calcout": CALC + " OUT OOPT DOPT OCAL OVAL PVAL IVOA IVOV", "sel": SHOWN + " SELM SELN NVL " + INPUTS,
    }.items()
}
LINKS = {"INP", "OUT", "DOL", "SDIS", "SELL", "FLNK", "NVL", *SLOTS, *("INP" + letter for letter in LETTERS)}
# The links into which a constant with a point may go by any type, and the types that take one in INP and DOL.
REAL_LINKS = {"OUT", "FLNK", *SLOTS}
REAL_TYPES = {"ai", "ao", "calc", "calcout", "sel", "stringin", "stringout", "event"}
FIXED = set("NAME STAT NSTA SEVR NSEV LCNT PACT PUTF RPRO TIME LALM MLST ALST INIT OVAL PVAL".split()) | {"L" + letter for letter in LETTERS}
EVERY_FIELD = sorted({name for names in TYPES.values() for name in names}) + ["NOPE", "val", ""]
SCANS = ["Passive", "Event", "I/O Intr", "10 second", "5 second", "2 second", "1 second", ".5 second", ".2 second", ".1 second"]
EVENTS = ["go", " go ", "stop", "0", "", "e" * 39]
DEVICES = ["d0", "d1", "d2", "d3", "card 3", "card 4", "w", "t" * 119]
# The values of the fields by what they hold, each of them good in a database text and in a put.
VALUES = {
    "severity": ["NO_ALARM", "MINOR", "MAJOR", "INVALID", "0", "3"],
    "text": ["", 'a "quoted" \\ text', "Off", "On", "one", "two", "7", "-1", "0x1F", "a text, of 39 bytes: #'(){}$ and so on.", "\xff\x01"],
    "long": ["0", "1", "2", "7", "-1", "10", "100", "-2147483648", "2147483647", "+0x1f"],
    "int64": ["0", "1", "7", "-1", "100", "-9223372036854775808", "9223372036854775807"],
    "short": ["0", "1", "2", "-1", "-3", "15", "16", "-32768", "32767"],
    "ushort": ["0", "1", "2", "3", "15", "65535"],
    "ulong": ["0", "1", "2", "3", "0xFF", "4294967295"],
    "bits": ["0", "1", "2", "4", "31", "32"],
    "flag": ["0", "0", "0", "1"],
    "digits": ["0", "1", "2", "3", "8", "9", "15"],
    "double": ["0", "1", "-1", "2.5", "-2.5", "0.1", "1e-3", "100", "1e10", "-3e9", "1e300", "5e-324", "-0", "nan", "inf", "-inf", "0x10"],
    "state": ["0", "1"],
}
EXPRESSIONS = ["A", "A+B*C", "VAL+1", "B:=A+1;A*B", "A>5?B:C", "1/A", "0/0", "MAX(A,B,C,D)", "A:=VAL;B", "!(A&B)", "NINT(A^3)", "INF",
               "-A % 7", "SQRT(L)"]
BY_NAME = {
    "DTYP": ["Soft Channel", "Raw Soft Channel", "Raw Soft Channel", ""], "SCAN": SCANS + ["Passive"] * 14, "PINI": ["NO", "YES", "1"],
    "EVNT": EVENTS, "TSE": ["0"], "PRIO": ["LOW", "MEDIUM", "HIGH", "2"], "OMSL": ["supervisory", "closed_loop", "closed_loop", "1"],
    "IVOA": ["Continue normally", "Don't drive outputs", "Set output to IVOV", "2"], "SELM": ["All", "Specified", "Mask"],
    "SELM of sel": ["Specified", "High Signal", "Low Signal", "Median Signal", "2"],
    "OOPT": ["Every Time", "On Change", "When Zero", "When Non-zero", "Transition To Zero", "Transition To Non-zero", "5"],
    "DOPT": ["Use CALC", "Use OCAL", "1"], "CALC": EXPRESSIONS, "OCAL": EXPRESSIONS,
    "LINR": ["NO CONVERSION", "SLOPE", "LINEAR", "1"], "OIF": ["Full", "Incremental", "0"],
    "DISV": ["1", "1", "0", "7"], "DISA": ["0", "0", "0", "1", "7"], "PROC": ["0", "1", "255"], "DISP": ["0", "0", "0", "0", "1"],
}
BAD_VALUES = ["1x", "9" * 25, "x" * 45, " 5 ", "65536", "-1", "4294967296", "Passive", "MINOR", "closed_loop", "@d0", "2.5", ""]
BAD_LINKS = ["a CP", "b PP CPP", "{json:1}", "1.5", ".5e3", "@", "b.val", "99999999999999999999", "n" * 121, "a b c"]
NAMES = ["a", "b", "c", "x:y", "dev:a", "dev:b[1]", "r{1}", "}", "p<q>", "12", "nan", "e5", "long" * 15, "f", "g", "h;", "i-", "j+", "#k", "l,m"]
PIECES = [b'"', b"\\", b"{", b"}", b"(", b")", b",", b"#", b"$(", b"\n", b"\r", b"\0", b"\x7f", b"\xff", b"record", b"field", b"longin", b"VAL",
          b"INP", b"a.VAL", b" PP", b" CP MSS", b"@d0", b"9" * 25, b"n" * 62, b" " * 1025, b"alias(", b"info(", b"grecord(", b"*", b"$(P)",
          b"${Q=x}", b"$(V", b"=", b".", b"menu(", b"\\n",
          b"process a\n", b"get a.VAL\n", b"put a.VAL 1\n", b"notify a.VAL 1\n", b"done a 1 5\n"]
# How often each line of a script is drawn.
VERBS = {"process": 14, "put": 16, "get": 6, "notify": 12, "link": 10, "next": 6, "done": 16, "fault": 4, "cancel": 4, "event": 3, "io": 2,
         "scan": 4, "sets": 1, "tally": 1, "at": 2, "again": 1, "": 1}


@dataclass
class Database:
    """A text with its macros, and the types of its records and what other names they have, where it loads."""

    text: bytes = b""
    macros: list[bytes] = field(default_factory=list)
    records: dict[str, str] = field(default_factory=dict)
    aliases: dict[str, str] = field(default_factory=dict)
    # The records that may own a device.
    devices: list[str] = field(default_factory=list)
    # Must it load? Else it may.
    is_good: bool = True


def holds(kind: str, name: str) -> str:
    """What a field holds, as VALUES names it."""
    if name in ("DESC", "ASG", "EGU", "ZNAM", "ONAM") or (name in STATES and name.endswith("ST")):
        return "text"
    if name in ("DISS", "UDFS") or name.endswith("SV"):
        return "severity"
    if name == "SELN":
        return "ushort"
    if kind in ("ai", "ao", "calc", "calcout", "sel") and name in ANALOG.split() + ["SMOO", "DRVH", "DRVL", "OROC", "IVOV", *LETTERS]:
        return {"PREC": "digits", "ROFF": "ulong", "RVAL": "long"}.get(name, "double")
    if name in ("VAL", "IVOV") and kind in ("stringin", "stringout", "event"):
        return "text"
    if name == "VAL" and kind in ("bi", "bo", "mbbi", "mbbo"):
        return "state"
    if name in ("RVAL", "MASK") or (name in STATES and name.endswith("VL")):
        return "ulong"
    if name == "IVOV" and kind in ("bo", "mbbo"):
        return "ushort"
    if name == "NOBT" or (name == "SHFT" and kind != "fanout"):
        return "bits"
    if name in ("PHAS", "OFFS", "SHFT"):
        return "short"
    return "flag" if name == "UDF" else "int64" if kind.startswith("int64") else "long"


def drawn_link(generator: random.Random, of: Database, name: str, kind: str, good: bool = False) -> str:
    """A text for a link field: mostly a link to a record that is there, in one of its spellings."""
    draw = generator.random()
    if draw < 0.05:
        return ""
    if draw < 0.1:
        takes_real = name in REAL_LINKS or (name in ("INP", "DOL") and kind in REAL_TYPES)
        return generator.choice(["0", "1", "+1", "0x1"] + ["2.5", "-.5E-3", "1e3", "5."] * takes_real)
    if draw < 0.45 and name in ("INP", "OUT"):
        return "@" + generator.choice(DEVICES)
    if draw > 0.98 and not good:
        return generator.choice(BAD_LINKS)
    target = generator.choice([*of.records, *of.aliases]) if draw < 0.96 else "nobody"
    target_kind = of.records.get(of.aliases.get(target, target), "longin")
    words = generator.choices(["PP", "NPP", "MS", "NMS", "MSI", "MSS"], [6, 1, 2, 1, 2, 2], k=generator.choice([0, 1, 1, 2, 2, 3]))
    which = generator.random()
    if which > 0.4:
        where = ".VAL" if which > 0.8 or target in ("12", "e5") else ""
    else:
        where = "." + ("PROC" if which < 0.1 else generator.choice(TYPES[target_kind]) if which < 0.38 else "NOPE")
    return " ".join([generator.choice(["", " "]) + target + where, *words])


def drawn_value(generator: random.Random, kind: str, name: str, good: bool = False) -> str:
    if not good and generator.random() < 0.06:
        return generator.choice(BAD_VALUES)
    return generator.choice(BY_NAME.get(f"{name} of {kind}") or BY_NAME.get(name) or VALUES[holds(kind, name)])


def spelled(generator: random.Random, text: str, macros: dict[str, str]) -> str:
    """A quoted text of a database, perhaps by macros."""
    text = text.replace("\\", "\\\\").replace('"', '\\"').replace("$", "")
    if "P" in macros and text.startswith(macros["P"]):
        text = generator.choice(["$(P)", "${P}", "$(P=none)"]) + text[len(macros["P"]):]
    elif text.isalnum() and generator.random() < 0.1:
        text = generator.choice(["$(NONE=" + text + ")", "${NONE=" + text + "}"])
    return f'"{text}"'


def drawn_database(generator: random.Random, good: bool) -> Database:
    made = Database(is_good=good)
    macros = generator.choice([{}, {"P": "dev:"}, {"P": "dev:", "V": "$(P)", "A" * 50: 'x" #'}])
    made.macros = [f"{name}={value}".encode() for name, value in macros.items()]
    for name in generator.sample(NAMES, generator.randint(1, 12)):
        made.records[name] = generator.choice(list(TYPES))
        if generator.random() < 0.15:
            made.aliases["to:" + name[:50]] = name
    statements = []
    for name, kind in made.records.items():
        fixed = FIXED | ({"VAL"} if kind == "sel" else set())
        settable = [it for it in TYPES[kind] if it not in fixed or (not good and generator.random() < 0.02)]
        often = ("DOL", "OMSL", "FLNK", "SCAN", "VAL", "INPA", "INPB", "INPC", "SELM")
        weights = [20 if it in ("INP", "OUT", "CALC") else 4 if it in often else 1 for it in settable]
        body = []
        for it in generator.choices(settable, weights, k=generator.randint(0, 9)):
            value = "1" if it in fixed else drawn_link(generator, made, it, kind, good) if it in LINKS else drawn_value(generator, kind, it, good)
            body.append(f"field({it}, {spelled(generator, value, macros)})")
            if value.startswith("@"):
                made.devices.append(name)
        body += [f"alias({spelled(generator, other, macros)})" for other, to in made.aliases.items() if to == name]
        if generator.random() < 0.1:
            body.insert(0, 'info("key", value)')
        between = generator.choice([" ", "\n  ", "\r\n", " # end )\n"])
        cut = generator.randint(0, len(body)) if generator.random() < 0.2 else len(body)
        word = generator.choice(["record", "record", "grecord"])
        inside = "{" + between + between.join(body[:cut]) + between + "}" if body[:cut] or generator.random() < 0.5 else ""
        statements.append(f"{word}({kind}, {spelled(generator, name, macros)}) {inside}\n")
        if cut < len(body):
            statements.append(f"{word}(*, {spelled(generator, name, macros)}) {{ {between.join(body[cut:])}{between}}}\n")
    if not good and generator.random() < 0.05:
        taken = generator.choice(list(made.records))
        statements.append(generator.choice([f'alias("{taken}", "{taken}")\n', f'record({generator.choice(list(TYPES))}, "{taken}")\n']))
    made.text = "".join(statements).encode("latin-1")
    return made


def wide_database(generator: random.Random) -> Database:
    """Many records of one type that follow each other, more than an event has device calls or a queue has room for."""
    count, kind = generator.choice([260, 300, 1100, 2100]), generator.choice(["longin", "event", "stringin", "longin"])
    more = generator.choice(
        ['field(INP,"@d%d")', "field(SCAN,Event) field(EVNT,go)", 'field(INP,"@d%d") field(SCAN,"1 second")', "field(VAL,go)"])
    kind = "event" if "VAL" in more else kind
    more += generator.choice([' field(FLNK,"r%d")', ' field(FLNK,"r%d")', ""])
    made = Database(records={f"r{number}": kind for number in range(count)}, devices=["r0", "r1"])
    lines = [f'record({kind},"r{number}"){{{more.replace("r%d", f"r{number + 1}").replace("%d", str(number))}}}\n' for number in range(count)]
    made.text = "".join(lines).encode()
    return made


def wide_script(generator: random.Random, of: Database) -> bytes:
    """Lines that have all records of a wide database requested, their devices with an answer each or none."""
    answers = "".join(f"next {name} done 1\n" for name in of.records) if generator.random() < 0.5 else ""
    return (answers + "process r0\ntally\nevent go\nscan 1 second\ntally\nnotify r0.VAL 1\n").encode()


def drawn_script(generator: random.Random, of: Database) -> bytes:
    """Lines of all kinds, for the records of a database mostly."""
    names = [*of.records, *of.aliases] or ["a"]
    kinds = of.records | {other: of.records[name] for other, name in of.aliases.items()}
    puts, waits, requested, lines = 0, dict.fromkeys(names, 1), set(), []
    for verb in generator.choices(list(VERBS), list(VERBS.values()), k=generator.choice([3, 20, 60, 150])):
        name = generator.choice(names) if generator.random() < 0.98 else "nobody"
        if of.devices and generator.random() < (0.9 if verb in ("next", "done", "fault") else 0.4):
            name = generator.choice(of.devices)
        kind = kinds.get(name, "longin")
        at = generator.choice(TYPES[kind]) if generator.random() < 0.5 else "VAL" if generator.random() < 0.9 else generator.choice(EVERY_FIELD)
        text = "1" if at in LINKS | FIXED else drawn_value(generator, kind, at)
        if generator.random() < 0.1:
            text = generator.choice(["On", "one", "two", "7"])
        number = waits.get(name, 1) if generator.random() < 0.7 else generator.choice([0, 1, 1, 2, 3, 2**63, 2**64])
        if verb in ("process", "put", "notify") and name in waits:
            requested.add(name)
        match verb:
            case "process":
                lines += [f"process {name}"] * generator.choice([1] * 12 + [13])
            case "put":
                lines.append(f"put {name}.{at} {text}")
            case "get":
                lines.append(f"get {name}.{at}")
            case "notify":
                many = generator.choice([1] * 60 + [260])
                puts += many
                lines += [f"notify {name}.{at} {text}"] * many
            case "link":
                links = [it for it in TYPES[kind] if it in LINKS] if generator.random() < 0.95 else EVERY_FIELD
                at = generator.choice(links)
                lines.append(f"link {name}.{at} {drawn_link(generator, of, at, kind)}")
            case "next":
                lines += [f"next {name} {generator.choice(['done ' + text, 'fault', 'later'])}"] * generator.choice([1, 1, 3])
            case "done":
                lines += [f"done {name} {it} {text}" for it in (range(1, 6) if number == 2 else [number])]
                if name in requested and number == waits[name]:
                    waits[name] += 1
            case "fault":
                lines.append(f"fault {name} {number}")
            case "cancel":
                lines.append(f"cancel {generator.randint(0, puts + 1)}")
            case "event":
                lines.append(f"event {generator.choice(EVENTS)}")
            case "io":
                lines.append(f"io {generator.choice(['card', 'd0', 'w', 'none', ''])}")
            case "scan":
                lines.append(f"scan {generator.choice(SCANS)}")
            case "at":
                lines.append(f"at {generator.choice([0, 7, 2**64 - 1, 2**64])}")
            case "again":
                lines += lines[-6:] * 3
            case "":
                lines.append(generator.choice(["", "# none", "hello", "get  a.VAL", "sets ", "x" * 1025, "tally 1"]))
            case _:
                lines.append(verb)
    return "".join(line + "\n" for line in lines).encode("latin-1")


def mutated(generator: random.Random, text: bytes) -> bytes:
    """The text after one to six cuts, pieces put in, bytes turned, or runs said twice."""
    changed = bytearray(text)
    for _ in range(generator.randint(1, 6)):
        begin = generator.randint(0, len(changed))
        end = min(len(changed), begin + generator.randint(0, 12))
        match generator.randint(0, 3):
            case 0:
                del changed[begin:end]
            case 1:
                changed[begin:begin] = generator.choice(PIECES)
            case 2:
                changed[begin:end] = bytes(generator.randrange(256) for _ in range(end - begin))
            case _:
                changed[begin:begin] = changed[begin:end] * generator.randint(1, 3)
    return bytes(changed)


def pieces(generator: random.Random) -> bytes:
    return b"".join(generator.choice(PIECES) for _ in range(generator.randint(0, 40)))


def standing(of: Database, link: str) -> str | None:
    """The record to which a link leads, as it is printed; none where it stands nowhere."""
    parts = re.fullmatch(r"([^ @]+)\.([A-Z0-9]+) N?PP (?:NMS|MS|MSI|MSS)", link)
    if not parts:
        return None
    name = of.aliases.get(parts[1], parts[1])
    return name if name in of.records and parts[2] in TYPES[of.records[name]] and parts[2] not in {*LINKS, "CALC", "OCAL"} else None
