#!/usr/bin/env python3
"""Compares bin/ioc-check with the load of bin/ioc-replay on drawn database texts, and prints the texts on which they disagree.

A text is one of examples/*.db, or one that drawn.py draws, with one to four changes: of characters, tokens, names of fields, values,
record types, links, macros and lines. They agree if ioc-check finds an error exactly where the load refuses the text, both with status 1,
and its first error is on the line of the load's `E13 BadDb line L: WORDS`; and if the load takes the text, the lock sets are the same.
In each run the last line of ioc-check must count the lines.

With --all most texts have something that EPICS Base and ioc-check by -d take too: includes and other statements of a database definition,
macros in macros, `info` with JSON, a byte order mark. As texts of one DB these are refused, and must have an error.
"""
import argparse
import concurrent.futures
import os
import pathlib
import random
import re
import subprocess
import sys
import tempfile
from collections import Counter

sys.dont_write_bytecode = True
from drawn import BAD_LINKS, BAD_VALUES, BY_NAME, DEVICES, EVERY_FIELD, LINKS, PIECES, TYPES, VALUES, drawn_database

TOP = pathlib.Path(__file__).resolve().parent.parent
BIN = TOP / "bin"
REFUSAL = re.compile(rb"E13 BadDb line (\d+): (.*)\n")
ERROR = re.compile(rb"x\.db:(\d+):\d+: error: (.*)")
# Errors and warnings of each file.
FINDING = re.compile(rb"^\S+?:\d+:\d+: (error|warning): ", re.M)
SET = re.compile(rb"\d+ records?: (.*)\n")
# An open body is told where it opens, and by the load at the text's end: it counts as an error, but not as the first one.
OPEN_BODY = re.compile(rb"the body of .*, which opens on line \d+, isn't closed; put '}' at its end")
# A sign that is missing is told behind the token before it, and by the load at the token after it, on another line perhaps.
MISSING = re.compile(rb".* is missing behind .*; put .* there")
BLANK = re.compile(rb"\s*(#.*)?")
TOKEN = re.compile(rb'"(?:\\.|[^"\\\n])*"|[\w\-+:.\[\]<>;]+|[^\w\s]|\s+')
QUOTED_OR_COMMENT = re.compile(rb'"(?:\\.|[^"\\\n])*"|#[^\n]*')
# What is read otherwise by -d and --write than of one DB: macros in macros or with definitions, JSON behind `info`, and, outside of quotes
# and comments, statements of a definition.
ON_PURPOSE = [re.compile(rb"\$[({][^)}\n]*[$,]"), re.compile(rb"info\s*\([^,]*,\s*[\[{]")]
DEFINITION = re.compile(rb"\b(include|menu|recordtype|device|driver|path|addpath|breaktable|registrar|function|variable|link|substitute)\b")
# Bytes that are: a backslash before a macro or before a sign that it has no meaning for; names of macros that the load refuses; a carriage
# return without a line feed, a zero byte, and a byte order mark; a value that begins with a bracket. Quotes, backslashes, commas and # in a
# macro's value aren't drawn.
BYTES = [
    re.compile(rb"\\(?![\"\\'abtnvfr])"),
    re.compile(rb"\$\((?!\w+[)=])[^)\n]*\)|\$\{(?!\w+[}=])[^}\n]*\}", re.A),
    re.compile(rb"\r(?!\n)|\0|\A\xef\xbb\xbf"),
    re.compile(rb",\s*\["),
]
LEFT_OUT = [b"TPRO", b"SIML", b"AMSG", b"MLST", b"ai", b"calc", b"waveform", b"b CP", b"b CA", b"RUNNING", b"Async Soft Channel"]
MACROS = [b"$(P)", b"${P}", b"$(P=x)", b"${Q=x}", b"$(Q)", b"$(", b"${P)", b"$()", b"$(=)", b"$", b"$P", b"\\$(P)", b"$(P =1)", b"$(Q=)", b"$(Q= 7)"]
CHARACTERS = [bytes([byte]) for byte in b"\"\"\\\\{}(),#$*@.;:'-+0 1aZ\n\n\r\t\0\x7f\x80\xff"] + [b"\r\n", b"\xef\xbb\xbf", b"\xc3\xa4"]
TYPE_WORDS = [*(it.encode() for it in TYPES), b"ai", b"calc", b"longinn", b"Longin", b"", b"*", b'"*"', b'"longin"']
TEXTS = [it.encode("latin-1") for kind in VALUES.values() for it in kind] + [it.encode() for them in BY_NAME.values() for it in them]
BAD_TEXTS = [it.encode() for it in BAD_VALUES + BAD_LINKS] + LEFT_OUT
# What EPICS Base takes, and the load refuses. The files are those of INCLUDED.
READ_BY_CHECK = [
    b'include "one.inc"\n', b'include "none.inc"\n', b' path "more"\n', b'addpath "more:."\n', b"driver(drvCard)\n", b"menu(m) { choice(c, \"C\") }\n",
    b'substitute "P=x,Q=7"\n', b"% int a;\n", b'record(longin, "i") { info(q, {"a": [1, 2]}) }\n', b'record(longin, "j") { include "field.inc" }\n',
    b'record(longin, "k") { info(q, [1]) field(VAL, "$(X=$(Y=8))") }\n', b'record(longin, "$(P=l)$(R,R=m)")\n', b'record(longin, "n$(P$(Q=))")\n',
    b"registrar(r)\nvariable(v, int)\n", b"/* a comment */\n", b"// a comment\n", b"variable(v)", b"\\$(P)", b'breaktable(b) { 1 2 }\n',
]
INCLUDED = {"one.inc": b'record(longin, "one") { field(VAL, 1) }\n', "field.inc": b"field(VAL, 1)\n"}
STATEMENTS = [
    b'alias("a", "b")\n', b'record("*", "a") {}\n', b'record(*, "nobody") { field(VAL, 1) }\n', b'grecord(longin, "g") { field(DESC, "x") }\n',
    b'record(longin, "a")\n', b'record(bo, "a")\n', b"# a comment $(NONE) \"\n", b'alias("nobody", "b")\n', b"alias(a, a)\n", b"record(longin, new)\n",
]


def one_of(generator, pattern, text, group=0):
    """A place at which the pattern matches in the text, or the text's end."""
    found = [match.span(group) for match in re.finditer(pattern, text)]
    return generator.choice(found) if found else (len(text), len(text))


def changed_character(generator, text):
    at = generator.randint(0, len(text))
    return text[:at] + generator.choice([b"", generator.choice(CHARACTERS)]) + text[at + generator.randint(0, 1):]


def changed_token(generator, text):
    tokens = TOKEN.findall(text)
    if not tokens:
        return text
    at, other = generator.randrange(len(tokens)), generator.randrange(len(tokens))
    match generator.randint(0, 4):
        case 0:
            del tokens[at]
        case 1:
            tokens.insert(at, tokens[other])
        case 2:
            tokens[at], tokens[other] = tokens[other], tokens[at]
        case 3:
            tokens.insert(at, generator.choice(PIECES))
        case _:
            tokens[at:at + 2] = reversed(tokens[at:at + 2])
    return b"".join(tokens)


def changed_field(generator, text):
    begin, end = one_of(generator, rb"field\(\s*([^,]*)", text, 1)
    name = generator.choice(EVERY_FIELD).encode() if generator.random() < 0.8 else generator.choice(LEFT_OUT)
    return text[:begin] + generator.choice([name, b'"' + name + b'"']) + text[end:]


def spelled(generator, value):
    """A value in quotes, or as it is."""
    return value if generator.random() < 0.2 else b'"' + value.replace(b"\\", b"\\\\").replace(b'"', b'\\"') + b'"'


def changed_value(generator, text):
    begin, end = one_of(generator, rb"field\([^,]*,\s*([^)\n]*)\)", text, 1)
    return text[:begin] + spelled(generator, generator.choice(generator.choice([TEXTS, BAD_TEXTS]))) + text[end:]


def changed_name(generator, text):
    begin, end = one_of(generator, rb'(?:record|alias)\([^,)]*,?\s*("[^"\n]*")', text, 1)
    name = generator.choice([b"a", b"b", b"x:y", b"", b"a b", b"a.VAL", b"a'b", b"n" * 60, b"n" * 61, b"d\xff", b"$", b"tab\t"])
    return text[:begin] + spelled(generator, name) + text[end:]


def changed_type(generator, text):
    begin, end = one_of(generator, rb"record\(\s*([^,]*)", text, 1)
    return text[:begin] + generator.choice(TYPE_WORDS) + text[end:]


def changed_link(generator, text):
    begin, end = one_of(generator, rb"field\((?:INP|OUT|DOL|SDIS|SELL|FLNK|LNK\w),\s*([^)\n]*)\)", text, 1)
    name = generator.choice([b"a", b"b.VAL", b"b.", b"b.VALL", b".VAL", b"1", b"-1", b"0x10", b"70000", b"4294967296", b"1e3", b"#C0 S0", b"[1]", b""])
    words = generator.choices([b"PP", b"NPP", b"MS", b"NMS", b"MSI", b"MSS", b"CP", b"CA", b"pp", b"x"], [6, 4, 4, 4, 4, 4, 1, 1, 1, 1], k=generator.randint(0, 3))
    link = generator.choice([name, b"@" + generator.choice(DEVICES).encode()])
    link = generator.choice([b" ", b"  ", b"\t"]).join([link, *words]) + generator.choice([b"", b" "])
    if generator.random() < 0.2:
        field = generator.choice(sorted(LINKS)).encode()
        return text[:begin] + spelled(generator, link) + b") field(" + field + b", " + spelled(generator, link) + text[end:]
    return text[:begin] + spelled(generator, link) + text[end:]


def changed_macro(generator, text):
    begin, end = one_of(generator, rb'"[^"\n]*"', text)
    at = generator.choice([begin + 1, end - 1, generator.randint(0, len(text))])
    return text[:at] + generator.choice(MACROS) + text[at:]


def changed_line(generator, text):
    lines = text.splitlines(keepends=True) or [b""]
    at, other = generator.randrange(len(lines)), generator.randrange(len(lines))
    match generator.randint(0, 4):
        case 0:
            del lines[at]
        case 1:
            lines.insert(at, lines[other])
        case 2:
            lines[at], lines[other] = lines[other], lines[at]
        case 3:
            lines.insert(at, generator.choice(STATEMENTS))
        case _:
            return b"".join(lines)[:generator.randint(0, len(text))]
    return b"".join(lines)


def changed_reading(generator, text):
    """With something that EPICS Base takes, and the load refuses."""
    lines = text.splitlines(keepends=True) or [b""]
    lines.insert(generator.randint(0, len(lines)), generator.choice(READ_BY_CHECK))
    return generator.choice([b"", b"", b"", b"\xef\xbb\xbf"]) + b"".join(lines)


CHANGES = [changed_character, changed_token, changed_field, changed_value, changed_name, changed_type, changed_link, changed_macro, changed_line]
EXAMPLES = [path.read_bytes() for path in sorted(TOP.glob("examples/*.db"))]


def drawn_text(generator, takes_all):
    """A text, and the macros of the command line."""
    if generator.random() < 0.7:
        text = generator.choice(EXAMPLES)
    else:
        text = drawn_database(generator, generator.random() < 0.7).text
    for change in generator.choices(CHANGES, k=generator.choice([1, 1, 1, 1, 2, 2, 3, 4])):
        text = change(generator, text)
    if takes_all and generator.random() < 0.7:
        text = changed_reading(generator, text)
    macros = generator.choice([[], [b"P=dev:"], [b"P=dev:", b"PORT=L0"], [b"P=dev:", b"PORT=L0", generator.choice([b"Q=a b", b"Q=7", b"Q=)"])], [b"P="]])
    return text, macros


def is_read_alike(text):
    """Is it a text that is read by -d and --write as one DB is?"""
    return not DEFINITION.search(QUOTED_OR_COMMENT.sub(b" ", text)) and not any(pattern.search(text) for pattern in ON_PURPOSE + BYTES)


def counted(number, word):
    return f"{number} {word}{'' if number == 1 else 's'}"


def are_on_one_line(text, errors, refused):
    """Is the first error of ioc-check, other than for an open body, on the line that the load tells?"""
    errors = [(int(line), words) for line, words in errors if not OPEN_BODY.fullmatch(words)]
    line, words = errors[0] if errors else (0, b"")
    told = int(refused[1])
    between = text.split(b"\n")[line:told - 1]
    is_missing = MISSING.fullmatch(words) and line < told and all(map(BLANK.fullmatch, between))
    return line == told or is_missing or (not errors and refused[2] == b"body not closed")


def sets_of_load(line):
    """The lock sets of a line `sets {a b} {c}`, or None if a name has a bracket."""
    sets = line.rstrip(b"\n")[6:-1].split(b"} {") if b"{" in line else []
    return None if any(sign in it for it in sets for sign in b"{}") else sorted(sorted(it.split(b" ")) for it in sets)


def judge(folder, text, macros):
    """How a text is taken: what the load says, and how ioc-check disagrees with it, or None."""
    pathlib.Path(folder, "x.db").write_bytes(text)

    def ran(*words):
        return subprocess.run([BIN / words[0], *words[1:], *macros], cwd=folder, capture_output=True, timeout=60)

    load, check = ran("ioc-replay", "x.db", "sets"), ran("ioc-check", "x.db")
    refused, errors = REFUSAL.fullmatch(load.stderr), ERROR.findall(check.stdout)
    said = refused[2].decode() if refused else "loaded"
    found = [word == b"error" for word in FINDING.findall(check.stdout)]
    counts = f"{counted(sum(found), 'error')}, {counted(len(found) - sum(found), 'warning')}\n"
    if counts.encode() != check.stderr:
        fault = f"the last line isn't {counts}"
    elif load.returncode != bool(refused) or check.returncode != any(found):
        fault = f"status {load.returncode} of the load and {check.returncode} of ioc-check"
    elif any(found) != bool(refused):
        fault = "one of them finds no error"
    elif refused and not are_on_one_line(text, errors, refused):
        fault = "the first error is on another line"
    elif not refused and (sets := sets_of_load(load.stdout)) is not None and sets != sorted(
            sorted(it.split(b" ")) for it in SET.findall(ran("ioc-check", "x.db", "--sets").stdout)):
        fault = f"the load has the lock sets {sets}"
    else:
        return said, None
    return said, f"{fault}\n  the load: {load.stderr!r}\n  ioc-check: {check.stdout!r}"


def shortened(folder, text, macros):
    """The text without the lines and then the bytes that its disagreement doesn't take."""

    def kind(text):
        said, fault = judge(folder, text, macros)
        return said, fault and fault.partition("\n")[0]

    wanted = kind(text)
    for pieces in (text.splitlines(keepends=True), None):
        pieces = pieces or [bytes([byte]) for byte in text]
        width = len(pieces) // 2 or 1
        while width:
            at = 0
            while at < len(pieces):
                fewer = pieces[:at] + pieces[at + width:]
                if kind(b"".join(fewer)) == wanted:
                    pieces = fewer
                else:
                    at += width
            width //= 2
        text = b"".join(pieces)
    return text


def run(numbers, words):
    """Draws and judges the texts of these numbers: what the load said how often, and each disagreement."""
    said, faults = Counter(), []
    with tempfile.TemporaryDirectory() as folder:
        pathlib.Path(folder, "sets").write_text("sets\n")
        for name, included in INCLUDED.items():
            pathlib.Path(folder, name).write_bytes(included)
        for number in numbers:
            generator = random.Random(f"{words.seed} {number}")
            text, macros = drawn_text(generator, words.all)
            load, fault = judge(folder, text, macros)
            said[load] += 1
            if fault and words.shorten:
                text = shortened(folder, text, macros)
                fault = judge(folder, text, macros)[1]
            if fault:
                faults.append(f"text {number}: {fault}\n  macros: {macros}\n  text: {text!r}")
    return said, faults


def main():
    parser = argparse.ArgumentParser(description=__doc__, formatter_class=argparse.RawDescriptionHelpFormatter)
    parser.add_argument("count", type=int, metavar="N", help="how many texts")
    parser.add_argument("seed", type=int, nargs="?", default=1, metavar="SEED")
    parser.add_argument("--jobs", type=int, default=os.cpu_count(), metavar="N", help="how many processes")
    parser.add_argument("--all", action="store_true", help="draw texts of all kinds, most with what EPICS Base takes and the load refuses")
    parser.add_argument("--shorten", action="store_true", help="cut each text down to what its disagreement takes")
    words = parser.parse_args()
    said, faults = Counter(), []
    with concurrent.futures.ProcessPoolExecutor(words.jobs) as pool:
        lanes = [pool.submit(run, range(first, words.count, 16), words) for first in range(16)]
        for lane in lanes:
            said += lane.result()[0]
            faults += lane.result()[1]
    print("\n".join([*faults, ", ".join(f"{number} {load}" for load, number in said.most_common())]))
    print(f"{words.count} texts, {len(faults)} disagreements")
    return 1 if faults else 0


if __name__ == "__main__":
    sys.exit(main())
