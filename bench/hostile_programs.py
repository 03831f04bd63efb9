#!/usr/bin/env python3
"""Runs all programs of bin/ on databases, scripts, sessions, journals, substitution files and command lines that are drawn at random.

A case is one database of drawn.py, and some fifteen runs on it: ioc-replay with a script, with the flags that tell more and on what ioc-check has
written; ioc-check with its options and on files that include the database; ioc with ticks and as a console; ioc-audit on the journals of
both, and on journals that were changed; and runs in which an allocation fails, nobody takes the output, or the command line is drawn.
Each run must end by itself within ten seconds with a status of its manual, and print what the manual says; the runs of a case must agree
with each other. A fault is printed with the folder in which the files of its case are kept, and the next case follows.

Usage: hostile_programs.py RUNS [SEED] [--case NUMBER] [--bin FOLDER] [--keep FOLDER]
"""
import argparse
import os
import pathlib
import random
import re
import select
import shutil
import signal
import sys
import tempfile
import time
from collections import Counter
from dataclasses import dataclass

sys.dont_write_bytecode = True
import failing
from check_agrees import are_on_one_line, is_read_alike
from drawn import EVERY_FIELD, LINKS, mutated
from hostile import FORMS, REFUSAL, TALLY, asking_lines, contradiction, drawn_run

TOP = pathlib.Path(__file__).resolve().parent.parent
SECONDS = 10
MOST_FAULTS = 20
CLOSED = "a pipe that nobody reads"
STAMP = re.compile(r"\d{4}-\d\d-\d\dT\d\d:\d\d:\d\d\.\d{9}Z")
COUNTS = re.compile(r"(\d+) errors?, (\d+) warnings?\n")
FINDING = re.compile(r"[^\n]+?:[1-9]\d*:[1-9]\d*: (error|warning): .+")
DIFFERENCE = re.compile(r"ioc-audit: journal '[^']*' line ([1-9]\d*): (no entry|place \d+ expected|call \d+ of its desk expected"
                        r"|another reply: [^\n]+|other answers: [^\n]+)\n", re.S)
AGREE = re.compile(r"(?:line (?P<cut>\d+) is cut off; )?(?P<count>\d+) entr(?:ies agree|y agrees)(?P<running>, and the run did not end)?")
REFUSED = re.compile(r"bad|E(?:[1-9]|1[0-3]) [A-Za-z]+")
# The replies of a console that a script doesn't have, beside those of hostile.FORMS.
SESSION_FORMS = {**FORMS, "dbgf": FORMS["get"], "dbpf": FORMS["put"], "checkpoint": "ok", "tick": r"ok \d+"}
SESSION_FORM = {verb: re.compile(f"({form}|bad)", re.S) for verb, form in SESSION_FORMS.items()}
# The fields that ioc prints at its end.
SHOWN = ("VAL", "STAT", "SEVR")
NOT_OF_A_CONSOLE = ("at", "next", "tally")
# How many bytes a line of a console may have.
LONGEST_OF_A_CONSOLE = 4096
# Lines of journals, of which some are no entries.
JOURNAL_WORDS = [
    *"0 1 2 7 00 -1 18446744073709551615 18446744073709551616 process put get notify cancel complete live link post interrupt".split(),
    *"VAL INP FLNK SCAN NOPE long int64 text longtext enum fault later done processed disabled active reprocess yes no".split(),
    *"empty constant device database PP NPP MS MSS nowhere own to".split(),
    "E5 BadValue", "E8 Stale", "E99 None", '""', '"1"', '"\\0a"', '"\\', '"\\41"', "", " ",
]
SUBSTITUTIONS = [
    'file "x.db" {{ {{ P="dev:", V="1", A="b" }} }}\n',
    'file x.db {{\npattern {{ P, V }}\n{{ "dev:", 1 }}\n{{ {other}, "$(V=2)" }}\n}}\n',
    'global {{ P=dev: }}\nfile "x.db" {{ {{}} {{ P={other} }} }}\n',
    'file "$(FILE=x.db)" {{ pattern {{ P }} {{ dev: }} }} file "y.db" {{ {{ P={other} }} }}\n',
]
INCLUDES = [
    'include "x.db"\n', "include x.db\n", '# all\ninclude "x.db"\ninclude "y.db"\n', 'include "none.db"\n', 'include "y.db"\n',
    "addpath(.)\ninclude x.db\n",
]
# What stands in command lines that are drawn.
ODD_WORDS = [
    *"- -- = A= =A A=B=C -m -mA=1 --at --ticks --ticks=0 --workers=65 --workers 0 -1 --journal --console --show --trace --sets --dot".split(),
    *"--test -h --help -V --version --nope -x none ' P=dev:,".split(), "", "x" * 3000, "\udcff", "a\nb",
]


@dataclass
class Ran:
    """What a run printed, and its status, or none if it didn't end."""

    status: int | None
    out: str
    said: str
    words: list


class Fault(Exception):
    """A run that isn't as its manual says."""


class Runner:
    """Runs programs with their files in one folder, and counts the runs."""

    def __init__(self, programs, folder, library):
        self.programs, self.folder, self.library = programs, folder, library
        self.statuses, self.slowest, self.dearest, self.largest = Counter(), Counter(), Counter(), Counter()
        self.environment = {"PATH": os.environ["PATH"]}
        # A pipe that nobody reads.
        reading, self.closed = os.pipe()
        os.close(reading)

    def path(self, name):
        return f"{self.folder}/{name}"

    def write(self, name, content):
        with open(self.path(name), "wb") as file:
            file.write(content if isinstance(content, bytes) else content.encode("latin-1"))
        return self.path(name)

    def read(self, name):
        try:
            with open(self.path(name), "rb") as file:
                return file.read().decode("latin-1")
        except FileNotFoundError:
            return ""

    def run(self, program, *words, given="/dev/null", out=None, failing=None, kind=""):
        """A run that has ended. Its standard output goes to the file `out` if one is named, or to nobody; its allocation number `failing`
        fails."""
        whole, said = out or self.path("out"), self.path("said")
        environment = self.environment
        if failing is not None:
            log = self.write("failed", "")
            environment = environment | {"LD_PRELOAD": str(self.library), "FAIL_WHAT": "memory", "FAIL_AT": str(failing), "FAIL_LOG": log}
        to = os.O_WRONLY | os.O_CREAT | os.O_TRUNC
        files = [(0, given, os.O_RDONLY, 0), (1, whole, to, 0o600), (2, said, to, 0o600)]
        actions = [(os.POSIX_SPAWN_OPEN, *file) for file in files]
        if out is CLOSED:
            actions[1] = (os.POSIX_SPAWN_DUP2, self.closed, 1)
        begin = time.monotonic()
        child = os.posix_spawn(f"{self.programs}/{program}", [program, *words], environment, file_actions=actions, setsigdef=[signal.SIGPIPE])
        status = self.wait(child)
        name = f"{program} {kind}".strip()
        took = time.monotonic() - begin
        self.slowest[name] = max(self.slowest[name], took)
        self.statuses[name, status] += 1
        ran = Ran(status, "" if out else self.read("out"), self.read("said"), [program, *words])
        if status is None or status not in range(6):
            raise Fault(f"status {status} of {ran}")
        return ran

    def wait(self, child):
        """The status of a program, or none if it had to be ended."""
        seen = os.pidfd_open(child)
        try:
            poll = select.poll()
            poll.register(seen, select.POLLIN)
            has_ended = poll.poll(1000 * SECONDS)
            if not has_ended:
                os.kill(child, signal.SIGKILL)
            _, status, used = os.wait4(child, 0)
        finally:
            os.close(seen)
        self.dearest[""] = max(self.dearest[""], used.ru_utime + used.ru_stime)
        self.largest[""] = max(self.largest[""], used.ru_maxrss)
        return os.waitstatus_to_exitcode(status) if has_ended else None


def want(holds, what, ran):
    if not holds:
        raise Fault(f"{what}: {repr(ran):.1500}")


def lines_of(text, ran):
    """The lines of an output, each of which has its end."""
    want(text == "" or text.endswith("\n"), "the last line has no end", ran)
    return text.split("\n")[:-1]


class Case:
    """A drawn database, and the runs on it."""

    def __init__(self, runner, generator, number, seen):
        self.runner, self.generator, self.seen = runner, generator, seen
        self.of, self.is_whole, self.script = drawn_run(generator, number)
        self.macros = [it.decode("latin-1") for it in self.of.macros]
        self.database = runner.write("x.db", self.of.text)
        # Lines can be told apart unless a text has line ends.
        self.is_lined = b"\\n" not in self.of.text
        self.names = list(self.of.records) if self.is_whole else []
        self.is_small = len(self.of.records) < 20

    def chance(self, part):
        return self.generator.random() < part

    # ioc-replay

    def replay(self):
        """A script, and what the load says; or None if the text is refused."""
        script = self.runner.write("script", self.script)
        ran = self.runner.run("ioc-replay", self.database, script, *self.macros)
        if ran.status == 1:
            want(ran.out == "" and not self.of.is_good and REFUSAL.fullmatch(ran.said.encode("latin-1")), "a refused database", ran)
            return ran
        want(ran.status == 0 and ran.said == "", "a script", ran)
        told = lines_of(ran.out, ran)
        if self.is_lined:
            fault = contradiction(self.of if self.is_whole else None, asking_lines(self.script.decode("latin-1")), told, self.seen)
            want(not fault, fault, ran)
        return ran

    def replay_telling(self, plain):
        """The flags that tell more change no reply."""
        flags = [flag for flag in ("--test", "--echo", "--explain", "--trace") if self.chance(0.5)]
        script = self.script
        if "--test" in flags:
            pieces_of_it = script.split(b"\n")
            for _ in range(3):
                expected = self.generator.choice([b"ok", b"ok processed", b"= 1", b"bad", b"", b"ended 1"])
                pieces_of_it.insert(self.generator.randint(0, len(pieces_of_it)), self.generator.choice([b"expect " + expected, b"expect"]))
            script = b"\n".join(pieces_of_it)
        file = self.runner.write("telling", script)
        words = [*flags, self.database, "-", *self.macros] if self.chance(0.3) else [self.database, file, *self.macros, *flags]
        if self.chance(0.5):
            self.generator.shuffle(flags)
        ran = self.runner.run("ioc-replay", *words, given=file, kind="telling")
        if plain.status == 1:
            want(ran.status == 1 and ran.out == "" and ran.said.endswith(plain.said), "a refused database with flags", ran)
            return
        want(ran.status in ((0, 5) if "--test" in flags else (0,)), "status with flags", ran)
        out = ran.out
        if self.is_lined:
            if "--trace" in flags:
                out = "".join(f"{it}\n" for it in lines_of(out, ran) if not it.startswith("  "))
            if "--echo" in flags:
                out = "".join(f"{it}\n" for it in out.split("\n")[:-1] if not re.match(r"\d+> ", it))
            has_short = len(max(script.split(b"\n"), key=len)) <= 1024
            want(out == plain.out or not has_short or b"\nexpect" in self.script, "other replies with flags", ran)
        if "--test" not in flags and "--explain" not in flags:
            want(ran.said == "", "standard error without a reason", ran)
        if ran.status == 5:
            want(re.search(r"\d+ expectations?, [1-9]\d* failed\n\Z", ran.said), "expectations", ran)

    # ioc-check

    def check_words(self):
        words = [flag for flag in ("--sets", "--dot") if self.chance(0.3)]
        if self.chance(0.5):
            words += ["--write", self.runner.path("all.db")]
            if self.chance(0.3):
                words.append("--drop-types")
        if self.chance(0.2):
            words += ["-I", self.runner.folder]
        return words

    def judge_check(self, ran, words):
        """The findings of a run of ioc-check, as errors and warnings."""
        want(ran.status in (0, 1), "status of ioc-check", ran)
        is_apart = "--sets" in words or "--dot" in words
        told = lines_of(ran.said if is_apart else ran.out, ran)
        counts = COUNTS.fullmatch(told.pop() + "\n" if is_apart and told else ran.said)
        want(counts, "no counts", ran)
        found = [FINDING.fullmatch(it) for it in told]
        want(all(found), "no finding", ran)
        kinds = Counter(it[1] for it in found)
        want((kinds["error"], kinds["warning"]) == (int(counts[1]), int(counts[2])), "other counts", ran)
        want((ran.status == 1) == (kinds["error"] > 0), "status beside errors", ran)
        return kinds, told

    def check(self, plain):
        """The database, compared with its load."""
        words = self.check_words()
        written = self.runner.path("all.db")
        pathlib.Path(written).unlink(missing_ok=True)
        ran = self.runner.run("ioc-check", self.database, *self.macros, *words)
        kinds, told = self.judge_check(ran, words)
        text = self.of.text
        # What is dropped by the options is no error here, and one of the load.
        is_dropped = ("--write" in words and b"TPRO" in text) or any(" dropped record(" in it for it in told)
        # One DB alone is read as its load reads it.
        is_alone = "--write" not in words and "-I" not in words
        if (is_alone or is_read_alike(text)) and not is_dropped:
            want((ran.status == 1) == (plain.status == 1), "ioc-check and the load disagree", (ran, plain))
            if plain.status == 1:
                errors = [(line, rest.encode("latin-1")) for line, rest in re.findall(r"x\.db:(\d+):\d+: error: (.*)", "\n".join(told))]
                refused = re.fullmatch(rb"E13 BadDb line (\d+): (.*)\n", plain.said.encode("latin-1"))
                want(are_on_one_line(text, errors, refused), "the first error is on another line", (ran, plain))
        if self.of.is_good:
            want(ran.status == 0, "an error in a good database", ran)
        if "--sets" in words and "--dot" not in words and ran.status == 0 and self.is_whole:
            self.compare_sets(ran)
        if "--write" in words:
            want(os.path.exists(written) == (ran.status == 0), "the written file", ran)
            if ran.status == 0:
                self.replay_written(written, plain, any(" dropped " in it for it in told), ran)

    def compare_sets(self, ran):
        """The lock sets are those of the load."""
        asked = self.runner.run("ioc-replay", self.database, self.runner.write("sets", "sets\n"), *self.macros, kind="sets")
        load = sorted(sorted(it.split(" ")) for it in asked.out.rstrip("\n")[6:-1].split("} {"))
        sets = [re.fullmatch(r"(\d+) records?: (.*)", it) for it in lines_of(ran.out, ran)]
        want(all(sets) and all(int(it[1]) == len(it[2].split(" ")) for it in sets), "lines of sets", ran)
        if not any(set("{}") & set(name) for name in self.names):
            want(sorted(sorted(it[2].split(" ")) for it in sets) == load, "other sets", (ran, asked))

    def replay_written(self, written, plain, has_dropped, ran):
        """What ioc-check wrote loads, and the script has the same replies on it."""
        again = self.runner.run("ioc-replay", written, self.runner.path("script"), kind="of what ioc-check wrote")
        want(again.status == 0, "what ioc-check wrote doesn't load", (again, ran))
        if plain.status == 0 and not has_dropped and is_read_alike(self.of.text):
            want(again.out == plain.out, "other replies by what ioc-check wrote", (again, plain))

    def check_site(self):
        """Substitution files and includes."""
        other = self.generator.choice(['"dev:"', '"a"', "b", '""', '"x\\"y"', "'c'", "$(P)", '"$(P=q)"'])
        text = self.generator.choice(SUBSTITUTIONS + INCLUDES).replace("{other}", other)
        name = "site.substitutions" if "file" in text else "site.db"
        text = text.replace("{{", "{").replace("}}", "}").encode("latin-1")
        if self.chance(0.4):
            text = mutated(self.generator, text)
        others = [b'record(longin,"$(P=)y"){}\n', b'include "x.db"\n', b'include "site.db"\n', mutated(self.generator, self.of.text)]
        self.runner.write("y.db", self.generator.choice(others))
        site = self.runner.write(name, text)
        words = self.check_words()
        pathlib.Path(self.runner.path("all.db")).unlink(missing_ok=True)
        files = [site, self.database] if self.chance(0.2) else [site]
        ran = self.runner.run("ioc-check", *files, *self.macros, *words, "-I", self.runner.folder, kind="of a site")
        self.judge_check(ran, words)
        if "--write" in words and ran.status == 0:
            again = self.runner.run("ioc-replay", self.runner.path("all.db"), self.runner.write("none", ""), kind="of what ioc-check wrote")
            want(again.status == 0, "what ioc-check wrote of a site doesn't load", (again, ran))

    # ioc

    def judge_end(self, told, ran):
        """The lines behind a run: each record, and the counts."""
        want(told and TALLY.fullmatch(told[-1]), "no counts", ran)
        counts = [int(it) for it in TALLY.fullmatch(told[-1]).groups()]
        want(counts[0] == sum(counts[1:5]) and counts[5:7] == [0, 0], "counts", ran)
        if not self.is_lined:
            return {}
        rows = [re.fullmatch(r"(\S+) (.*) ([A-Z_]+) ([A-Z_]+) \S+", it, re.S) for it in told[:-1]]
        want(all(rows) and all(STAMP.search(it) for it in told[:-1]), "a line of a record", ran)
        if self.is_whole:
            want([it[1] for it in rows] == self.names, "the names of the records", ran)
        return {it[1]: it.groups()[1:] for it in rows}

    def refusal_of(self, plain):
        """What ioc and ioc-audit say of a database that is refused: what the load says, and which program says more."""
        return f"{plain.said}ioc-check {self.database} says more\n"

    def begin(self, kind):
        """The words of a run of ioc, and its journal."""
        journal = self.runner.path(f"{kind}.journal")
        pathlib.Path(journal).unlink(missing_ok=True)
        return ["--workers", str(self.generator.choice([1, 1, 2, 3, 8])), "--overwrite", "--journal", journal, *self.macros], journal

    def ticks(self, plain):
        words, journal = self.begin("ticks")
        count = self.generator.choice([1, 3, 10, 20, 100]) if self.is_small else self.generator.choice([1, 10])
        ran = self.runner.run("ioc", self.database, "--ticks", str(count), *words, kind="ticks")
        if plain.status == 1:
            want((ran.status, ran.out, ran.said) == (1, "", self.refusal_of(plain)) and not os.path.exists(journal), "a refused database", ran)
            return None
        want((ran.status, ran.said) == (0, ""), "a run", ran)
        shown = self.judge_end(lines_of(ran.out, ran), ran)
        self.audit(journal, shown, None, ran)
        return journal

    def session(self):
        """The lines of a session: those of a script, and those that a console has of its own."""
        names = [*self.of.records, *self.of.aliases, "nobody"] if self.of.records else ["a"]
        lines = self.script.decode("latin-1").split("\n")
        drawn = []
        for line in lines[:400] if self.is_small else lines[:30]:
            name = self.generator.choice(names)
            verb = line.partition(" ")[0]
            if verb in (*NOT_OF_A_CONSOLE, "done", "fault") and self.chance(0.9):
                line = self.generator.choice([
                    f"tick {self.generator.choice([1, 2, 5, 20, 0, 'x', 10**7])}", "tick", "checkpoint", "help", f"dbpr {name}",
                    "dbl", f"dbl {name[:3]}*", f"dbl *{name[-1:]}", "dbl ?", f"dbgf {name}", f"dbpf {name} 1", f"get {name}",
                    f"put {name} 2", f"notify {name} 1", f"get {name}.{self.generator.choice(EVERY_FIELD)}",
                    f"dbpf {name}.{self.generator.choice(sorted(LINKS))} 1",
                ])
            drawn.append(line)
        if self.chance(0.1):
            drawn.insert(self.generator.randint(0, len(drawn)), "exit")
        text = "\n".join(drawn)
        if self.chance(0.1):
            text = mutated(self.generator, text.encode("latin-1")).decode("latin-1")
        return text + "\nsets\n"

    def console(self, plain):
        words, journal = self.begin("console")
        text = self.session()
        given = self.runner.write("session", text)
        ran = self.runner.run("ioc", "--console", self.database, *words, given=given, kind="console")
        if plain.status == 1:
            want((ran.status, ran.out, ran.said) == (1, "", self.refusal_of(plain)) and not os.path.exists(journal), "a refused database", ran)
            return None
        want(ran.status == 0, "a session", ran)
        told = lines_of(ran.out, ran)
        sets = None
        if self.is_lined:
            told, sets = self.judge_session(text, told, ran)
        self.audit(journal, self.judge_end(told, ran), sets, ran)
        return journal

    def judge_session(self, text, told, ran):
        """What a session leaves of its output behind its replies, and the last reply to `sets`."""
        told = told[::-1]
        last, refused, sets, is_ended = 0, [], None, False
        for number, line in enumerate(text.split("\n")[:-1], 1):
            if (line == "" or line.startswith("#")) and len(line) <= LONGEST_OF_A_CONSOLE:
                continue
            if line == "exit":
                is_ended = True
                break
            want(told, f"no reply to {line!r}", ran)
            verb = line.partition(" ")[0]
            if len(line) <= LONGEST_OF_A_CONSOLE and verb in ("dbl", "dbpr", "help"):
                count = 0
                while told and not re.fullmatch(r"ok \d+|ok|bad|E1 NoRecord", told[-1]):
                    count += 1
                    told.pop()
                reply = told.pop() if told else "none"
                wanted = (f"ok {count}",) if verb != "help" else ("ok",)
                want(reply in wanted or (count == 0 and reply in ("bad", "E1 NoRecord")), f"{line!r}: {reply!r}", ran)
            else:
                reply = told.pop()
                form = SESSION_FORM.get(verb) if " " in line or line in ("event", "sets", "tick", "checkpoint") else None
                is_bad = len(line) > LONGEST_OF_A_CONSOLE or verb in NOT_OF_A_CONSOLE or not form
                want(reply == "bad" if is_bad else form.fullmatch(reply), f"{line!r}: {reply!r}", ran)
                want(not (verb in ("sets", "checkpoint") and (reply == "bad") != (line != verb)), f"{line!r}: {reply!r}", ran)
                if reply.startswith("ok notify "):
                    # A refused one uses its number up.
                    before, last, ended = last, int(reply.split(" ")[2]), told.pop() if told else None
                    want(last > before and ended == f"ended {last}", f"{line!r}: {reply!r}, {ended!r}, after {before}", ran)
                if reply.startswith("sets"):
                    sets = reply
                self.seen[f"console {verb if form else 'no line'}: {reply.split(' ')[0]}"] += 1
            if REFUSED.fullmatch(reply):
                refused.append(f"line {number}: {reply}\n")
        want(ran.said == "".join(refused), f"standard error in the place of {refused}", ran)
        return told[::-1], None if is_ended else sets

    # ioc-audit

    def audit(self, journal, shown, sets, made):
        """The journal of a run agrees, and leads to the fields that the run has shown, and to its sets."""
        entries = self.runner.read(os.path.basename(journal))
        lines = lines_of(entries, made)
        asked = [f"{name}.{at}" for name in (self.names if self.is_small else []) for at in SHOWN if self.is_lined]
        words = [word for it in asked for word in ("--show", it)] + ["--sets"] * (sets is not None)
        ran = self.runner.run("ioc-audit", self.database, journal, *words, *self.macros)
        want((ran.status, ran.said) == (0, ""), "the journal of a run", (ran, made))
        told = lines_of(ran.out, ran)
        # The header and the end are no entries.
        count = len(lines) - 2
        want(told.pop() == ("1 entry agrees" if count == 1 else f"{count} entries agree"), "how many agree", ran)
        if sets is not None:
            want(told.pop() == sets, f"other sets than {sets!r}", ran)
        if self.is_lined:
            fields = [f"{it} {shown[it.rpartition('.')[0]][SHOWN.index(it.rpartition('.')[2])]}" for it in asked]
            want(told == fields, "other fields", (ran, made))

    def audit_refused(self, plain):
        """A database that the load refuses is refused by an audit too, whatever the journal is."""
        journal = self.runner.write("any.journal", self.generator.choice(["", "none\n", '0\t0\t0\t1\tget\t0\tVAL\t"0"\t0\n']))
        ran = self.runner.run("ioc-audit", self.database, journal, *self.macros)
        want((ran.status, ran.out, ran.said) == (1, "", self.refusal_of(plain)), "a refused database", ran)

    def changed_journal(self, lines):
        """Lines with a change, and how many of them are as they were."""
        changed = list(lines)
        at = self.generator.randrange(len(lines)) if lines else 0
        kind = self.generator.randint(0, 7) if lines else 8
        match kind:
            case 0:
                del changed[at]
            case 1:
                changed.insert(at, self.generator.choice(lines))
            case 2:
                changed[at] = self.generator.choice(lines)
            case 3 | 4 | 5:
                words = changed[at].split("\t")
                place = self.generator.randrange(len(words))
                other = self.generator.choice(self.generator.choice(lines).split("\t"))
                words[place:place + self.generator.randint(0, 1)] = [self.generator.choice([*JOURNAL_WORDS, other])]
                changed[at] = "\t".join(words)
            case 6:
                changed[at] = mutated(self.generator, changed[at].encode("latin-1")).decode("latin-1")
            case 7:
                changed[at] = changed[at][: self.generator.randint(0, len(changed[at]))]
                changed = changed[: at + 1]
            case _:
                changed.append("\t".join(self.generator.choices(JOURNAL_WORDS, k=self.generator.randint(0, 12))))
        differing = (at for at, (old, new) in enumerate(zip(lines, changed)) if old != new)
        return changed, next(differing, min(len(lines), len(changed)))

    def audit_changed(self, journal):
        """A journal without its end, whose entries were changed, differs at the change, or behind it, or agrees."""
        header, *lines, _ = self.runner.read(os.path.basename(journal)).split("\n")[:-1]
        if len(lines) > 3000:
            return
        changed, same = self.changed_journal(lines)
        end = "" if self.chance(0.1) else "\n"
        text = "\n".join(changed) + end if changed else ""
        if text and not text.endswith("\n"):
            # The last line has no end, so it is cut off.
            same = min(same, text.count("\n"))
        whole = text.count("\n")
        changed = text.removesuffix("\n").split("\n") if text else []
        file = self.runner.write("changed.journal", f"{header}\n{text}")
        words, most = [], None
        if self.chance(0.3):
            most = self.generator.choice([0, 1, same, len(lines), 2**64 - 1, 2**64])
            words += ["--at", str(most)]
        has_trace = self.chance(0.3)
        name = self.generator.choice([*self.names, *self.of.aliases] * 9 + ["nobody"] if self.names else ["a"])
        if has_trace:
            words += ["--trace", name]
        if self.chance(0.2):
            words += ["--show", f"{name}.{self.generator.choice(EVERY_FIELD)}", "--sets"]
        ran = self.runner.run("ioc-audit", self.database, file, *words, *self.macros, kind="of a changed journal")
        if ran.status == 2:
            want(words and ran.out == "" and ran.said != "", "status 2 of an audit", ran)
            return
        want(ran.status in (0, 1), "status of an audit", ran)
        told = lines_of(ran.out, ran)
        if ran.status == 1:
            fault = DIFFERENCE.fullmatch(ran.said)
            want(fault and (has_trace or ran.out == ""), "what an audit says", ran)
            line = int(fault[1]) - 1
            want(same < line <= len(changed), f"a fault in line {line} of {len(changed)}, of which {same} are right", ran)
            want(most is None or line <= most + 1, "a fault behind --at", ran)
        else:
            want(told and AGREE.fullmatch(told[-1]), "an audit that agrees", ran)
            has_place = most is None or most < whole
            missing = "" if has_place else f"ioc-audit: journal '{file}' has no entry at place {most}\n"
            want(ran.said == missing, "what an audit that agrees says", ran)
            agree = AGREE.fullmatch(told[-1])
            count, wanted = int(agree["count"]), whole if most is None else min(whole, most + 1)
            want(count == wanted, f"{count} of {whole} entries", ran)
            is_cut_off = whole < len(changed) and (most is None or whole <= most)
            want(agree["cut"] == (str(whole + 2) if is_cut_off else None), "whether a line is cut off", ran)
            want(bool(agree["running"]) == (not is_cut_off and (most is None or whole <= most)), "whether the run has ended", ran)
            self.seen["changed journals that agree"] += changed != lines
        # A text of a changed journal may have a line end.
        if has_trace and self.is_lined and "\\0a" not in text:
            rest = told[: -1 - ("--sets" in words) - ("--show" in words)] if ran.status == 0 else told
            known = set(changed)
            want(all(it in known or re.fullmatch(r"\t[A-Z0-9]+ .*->.*", it) for it in rest), "a trace", ran)

    # Every program

    def any_run(self):
        """The words of a run of some program."""
        journal, out = self.runner.path("other.journal"), self.runner.path("other.db")
        drawn = [
            ["ioc-replay", self.database, self.runner.path("script"), *self.macros],
            ["ioc-replay", "--test", "--echo", "--explain", "--trace", self.database, self.runner.path("script"), *self.macros],
            ["ioc-check", self.database, *self.macros, *self.generator.choice([[], ["--sets"], ["--dot"], ["--write", out]])],
            ["ioc", self.database, "--ticks", "5", "--workers", "1", "--overwrite", "--journal", journal, *self.macros],
            ["ioc", self.database, "--console", "--workers", "1", "--overwrite", "--journal", journal, *self.macros],
        ]
        kept = self.runner.path("console.journal")
        if os.path.exists(kept):
            drawn.append(["ioc-audit", self.database, kept, "--sets", *self.macros])
        return self.generator.choice(drawn)

    def failed(self):
        """An allocation fails: status 4, or whatever the run ends with otherwise."""
        words = self.any_run()
        given = self.runner.path("session") if "--console" in words else "/dev/null"
        good = self.runner.run(*words, given=given, kind="again")
        at = self.generator.choice([self.generator.randint(1, 60), self.generator.randint(1, 600), self.generator.randint(1, 6000)])
        ran = self.runner.run(*words, given=given, failing=at, kind="without memory")
        out, whole = (STAMP.sub("TIME", it) for it in (ran.out, good.out))
        # Workers decide the order of calls, and so what is printed.
        is_same = words[0] != "ioc"
        if self.runner.read("failed") == "":
            want(ran.status == good.status and (out == whole or not is_same), "other output without a failure", (ran, good))
            return
        self.seen[f"{words[0]} without memory: status {ran.status}"] += 1
        want(ran.status in (4, good.status), "status without memory", (ran, good))
        if ran.status == 4 and "--console" not in words and words[0] != "ioc-check":
            want(whole.startswith(out), "no beginning of the output", (ran, good))
        if ran.status == 1 and words[0] != "ioc-check":
            want((ran.out, ran.said) == (good.out, good.said), "another refusal without memory", (ran, good))
        if ran.status == good.status == 0 and is_same:
            want(out == whole, "another output without memory", (ran, good))
        if words[0] == "ioc" and good.status == 0:
            self.audit_failed(ran)

    def audit_failed(self, ran):
        """The whole lines of the journal of a run that failed agree."""
        entries = self.runner.read("other.journal")
        part = self.runner.write("part.journal", entries[: entries.rfind("\n") + 1])
        told = self.runner.run("ioc-audit", self.database, part, *self.macros, kind="of a failed run")
        # A run that failed before its first line was written has left no journal.
        want(told.status == (0 if "\n" in entries else 1), "the journal of a failed run", (told, ran))

    def unwritten(self):
        """Nobody takes the output, or the journal, or the written text: status 3 if there was some."""
        words = self.any_run()
        is_console = "--console" in words
        given = self.runner.path("session") if is_console else "/dev/null"
        good = self.runner.run(*words, given=given, kind="again")
        for option in ("--journal", "--write"):
            if option in words and good.status == 0:
                at = words.index(option) + 1
                was = self.runner.read(os.path.basename(words[at]))
                ran = self.runner.run(*words[:at], "/dev/full", *words[at + 1:], given=given, kind="into /dev/full")
                want(ran.status == (3 if was else 0), f"status of {option} /dev/full", (ran, good))
        ran = self.runner.run(*words, given=given, out="/dev/full", kind="into /dev/full")
        want(ran.status == (3 if good.out else good.status), "status into /dev/full", (ran, good))
        ran = self.runner.run(*words, given=given, out=CLOSED, kind="into a closed pipe")
        want(ran.status == (3 if good.out else good.status), "status into a closed pipe", (ran, good))

    def misused(self):
        """A drawn command line: status 2 and nothing on standard output, unless it is right or asks for help."""
        words = self.any_run()
        for _ in range(self.generator.randint(1, 3)):
            at = self.generator.randint(1, len(words))
            words[at:at + self.generator.randint(0, 1)] = [self.generator.choice([*ODD_WORDS, self.runner.folder])]
        ran = self.runner.run(words[0], *words[1:], given=self.runner.path("script"), kind="misused")
        if ran.status == 2:
            want(ran.out == "" and ran.said != "", "status 2", ran)
        if ran.status == 3:
            want(ran.said != "", "status 3", ran)
        want(ran.status in (0, 1, 2, 3) or (ran.status == 5 and "--test" in words), "status of drawn words", ran)

    def do(self):
        plain = self.replay()
        self.seen["databases that load" if plain.status == 0 else "databases that are refused"] += 1
        if self.chance(0.5):
            self.replay_telling(plain)
        self.check(plain)
        self.check_site()
        if plain.status == 1:
            self.audit_refused(plain)
        for journal in (self.ticks(plain) if self.chance(0.7) else None, self.console(plain)):
            for _ in range(self.generator.choice([1, 2, 4, 6]) if journal else 0):
                self.audit_changed(journal)
        if self.is_small or self.chance(0.1):
            if self.chance(0.5):
                self.failed()
            if self.chance(0.1):
                self.unwritten()
        for _ in range(self.generator.choice([0, 1, 3])):
            self.misused()


def main():
    parser = argparse.ArgumentParser(description=__doc__, formatter_class=argparse.RawDescriptionHelpFormatter)
    parser.add_argument("runs", type=int, metavar="RUNS", help="how many runs of programs")
    parser.add_argument("seed", type=int, nargs="?", default=1, metavar="SEED")
    parser.add_argument("--case", type=int, help="this case alone")
    parser.add_argument("--bin", default=TOP / "bin", help="where the programs are")
    parser.add_argument("--keep", default=tempfile.gettempdir(), help="where the files of a fault are kept")
    words = parser.parse_args()
    seen, faults, case = Counter(), 0, words.case or 0
    room = "/dev/shm" if os.path.isdir("/dev/shm") else None
    programs, keep = os.path.abspath(words.bin), os.path.abspath(words.keep)
    with tempfile.TemporaryDirectory(dir=room) as folder:
        # A drawn command line may name a file to be written.
        os.chdir(folder)
        library = failing.build(pathlib.Path(folder))
        work = os.path.join(folder, "work")
        runner = Runner(programs, work, library)
        while True:
            shutil.rmtree(work, ignore_errors=True)
            os.mkdir(work)
            try:
                Case(runner, random.Random(f"{words.seed} {case}"), case, seen).do()
            except Fault as fault:
                faults += 1
                kept = os.path.join(keep, f"hostile-{words.seed}-{case}")
                shutil.rmtree(kept, ignore_errors=True)
                shutil.copytree(work, kept)
                print(f"seed {words.seed} case {case}, files in {kept}: {fault}", flush=True)
            case += 1
            if runner.statuses.total() >= words.runs or words.case is not None or faults >= MOST_FAULTS:
                break
    runs = Counter()
    for (name, status), count in runner.statuses.items():
        runs[name] += count
    print(f"{runner.statuses.total()} runs of {case} cases, seed {words.seed}: {faults} faults")
    for name, count in sorted(runs.items()):
        ends = ", ".join(f"{times} with status {status}" for (of, status), times in sorted(runner.statuses.items(), key=str) if of == name)
        print(f"  {name}: {count} runs, {ends}; {runner.slowest[name]:.2f} s at most")
    print(f"  processor time {runner.dearest['']:.2f} s and memory {runner.largest[''] / 1000:.0f} MB at most in one run")
    print("  " + "; ".join(f"{what} {count}" for what, count in sorted(seen.items()) if what))
    return 1 if faults else 0


if __name__ == "__main__":
    sys.exit(main())
