#!/usr/bin/env python3
"""Runs ioc-replay on databases, macros and scripts that drawn.py draws at random and mutates.

Each run must end by itself within two seconds with status 0, or with status 1, nothing on standard output and one line
`E13 BadDb line L: WORDS` on standard error; a database that was drawn without a fault must load. After status 0 there is one reply for each
line that is no comment and not empty, of the form that its first word asks for, beside `ended N` lines; a text with a backslash and an n
may bring line ends into a reply. And the replies of a run agree with each other (`contradiction`), by what scripts can read back.

Usage: hostile.py PROGRAM RUNS [SEED]
"""
import random
import re
import resource
import subprocess
import sys
import tempfile
import time
from collections import Counter

from drawn import LINKS, TYPES, VERBS, Database, drawn_database, drawn_script, mutated, pieces, standing, wide_database, wide_script

REFUSAL = re.compile(
    rb"E13 BadDb line [1-9][0-9]*: (syntax|text not closed|body not closed|unknown type|unknown field|field not settable|bad name|bad value"
    rb"|bad link|duplicate|no record|macro|left out|too many|bad calc|left out in calc: [A-Z0-9^*]+)\n")
ANY_REFUSAL = "E1 NoRecord|E2 NoField|E3 NoMod|E4 PutDisabled|E5 BadValue"
TALLY = re.compile(r"tally begun=(\d+) processed=(\d+) disabled=(\d+) active=(\d+) reprocess=(\d+) started=(\d+) completed=(\d+) dropped=(\d+)")
# The replies that a line with this first word may have, beside `bad`.
FORMS = {
    "process": "ok (processed|disabled|active)|E1 NoRecord", "put": f"ok( processed| disabled| active| reprocess)?|{ANY_REFUSAL}",
    "get": r"= [\s\S]*|E1 NoRecord|E2 NoField", "notify": rf"ok notify [0-9]+|{ANY_REFUSAL}|E9 QueueFull", "cancel": "ok|E8 Stale",
    "next": "ok|E1 NoRecord|E2 NoField", "done": "ok|E1 NoRecord|E8 Stale", "fault": "ok|E1 NoRecord|E8 Stale", "event": "ok [0-9]+",
    "io": "ok [0-9]+", "scan": "ok [0-9]+", "at": "ok", "link": "ok|E1 NoRecord|E2 NoField|E4 PutDisabled|E6 BadLink", "sets": r"sets( \{.*\})?",
    "tally": TALLY.pattern,
}
FORM = {verb: re.compile(f"({form}|bad)", re.S) for verb, form in FORMS.items()}


def asking_lines(script: str) -> list[str]:
    """The lines that get a reply. A line without its LF at the end counts."""
    return [line for line in script.split("\n") if len(line) > 1024 or (line != "" and not line.startswith("#"))]


def read_back(name: str, kind: str) -> list[str]:
    """The fields of a record that are looked at when a script is at its end."""
    return [f"{name}.{at}" for at in TYPES[kind] if at in LINKS or at in ("PACT", "PUTF", "RPRO")]


def reading_back(of: Database) -> str:
    """Lines that ask for what the records have at the end, and how they are joined."""
    asked = [f"get {it}" for name, kind in of.records.items() for it in read_back(name, kind)]
    return "\n" + "\n".join([*asked, "sets", "tally"]) + "\n"


def parts_line(of: Database, shown: dict[str, str]) -> str:
    """What `sets` must tell, by what the link fields show."""
    part = {name: name for name in of.records}

    def first(name: str) -> str:
        while part[name] != name:
            name = part[name]
        return name

    order = {name: number for number, name in enumerate(of.records)}
    for at, text in shown.items():
        name, link_field = at.rsplit(".", 1)
        target = standing(of, text) if link_field in LINKS else None
        if target:
            part_of, other = sorted((first(name), first(target)), key=order.__getitem__)
            part[other] = part_of
    members: dict[str, list[str]] = {}
    for name in of.records:
        members.setdefault(first(name), []).append(name)
    return "sets" + "".join(f" {{{' '.join(names)}}}" for names in members.values())


def contradiction(of: Database | None, asked: list[str], told: list[str], seen: Counter) -> str | None:
    """Where replies don't go together: puts with notification have rising numbers, 256 at most are live, each ends once and isn't cancelled
    after it ended; no wait ends twice; requests add up. At the end as many records are active as answers are awaited, PUTF and RPRO stand
    for active ones alone, nothing is live where none is active, and the parts are those that the links make."""
    last, live, done, tally, shown, rest = 0, set(), set(), [0] * 8, {}, iter(told)
    reply = next(rest, None)
    for line in asked:
        if reply is None:
            return f"no reply to {line!r}"
        verb = line.split(" ", 1)[0] if " " in line or line in ("event", "sets", "tally") else ""
        form = FORM.get(verb)
        if len(line) > 1024 or not form or not form.fullmatch(reply):
            if reply != "bad" or (form and verb in ("sets", "tally") and line == verb):
                return f"{line!r}: {reply!r}"
        seen[f"{verb if form else 'no line'}: {reply.split(' ')[0] if verb not in ('process', 'put') else reply}"] += 1
        if verb == "notify" and reply.startswith("ok"):
            last += 1
            if reply != f"ok notify {last}" or len(live) >= 256:
                return f"{line!r}: {reply!r} with {len(live)} live, after {last - 1}"
            live.add(last)
        elif reply == "E9 QueueFull" and len(live) < 256:
            return f"{line!r}: {reply!r} with {len(live)} live"
        elif verb == "cancel" and reply != "bad":
            number = int(line.split(" ")[1])
            if (reply == "ok") != (number in live):
                return f"{line!r}: {reply!r}, live are {sorted(live)}"
            live.discard(number)
        elif verb in ("done", "fault") and reply == "ok":
            wait = tuple(line.split(" ")[1:3])
            if wait in done:
                return f"{line!r} twice"
            done.add(wait)
        elif verb == "link" and reply == "ok" and live:
            seen["link changes while a put with notification is live"] += 1
        elif verb == "tally" and reply != "bad":
            counts = [int(count) for count in TALLY.fullmatch(reply).groups()]
            if counts[0] != sum(counts[1:5]) or counts[5] < counts[6] or any(new < old for new, old in zip(counts, tally)):
                return f"{reply} after {tally}"
            tally = counts
        elif verb == "get" and reply.startswith("= "):
            shown[line[4:]] = reply[2:]
        elif verb == "sets":
            parts = reply
        while (reply := next(rest, None)) and (ended := re.fullmatch("ended ([0-9]+)", reply)):
            seen["ended"] += 1
            if int(ended[1]) not in live:
                return f"{reply} after {line!r}, live are {sorted(live)}"
            live.discard(int(ended[1]))
    if reply is not None:
        return f"{reply!r} to no line"
    if of is None:
        return None
    seen["runs that were read back"] += 1
    seen["of these with a record active at the end"] += tally[5] > tally[6]
    seen["of these with a put with notification live at the end"] += bool(live)
    seen["of these with items dropped"] += tally[7] > 0
    shown = {it: shown[it] for name, kind in of.records.items() for it in read_back(name, kind)}
    idle = [name for name in of.records if shown[name + ".PACT"] == "0"]
    if len(of.records) - len(idle) != tally[5] - tally[6]:
        return f"{len(of.records) - len(idle)} records are active, and {tally}"
    if any(shown[f"{name}.{at}"] != "0" for name in idle for at in ("PUTF", "RPRO")):
        return "PUTF or RPRO of an idle record"
    if live and tally[5] == tally[6]:
        return f"{sorted(live)} are live, and no record is active"
    if parts != parts_line(of, shown):
        return f"{parts!r} in the place of {parts_line(of, shown)!r}"
    return None


def drawn_run(generator: random.Random, run: int) -> tuple[Database, bool, bytes]:
    """A database, whether it was left as it was drawn, and a script."""
    draw = run % 20
    of = wide_database(generator) if run % 100 == 19 else drawn_database(generator, good=draw < 13)
    script = drawn_script(generator, of)
    if run % 100 == 19:
        script = wide_script(generator, of) + script
    is_whole = draw < 16 or draw == 19
    if not is_whole:
        of.text = mutated(generator, of.text) if draw < 18 else pieces(generator)
        of.is_good = False
    if run % 7 == 0:
        script = mutated(generator, script) if run % 14 == 0 else pieces(generator) + script[:200]
    return of, is_whole, script + reading_back(of).encode("latin-1") if is_whole else script


def processor_time() -> float:
    """What the runs so far took."""
    used = resource.getrusage(resource.RUSAGE_CHILDREN)
    return used.ru_utime + used.ru_stime


def main() -> int:
    program, runs = sys.argv[1], int(sys.argv[2])
    seed = int(sys.argv[3]) if len(sys.argv) > 3 else 1
    generator = random.Random(seed)
    statuses, seen, slowest, dearest = Counter(), Counter(), 0.0, 0.0
    with tempfile.TemporaryDirectory() as folder:
        for run in range(runs):
            of, is_whole, script = drawn_run(generator, run)
            for name, content in (("db", of.text), ("script", script)):
                with open(f"{folder}/{name}", "wb") as file:
                    file.write(content)
            begin, used = time.monotonic(), processor_time()
            done = subprocess.run([program, f"{folder}/db", f"{folder}/script", *of.macros], capture_output=True, timeout=2)
            slowest, dearest = max(slowest, time.monotonic() - begin), max(dearest, processor_time() - used)
            statuses[done.returncode] += 1
            asked, told = asking_lines(script.decode("latin-1")), done.stdout.decode("latin-1").split("\n")
            if done.returncode == 0 and told.pop() == "" and done.stderr == b"":
                seen.update(of.records.values() if is_whole else [])
                if b"\\n" in of.text:
                    fault = "too few replies" * (len(told) < len(asked))
                else:
                    fault = contradiction(of if is_whole else None, asked, told, seen)
            else:
                fault = "status" * (done.returncode != 1 or done.stdout != b"" or of.is_good or not REFUSAL.fullmatch(done.stderr))
                seen[done.stderr.decode().partition(": ")[2].strip()] += 1
            if fault:
                print(f"run {run} of seed {seed}, {fault}\nstatus {done.returncode}, {of.macros!r}\ntext {of.text.decode('latin-1')!r}")
                print(f"script {script.decode('latin-1')!r}\n{done.stdout!r}\n{done.stderr!r}")
                return 1
    print(f"{runs} runs, seed {seed}: {statuses[0]} loaded, {statuses[1]} refused; one took {slowest:.2f} s at most")
    # The memory of a run counts what this script had when it began the program.
    memory = resource.getrusage(resource.RUSAGE_CHILDREN).ru_maxrss / 1000
    print(f"processor time: {processor_time():.0f} s, {dearest:.2f} s at most in one run; {memory:.0f} MB at most")
    print("; ".join(f"{what} {count}" for what, count in sorted(seen.items()) if what))
    return 0


if __name__ == "__main__":
    sys.exit(main())
