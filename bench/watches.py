#!/usr/bin/env python3
"""Watches all records of a database while four workers and a console change them, and compares what was told with what they are in the end.

    bench/watches.py [LINES [RECORDS [SEED]]]

Lines (40,000) put values, post events, change links and watch anew, in no given order, to chains of 700 records that go over the callback queues. Of each
word the last line has to show what `read` shows in the end, and TIME never goes back. It prints what differs, then how many lines told of changes and
the seconds of the processor, and ends with status 1 if something differs.
"""
import pathlib
import random
import resource
import subprocess
import sys
import tempfile
import threading
import time

BIN = pathlib.Path(__file__).resolve().parent.parent / "bin"
KINDS = ("out", "in", "next")


def database(chains):
    """Chains of three records: one puts to the second by a queue, and requests the third, which reads it."""
    for number in range(chains):
        priority = ["LOW", "MEDIUM", "HIGH"][number % 3]
        yield f'record(longout, "out{number}") {{ field(OUT, "in{number}.VAL PP") field(PRIO, "{priority}") field(FLNK, "next{number}") }}\n'
        yield f'record(longin, "in{number}") {{ field(HIGH, "50") field(HSV, "MINOR") field(SCAN, "Event") field(EVNT, "go{number % 7}") }}\n'
        yield f'record(longout, "next{number}") {{ field(DOL, "out{number}") field(OMSL, "closed_loop") }}\n'


def drawn(chance, words, lines):
    """Lines that change records, and some that watch anew."""
    chains = len(words) // len(KINDS)
    for number in range(lines):
        yield f"put out{chance.randrange(chains)} {chance.randrange(100)}\n"
        if number % 97 == 0:
            yield f"event go{chance.randrange(7)}\n"
        if number % 203 == 0:
            yield f"watch {chance.choice(words)}\n"
        if number % 501 == 0:
            yield f"link out{chance.randrange(chains)}.OUT in{chance.randrange(chains)}.VAL PP\n"


def printed(file, words, lines):
    """What `ioc` prints, and its status."""
    live = subprocess.Popen([BIN / "ioc", file, "--live", "--workers", "4"], stdin=subprocess.PIPE, stdout=subprocess.PIPE, text=True)
    out = []
    reader = threading.Thread(target=lambda: out.extend(live.stdout))
    reader.start()
    live.stdin.writelines(f"watch {word}\n" for word in words)
    live.stdin.writelines(lines)
    live.stdin.flush()
    # The workers come to an end before the records are read.
    time.sleep(1)
    live.stdin.writelines(f"@1 read {word.split('.')[0]} VAL STAT SEVR TIME\n" for word in words)
    live.stdin.close()
    reader.join()
    return out, live.wait()


def differences(out, words):
    """What differs between the lines of watched fields and what was read in the end."""
    told, shown = {}, []
    for line in out:
        if line.startswith("! "):
            _, word, _, status, severity, moment, value = line.rstrip("\n").split(" ", 6)
            if word in told and int(told[word][3]) > int(moment):
                yield f"TIME goes back: {line}"
            told[word] = value, status, severity, moment
        elif line.startswith("@1 ="):
            shown.append(tuple(line.rstrip("\n").split("\t")[1:]))
    for word, now in zip(words, shown, strict=True):
        # TIME alone makes no line.
        if told[word][:3] != now[:3]:
            yield f"{word} was told as {told[word]} and is {now}"


def main():
    lines, records, seed = (int(word) for word in (sys.argv[1:] + ["40000", "700", "1"][len(sys.argv) - 1 :])[:3])
    words = [f"{kind}{number}.VAL" for kind in KINDS for number in range(records // len(KINDS))]
    with tempfile.TemporaryDirectory() as folder:
        file = pathlib.Path(folder, "watched.db")
        file.write_text("".join(database(records // len(KINDS))))
        out, status = printed(file, words, drawn(random.Random(seed), words, lines))
    found = list(differences(out, words))
    used = resource.getrusage(resource.RUSAGE_CHILDREN)
    print(*found, f"{sum(line.startswith('! ') for line in out)} lines told of changes, in {used.ru_utime + used.ru_stime:.2f} s of the processor", sep="\n")
    return 1 if found or status else 0


if __name__ == "__main__":
    sys.exit(main())
