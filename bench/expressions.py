#!/usr/bin/env python3
"""Compares drawn expressions with EPICS' libCom: values, stores, and which texts are none.

Usage: expressions.py [COUNT [SEED]], with bin/ioc-check made by ./build and Debian's libcom3.17.6 installed. It prints each
expression on which they differ, and how many it drew. libCom runs in a child process, since it crashes on some texts.
What this project leaves out, and what docs/EPICS_DIFFERENCES.md names of expressions, isn't drawn.
"""
import concurrent.futures
import ctypes
import json
import math
import pathlib
import random
import struct
import subprocess
import sys

TOP = pathlib.Path(__file__).resolve().parent.parent
LIBRARY = "libCom.so.3.17.6"
LETTERS = "ABCDEFGHIJKL"
NUMBERS = ["0", "1", "2", "3", "7", "10", "0.5", "2.25", "1e3", ".1", "1e-3", "100"]
VALUES = [0.0, 1.0, -1.0, 2.0, 3.5, -2.5, 6.0, 7.0, 100.0, 0.1, -0.0, 1e-3, 12345.0, -70000.0, math.nan, math.inf, -math.inf]
INFIX = ["+", "-", "*", "/", "<", "<=", ">", ">=", "=", "==", "!=", "#", "&&", "||", "&", "|", " AND ", " OR ", " XOR "]
CALLS = ["ABS", "SQR", "SQRT", "CEIL", "FLOOR", "ISNAN", "ISINF", "FINITE"]
LISTS = ["MAX", "MIN"]


def drawn(generator, depth):
    """An expression without stores."""
    kind = generator.random() if depth else 0
    if kind < 0.3:
        return generator.choice([*LETTERS[:5], *LETTERS[:5], "a", "b", "VAL", "val", *NUMBERS])
    inner = lambda: drawn(generator, depth - 1)
    if kind < 0.62:
        return inner() + generator.choice(["", " "]) + generator.choice(INFIX) + generator.choice(["", " "]) + inner()
    if kind < 0.7:
        return "(" + inner() + ")"
    if kind < 0.76:
        return generator.choice(["-", "!", "~", "NOT "]) + "(" + inner() + ")"
    if kind < 0.84:
        return generator.choice(CALLS) + "(" + inner() + ")"
    if kind < 0.9:
        return generator.choice(LISTS) + "(" + ",".join(inner() for _ in range(generator.randint(1, 4))) + ")"
    if kind < 0.93:
        return "(" + inner() + ")" + generator.choice(["^2", "^3", "**2", " ^ 0"])
    return inner() + "?" + inner() + ":" + inner()


def drawn_text(generator):
    """An expression of at most 79 bytes, sometimes with stores, sometimes with a fault."""
    text = drawn(generator, generator.randint(1, 3))
    if generator.random() < 0.2:
        text = f"{generator.choice(LETTERS[:5])}:={drawn(generator, 1)};{text}"
    if generator.random() < 0.1:
        at = generator.randrange(len(text) + 1)
        text = text[:at] + generator.choice(["", "", ")", "(", "+", ",", "A", "?", ":"]) + text[at + generator.randint(0, 1):]
    return text if 0 < len(text) < 80 else drawn_text(generator)


def serve():
    """The child: answers each line of its input by libCom's result."""
    library = ctypes.CDLL(LIBRARY)
    code, fault = ctypes.create_string_buffer(4000), ctypes.c_short()
    for line in sys.stdin:
        text, values, before = json.loads(line)
        arguments, result = (ctypes.c_double * 21)(*values), ctypes.c_double(before)
        if library.postfix(text.encode(), code, ctypes.byref(fault)):
            print("none", flush=True)
            continue
        library.calcPerform(arguments, ctypes.byref(result), code)
        print(struct.pack("<13d", result.value, *arguments[:12]).hex(), flush=True)


class Child:
    """libCom in a process of its own."""

    def __init__(self):
        self.process = None

    def ask(self, text, values, before):
        """The result and the arguments, None if the text is no expression, or "crashed"."""
        if self.process is None or self.process.poll() is not None:
            self.process = subprocess.Popen([sys.executable, __file__, "--serve"], stdin=subprocess.PIPE, stdout=subprocess.PIPE, text=True)
        self.process.stdin.write(json.dumps([text, values, before]) + "\n")
        self.process.stdin.flush()
        line = self.process.stdout.readline().strip()
        if not line:
            self.process.wait()
            return "crashed"
        return None if line == "none" else struct.unpack("<13d", bytes.fromhex(line))


def calculated(text, values, before):
    """The same by ioc-check."""
    words = [f"{letter}={value!r}" for letter, value in zip(LETTERS, values)]
    ran = subprocess.run([TOP / "bin/ioc-check", "--calc=" + text, *words, f"VAL={before!r}"], capture_output=True, text=True, timeout=60)
    if ran.returncode == 1:
        return None if " left out here" not in ran.stdout else "left out"
    first, *stores = ran.stdout.splitlines()
    after = list(values)
    for store in stores:
        letter, _, value = store.partition(" = ")
        after[LETTERS.index(letter)] = float(value)
    return (float(first), *after)


def bits(numbers):
    """Numbers as they are compared: each nan alike."""
    return numbers if numbers is None or isinstance(numbers, str) else tuple("nan" if math.isnan(it) else struct.pack("<d", it) for it in numbers)


def compare(words):
    """Compares some expressions. Returns those on which libCom and ioc-check differ, and counts."""
    seed, count = words
    generator, child = random.Random(seed), Child()
    differ, counts = [], {"compared": 0, "none": 0, "crashed": 0, "left out": 0}
    for _ in range(count):
        text = drawn_text(generator)
        values, before = [generator.choice(VALUES) for _ in LETTERS], generator.choice(VALUES)
        theirs, ours = child.ask(text, values, before), calculated(text, values, before)
        kind = theirs if theirs == "crashed" else ours if ours == "left out" else "none" if ours is None and theirs is None else "compared"
        counts[kind] += 1
        if kind == "compared" and bits(theirs) != bits(ours):
            differ.append(f"{text!r} with {values[:5]} and VAL {before}: {theirs and theirs[:6]} by libCom, {ours and ours[:6]} here")
    return differ, counts


def main():
    words = [int(word) for word in sys.argv[1:]]
    count, seed = (*words, *(1000, 1)[len(words):])
    parts = [(f"{seed} {part}", count // 20 + (part < count % 20)) for part in range(20)]
    sums, faults = {}, []
    with concurrent.futures.ThreadPoolExecutor(2) as pool:
        for differ, counts in pool.map(compare, parts):
            faults += differ
            sums = {kind: sums.get(kind, 0) + number for kind, number in counts.items()}
    print(*faults[:20], sep="\n", end="\n" if faults else "")
    print(f"{count} expressions: {sums['compared']} with values, {sums['none']} that are none, {sums['left out']} left out, "
          f"{sums['crashed']} on which libCom crashed; {len(faults)} differ")
    return 1 if faults else 0


if __name__ == "__main__":
    sys.exit(serve() if "--serve" in sys.argv else main())
