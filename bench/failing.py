#!/usr/bin/env python3
"""Runs a program once for each growth of memory in it, which is refused there, once for each read of a file and once for each write, which
fail there.

A run must end by itself within ten seconds, with the output of a run in which nothing fails and status 0, or with status 3 or 4 and a
beginning of that output. What it writes to standard error plays no part. cc makes the library that refuses. As FAIL_WHAT it also knows
`short`, by which each write takes one byte, `none`, by which it takes none, and `memory until a write`, by which each growth of memory from
one on is refused until the program has written.

Usage: failing.py PROGRAM [WORDS..]
"""
import os
import subprocess
import sys
import tempfile
from collections import Counter
from pathlib import Path

LIBRARY = r"""
#include <errno.h>
#include <stdatomic.h>
#include <stdlib.h>
#include <string.h>
#include <sys/syscall.h>
#include <unistd.h>
void *__libc_malloc(size_t);
void *__libc_realloc(void *, size_t);
void *__libc_memalign(size_t, size_t);
static atomic_long count, written;
static int fails(const char *what) {
  const char *kind = getenv("FAIL_WHAT");
  int until = kind && !strcmp(what, "memory") && !strcmp(kind, "memory until a write");
  if (!kind || (strcmp(what, kind) != 0 && !until) || (until && written)) return 0;
  long at = atol(getenv("FAIL_AT")), now = ++count;
  if (now < at || (now > at && !until)) return 0;
  long file = syscall(SYS_open, getenv("FAIL_LOG"), 1);
  syscall(SYS_write, file, "failed", 6);
  syscall(SYS_close, file);
  return 1;
}
static int refused(void) {
  if (!fails("memory")) return 0;
  errno = ENOMEM;
  return 1;
}
void *malloc(size_t size) { return refused() ? 0 : __libc_malloc(size); }
void *realloc(void *old, size_t size) { return refused() ? 0 : __libc_realloc(old, size); }
void *aligned_alloc(size_t align, size_t size) { return refused() ? 0 : __libc_memalign(align, size); }
int posix_memalign(void **place, size_t align, size_t size) {
  return refused() || !(*place = __libc_memalign(align, size)) ? ENOMEM : 0;
}
ssize_t read(int file, void *into, size_t size) {
  if (fails("read")) { errno = EIO; return -1; }
  return syscall(SYS_read, file, into, size);
}
ssize_t write(int file, const void *from, size_t size) {
  const char *kind = getenv("FAIL_WHAT");
  ++written;
  if (fails("write")) { errno = EIO; return -1; }
  if (kind && !strcmp(kind, "none")) return 0;
  if (kind && !strcmp(kind, "short") && size > 1) size = 1;
  return syscall(SYS_write, file, from, size);
}
"""


def build(folder: Path) -> Path:
    """Makes the library that refuses, in this folder."""
    source, library = Path(folder, "fails.c"), Path(folder, "fails.so")
    source.write_text(LIBRARY)
    subprocess.run(["cc", "-shared", "-fPIC", "-O1", "-o", library, source], check=True)
    return library


def each_failure(words: list[str], library: Path, log: Path, what: str, good: bytes) -> Counter:
    """How many runs ended with which status, or the exit with the first that isn't as it must be."""
    runs = 0
    statuses = Counter()
    while True:
        log.write_bytes(b"")
        failing = os.environ | {"LD_PRELOAD": str(library), "FAIL_WHAT": what, "FAIL_AT": str(runs + 1), "FAIL_LOG": str(log)}
        done = subprocess.run(words, capture_output=True, timeout=10, env=failing)
        whole = done.returncode == 0 and done.stdout == good
        if not whole and not (done.returncode in (3, 4) and good.startswith(done.stdout)):
            sys.exit(f"{what} {runs + 1}: status {done.returncode}, {done.stdout!r}, {done.stderr!r}")
        if log.read_bytes() == b"":
            return statuses
        runs += 1
        statuses[done.returncode] += 1


def main() -> None:
    words = sys.argv[1:]
    good = subprocess.run(words, capture_output=True, timeout=10, check=True).stdout
    with tempfile.TemporaryDirectory() as folder:
        library, log = build(Path(folder)), Path(folder, "log")
        for what in ("memory", "read", "write"):
            statuses = each_failure(words, library, log, what, good)
            ends = ", ".join(f"{count} with status {status}" for status, count in sorted(statuses.items()))
            print(f"{what}: failed in each of {statuses.total()} runs, all as it must be: {ends or 'none'}")


if __name__ == "__main__":
    main()
