"""The kit's command `rt` as a module, in which what a crate is made of is computed once in a run.

`rt` lists the libraries below a crate, and takes the sum of its text to see whether a library is up to date, by asking the crates that it uses,
each time anew, so the time grows with the number of paths through crates.txt: minutes for the highest crates.
"""
import importlib.machinery
import importlib.util
import os
import shutil
import sys


def keep(crate, name, copied=lambda it: it):
    """Has crates of this class compute what the method of this name gives once for each crate."""
    owner = next((it for it in crate.__mro__ if name in vars(it)), None)
    if owner is None:
        return
    compute, kept = vars(owner)[name], {}

    def keeping(self):
        if self.folder not in kept:
            kept[self.folder] = compute(self)
        return copied(kept[self.folder])

    setattr(owner, name, keeping)


def folder():
    """Where the kit's command stands, in its folder bin."""
    return os.path.dirname(os.path.dirname(os.path.realpath(shutil.which("rt"))))


def load():
    sys.dont_write_bytecode = True
    loader = importlib.machinery.SourceFileLoader("rt", os.path.realpath(shutil.which("rt")))
    made = importlib.util.module_from_spec(importlib.util.spec_from_loader("rt", loader))
    loader.exec_module(made)
    keep(made.Crate, "stamp")
    keep(made.Crate, "below", list)
    return made
