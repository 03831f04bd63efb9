"""The IOC as a child process. All that depends on the language of its lines is in here.

`console` speaks that of `ioc DB --live`, `survey` finds the records and their fields, and `texts` has the escapes of lines.
"""
import os
from typing import Optional, Sequence

from ..drivers import load_drivers
from .console import Console
from .survey import ChildError, survey

__all__ = ["USAGE_FAULT", "ChildError", "Console", "child_of"]
USAGE_FAULT = 2


def child_of(ioc: str, database: str, macros: Sequence[str], workers: str, kept: Sequence[str], drivers: Optional[str]) -> Console:
    """Looks at a database, and returns the child that is to serve it, with what it keeps in files. ChildError if it can't be served."""
    if not os.access(ioc, os.X_OK):
        raise ChildError(f"there is no program {ioc}: run ./build", USAGE_FAULT)
    try:
        loaded = load_drivers(drivers) if drivers is not None else None
    except Exception as fault:  # whatever the file raises
        raise ChildError(f"--drivers {drivers}: {type(fault).__name__}: {fault}", USAGE_FAULT) from None
    words = [ioc, database, *(word for macro in macros for word in ("-m", macro))]
    options = ["--devices", "counting" if loaded is None else "outside", "--workers", workers, *kept]
    return Console([*words, "--live", *options], survey(words), loaded or {})
