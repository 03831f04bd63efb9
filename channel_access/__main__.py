"""The command line: `python3 -m channel_access DB ..` serves a database, `python3 -m channel_access --get REC ..` asks a server."""
import argparse
import asyncio
import pathlib
import signal
import sys
from typing import Sequence

from .child import USAGE_FAULT, ChildError, child_of
from .client import get
from .server import Rights, Server

IOC = pathlib.Path(__file__).resolve().parent.parent / "bin" / "ioc"
DESCRIPTION = "Serves a database by Channel Access; nothing can be written unless it is allowed. docs/CHANNEL_ACCESS.md is the manual."

# What the IOC keeps in files, and how they are named.
KEPT = {
    "--journal": "the journal is written to this file",
    "--save": "saves the channels that this request file names",
    "--save-to": "saves them to this file",
    "--restore": "restores the values of this file",
}


def _arguments() -> argparse.ArgumentParser:
    parser = argparse.ArgumentParser(prog="ioc-ca", description=DESCRIPTION)
    add = parser.add_argument
    add("database", metavar="DB", nargs="?", help="the file with the database text")
    add("-m", dest="macros", metavar="NAME=VALUE", action="append", default=[], help="a macro of the database text")
    add("--allow-write", metavar="PATTERN", action="append", default=[], help="records, or REC.F, that may be written")
    add("--allow-links", action="store_true", help="their link fields may be written too")
    for option, what in KEPT.items():
        add(option, metavar="FILE", help=what)
    add("--save-every", metavar="S", help="seconds from one save to the next (30)")
    add("--drivers", metavar="FILE.py", help="drivers of the devices of `@` links, which count without it")
    add("--port", metavar="N", type=int, default=5064, help="of TCP and UDP (5064)")
    add("--interface", metavar="ADDR", default="127.0.0.1", help="the address that is served (127.0.0.1)")
    add("--beacon", metavar="ADDR", action="append", default=[], help="where beacons go (127.0.0.1)")
    add("--repeater-port", metavar="N", type=int, default=5065, help="the port of beacons (5065)")
    add("--workers", metavar="N", default="2", help="worker threads of the IOC, from 1 to 64 (2)")
    add("--ioc", metavar="PROGRAM", default=str(IOC), help="the program `ioc` (bin/ioc)")
    add("--get", metavar="REC", nargs="+", help="prints channels of the server at --interface and --port, and ends")
    return parser


async def _serve(options: argparse.Namespace) -> int:
    """Serves until the child ends, or a signal ends its input. Returns the status."""
    loop, stopped = asyncio.get_running_loop(), asyncio.Event()
    for number in (signal.SIGINT, signal.SIGTERM):
        loop.add_signal_handler(number, stopped.set)
    given = ((option, getattr(options, option[2:].replace("-", "_"))) for option in [*KEPT, "--save-every"])
    kept = [word for option, word in given if word is not None for word in (option, word)]
    child = child_of(options.ioc, options.database, options.macros, options.workers, kept, options.drivers)
    await child.start()
    server = Server(child, Rights(options.allow_write, options.allow_links), options.interface, options.port)
    try:
        await server.start()
    except (OSError, OverflowError) as fault:
        child.close()
        await child.ended
        raise ChildError(f"{options.interface}:{options.port}: {fault}", USAGE_FAULT) from None
    beacons = loop.create_task(server.send_beacons([(address, options.repeater_port) for address in options.beacon or ["127.0.0.1"]]))
    print(f"{len(child.records)} records at {options.interface}:{options.port}, may be written:", *options.allow_write or ["nothing"], flush=True)
    child.ended.add_done_callback(lambda ended: stopped.set())
    await stopped.wait()
    beacons.cancel()
    server.close()
    if child.ended.done():
        print(f"ioc-ca: ioc has ended with status {await child.ended}", file=sys.stderr)
    else:
        child.close()
        await child.ended
        print(child.last_line.decode("utf-8", "replace"), file=sys.stderr)
    return child.ended.result()


def main(words: Sequence[str]) -> int:
    """Does what the command line asks for, and returns the status."""
    parser = _arguments()
    options = parser.parse_args(words)
    if options.get:
        return get(options.interface, options.port, options.get)
    if options.database is None:
        parser.error("there is no DB")
    try:
        return asyncio.run(_serve(options))
    except ChildError as fault:
        print(f"ioc-ca: {fault}", file=sys.stderr)
        return fault.status


if __name__ == "__main__":
    sys.exit(main(sys.argv[1:]))
