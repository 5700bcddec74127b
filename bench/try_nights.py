#!/usr/bin/env python3
"""Tries `nfsbench test` against servers that behave badly, and with folders and orders that are no good: try_nights.py NFSBENCH [--port N] [NAME..]

Each case below has the status and the last line that the run has to end with. It prints a line for each, and ends with status 1 where one differs.
It mounts a small tmpfs for the full disk, and needs to be root for that; without, that case is left out.
"""
import argparse
import os
import pathlib
import re
import signal
import subprocess
import sys
import tempfile
import time
from dataclasses import dataclass, field

from wrong.nights import EXPORT, Answer, Crash, Night

PATIENCE = 120
SHORT = {"seed": 1, "clients": 2, "calls": 60, "reply-seconds": 3, "up-seconds": 3, "order-seconds": 4, "search-seconds": 60}
CRASHES = [Crash(after=0.5), Crash(after=0.5)]


@dataclass
class Case:
    """A server, the words of a run, what happens meanwhile, and how the run has to end: a status and a pattern of its whole last line."""
    name: str
    status: int
    line: str
    server: list[str] = field(default_factory=list)
    # Words that have a value, and such as have none.
    words: dict = field(default_factory=dict)
    flags: list[str] = field(default_factory=list)
    # Values that follow from the night.
    instead: callable = lambda night: {}
    # What is written to the file of orders, or to standard input, which then ends.
    orders: str = None
    fed: str = None
    crashes: list[Crash] = field(default_factory=list)
    # Done before the run starts, while it runs, and after it.
    before: callable = lambda night: None
    meanwhile: callable = lambda night: None
    after: callable = lambda night: None


def faulty(name: str, often: int = 10) -> list[str]:
    return ["--fault", name, "--often", str(often)]


def crash_alone(night: Night) -> None:
    """The server crashes, and doesn't come back though it is said to."""
    time.sleep(0.5)
    night.server.crash()
    night.order("crash\nup\n")


def terminate(night: Night) -> None:
    time.sleep(1.5)
    night.run.send_signal(signal.SIGTERM)


def fill(night: Night) -> None:
    """A disk of 64 KiB, of which NIGHT is a folder."""
    disk = night.folder / "disk"
    disk.mkdir()
    subprocess.run(["mount", "-t", "tmpfs", "-o", "size=64k", "tmpfs", disk], check=True)


def unmount(night: Night) -> None:
    subprocess.run(["umount", night.folder / "disk"], check=True)


def in_disk(night: Night) -> dict:
    return {"out": night.folder / "disk" / "night"}


RED = "no: .*"
CASES = [
    Case("right", 0, "yes"),
    Case("right, with crashes", 0, "yes", words={"rounds": 2}, crashes=CRASHES),
    Case("right, orders by standard input", 0, "yes", words={"rounds": 0}, fed=""),
    # The server can't be reached, or isn't what it should be.
    Case("nobody at the port", 2, "refused: .*", instead=lambda night: {"port": night.port + 7}),
    Case("nobody at MOUNT's port", 2, "refused: .*", instead=lambda night: {"mount": night.port + 7}),
    Case("MOUNT's port as NFS's", 2, "refused: .*", instead=lambda night: {"port": night.port + 1}),
    Case("NFS's port as MOUNT's", 2, "refused: .*", instead=lambda night: {"mount": night.port}),
    Case("no such export", 2, "refused: .*", instead=lambda night: {"export": EXPORT + "/not"}),
    Case("MNT3ERR_ACCES", 2, "refused: .*", server=["--mount-status", "13"]),
    Case("the export holds something", 2, "refused: .*", server=["--holds", "3"], flags=["--empty"]),
    Case("the export may hold something", 0, "yes", server=["--holds", "3"]),
    Case("NFS3ERR_NOTSUPP to all", 2, "refused: .*", server=["--refuses", "NOTSUPP"]),
    Case("NFS3ERR_ACCES to all", 2, "refused: .*", server=["--refuses", "ACCES"]),
    # The server is out of health.
    Case("no reply", 1, RED, server=faulty("no_reply", 40)),
    Case("dies", 1, RED, server=faulty("dies", 60)),
    Case("a second reply", 1, RED, server=faulty("second_reply")),
    Case("another's transaction number", 1, RED, server=faulty("other_transaction")),
    Case("a record too long", 1, RED, server=faulty("too_long")),
    Case("garbage", 1, RED, server=faulty("garbage")),
    Case("a bad result", 1, RED, server=faulty("bad_result")),
    Case("a connection ends", 1, RED, server=faulty("closes")),
    Case("a connection ends in a reply", 1, RED, server=faulty("cuts")),
    Case("isn't up after up", 1, RED, words={"rounds": 1}, meanwhile=crash_alone),
    # NIGHT.
    Case("a folder that is there", 2, "refused: .*", before=lambda night: (night.folder / "night").mkdir()),
    Case("a folder that can't be made", 2, "refused: .*", instead=lambda night: {"out": "/proc/night"}),
    Case("a folder in none", 2, "refused: .*", instead=lambda night: {"out": night.folder / "none" / "night"}),
    Case("a folder under a file", 2, "refused: .*", instead=lambda night: {"out": night.orders / "night"}),
    Case("a full disk", 2, "(refused|undecided): .*", words={"calls": 1000}, before=fill, instead=in_disk, after=unmount),
    # Orders.
    Case("orders end early", 2, "undecided: .*", words={"rounds": 2}, fed="crash\nup\n"),
    Case("no order comes", 2, "undecided: .*", words={"rounds": 1}),
    Case("an order is cut", 2, "undecided: .*", words={"rounds": 1}, fed="cra"),
    Case("an unknown order", 2, "undecided: .*", words={"rounds": 1}, orders="crush\n"),
    Case("up before crash", 2, "undecided: .*", words={"rounds": 1}, orders="up\n"),
    Case("the server lives on", 2, "undecided: the server answers on a connection from before crash 1: .*", words={"rounds": 1}, orders="crash\nup\n"),
    Case("no up after crash", 2, "undecided: .*", words={"rounds": 1}, orders="crash\n"),
    Case("no file of orders", 2, "refused: .*", words={"rounds": 1}, before=lambda night: night.orders.unlink()),
    Case("an order of odd bytes", 2, "undecided: .*", words={"rounds": 1}, orders="\x1b[2J\x00\u00e9" + 70_000 * "x" + "\n"),
    # Words, and the end by a signal.
    Case("more calls than a history holds", 2, "refused: .*", words={"calls": 1000000, "rounds": 5}),
    Case("too few calls are answered", 1, RED, words={"at-least": 100000}),
    Case("SIGTERM", -signal.SIGTERM, "(?!yes).*", words={"calls": 60_000, "seconds": 60}, meanwhile=terminate),
]


def tried(words, folder: pathlib.Path, case: Case) -> Answer:
    night = Night(words.program, folder, words.port, case.server)
    case.before(night)
    try:
        if case.orders is not None:
            night.order(case.orders)
        night.start(SHORT | case.words | case.instead(night), case.flags, is_fed=case.fed is None)
        if case.fed is not None:
            night.feed(case.fed)
        for crash in case.crashes:
            night.crash(crash)
        case.meanwhile(night)
        return night.answer(PATIENCE)
    finally:
        case.after(night)


def is_right(words, folder: pathlib.Path, case: Case) -> bool:
    start = time.monotonic()
    answer = tried(words, folder, case)
    is_so = answer.status == case.status and re.fullmatch(case.line, answer.line) is not None
    seconds = time.monotonic() - start
    print(f"{case.name:34} {answer.status!s:4} {seconds:5.1f} s  {answer.line}", flush=True)
    if not is_so:
        print(f"{'  WANTED':34} {case.status!s:4}          {case.line}", flush=True)
    return is_so


def main() -> None:
    parser = argparse.ArgumentParser(description=__doc__, formatter_class=argparse.RawDescriptionHelpFormatter)
    parser.add_argument("program", metavar="NFSBENCH", type=os.path.abspath)
    parser.add_argument("--port", type=int, default=29560, help="the first of two ports (%(default)s)")
    parser.add_argument("names", nargs="*", metavar="NAME", help="only the cases whose name has one of these words")
    words = parser.parse_intermixed_args()
    cases = [case for case in CASES if not words.names or any(name in case.name for name in words.names)]
    if os.geteuid() != 0:
        cases = [case for case in cases if case.before is not fill]
    with tempfile.TemporaryDirectory() as temporary:
        rights = [is_right(words, pathlib.Path(temporary) / str(number), case) for number, case in enumerate(cases)]
    print(f"{sum(rights)} of {len(rights)} as wanted")
    sys.exit(0 if all(rights) else 1)


main()
