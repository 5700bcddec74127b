"""Rows of `test`: clocks that jump or stand, and a bench that is stopped."""
import pathlib
import signal
import time

from wrong.nights import Night

from .faults import RIGHT, SwallowsGetattr, fault
from .nights import SHORT, has_begun, night
from .runs import Answer, Setting
from .table import Row

FAKETIME = next(pathlib.Path("/usr/lib").glob("*/faketime/libfaketimeMT.so.1"), None)
STILL = "2026-01-02 03:04:05"


def stopped(setting: Setting) -> Answer:
    """The bench is stopped for longer than a reply may take."""
    def stop(tried: Night) -> None:
        has_begun(tried, SHORT["clients"] - 1)
        tried.run.send_signal(signal.SIGSTOP)
        time.sleep(12)
        tried.run.send_signal(signal.SIGCONT)
    return night(setting, RIGHT, {"calls": 400, "reply-seconds": 10}, meanwhile=stop)


def clocked(setting: Setting, begin: str, later: str, kind=None, around: str = "") -> Answer:
    """The clock is changed two seconds after the clients began."""
    if FAKETIME is None:
        raise RuntimeError("libfaketime isn't there")
    clock = setting.folder / "clock"
    clock.write_text(begin)

    def change(tried: Night) -> None:
        has_begun(tried, SHORT["clients"] - 1)
        time.sleep(1)
        clock.write_text(later)
    program = setting.wrapped(f'LD_PRELOAD="{FAKETIME}" FAKETIME_TIMESTAMP_FILE="{clock}" FAKETIME_NO_CACHE=1 {around}')
    return night(setting, fault(kind, 20) if kind else RIGHT, {"calls": 400}, meanwhile=change, program=program)


def clock_row(name: str, wrong: str, begin: str, later: str, kind=None, least: str = "", **named) -> Row:
    return Row(name, wrong, "test, by libfaketime", lambda setting: clocked(setting, begin, later, kind), least, **named)


CLOCKS = [
    clock_row("a clock a day ahead", "The clock jumps a day ahead amid the night; the server is right", "+0", "+1d", wants="green"),
    Row("the wall's clock a day ahead", "The same, and the monotonic clock stays", "test, by libfaketime",
        lambda setting: clocked(setting, "+0", "+1d", around="FAKETIME_DONT_FAKE_MONOTONIC=1"), wants="green"),
    Row("the bench is stopped", "The bench is stopped for twelve seconds, ten are given for a reply; the server is right", "test", stopped, wants="green"),
    clock_row("a clock an hour back", "The clock jumps an hour back amid the night; the server is right", "+0", "-1h", wants="green"),
    clock_row("a clock that stands", "The clock stands still; the server is right", STILL, STILL, wants="green"),
    clock_row("a clock that stands, no reply", "The clock stands still, and no GETATTR is answered", STILL, STILL, SwallowsGetattr, "^no: "),
]
