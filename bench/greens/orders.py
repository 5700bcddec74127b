"""Rows of `test`: orders that go astray."""
import signal
import time

from wrong.nights import Crash, Night

from .faults import RIGHT
from .nights import SHORT, has_begun, night
from .runs import Answer, Setting
from .scripts import theirs
from .table import Row


def lives_on(setting: Setting) -> Answer:
    """`crash` and `up` are told of a server that was stopped for three seconds and not killed."""
    def tell(tried: Night) -> None:
        has_begun(tried)
        tried.server.process.send_signal(signal.SIGSTOP)
        tried.order("crash\nup\n")
        time.sleep(3)
        tried.server.process.send_signal(signal.SIGCONT)
    return night(setting, RIGHT, {"rounds": 1, "calls": 100}, meanwhile=tell)


def killed_too_often(setting: Setting) -> Answer:
    """Two kills are told of, and one is waited for."""
    def tell(tried: Night) -> None:
        for _ in range(2):
            has_begun(tried, SHORT["clients"] - 1)
            tried.crash(Crash(after=1))
    return night(setting, RIGHT, {"rounds": 1, "calls": 10000}, meanwhile=tell)


def written_over(setting: Setting) -> Answer:
    """The second line is written by `>`, which begins the file of orders anew."""
    def tell(tried: Night) -> None:
        has_begun(tried)
        tried.server.crash()
        tried.orders.write_text("crash\n")
        time.sleep(1)
        tried.server.up()
        tried.orders.write_text("up\n")
    return night(setting, RIGHT, {"rounds": 1}, meanwhile=tell)


ORDERS = [
    theirs("the server lives on", "`crash` is told, and nothing was killed", "test", "try_nights.py", "--port", "32418", "the server lives on"),
    Row("lives on, stopped", "`crash` and `up` are told, and the server was stopped for three seconds and not killed", "test --rounds 1", lives_on,
        "^undecided: "),
    Row("orders without --rounds", "Standard input has `crash` and `up`, and --rounds was forgotten", "test",
        lambda setting: night(setting, RIGHT, {"rounds": 0}, fed="crash\nup\n"), "rounds", "told"),
    Row("a kill too many", "Two kills are told of, --rounds says one", "test --rounds 1", killed_too_often, "^undecided: ", is_innocent=True),
    Row("orders written over", "`up` is written by > and not by >>", "test --rounds 1", written_over, "^undecided: ", is_innocent=True),
    theirs("orders astray", "Orders end early, are cut, unknown, missing or in another order", "test", "try_nights.py", "--port", "32420", "order", "up before",
           "no up"),
]
