"""Rows of `tap --strict`, and of `search` and `report` behind it."""
import struct
import time

from differ import layouts as nfs

from .faults import RIGHT, AppliesNone, EverySecond, GivesNoByte, RefusesByRpc, ReplyBefore, SwallowsGetattr, fault
from .memory import end_by_server, order_crash, short_of_memory
from .proxy import CutsRecord, Hangs, OneWay
from .recordings import Recording, Visitor
from .runs import PATIENCE, Answer, Setting
from .scripts import theirs
from .table import Row


def live_on(setting: Setting) -> Answer:
    """`crash` is told of a server that lives."""
    recording = Recording(setting, RIGHT)
    recording.visitor().visit(b"a")
    recording.order("crash\n")
    time.sleep(1)
    recording.visitor().visit(b"b").leave()
    time.sleep(0.5)
    return recording.end()


def restart_alone(setting: Setting) -> Answer:
    """The server goes down and comes back while no client is there."""
    recording = Recording(setting, RIGHT)
    recording.visitor().visit(b"a").leave()
    time.sleep(1)
    recording.server.crash()
    time.sleep(2)
    recording.server.up()
    later = recording.visitor()
    later.read(later.find(b"a"))
    later.leave()
    time.sleep(0.5)
    return recording.end()


def swallowed(setting: Setting, leave) -> Answer:
    """No GETATTR is answered; calls behind one on its connection are. Then the client leaves in some way."""
    recording = Recording(setting, fault(SwallowsGetattr))
    recording.visitor().visit(b"a").leave()
    client = recording.visitor()
    client.send(nfs.GETATTR, {"object": recording.root})
    client.visit(b"b")
    client.visit(b"c")
    leave(recording, client)
    time.sleep(0.5)
    return recording.end()


def leave_by_crash(recording: Recording, client: Visitor) -> None:
    recording.crash()
    recording.visitor().visit(b"d").leave()


def strict_of(setting: Setting, server: list[str], way=None) -> Answer:
    """Two clients call one after the other."""
    recording = Recording(setting, server, way=way)
    for name in b"a", b"b":
        try:
            recording.visitor().visit(name).leave()
        except (OSError, TypeError, struct.error):
            pass
        time.sleep(0.3)
    return recording.end()


def dies_early(setting: Setting) -> Answer:
    """The server dies by itself, and twenty seconds later a kill is told of."""
    recording = Recording(setting, RIGHT)
    recording.visitor().visit(b"a")
    recording.server.crash()
    time.sleep(20)
    recording.order("crash\n")
    time.sleep(0.5)
    recording.server.up()
    recording.visitor().visit(b"b").leave()
    time.sleep(0.5)
    return recording.end()


def beyond_start(setting: Setting) -> Answer:
    """The export holds 267 MB at first, of the 268 that a history's file may have; then come 2 MB."""
    start = setting.folder / "start"
    start.mkdir()
    for number in range(16):
        with open(start / f"f{number}", "wb") as file:
            file.truncate(16_777_216 if number < 15 else 16_000_000)
    recording = Recording(setting, RIGHT, ["--start", str(start)])
    client = recording.visitor(PATIENCE)
    file = client.make(b"a")
    for _ in range(4):
        client.write(file, bytes(500_000))
    client.leave()
    time.sleep(1)
    return recording.end()


def orders_over(setting: Setting) -> Answer:
    """Two crashes, the second told by `>`: the file is as long as before. No client is there at the second."""
    recording = Recording(setting, RIGHT, ["--idle", "4"])
    recording.visitor().visit(b"a").leave()
    recording.crash()
    recording.visitor().visit(b"b").leave()
    time.sleep(0.5)
    recording.server.crash()
    recording.orders.write_text("crash\n")
    time.sleep(0.5)
    recording.server.up()
    later = recording.visitor()
    later.read(later.find(b"b"))
    later.leave()
    return recording.end("")


def left_over(setting: Setting) -> Answer:
    """The file of orders has `crash` from the night before; tonight's crash comes while no client is there, and isn't told."""
    (setting.folder / "orders").write_text("crash\n")
    return restart_alone(setting)


def without_part(setting: Setting) -> Answer:
    """The history's name is so long that no file may have it with `.part` behind it."""
    recording = Recording(setting, RIGHT, name="h" * 253)
    recording.visitor().visit(b"a").leave()
    time.sleep(0.3)
    return recording.end()


def taken_away(setting: Setting) -> Answer:
    """The history is taken away while it is recorded, by standard input's end."""
    recording = Recording(setting, RIGHT, ends=())
    recording.visitor().visit(b"a").leave()
    time.sleep(0.3)
    recording.history.unlink()
    out, _ = recording.tap.communicate(timeout=PATIENCE)
    return Answer(recording.tap.returncode, out, recording.heard.read_text())


def tap_row(name: str, wrong: str, trial, least: str = "unhealthy: ", **named) -> Row:
    return Row(name, wrong, "tap --strict, search, report", trial, least, **named)


def through(way):
    return lambda setting: strict_of(setting, RIGHT, way())


TAPS = [
    tap_row("tap: a right server", "Nothing", lambda setting: strict_of(setting, RIGHT), wants="green"),
    tap_row("tap: the server lives on", "`crash` is told, and nothing was killed", live_on),
    tap_row("tap: restarts alone", "The server restarts while no client is there, and no order tells of it", restart_alone),
    tap_row("tap: orders of the night before", "The same, and the file of orders has a `crash` from before", left_over),
    tap_row("tap: orders written over", "The second `crash` is written by > and not by >>", orders_over),
    tap_row("tap: swallowed, then a crash", "A call is never answered, later ones of its connection are, then comes a crash",
            lambda setting: swallowed(setting, leave_by_crash), "never answered"),
    tap_row("tap: dies long before the kill", "The server dies by itself, and a kill is told of twenty seconds later", dies_early, "the server ended"),
    tap_row("tap: swallowed, then a reset", "The same, and the client resets its connection",
            lambda setting: swallowed(setting, lambda recording, client: client.leave(is_reset=True)), "never answered"),
    tap_row("tap: swallowed, then the end", "The same, the client leaves, and `end` comes within a minute",
            lambda setting: swallowed(setting, lambda recording, client: client.leave()), "never answered"),
    tap_row("tap: (a) refused by RPC", "Each WRITE is refused by RPC, PROC_UNAVAIL or MSG_DENIED", lambda setting: strict_of(setting, fault(RefusesByRpc))),
    tap_row("tap: applies none", AppliesNone.line(), lambda setting: strict_of(setting, fault(AppliesNone)), "not found|unhealthy"),
    tap_row("tap: the reply before", ReplyBefore.line(), lambda setting: strict_of(setting, fault(ReplyBefore))),
    tap_row("tap: READ gives no byte", GivesNoByte.line(), lambda setting: strict_of(setting, fault(GivesNoByte))),
    tap_row("tap: every second connection", EverySecond.line(), lambda setting: strict_of(setting, fault(EverySecond)), "the server ended"),
    tap_row("tap: one way", "Calls arrive at the server, replies don't, from the second client on", through(lambda: OneWay(900)), "never answered"),
    tap_row("tap: hangs, then the end", "Nothing comes from the server any more, the client gives up and leaves, and `end` comes within a minute",
            through(lambda: Hangs(900)), "never answered"),
    tap_row("tap: cuts a record", "A reply is cut in its middle, and the connection ends", through(lambda: CutsRecord(900)), "the server ended"),
    tap_row("tap: no memory for an order", "`crash` comes while there is no memory", lambda setting: short_of_memory(setting, order_crash)),
    tap_row("tap: no memory for a finding", "The server ends a connection while there is no memory", lambda setting: short_of_memory(setting, end_by_server)),
    tap_row("tap: no .part", "The file beside the history can't be made", without_part, "isn't kept on disk", wants="told"),
    tap_row("tap: (d) a start near the limit", "The export's 267 MB and 2 MB of calls are more than a history's file may have", beyond_start, "full"),
    Row("tap: history taken away", "The history is removed while it is recorded", "tap --strict", taken_away),
    theirs("tap: answered twice", "Second replies, garbage, records too long, ends and calls without a reply", "tap --strict", "try_tap.py", "answered_twice",
           "garbage", "record_too_long", "server_ends_first", "call_unanswered", "nothing_judged", "orders_astray"),
    theirs("tap: full disk", "The history's disk is full, or takes nothing; the log is full", "tap", "try_tap.py", "disk_full", "cannot_write", "log_full"),
]
