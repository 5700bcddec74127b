"""Rows of `test`: servers that are wrong."""
from wrong.nights import Crash, Night

from .faults import (RIGHT, AppliesNone, CacheByNumber, CrossesLanes, DiskFull, EndlessList, EverySecond, FailsAll, FailsCommits, FailsFifth, FailsLists,
                     FailsReads, FailsRemoves, FailsWrites, GivesNoByte, ListsNoName, ListsTooSmall, NothingAtAll, OnlyOtherNumbers, OtherFile, RefusesByRpc,
                     ReplyBefore, SlowBehindCrash, SwallowsUntilCrash, WritesNoByte, fault)
from .nights import SHORT, has_begun, night
from .runs import Answer, Setting
from .scripts import theirs
from .table import Row

ONE_CRASH = [Crash(after=1.5)]


def server_row(name: str, kind, least: str = "^no: ", often: int = 1, given: dict = {}, crashes=(), **named) -> Row:
    """A server with a fault of `faults`."""
    def trial(setting: Setting) -> Answer:
        return night(setting, fault(kind, often), given | ({"rounds": len(crashes)} if crashes else {}), crashes=crashes)
    return Row(name, kind.line(), f"test, the server has {kind.name()}", trial, least, **named)


def restarted(tried: Night) -> None:
    """The server goes down and comes back, and nothing is told of it."""
    has_begun(tried, SHORT["clients"] - 1)
    tried.server.crash()
    tried.server.up()


SERVERS = [
    server_row("applies none", AppliesNone),
    server_row("every second connection", EverySecond, "^(no|refused): .*ended the connection"),
    server_row("another file's bytes", OtherFile, given={"calls": 200}),
    server_row("the reply before", ReplyBefore, "^(no|refused): .*grammar of RFC 1813"),
    server_row("only other numbers", OnlyOtherNumbers, "^(no|refused): "),
    server_row("a cache by number alone", CacheByNumber),
    Row("replies in another order", "Nothing: replies may come in any order", "test, replies up to 30 ms late",
        lambda setting: night(setting, [*RIGHT, "--delay", "30000"], {"depth": 8}), wants="green"),
    Row("restarts by itself", "The server restarts amid the night, and no order tells of it", "test",
        lambda setting: night(setting, RIGHT, {"calls": 2000}, meanwhile=restarted), "^no: .*ended the connection"),
    server_row("all fail after a while", FailsAll, "^undecided: "),
    server_row("one in five fails", FailsFifth, "^undecided: ", given={"calls": 200}),
    server_row("the server's disk is full", DiskFull, "^undecided: ", given={"calls": 200}),
    Row("the walk gets no byte", "The export holds files, and no READ of them gives a byte", "test",
        lambda setting: night(setting, [*fault(GivesNoByte), "--holds", "3"]), "^(no|refused): "),
    Row("the walk gets no name", "The export holds files, and no list has a name, or an end", "test",
        lambda setting: night(setting, [*fault(ListsNoName), "--holds", "3"]), "^(no|refused): "),
    Row("a night of few calls", "The server takes half a second for a call, so a client comes to a few", "test --calls 1000 --seconds 3",
        lambda setting: night(setting, [*RIGHT, "--delay", "400000"], {"calls": 1000, "seconds": 3}), "calls"),
    server_row("each WRITE fails", FailsWrites, "^undecided: ", given={"calls": 200}),
    server_row("each READ fails", FailsReads, "^undecided: ", given={"calls": 200}),
    server_row("each removal fails", FailsRemoves, "^undecided: ", given={"calls": 200}),
    server_row("each COMMIT fails", FailsCommits, "^undecided: ", given={"calls": 200}),
    server_row("each list fails", FailsLists, "^undecided: ", given={"calls": 200}),
    server_row("READ gives no byte", GivesNoByte, "^(no|undecided): ", given={"calls": 200}),
    server_row("WRITE writes no byte", WritesNoByte, "^(no|undecided): ", given={"calls": 200}),
    server_row("lists have no name", ListsNoName, "^(no|undecided): ", given={"calls": 200}),
    server_row("lists are too small", ListsTooSmall, "^(no|undecided): ", given={"calls": 200}),
    server_row("no byte and no name", NothingAtAll, "^(no|undecided): ", given={"calls": 200}),
    server_row("a list without end", EndlessList, "^(no|undecided|refused): "),
    server_row("swallows until the crash", SwallowsUntilCrash, "^(no: no reply|undecided: .*never answered)", often=20,
               given={"calls": 300, "depth": 16}, crashes=ONE_CRASH),
    server_row("slow behind a crash", SlowBehindCrash, "^undecided: .*weren't looked at", given={"calls": 300, "seconds": 3}, crashes=ONE_CRASH),
    server_row("refused by RPC", RefusesByRpc, "^no: .*RPC refused"),
    Row("(h) crossed lanes", CrossesLanes.line(), "test, the server has crosses_lanes",
        lambda setting: night(setting, fault(CrossesLanes), {"depth": 1, "calls": 200, "seed": 5}), "^no: "),
    theirs("no reply", "One call in forty is never answered", "test", "try_nights.py", "--port", "32400", "no reply"),
    theirs("replies twice", "Replies are sent twice", "test", "try_nights.py", "--port", "32402", "a second reply"),
    theirs("another number", "Replies to another transaction number come too", "test", "try_nights.py", "--port", "32404", "another's transaction"),
    theirs("MOUNT alone", "MOUNT answers, NFS doesn't", "test", "try_nights.py", "--port", "32406", "MOUNT's port as NFS's"),
    theirs("excused failures to all", "All calls are answered by an excused failure", "test", "try_nights.py", "--port", "32408", "NFS3ERR_ACCES to all"),
    theirs("kept in memory alone", "A synced WRITE is lost by a kill", "test", "find_faults.py", "--port", "32410", "--jobs", "1", "--right", "0",
           "lose_synced_write"),
    theirs("the verifier stays", "The write verifier is the same over a loss", "test", "find_faults.py", "--port", "32412", "--jobs", "1", "--right", "0",
           "keep_verifier"),
    theirs("a list without one name", "READDIR leaves a name out", "test", "find_faults.py", "--port", "32414", "--jobs", "1", "--right", "0", "list_misses"),
]
