"""Rows of full disks: what a command prints or writes can't be kept."""
import capture_cases as cases

from .faults import RIGHT
from .nights import night
from .runs import Answer, Setting
from .scripts import theirs
from .table import Row


def full(line: str):
    """A line of a shell in which $F is a full disk's folder, $H a history and $C its certificate."""
    def trial(setting: Setting) -> Answer:
        history, disk = setting.history(), setting.disk()
        return setting.shell(f"F={disk} H={history} C={history.parent}/certificate; {line}")
    return trial


def full_row(name: str, wrong: str, line: str, **named) -> Row:
    return Row(name, wrong, line.replace("$N", "nfsbench").replace('"', ""), full(line), **named)


def to_full(setting: Setting) -> Answer:
    """The night is right, and its line can't be written."""
    return night(setting, RIGHT, program=setting.wrapped("", "> /dev/full"))


def import_full(setting: Setting) -> Answer:
    capture, disk = setting.folder / "capture", setting.disk()
    lanes = [cases.framed(cases.call(xid, 0)) for xid in range(600)]
    capture.write_bytes(cases.captured(cases.of_one(*(cases.asks(number * len(lanes[0]), text) for number, text in enumerate(lanes))))[0])
    return setting.run("import", "--port", cases.NFS_PORT, "--root", cases.ROOT.hex(), capture, disk / "h.hist")


def mend_cut(setting: Setting) -> Answer:
    """What a recorder left is cut in the middle, as by a full disk, at the end of an event."""
    history = setting.history(2_000)
    data = bytearray(history.read_bytes())
    part = setting.folder / "cut.part"
    part.write_bytes(data[:len(data) // 2])
    return setting.run("mend", part, setting.folder / "mended")


DISKS = [
    full_row("search to a full disk", "The certificate's disk is full", '$N search --quiet $H > $F/c'),
    full_row("search to /dev/full", "The same, at once", '$N search --quiet $H > /dev/full'),
    full_row("search --json to a full disk", "The same, as JSON", '$N search --quiet --json $H > $F/c'),
    full_row("decide to a full disk", "The certificate's disk is full", '$N decide --certificate $F/c $H', least="^refused: "),
    full_row("decide, a line to /dev/full", "The line can't be written", '$N decide $H > /dev/full'),
    full_row("check to /dev/full", "The line can't be written", '$N check $H $C > /dev/full'),
    full_row("report to /dev/full", "The lines can't be written", '$N report $H $C > /dev/full'),
    full_row("show to /dev/full", "The lines can't be written", '$N show $H > /dev/full'),
    full_row("draw to a full disk", "The page can't be written", '$N draw $H $C > $F/page'),
    full_row("prefix to a full disk", "The prefix can't be written", '$N prefix $H 5000 $F/p', least="^refused: cannot write"),
    full_row("mend to a full disk", "The history can't be written", '$N mend $H $F/h'),
    full_row("a folder that takes nothing", "The certificate's folder is read-only", 'mount -o remount,ro $F; $N decide --certificate $F/c $H',
             least="^refused: "),
    Row("import to a full disk", "The history's disk is full", "import", import_full, "^refused: cannot write"),
    Row("test to /dev/full", "The night is right, its line can't be written", "test > /dev/full", to_full),
    theirs("a night to a full disk", "The night's disk is full, or its folder can't be made", "test", "try_nights.py", "--port", "32422", "a full disk",
           "a folder"),
    Row("mend of half a .part", "Half of what was recorded is wanting", "mend", mend_cut, "whole events end|Cut", "told"),
]
