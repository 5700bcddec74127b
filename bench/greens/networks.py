"""Rows of `test`: networks that are wrong, and ports where nobody answers."""
from .faults import RIGHT
from .nights import night
from .proxy import CutsRecord, Delays, DropsNowAndThen, OneWay, Proxy, Resets
from .runs import Answer, Setting
from .scripts import theirs
from .table import Row


def network_row(name: str, wrong: str, way, least: str = "^no: ", **named) -> Row:
    return Row(name, wrong, "test, through a proxy", lambda setting: night(setting, RIGHT, way=way()), least, **named)


def silent(setting: Setting, word: str) -> Answer:
    """A listener that takes connections and never answers stands at the port of NFS, or of MOUNT."""
    setting.ends.append(Proxy(setting.port + 4, None, None).close)
    return night(setting, RIGHT, {word: setting.port + 4, "up-seconds": 3, "reply-seconds": 3})


NETWORKS = [
    theirs("nobody listens", "Nobody listens at the port", "test", "try_nights.py", "--port", "32416", "nobody at"),
    Row("NFS never answers", "A listener that takes connections and never answers", "test", lambda setting: silent(setting, "port"), "^refused: "),
    Row("MOUNT never answers", "The same at MOUNT's port", "test", lambda setting: silent(setting, "mount"), "^refused: "),
    network_row("resets", "The network resets after 20,000 bytes", lambda: Resets(20_000)),
    network_row("cuts a record", "A record is cut in its middle, and the connection ends", lambda: CutsRecord(20_000)),
    network_row("one way", "Calls arrive, replies don't, after 20,000 bytes", lambda: OneWay(20_000)),
    network_row("drops now and then", "A proxy drops a connection each 9,000 bytes", lambda: DropsNowAndThen(9_000)),
    network_row("delays too long", "Replies come 25 seconds late, 20 are given", lambda: Delays(25, 9_000)),
]
