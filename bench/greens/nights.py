"""A night of `nfsbench test`, which a trial shortens, and spoils meanwhile."""
import re

from wrong.nights import Night
from wrong.process import soon

from .faults import check_fault
from .proxy import Proxy
from .runs import PATIENCE, Answer, Setting

SHORT = {"clients": 2, "calls": 80, "reply-seconds": 20, "up-seconds": 20, "order-seconds": 20, "search-seconds": 600}
# What a night tells of its way.
PROGRESS = r"(?m)^crash \d+: (noted|the server is up)\n"


def night(setting: Setting, server: list[str], given: dict = {}, flags=(), crashes=(), way=None, meanwhile=lambda night: None, program=None,
          fed=None) -> Answer:
    """`nfsbench test` of a server, behind a proxy where there is a way."""
    tried = Night(program or setting.program, setting.folder / "night", setting.port, server)
    setting.ends.append(tried.server.process.kill)
    given = SHORT | {"seed": setting.seed} | given
    if way is not None:
        proxy = Proxy(setting.port + 2, setting.port, way)
        setting.ends.append(proxy.close)
        given = {"port": setting.port + 2} | given
    tried.start(given, list(flags), is_fed=fed is None)
    setting.ends.append(tried.run.kill)
    if fed is not None:
        tried.feed(fed)
    for crash in crashes:
        has_begun(tried)
        tried.crash(crash)
    meanwhile(tried)
    answer = tried.answer(PATIENCE)
    check_fault(server, tried.server)
    told = (tried.folder / "errors").read_text() if answer.status == 0 else ""
    return Answer(answer.status, answer.line, re.sub(PROGRESS, "", told))


def has_begun(tried: Night, clients: int = SHORT["clients"]) -> None:
    """Waits until the clients of an era with a crash have their connections, and the bench its own."""
    def are_there() -> bool:
        ends = [line.split()[2:4] for line in open("/proc/net/tcp")]
        return tried.is_over() or sum(end[0].endswith(f":{tried.port:04X}") and end[1] == "01" for end in ends) > clients
    soon(are_there, PATIENCE)
