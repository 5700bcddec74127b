"""Rows of commands that are given a path twice, or a link to it, and of `serve` with a client that sends no call."""
from wrong.peer import Peer
from wrong.process import soon, started
from wrong.trial import listens

from .runs import PATIENCE, Answer, Setting
from .table import Row

PLAN = "printf 'plan 1\\nlane 1 create a\\ngo\\nend\\n' > $D/plan; "


def linked(line: str):
    """A line of a shell with a small history $H, and a link $L to it. The history has to stay as it is."""
    def trial(setting: Setting) -> Answer:
        history = setting.history(10)
        before, link = history.read_bytes(), setting.folder / "link"
        link.symlink_to(history)
        answer = setting.shell(f"H={history} L={link} C={history.parent}/certificate; {line}")
        answer.err += "" if history.read_bytes() == before else "the history is another one now"
        return answer
    return trial


def refused_connection(setting: Setting) -> Answer:
    """A client of `serve` sends what is no call."""
    line = [setting.program, "serve", "--port", str(setting.port), "--lanes", "1", "--calls", "100", str(setting.folder / "h"), str(setting.folder / "c")]
    server = started(line, setting.folder / "said")
    setting.ends.append(server.kill)
    assert soon(lambda: listens(setting.port)), "the server doesn't listen"
    peer = Peer(setting.port)
    peer.send(b"garbage!")
    peer.receive()
    peer.close()
    out, _ = server.communicate(timeout=PATIENCE)
    return Answer(server.returncode, out, (setting.folder / "said").read_text())


COMMANDS = [
    Row("(e) prefix over a link", "PREFIX is a link to HISTORY", "prefix H 2 L", linked("$N prefix $H 2 $L"), "^refused: cannot write"),
    Row("(e) prefix over another name", "PREFIX is HISTORY, by a name with ./ ahead", "prefix H 2 ./H",
        linked("cd $(dirname $H); $N prefix history 2 ./history"), "^refused: cannot write"),
    Row("(e) mend over a link", "HISTORY is a link to PART", "mend H L",
        linked("head -c -2 $H > $D/p; cp $D/p $D/kept; ln -s $D/p $D/q; $N mend $D/p $D/q; s=$?; cmp $D/p $D/kept >&2; exit $s"), "^refused: cannot write"),
    Row("(e) decide over a link", "The certificate's path is a link to HISTORY", "decide --certificate L H", linked("$N decide --certificate $L $H"),
        "^refused: cannot write"),
    Row("(e) run over a link", "CERTIFICATE is a link to HISTORY", "run PLAN H L", linked(PLAN + "touch $D/n; ln -s $D/n $D/m; $N run $D/plan $D/n $D/m"),
        "^refused: cannot write"),
    Row("(e) run over one path", "CERTIFICATE is HISTORY", "run PLAN H H", linked(PLAN + "$N run $D/plan $D/n $D/n"), "^refused: "),
    Row("(e) run over its plan", "HISTORY is a link to PLAN", "run PLAN H C", linked(PLAN + "ln -s plan $D/m; $N run $D/plan $D/m $D/n"),
        "^refused: cannot write"),
    Row("(e) run over a link to nothing", "CERTIFICATE is a link to HISTORY, which isn't there", "run PLAN H L",
        linked(PLAN + "ln -s n $D/m; $N run $D/plan $D/n $D/m"), "^refused: cannot write"),
    Row("(f) serve: refused", "A connection ended since it sent no call", "serve", refused_connection, "Refused"),
]
