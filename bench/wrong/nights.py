"""Runs of `nfsbench test` against the server, with crashes between."""
import pathlib
import subprocess
import time
from dataclasses import dataclass

from .process import ServerProcess, started

EXPORT = "/wrong"


@dataclass
class Answer:
    """How a run ended: its status, and the last line of its standard output."""
    status: int
    line: str


@dataclass
class Crash:
    """So many seconds later the server crashes, and comes back so many seconds after that."""
    after: float
    down: float = 0.1


class Night:
    """A server on `port` and the next one, and one run against it. All files are in `folder`: NIGHT is `folder`/night."""

    def __init__(self, program: str, folder: pathlib.Path, port: int, words_of_server: list[str]):
        self.program, self.folder, self.port = program, folder, port
        folder.mkdir(parents=True)
        self.orders = folder / "orders"
        self.orders.touch()
        self.server = ServerProcess(folder / "server", port, words_of_server)
        self.run = None

    def start(self, words: dict, flags: list[str], is_fed: bool = True) -> None:
        """Starts the run. `words` have values, also for the words that each run has; with `is_fed` a run with crashes reads its orders from the file."""
        usual = {"port": self.port, "mount": self.port + 1, "export": EXPORT, "out": self.folder / "night"}
        usual |= {"orders": self.orders} if is_fed and words.get("rounds") else {}
        line = [self.program, "test", *flags]
        for word, value in (usual | words).items():
            line += [f"--{word}", str(value)]
        self.run = started(line, self.folder / "errors")

    def order(self, text: str) -> None:
        with open(self.orders, "a") as file:
            file.write(text)

    def feed(self, text: str) -> None:
        """Writes orders to standard input, which ends then."""
        self.run.stdin.write(text)
        self.run.stdin.close()
        self.run.stdin = None

    def crash(self, crash: Crash) -> None:
        time.sleep(crash.after)
        if self.is_over():
            return
        self.server.crash()
        self.order("crash\n")
        time.sleep(crash.down)
        self.server.up()
        self.order("up\n")

    def is_over(self) -> bool:
        return self.run.poll() is not None

    def answer(self, seconds: float) -> Answer:
        """How the run ended, within so many seconds; the status is None where it had to be killed."""
        try:
            said, _ = self.run.communicate(timeout=seconds)
        except subprocess.TimeoutExpired:
            self.run.kill()
            said, _ = self.run.communicate()
            return Answer(None, f"not over after {seconds} s; {last_line(said)}")
        finally:
            self.server.end()
        return Answer(self.run.returncode, last_line(said))


def last_line(text: str) -> str:
    return (text.splitlines() or [""])[-1]
