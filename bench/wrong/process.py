"""A wrong or right server as a process of its own, which obeys orders."""
import atexit
import pathlib
import subprocess
import sys
import time

SERVER = pathlib.Path(__file__).parents[1] / "wrong_server.py"


def soon(is_so, seconds: float = 20) -> bool:
    end = time.monotonic() + seconds
    while time.monotonic() < end:
        if is_so():
            return True
        time.sleep(0.01)
    return False


def started(line: list[str], errors: pathlib.Path) -> subprocess.Popen:
    """A process that doesn't outlive this one."""
    with open(errors, "w") as file:
        process = subprocess.Popen(line, stdin=subprocess.PIPE, stdout=subprocess.PIPE, stderr=file, text=True)
    atexit.register(process.kill)
    return process


def say(process: subprocess.Popen, line: str) -> None:
    process.stdin.write(line + "\n")
    process.stdin.flush()


class ServerProcess:
    """A server on port `port`, with MOUNT on the next one. What it says of its faults is in the file `said`."""

    def __init__(self, said: pathlib.Path, port: int, words: list[str]):
        self.said, self.port = said, port
        self.process = started([sys.executable, str(SERVER), "--port", str(port), "--mount", str(port + 1), *words], said)
        self.expect("ready")

    def expect(self, line: str) -> None:
        answer = self.process.stdout.readline()
        assert answer == line + "\n", f"the server says {answer!r}, not {line}"

    def crash(self) -> None:
        say(self.process, "crash")
        self.expect("down")

    def up(self) -> None:
        say(self.process, "up")
        self.expect("up")

    def end(self) -> bool:
        """Whether it ended only now."""
        is_there = self.process.poll() is None
        if is_there:
            say(self.process, "end")
        self.process.communicate()
        return is_there

    def times(self) -> int:
        """How often the fault happened."""
        return sum(line.startswith("fault ") for line in self.said.read_text().splitlines())

    def lost(self) -> int:
        """How many changes the crashes took back."""
        return sum(int(line.split()[1]) for line in self.said.read_text().splitlines() if line.startswith("lost "))
