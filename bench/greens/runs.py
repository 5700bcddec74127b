"""Runs of commands, and what a trial gets for them."""
import os
import pathlib
import shutil
import signal
import subprocess
import sys
from dataclasses import dataclass

BENCH = pathlib.Path(__file__).resolve().parents[1]
PATIENCE = 400


@dataclass
class Answer:
    """How a command ended: its status, or None where it had to be killed, and what it printed and said."""
    status: int
    out: str = ""
    err: str = ""

    def printed(self) -> str:
        out, err = ("; ".join(text.split("\n")[-3:]).strip("; ") for text in (self.out.strip(), self.err.strip()))
        return f"{self.status}: {out}" + (f" ({err})" if err else "")


class Setting:
    """What a row gets: the program, a folder of its own, free ports, and what is to be ended behind it."""

    def __init__(self, program: str, folder: pathlib.Path, port: int, seed: int):
        self.program, self.folder, self.port, self.seed = program, folder, port, seed
        self.ends = []
        folder.mkdir(parents=True)

    def end(self) -> None:
        for end in reversed(self.ends):
            try:
                end()
            except (OSError, ValueError, subprocess.SubprocessError):
                pass

    def run(self, *line, seconds: float = PATIENCE, **named) -> Answer:
        """A command of the program."""
        return run_line([self.program, *map(str, line)], seconds, **named)

    def shell(self, line: str, seconds: float = PATIENCE) -> Answer:
        """A line of a shell, in which $N is the program and $D the folder."""
        return run_line(["sh", "-c", line], seconds, env={**os.environ, "N": self.program, "D": str(self.folder)})

    def disk(self, size: str = "16k") -> pathlib.Path:
        """A file system of this size."""
        disk = self.folder / "disk"
        disk.mkdir()
        subprocess.run(["mount", "-t", "tmpfs", "-o", f"size={size}", "tmpfs", disk], check=True)
        self.ends.append(lambda: subprocess.run(["umount", "-l", disk], check=True))
        return disk

    def wrapped(self, before: str, behind: str = "") -> str:
        """The program with words of a shell before it and behind it."""
        path = self.folder / "wrapped"
        path.write_text(f'#!/bin/sh\n{before} exec "{self.program}" "$@" {behind}\n')
        path.chmod(0o755)
        return str(path)

    def history(self, events: int = 6_000) -> pathlib.Path:
        """A history that has a certificate, both in the folder. It is made once."""
        made = self.folder.parent / f"made {events}"
        if not made.exists():
            made.mkdir()
            subprocess.run([sys.executable, BENCH / "make_history.py", str(events), "replayed", made], check=True, stdout=subprocess.DEVNULL)
        for name in "history", "certificate":
            shutil.copy(made / name, self.folder / name)
        return self.folder / "history"

    def reported(self, history: pathlib.Path, certificate: str, before: Answer) -> Answer:
        """What `report` says of a history with this certificate, behind what was said before."""
        path = self.folder / "certificate"
        path.write_text(certificate)
        told = self.run("report", history, path)
        numbers = ", ".join(line for line in told.out.splitlines() if not line.startswith(("unjudged", "excused", "lost")))
        return Answer(told.status, before.out + numbers, before.err + told.err)


def run_line(line: list, seconds: float, **named) -> Answer:
    """Runs a command in a group of its own, of which nothing outlives the call."""
    child = subprocess.Popen(line, stdin=subprocess.DEVNULL, stdout=subprocess.PIPE, stderr=subprocess.PIPE, text=True, errors="replace",
                             start_new_session=True, **named)
    try:
        out, err = child.communicate(timeout=seconds)
    except subprocess.TimeoutExpired:
        return Answer(None, f"not over after {seconds} s")
    finally:
        end_group(child)
    return Answer(child.returncode, out, err)


def end_group(child: subprocess.Popen) -> None:
    try:
        os.killpg(child.pid, signal.SIGKILL)
    except ProcessLookupError:
        pass
    child.wait()
