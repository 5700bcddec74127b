"""What a command prints, how long it takes by the clock, and its peak of memory."""
import pathlib
import subprocess
import sys
from typing import NamedTuple

# Seconds after which a command is ended.
PATIENCE = 600
MEBI = 1 << 20

# Runs a command, and prints its seconds, its peak of memory in KiB and its status. A process of its own, since the peak that the system tells of a child
# begins with what its parent had: here some 6 MB. An alarm outlives exec.
ONCE = """
import os, signal, sys, time
start = time.perf_counter()
child = os.fork()
if child == 0:
    signal.alarm(int(sys.argv[1]))
    os.execv(sys.argv[2], sys.argv[2:])
_, status, used = os.wait4(child, 0)
print(time.perf_counter() - start, used.ru_maxrss, os.waitstatus_to_exitcode(status))
"""


class Run(NamedTuple):
    line: str
    seconds: float
    peak: int


def run(words: list) -> Run:
    """The first line of a command, its seconds, and its peak of memory in bytes."""
    line = [sys.executable, "-I", "-S", "-c", ONCE, str(PATIENCE), *(str(word) for word in words)]
    *printed, last = subprocess.run(line, stdout=subprocess.PIPE, stderr=subprocess.DEVNULL, text=True).stdout.splitlines()
    seconds, peak, status = last.split()
    said = printed[0] if printed else f"status {status}"
    return Run(said, float(seconds), int(peak) * 1024)


def decided(program: str, history: pathlib.Path, certificate: pathlib.Path, flags: list) -> Run:
    return run([program, "decide", history, "--certificate", certificate, *flags])


def checked(program: str, history: pathlib.Path, certificate: pathlib.Path) -> Run:
    return run([program, "check", history, certificate])
