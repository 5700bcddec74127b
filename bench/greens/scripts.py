"""Rows that another script of `bench` tries."""
import os
import re
import sys

from .runs import BENCH, Answer, Setting, run_line
from .table import Row

LONG = 1800


def script(name: str, *given):
    """A trial by another script of `bench`: it is red where all is as that script wants it."""
    def trial(setting: Setting) -> Answer:
        line = [sys.executable, BENCH / name, setting.program, *map(str, given)]
        ran = run_line(line, LONG, cwd=BENCH, env={**os.environ, "PYTHONDONTWRITEBYTECODE": "1"})
        lines = [line for line in ran.out.splitlines() if line and not re.match(r"\d+ of \d+ as wanted|the right server", line)]
        assert ran.status == 0, " / ".join([*lines, ran.err])
        return Answer(1, " / ".join(lines))
    return trial


def theirs(name: str, wrong: str, command: str, file: str, *given) -> Row:
    return Row(name, wrong, f"{command}, by {file}", script(file, *given))
