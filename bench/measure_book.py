#!/usr/bin/env python3
"""Measures what a journal server's book costs: measure_book.py PROGRAM [CALLS].

PROGRAM is crates/server_cases, built; CALLS is how many calls come in the longest run, 1,000,000 if it is left out. Told are
seconds of a processor, calls a second, and bytes of memory a call beside the text of the commands, which is held. All of it is
with the reading of the commands and the writing of the answers.
"""
import os
import pathlib
import subprocess
import sys
import tempfile

from books.tree import handle_of
from books.wire import COMMIT, CREATE, GETATTR, LOOKUP, READ, UNCHECKED, WRITE, arguments, result, spell

FILES, PIECE, PIECES, LANES = 1000, 64, 16, 8
UNSTABLE, FILE_SYNC = 0, 2


class Writer:
    """Writes the commands of a book whose calls all succeed."""

    def __init__(self, out):
        self.out, self.number, self.era = out, 0, 1
        # How many records the journal has, and how many are safe.
        self.records, self.safe = 0, 0
        self.waiting: list[int] = []

    def say(self, line: str) -> None:
        self.out.write(line + "\n")

    def call(self, call: dict, reply: dict, recorded: bool = False) -> None:
        """Begins and places a call."""
        self.number += 1
        lane = (self.era - 1) * LANES + self.number % LANES
        self.say(f"begin {lane} {self.number} {call['procedure']} {spell(arguments(call))}")
        reply = {"procedure": call["procedure"], "status": 0} | reply
        self.say(f"place {self.number} {call['procedure']} {spell(result(reply))}")
        self.records += recorded
        self.waiting.append(self.number)

    def answer(self) -> None:
        for number in self.waiting:
            self.say(f"answer {number}")
        self.waiting = []

    def flush(self) -> None:
        self.say("flush")
        self.safe = self.records

    def crash(self) -> None:
        """A crash that takes all that isn't safe."""
        self.say(f"crash {self.safe}")
        self.records, self.waiting = self.safe, []
        self.era += 1

    # Calls.

    def create(self) -> None:
        name = b"f%d" % (self.number + 1)
        call = {"procedure": CREATE, "handle": handle_of(0), "name": name, "mode": UNCHECKED, "size": PIECE * PIECES}
        self.call(call, {"handle": handle_of(self.number + 1)}, True)

    def write(self, turn: int, level: int) -> None:
        data = b"%016d" % self.number * (PIECE // 16)
        call = {"procedure": WRITE, "handle": file_at(turn), "offset": turn % PIECES * PIECE, "level": level, "data": data}
        self.call(call, {"count": PIECE, "level": level, "verifier": self.era}, True)

    def look(self, turn: int) -> None:
        """A GETATTR, a LOOKUP, or a READ of nothing."""
        file = file_at(turn)
        if turn % 3 == 0:
            attributes = [1, 420, 1, 0, 0, 0, PIECE * PIECES] + [0] * 14
            self.call({"procedure": GETATTR, "handle": file}, {"attributes": attributes})
        elif turn % 3 == 1:
            name = b"f%d" % int.from_bytes(file, "big")
            self.call({"procedure": LOOKUP, "handle": handle_of(0), "name": name}, {"handle": file})
        else:
            call = {"procedure": READ, "handle": file, "offset": PIECE * PIECES, "count": PIECE}
            self.call(call, {"data": b"", "eof": 1})

    def commit(self, turn: int) -> None:
        call = {"procedure": COMMIT, "handle": file_at(turn), "offset": 0, "count": 0}
        self.call(call, {"verifier": self.era})

    def turn(self, turn: int) -> None:
        """A call: half of them look, the others write; each twentieth is stable, each fortieth a COMMIT."""
        if turn % 40 == 0:
            self.commit(turn)
        elif turn % 20 == 0:
            self.write(turn, FILE_SYNC)
        elif turn % 2 == 0:
            self.write(turn, UNSTABLE)
        else:
            self.look(turn)
        if turn % 20 == 0:
            self.flush()
        self.answer()


def file_at(turn: int) -> bytes:
    return handle_of(1 + turn * 7919 % FILES)


def write_book(path: pathlib.Path, calls: int, eras: int, last: tuple[str, ...]) -> None:
    """So many calls in so many eras of one length, and these commands behind them."""
    with open(path, "w", encoding="ascii") as out:
        writer = Writer(out)
        writer.say("new 0 0 0")
        for _ in range(FILES):
            writer.create()
        writer.flush()
        writer.answer()
        left = calls - FILES
        for era in range(eras):
            for turn in range(left * era // eras, left * (era + 1) // eras):
                writer.turn(turn)
            if era + 1 < eras:
                writer.crash()
        for line in last:
            writer.say(line)


def measure(program: str, path: pathlib.Path) -> tuple[float, int, str]:
    """Seconds of a processor, the most memory in bytes, and the last line."""
    out = path.with_suffix(".out")
    with open(path, "rb") as given, open(out, "wb") as told:
        process = subprocess.Popen([program], stdin=given, stdout=told)
        _, status, usage = os.wait4(process.pid, 0)
    if status != 0:
        sys.exit(f"{program} ended with {status}")
    text = out.read_bytes().split(b"\n")
    return usage.ru_utime + usage.ru_stime, usage.ru_maxrss * 1024, text[-2].decode()


def main() -> int:
    program = sys.argv[1]
    most = int(sys.argv[2]) if len(sys.argv) > 2 else 1_000_000
    folder = pathlib.Path(tempfile.mkdtemp())
    path = folder / "commands"
    runs = [(most // 100, 1, ()), (most // 10, 1, ()), (most, 1, ()), (most, 100, ()), (most, most // 100, ()),
            (most, 1, ("certificate",)), (most, 1, ("check",)), (most, 1, ("rebuild",))]
    for calls, eras, last in runs:
        write_book(path, calls, eras, last)
        seconds, memory, told = measure(program, path)
        size = path.stat().st_size
        print(f"{calls} calls, eras: {eras}{''.join(', ' + line for line in last)}: {seconds:.2f} s, {calls / seconds:.0f} calls a second, "
              f"{(memory - size) / calls:.0f} bytes a call, {told[:40]}", flush=True)
    return 0


if __name__ == "__main__":
    sys.exit(main())
