#!/usr/bin/env python3
"""Writes commands for crates/server_cases, and what it has to answer: make_servers.py FOLDER [COMMANDS [SEED]].

A model of a journal server, written apart from the crates' code, says what each command is answered. FOLDER gets `stdin` with
a command a line, and `stdout` with an answer a line. First come servers whose commands try one rule each in every way, some of
them once more where objects stand at first or the server is strict, then some whose commands are drawn at random, so many in
all as COMMANDS says, 6,300 if it is left out, and at the end some whose replies are written by hand (`servers/by_hand.py`). How often each answer was
reached is printed; the status is 1 where one never was.
"""
import pathlib
import sys

from books.starts import Opening, drawn_opening
from servers.by_hand import run_by_hand
from servers.named import CASES, LAST_CASES, run_large, run_openings, run_other_openings
from servers.report import print_report
from servers.run import Run

# Of the servers that are drawn, those whose device fails somewhere, in percent.
FAULTY = 40
# The longest file of a start.
LONG_FILE = 40_000
# A run of at least so many commands has a server of long messages, which cost an unoptimized program a minute.
LARGE_FROM = 20_000


def run_drawn(run: Run) -> None:
    """A server of a few eras, often over a device that fails."""
    faults = (0, 0, 0)
    if run.calls.chance(FAULTY):
        faults = tuple(run.dice.choice((0, run.dice.randrange(1, 40))) for _ in range(2))
        faults = (*faults, run.dice.choice((0, 0, 1, 2)))
    run.opening = drawn_opening(run.dice, LONG_FILE)
    run.new_server(faults, lanes=2)
    for _ in range(run.dice.randrange(1, 5)):
        run.run_era(run.dice.randrange(10, 120))
        run.end_era()
        if run.server.is_dead():
            break
    run.run_era(run.dice.randrange(20))
    run.end_server()


def make(commands: int, seed: int) -> Run:
    run = Run(seed)
    for case in CASES:
        case(run)
    run_openings(run)
    while run.commands() < commands:
        run_drawn(run)
    run.opening = Opening()
    for case in (*LAST_CASES, run_by_hand):
        case(run)
    if commands >= LARGE_FROM:
        run_other_openings(run)
        run_large(run)
    return run


def main() -> int:
    folder = pathlib.Path(sys.argv[1])
    commands = int(sys.argv[2]) if len(sys.argv) > 2 else 6_300
    run = make(commands, int(sys.argv[3]) if len(sys.argv) > 3 else 1)
    (folder / "stdin").write_text(run.stdin())
    (folder / "stdout").write_text(run.stdout())
    return print_report(run)


if __name__ == "__main__":
    sys.exit(main())
