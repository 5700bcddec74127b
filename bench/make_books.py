#!/usr/bin/env python3
"""Writes commands for crates/server_cases, and what it has to answer: make_books.py FOLDER [COMMANDS [SEED]].

First come books whose commands and answers were written by hand. The other commands are drawn at random, and a model of a
book, written apart from the crates' code, says what each is answered. FOLDER gets `stdin` with a command a line, and `stdout`
with an answer a line. COMMANDS is about how many are drawn, 100,000 if it is left out. How often each refusal was reached by
those is printed; the status is 1 where one never was.

Six long books have ten eras each, and many short ones a few. In all of them calls of all kinds run side by side on
several lanes, records are lost in crashes, devices fail, and replies are tried that no server may give. About half of them
begin with up to twelve objects, and about half are strict: there replies carry attributes, and some have a wrong type or size.
"""
import pathlib
import random
import sys

from books.book import DEAD, RUNNING
from books.calls import Calls
from books.large import run_large_book
from books.named import named_lines
from books.report import print_report
from books.run import Run
from books.starts import Opening, drawn_opening, drawn_start
from books.wrong import ALL_KINDS, kinds_of

LONG_BOOKS, LONG_ERAS = 6, 10
# Of the long books every second one is strict, and these begin with objects.
STARTED = (0, 1, 3)
ARMED_BOOKS = 4
# A run of at least so many commands has a book of long messages, which cost an unoptimized program some forty seconds.
LARGE_FROM = 50_000
# Of the commands this part goes to short books.
SHORT_PART = 0.2


def try_kind(run: Run) -> None:
    """A reply that is refused, most often of a kind that wasn't tried yet."""
    kinds = kinds_of(run.book)
    missing = [kind for kind in kinds if not run.wrong[kind]]
    if run.book.condition == RUNNING:
        run.try_wrong(run.dice.choice(missing if missing and run.calls.chance(90) else kinds))


def run_long_book(run: Run, commands: int, opening: Opening) -> None:
    """A book whose eras end in crashes, most of them behind a reply that is refused or a fault of the device."""
    appends = commands // 8
    faults = [run.dice.randrange(1, appends + 2), run.dice.randrange(1, appends // 2 + 2), LONG_ERAS + 1]
    run.new_book(tuple(faults), opening)
    for _ in range(LONG_ERAS):
        run.run_era(commands // LONG_ERAS // 2)
        if run.calls.chance(30):
            run.look()
        run.run_era(commands // LONG_ERAS // 2)
        if run.calls.chance(60):
            try_kind(run)
        run.end_era()
    run.run_era(20)
    run.end_era()
    run.end_book()


def run_armed_book(run: Run) -> None:
    """A book whose device fails at its first record, behind a reply that is refused."""
    run.new_book((1, 0, 0), drawn_opening(run.dice))
    run.try_fault()
    run.end_era()
    run.end_book()


def run_short_book(run: Run) -> None:
    """A book of a few commands, with one reply or two that are refused."""
    faults = [run.dice.choice((0, run.dice.randrange(1, 30))) for _ in range(2)]
    run.new_book((*faults, run.dice.choice((0, 0, 1, 2))), drawn_opening(run.dice))
    for _ in range(run.dice.randrange(1, 4)):
        run.run_era(run.dice.randrange(10, 90))
        try_kind(run)
        run.end_era()
        if run.book.condition == DEAD:
            break
    run.end_book()


def make(commands: int, seed: int) -> Run:
    run = Run(Calls(random.Random(seed)))
    for line, answer in named_lines():
        run.say(line, answer)
    for at in range(LONG_BOOKS):
        opening = Opening(drawn_start(run.dice) if at in STARTED else (), at % 2 == 1)
        run_long_book(run, int(commands * (1 - SHORT_PART)) // LONG_BOOKS, opening)
    if commands >= LARGE_FROM:
        run_large_book(run)
    for _ in range(ARMED_BOOKS):
        run_armed_book(run)
    for _ in range(commands):
        if len(run.given) >= commands and all(run.wrong[kind] for kind in ALL_KINDS):
            break
        run_short_book(run)
    return run


def main() -> int:
    folder = pathlib.Path(sys.argv[1])
    commands = int(sys.argv[2]) if len(sys.argv) > 2 else 100_000
    run = make(commands, int(sys.argv[3]) if len(sys.argv) > 3 else 1)
    (folder / "stdin").write_text("\n".join(run.given) + "\n")
    (folder / "stdout").write_text("\n".join(run.wanted) + "\n")
    return print_report(run)


if __name__ == "__main__":
    sys.exit(main())
