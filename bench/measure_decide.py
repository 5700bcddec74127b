#!/usr/bin/env python3
"""Measures `nfsbench decide` on histories of which each has a bar: measure_decide.py NFSBENCH [OTHER] [--keep FOLDER] [--recordings FILE..]

The rows are nights of `nfsbench test` against `wrong_server.py`, wrong and right, each over two crashes with a change open at each; crowds, wrong and
right; a hundred thousand events of private clients, a million of mixed ones; and recordings that are named. The nights are made by NFSBENCH, without root and
without a network; with --keep the histories are taken from FOLDER, where they were made before, and are made there where they weren't.

A row has how many histories there are, the most events of one, how many changes are open at a crash at least, what was answered, the seconds by the clock
(the middle history and the one that took longest), the most memory of `decide`, and of `nfsbench check` with the certificate where there is one, in MB, and
how much memory is left of the bar: what `check` takes, once the file, and 64 MB. With OTHER both programs decide each history in turn. Behind a row that
ends in NOT MET are the histories that don't keep to its bar; the status is 1 where there is such a row.
"""
import argparse
import collections
import pathlib
import statistics
import sys
import tempfile
from concurrent.futures import ThreadPoolExecutor
from dataclasses import dataclass, field
from typing import Callable

from deciding.commands import MEBI, Run, checked, decided
from deciding.histories import Maker, open_changes
from measure_explain import first_event, word_at
from try_decisions import kind_of

YES, NO, DECIDED = {"yes"}, {"no"}, {"yes", "no"}
ROOM = 64 * MEBI
FAULTS = ["link_text_emptied", "files_swapped", "rename_forgotten", "size_lost", "lose_changes", "lose_synced_write"]


@dataclass
class Row:
    """Some histories, in how many seconds each has to be decided, and which answers are right."""
    name: str
    seconds: float
    answers: set
    histories: Callable[[Maker], list]
    flags: list = field(default_factory=list)
    # How many histories there have to be, and whether they are nights over crashes.
    wanted: Callable[[Maker], int] = lambda maker: 1
    is_night: bool = False


ROWS = [
    *(Row(f"night {fault}", 5, DECIDED, lambda maker, fault=fault: maker.wrong_nights(fault), wanted=lambda maker: maker.seeds, is_night=True)
      for fault in FAULTS),
    Row("night right", 3, YES, lambda maker: maker.right_nights(), wanted=lambda maker: 2 * maker.seeds, is_night=True),
    Row("crowd 4 8 85 4", 0.1, YES, lambda maker: maker.crowd("4 8 85 4")),
    Row("crowd 4 8 85 4 wrong", 0.1, NO, lambda maker: maker.crowd("4 8 85 4", "wrong")),
    Row("crowd 8 8 2000 11", 1, YES, lambda maker: maker.crowd("8 8 2000 11")),
    Row("crowd 8 8 2000 11 wrong", 1, NO, lambda maker: maker.crowd("8 8 2000 11", "wrong")),
    Row("crowd 16 8 2000 15", 15, YES, lambda maker: maker.crowd("16 8 2000 15"), ["--states", "100000"]),
    Row("private 100000", 1, YES, lambda maker: maker.private()),
    Row("mixed 1000000", 15, YES, lambda maker: maker.large("mixed", 1_000_000)),
    Row("recordings", 5, DECIDED, lambda maker: maker.recordings, wanted=lambda maker: len(maker.recordings)),
]


@dataclass
class Measured:
    """A history with what `decide` said of it, and what `check` took with the certificate, if there is one."""
    history: pathlib.Path
    decision: Run
    check: Run = None

    @property
    def spare(self):
        """How many bytes are left of the bar, or None where there is no certificate."""
        return self.check and self.check.peak + self.history.stat().st_size + ROOM - self.decision.peak


def measure(program: str, history: pathlib.Path, flags: list, runs: int, folder: pathlib.Path) -> Measured:
    """The fastest of some runs."""
    certificate = folder / "certificate"
    certificate.unlink(missing_ok=True)
    decision = min((decided(program, history, certificate, flags) for _ in range(runs)), key=lambda run: run.seconds)
    return Measured(history, decision, checked(program, history, certificate) if decision.line == "yes" else None)


def misses(row: Row, one: Measured) -> list[str]:
    """What of a history isn't as its row's bar says."""
    missed, line = [], one.decision.line
    if kind_of(line) not in row.answers:
        missed.append(line)
    if one.decision.seconds > row.seconds:
        missed.append(f"{one.decision.seconds:.2f} s")
    if one.check and one.check.line != "yes":
        missed.append(f"check says {one.check.line}")
    if one.check and one.spare < 0:
        missed.append(f"{-one.spare / MEBI:.1f} MB too much")
    return missed


def answers_of(measured: list) -> str:
    counts = collections.Counter(kind_of(one.decision.line) for one in measured)
    whys = collections.Counter(one.decision.line.partition(": ")[2].rstrip("0123456789 ") for one in measured if kind_of(one.decision.line) == "undecided")
    told = [f"{kind} {count}" for kind, count in sorted(counts.items())] + [f"({why} {count})" for why, count in whys.items()]
    return " ".join(told)


def events_of(history: pathlib.Path) -> int:
    data = history.read_bytes()
    return word_at(data, first_event(data))


def cells(name: str, measured: list, row: Row) -> list:
    """The row in words, but for its end."""
    histories, seconds = [one.history for one in measured], [one.decision.seconds for one in measured]
    checks, least_open = [one for one in measured if one.check], min(min(open_changes(it)) for it in histories) if row.is_night else ""
    memory = [f"{max(one.decision.peak for one in measured) / MEBI:.0f}"]
    memory += [f"{max(one.check.peak for one in checks) / MEBI:.0f}", f"{min(one.spare for one in checks) / MEBI:.0f}"] if checks else ["", ""]
    times = [f"{statistics.median(seconds):.3f}", f"{max(seconds):.3f}", f"{row.seconds:g}"]
    return [name, len(measured), max(map(events_of, histories)), least_open, *times, *memory]


HEAD = ["row", "count", "events", "open", "middle", "most", "bar", "MB", "check", "spare"]


def laid_out(words: list) -> str:
    return f"{words[0]:36}" + "".join(f"{word:>8}" for word in words[1:])


def tell(name: str, row: Row, measured: list, wanted: int) -> bool:
    """Prints a row. Says whether its bar is met."""
    missing = [(one, misses(row, one)) for one in measured]
    is_met = len(measured) == wanted and not any(missed for _, missed in missing)
    print(f"{laid_out(cells(name, measured, row))}  {'met' if is_met else 'NOT MET'}  {answers_of(measured)}", flush=True)
    if len(measured) < wanted:
        print(f"  {len(measured)} histories of {wanted}", flush=True)
    for one, missed in missing:
        if missed:
            print(f"  {one.history}: {', '.join(missed)}", flush=True)
    return is_met


def is_row_met(row: Row, maker: Maker, histories: list, programs: list, runs: int) -> bool:
    """Measures and prints a row for each program."""
    if not histories:
        print(f"{row.name:36}  NOT MET  no history", flush=True)
        return False
    measured = {name: [] for name in (row.name, f"{row.name} (other)")[:len(programs)]}
    with tempfile.TemporaryDirectory() as folder:
        for history in histories:
            for name, program in zip(measured, programs):
                measured[name].append(measure(program, history, row.flags, runs, pathlib.Path(folder)))
    return all([tell(name, row, of_program, row.wanted(maker)) for name, of_program in measured.items()])


def main() -> int:
    parser = argparse.ArgumentParser(description=__doc__, formatter_class=argparse.RawDescriptionHelpFormatter)
    parser.add_argument("program", metavar="NFSBENCH")
    parser.add_argument("other", metavar="OTHER", nargs="?")
    parser.add_argument("--keep", type=pathlib.Path, metavar="FOLDER", help="makes the histories in this folder, or takes them from it")
    parser.add_argument("--recordings", type=pathlib.Path, metavar="FILE", nargs="+", default=[], help="histories that are decided too")
    parser.add_argument("--seeds", type=int, default=10, metavar="N", help="nights of each fault, and half of those of the right server (%(default)s)")
    parser.add_argument("--runs", type=int, default=1, metavar="N", help="how often each history is decided; the fastest counts (%(default)s)")
    parser.add_argument("--jobs", type=int, default=4, metavar="N", help="how many histories are made at once (%(default)s)")
    parser.add_argument("--port", type=int, default=29700, help="the first of two ports for each job (%(default)s)")
    parser.add_argument("--only", metavar="TEXT", default="", help="the rows with this text in their names alone")
    words = parser.parse_args()
    programs = [str(pathlib.Path(program).resolve()) for program in (words.program, words.other) if program]
    rows = [row for row in ROWS if words.only in row.name and (row.name != "recordings" or words.recordings)]
    with tempfile.TemporaryDirectory() as temporary:
        maker = Maker(programs[0], words.keep or pathlib.Path(temporary), words.port, words.jobs, words.seeds, words.recordings)
        with ThreadPoolExecutor(words.jobs) as pool:
            histories = list(pool.map(lambda row: row.histories(maker), rows))
        print(laid_out(HEAD) + "  answers")
        are_met = [is_row_met(row, maker, found, programs, words.runs) for row, found in zip(rows, histories)]
    return 0 if all(are_met) else 1


if __name__ == "__main__":
    sys.exit(main())
