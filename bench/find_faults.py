#!/usr/bin/env python3
"""Looks for the faults of `wrong_server.py` by `nfsbench test`: find_faults.py NFSBENCH [--jobs N] [--seeds N] [--right N] [--port N] [NAME..]

With each fault that can be found, or those that are named, the server is tried with one seed after the other, at most --seeds of them, until a run ends
with status 1. A fault of crashes is tried over two crashes, one of attributes under --strict. The right server is tried with --right seeds: half of them
take its freedoms, half crash twice. No such run may end with status 1. It prints a line for each, with the number of seeds and the last line that
found it, and ends with status 1 where a fault wasn't found or the right server was blamed.
"""
import argparse
import pathlib
import shutil
import sys
import tempfile
import traceback
from concurrent.futures import ThreadPoolExecutor, as_completed
from queue import SimpleQueue

from wrong import crash_faults
from wrong.faults import NEVER, STRICT, all_faults
from wrong.nights import Answer, Crash, Night

CLIENTS, CALLS, OFTEN, FREE, ROUNDS = 4, 500, 10, 10, 2
MIXES = ["private", "shared", "race", "turns"]
PATIENCE = 300
RED = 1


class Trials:
    """Runs, several at once, each on two ports of its own."""

    def __init__(self, words, folder: pathlib.Path):
        self.words, self.folder = words, folder
        self.ports = SimpleQueue()
        for job in range(words.jobs):
            self.ports.put(words.port + 2 * job)

    def answer(self, name: str, seed: int, rounds: int, words_of_server: list[str], flags: list[str]) -> tuple[Answer, int]:
        """How a run ended, and how often the fault happened."""
        folder, port = self.folder / f"{name} {seed}", self.ports.get()
        try:
            night = Night(self.words.program, folder, port, ["--seed", str(seed), *words_of_server])
            night.start({"seed": seed, "clients": CLIENTS, "calls": CALLS, "rounds": rounds, "depth": 1 + seed % 2,
                         "mix": MIXES[seed % len(MIXES)], "reply-seconds": 30}, flags)
            for crash in range(rounds):
                night.crash(Crash(after=1 + 0.2 * ((seed + crash) % 7)))
            answer = night.answer(PATIENCE)
            return answer, night.server.times()
        except Exception:
            traceback.print_exc()
            return Answer(None, "the trial itself failed"), 0
        finally:
            self.ports.put(port)
            if not self.words.keep:
                shutil.rmtree(folder, ignore_errors=True)

    def look_for(self, name: str, kind) -> tuple[bool, str]:
        """Whether the fault is found, or is one that can't be, and a line about it."""
        rounds, flags = ROUNDS if kind in crash_faults.KINDS else 0, ["--strict"] if kind.seen in (STRICT, NEVER) else []
        happened, others = 0, {}
        for seed in range(1, self.words.seeds + 1):
            answer, times = self.answer(name, seed, rounds, ["--fault", name, "--often", str(OFTEN)], flags)
            happened += times
            if answer.status == RED:
                return kind.seen != NEVER, f"{name:22} {seed:3} seeds, happened {happened:4} times: {answer.line}"
            others[answer.line] = others.get(answer.line, 0) + 1
        told = "; ".join(f"{count} x {line}" for line, count in others.items())
        return kind.seen == NEVER, f"{name:22} {self.words.seeds:3} seeds, happened {happened:4} times: not found ({told})"

    def try_right(self, seed: int) -> tuple[Answer, str]:
        is_free = seed % 2 == 0
        words = ["--free", str(FREE)] if is_free else []
        answer, _ = self.answer("right", seed, 0 if is_free else ROUNDS, words, ["--strict"] if seed % 4 > 1 else [])
        return answer, f"the right server, seed {seed}, {'free' if is_free else 'with crashes'}: {answer.line} ({answer.status})"


def are_all_found(trials: Trials, names: list[str], faults: dict, pool: ThreadPoolExecutor) -> bool:
    is_good = True
    for trial in as_completed([pool.submit(trials.look_for, name, faults[name]) for name in names]):
        is_right, line = trial.result()
        print(line if is_right else f"{line}  <-- WRONG", flush=True)
        is_good = is_good and is_right
    return is_good


def is_right_believed(trials: Trials, count: int, pool: ThreadPoolExecutor) -> bool:
    statuses = {}
    for answer, line in pool.map(trials.try_right, range(1, count + 1)):
        statuses[answer.status] = statuses.get(answer.status, 0) + 1
        if answer.status != 0:
            print(line, flush=True)
    print(f"the right server: {statuses.get(0, 0)} of {count} yes, {statuses.get(2, 0)} undecided or refused, {statuses.get(RED, 0)} blamed", flush=True)
    return all(status in (0, 2) for status in statuses)


def main() -> None:
    faults = all_faults()
    parser = argparse.ArgumentParser(description=__doc__, formatter_class=argparse.RawDescriptionHelpFormatter)
    parser.add_argument("program", metavar="NFSBENCH")
    parser.add_argument("--jobs", type=int, default=4, help="how many runs at once (%(default)s)")
    parser.add_argument("--seeds", type=int, default=20, help="how many seeds a fault has at most (%(default)s)")
    parser.add_argument("--right", type=int, default=200, help="how many seeds the right server has (%(default)s)")
    parser.add_argument("--port", type=int, default=29600, help="the first of two ports for each job (%(default)s)")
    parser.add_argument("--keep", type=pathlib.Path, metavar="FOLDER", help="keeps what each run wrote in a new folder")
    parser.add_argument("names", nargs="*", metavar="NAME", choices=[[], *faults])
    words = parser.parse_intermixed_args()
    with tempfile.TemporaryDirectory() as temporary, ThreadPoolExecutor(words.jobs) as pool:
        trials = Trials(words, words.keep or pathlib.Path(temporary))
        is_found = are_all_found(trials, words.names or list(faults), faults, pool)
        is_believed = words.right == 0 or is_right_believed(trials, words.right, pool)
    sys.exit(0 if is_found and is_believed else 1)


main()
