"""Makes the histories, or finds those that were made before. Each is a file NAME.hist of one folder."""
import functools
import pathlib
import subprocess
import sys
import tempfile
from queue import SimpleQueue
from typing import Callable

from differ.histories import CALL, CRASH, REPLY, read_file
from differ.layouts import MODIFYING
from wrong.nights import Crash, Night

BENCH = pathlib.Path(__file__).parents[1]
# A kill three seconds after each round began, so that calls are open.
OVER_CRASHES = {"rounds": 2, "seconds": 6, "calls": 20_000}
KILLS = [Crash(after=3)] * OVER_CRASHES["rounds"]
PRIVATE = {"mix": "private", "clients": 8, "calls": 6_250}
PATIENCE = 600
# Of so many times the nights that are wanted seeds are tried.
MOST_TRIES = 3


@functools.cache
def open_changes(history: pathlib.Path) -> list[int]:
    """For each crash how many calls that change the tree had no reply when it came."""
    _, events = read_file(history.read_bytes())
    counts, waiting = [], set()
    for kind, lane, message in events:
        if kind == CRASH:
            counts.append(len(waiting))
            waiting.clear()
        elif kind == CALL and int.from_bytes(message[20:24], "big") in MODIFYING:
            waiting.add((lane, message[:4]))
        elif kind == REPLY:
            waiting.discard((lane, message[:4]))
    return counts


class Maker:
    """Makes what isn't in the folder. Nights are made by the program, several at once, each on two ports of its own."""

    def __init__(self, program: str, folder: pathlib.Path, port: int, jobs: int, seeds: int, recordings: list):
        self.program, self.folder, self.seeds, self.recordings = program, folder, seeds, recordings
        folder.mkdir(parents=True, exist_ok=True)
        self.ports = SimpleQueue()
        for job in range(jobs):
            self.ports.put(port + 2 * job)

    def kept(self, name: str) -> pathlib.Path:
        return self.folder / f"{name}.hist"

    def scratch(self):
        """Where a history is made: it gets its name only when it is whole."""
        return tempfile.TemporaryDirectory(dir=self.folder)

    # Nights

    def night(self, name: str, words_of_server: list, words: dict, kills: list) -> pathlib.Path:
        """The history of a run of `nfsbench test`; what the server said of its faults is beside it."""
        history = self.kept(name)
        if history.exists():
            return history
        port = self.ports.get()
        try:
            with self.scratch() as temporary:
                night = Night(self.program, pathlib.Path(temporary, "run"), port, words_of_server)
                night.start({"search-seconds": 1, **words}, [])
                for kill in kills:
                    night.crash(kill)
                answer = night.answer(PATIENCE)
                written = night.folder / "night" / "history"
                if not written.exists():
                    print(f"{name}: no history: {answer.line}", file=sys.stderr, flush=True)
                    return history
                night.server.said.rename(history.with_suffix(".said"))
                written.rename(history)
        finally:
            self.ports.put(port)
        return history

    def is_usable(self, history: pathlib.Path) -> bool:
        """Whether a night has two crashes, and a change that is open at each; the counts are told."""
        if not history.exists():
            return False
        counts, said = open_changes(history), history.with_suffix(".said")
        faults = said.read_text().count("fault ") if said.exists() else 0
        print(f"{history.stem}: open changes at the crashes {counts}, faults {faults}", file=sys.stderr, flush=True)
        return len(counts) == len(KILLS) and min(counts) > 0

    def over_crashes(self, kind: str, words_of_server: list, count: int) -> list[pathlib.Path]:
        """So many nights with a change open at each crash. One without is made again with the next seed."""
        found = []
        for seed in range(1, MOST_TRIES * count + 1):
            history = self.night(f"{kind}-{seed}", ["--seed", str(seed), *words_of_server], {**OVER_CRASHES, "seed": seed}, KILLS)
            found += [history] if self.is_usable(history) else []
            if len(found) == count:
                break
        return found

    def wrong_nights(self, fault: str) -> list[pathlib.Path]:
        return self.over_crashes(fault, ["--fault", fault], self.seeds)

    def right_nights(self) -> list[pathlib.Path]:
        return self.over_crashes("right", [], 2 * self.seeds)

    def private(self) -> list[pathlib.Path]:
        """A hundred thousand events of clients in directories of their own."""
        return [self.night("private", [], PRIVATE, [])]

    # Histories that a script makes

    def crowd(self, sizes: str, *wrong: str) -> list[pathlib.Path]:
        history = self.kept("-".join(["crowd", *sizes.split(), *wrong]))
        return [self.made(history, lambda folder: ("make_crowds.py", *sizes.split(), folder / history.name, *wrong))]

    def large(self, kind: str, events: int) -> list[pathlib.Path]:
        return [self.made(self.kept(f"{kind}-{events}"), lambda folder: ("make_large.py", kind, events, 1, folder))]

    def made(self, history: pathlib.Path, script: Callable[[pathlib.Path], tuple]) -> pathlib.Path:
        """What a script writes into a folder, by the words that call it."""
        if not history.exists():
            with self.scratch() as folder:
                name, *words = script(pathlib.Path(folder))
                subprocess.run([sys.executable, BENCH / name, *map(str, words)], check=True)
                pathlib.Path(folder, history.name).rename(history)
        return history
