#!/usr/bin/env python3
"""Tries `wrong_server.py` through `nfsbench tap` and `nfsbench decide`: try_wrong_server.py NFSBENCH [--right N] [--tries N] [--port N] [NAME..]

The right server is recorded N times with clients at once, half of the times over crashes, and half of the times taking its freedoms; `decide` has to say
`yes`, also under the strict profile. With each fault, or those that are named, the server is recorded until the fault is found, at most --tries times: by
`no witness`, by the recorder's complaint, or by a client that gets no answer. It prints a line for each, and ends with status 1 where the right server was
blamed, or a fault that can be found wasn't.
"""
import argparse
import pathlib
import tempfile

from wrong import crash_faults
from wrong.faults import HEALTH, NEVER, STRICT, all_faults
from wrong.sample import MIXES
from wrong.trial import Trial

CLIENTS, CALLS, OFTEN = 3, 100, 10
FREEDOMS = [[], ["--free", "10"]]


def record(program: str, folder: pathlib.Path, port: int, seed: int, crashes: int, more: list[str]) -> Trial:
    """A recording of some clients at once, with crashes under them."""
    folder.mkdir()
    trial = Trial(program, folder, port, ["--seed", str(seed), *more])
    trial.add_clients(2 + seed % CLIENTS, seed, MIXES[seed % len(MIXES)])
    for crash in range(crashes):
        trial.run(CALLS, seconds=0.05 + 0.02 * ((seed + crash) % 7))
    trial.run(CALLS)
    trial.end()
    return trial


def is_right_blamed(words, folder: pathlib.Path) -> bool:
    answers, crashes, lost = [], 0, 0
    for seed in range(words.right):
        turn = seed // len(MIXES)
        trial = record(words.program, folder / f"right {seed}", words.port, seed, turn % 2 * (1 + seed % 3), FREEDOMS[turn // 2 % 2])
        for is_strict in False, True:
            answers.append(trial.decided(is_strict))
            if answers[-1] != "yes":
                print(f"the right server, seed {seed}{', strict' * is_strict}: {answers[-1]}", flush=True)
        answers += trial.complaints + trial.recorder_complaints()
        crashes, lost = crashes + trial.crashes, lost + trial.server.lost()
    print(f"the right server: {answers.count('yes')} of {len(answers)} yes; {crashes} crashes lost {lost} changes", flush=True)
    return any(answer != "yes" and not answer.startswith("undecided") for answer in answers)


def found(trial: Trial, kind) -> str:
    """How the fault was found, or nothing."""
    answer = trial.decided(kind.seen in (STRICT, NEVER))
    if kind.seen == HEALTH:
        refusals = [answer] if answer.startswith("refused") else []
        return ", ".join([*refusals, *trial.recorder_complaints(), *sorted(set(trial.complaints))])
    return answer if answer.startswith("no witness") else ""


def look_for(words, folder: pathlib.Path, name: str, kind) -> bool:
    """Whether all is as it should be: the fault is found, or it is one that can't be."""
    crashes, times = 2 if kind in crash_faults.KINDS else 0, 0
    for seed in range(words.tries):
        trial = record(words.program, folder / f"{name} {seed}", words.port, seed, crashes, ["--fault", name, "--often", str(OFTEN)])
        times += trial.server.times()
        how = found(trial, kind)
        if how:
            print(f"{name:22} {seed + 1:2} recordings, happened {times:3} times: {how}", flush=True)
            return kind.seen != NEVER
    print(f"{name:22} {words.tries:2} recordings, happened {times:3} times: not found", flush=True)
    return kind.seen == NEVER


def main() -> None:
    faults = all_faults()
    parser = argparse.ArgumentParser(description=__doc__, formatter_class=argparse.RawDescriptionHelpFormatter)
    parser.add_argument("program", metavar="NFSBENCH")
    parser.add_argument("--right", type=int, default=48)
    parser.add_argument("--tries", type=int, default=15)
    parser.add_argument("--port", type=int, default=29480, help="the first of three ports")
    parser.add_argument("names", nargs="*", metavar="NAME")
    words = parser.parse_intermixed_args()
    with tempfile.TemporaryDirectory() as temporary:
        folder = pathlib.Path(temporary)
        is_good = not is_right_blamed(words, folder)
        for name in words.names or faults:
            is_good = look_for(words, folder, name, faults[name]) and is_good
    raise SystemExit(0 if is_good else 1)


main()
