#!/usr/bin/env python3
"""Has threads call journal servers at random, and wants each to explain what it did: soak.py PROGRAM [SERVERS|SECONDSs].

PROGRAM is crates/server_cases, built: by `rt run` in its folder, or unproved by build_unproved.py. SERVERS is how many are made, 12 if it
is left out; 60s goes on for a minute. Each server begins as its number says: each second one's device may fail, two of three hold up to
twelve objects at first, two of four are strict. Eight threads call it, 200 times by each, and one crashes it every few milliseconds.
Prints how much was done, or what went wrong, with status 1. The stored run of server_cases has the first four servers.
"""
import collections
import random
import subprocess
import sys
import time

from books.starts import Opening, drawn_start

# The last of these calls of a device fails at most: a record, a barrier, a recovery.
MOST = (300, 200, 40)
# How many servers one run of the program makes.
ROUND = 12
FIGURES = ("servers", "from starts", "strict", "calls", "recorded", "answered", "crashes", "overlapped")


def soak_command(seed: int) -> str:
    """The command that makes the server with this number."""
    dice = random.Random(seed)
    faults = [0, 0, 0]
    if seed % 2 == 1:
        faults = [dice.choice((0, 0, dice.randrange(1, most))) for most in MOST]
    start = drawn_start(dice) or drawn_start(dice) if seed % 3 else ()
    opening = Opening(start, seed // 2 % 2 == 1)
    return f"soak {faults[0]} {faults[1]} {faults[2]} {seed}{opening.spelled()}"


def run(program: str, seeds: range) -> tuple[str, list[int]]:
    """What went wrong, and the figures."""
    commands = [soak_command(seed) for seed in seeds] + ["figures"]
    told = subprocess.run([program], input="\n\n".join(commands) + "\n", capture_output=True, text=True, check=True).stdout.splitlines()
    wrong = [f"{command}: {answer}" for command, answer in zip(commands, told[:-1]) if answer != "ok"]
    return "\n".join(wrong), [int(word) for word in told[-1].split()]


def main() -> int:
    program = sys.argv[1]
    span = sys.argv[2] if len(sys.argv) > 2 else "12"
    seconds = int(span[:-1]) if span.endswith("s") else None
    servers = sys.maxsize if seconds is not None else int(span)
    begun, seed, sums = time.monotonic(), 0, collections.Counter()
    while seed < servers and (seconds is None or time.monotonic() - begun < seconds):
        seeds = range(seed, min(seed + ROUND, servers))
        wrong, figures = run(program, seeds)
        if wrong:
            print(wrong)
            return 1
        sums.update(dict(zip(FIGURES, figures)))
        seed = seeds.stop
    print(", ".join(f"{name} {sums[name]}" for name in FIGURES))
    return 0


if __name__ == "__main__":
    sys.exit(main())
