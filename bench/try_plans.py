#!/usr/bin/env python3
"""Runs random plans over the bundled server: try_plans.py PROGRAM [COUNT [SEED]].

Each plan has a few clients that ask for all kinds of operations on a few names, up to six parts with crashes between them, and often a device that
fails once at a record or a barrier. In some parts nothing is put on stable storage, so that a crash takes it away. `PROGRAM run` has to say `yes` to each. COUNT is 100 and SEED 1 if they are left out. What came of all plans
together is printed; the status is 1 where one didn't end in `yes`, and that plan is printed.
"""
import pathlib
import random
import subprocess
import sys
import tempfile

NAMES = ["a", "b", "c", "d0"]
COUNTED = ["eras", "calls", "answered", "lost"]


def draw_operation(dice: random.Random, is_lazy: bool) -> str:
    name, other = dice.choice(NAMES), dice.choice(NAMES)
    text = "".join(dice.choices("abcxyz0189", k=dice.choice([1, 2, 7, 64])))
    if is_lazy:
        return dice.choice([f"write {name} {dice.randrange(20)} {text} U", f"read {name} 0 100"])
    return dice.choice([
        f"create {name}",
        f"mkdir {name}",
        f"remove {name}",
        f"lookup {name}",
        f"rename {name} {other}",
        f"write {name} {dice.choice([0, 1, 5, 1000, 16777215])} {text} {dice.choice('UUDF')}",
        f"read {name} {dice.choice([0, 3, 18446744073709551615])} {dice.choice([0, 4, 4294967295])}",
        f"commit {name}",
    ])


def draw_plan(dice: random.Random) -> str:
    lines = ["plan 1"]
    for call in ("append", "barrier"):
        if dice.random() < 0.4:
            lines.append(f"fault {call} {dice.randrange(1, 30)}")
    lines += [f"lane 1 create {name}" for name in NAMES] + ["go"]
    for _ in range(dice.randrange(1, 7)):
        lanes = dice.sample(range(1, 65), dice.randrange(1, 9))
        is_lazy = dice.random() < 0.4
        lines += [f"lane {dice.choice(lanes)} {draw_operation(dice, is_lazy)}" for _ in range(dice.randrange(1, 40))]
        lines.append("go")
        lines += [f"crash {dice.choice([0, 1, 2, 5, 1000])}" for _ in range(dice.choice([0, 1, 1, 1, 2]))]
    return "\n".join([*lines, "end"]) + "\n"


def main() -> int:
    if len(sys.argv) < 2:
        print(__doc__)
        return 2
    program = str(pathlib.Path(sys.argv[1]).resolve())
    count, seed = [int(word) for word in sys.argv[2:]] + [100, 1][len(sys.argv) - 2:]
    dice, sums = random.Random(seed), dict.fromkeys(COUNTED, 0)
    with tempfile.TemporaryDirectory() as folder:
        for number in range(1, count + 1):
            plan = draw_plan(dice)
            (pathlib.Path(folder) / "plan").write_text(plan)
            ran = subprocess.run([program, "run", "plan", "history", "certificate"], cwd=folder, capture_output=True, text=True, timeout=60)
            lines = ran.stdout.split("\n")
            if ran.returncode or lines[-2:] != ["yes", ""] or [line.split(" ")[0] for line in lines[:-2]] != COUNTED:
                print(f"plan {number} of seed {seed}, status {ran.returncode}:\n{ran.stdout}{plan}", end="")
                return 1
            for line in lines[:-2]:
                sums[line.split(" ")[0]] += int(line.split(" ")[1])
    print(f"plans {count}, each yes:", ", ".join(f"{word} {sums[word]}" for word in COUNTED))
    return 0


if __name__ == "__main__":
    sys.exit(main())
