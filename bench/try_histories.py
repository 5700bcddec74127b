#!/usr/bin/env python3
"""Tries `nfsbench check` on random histories: try_histories.py PROGRAM COUNT SEED [--keep FOLDER], or try_histories.py --examples FOLDER.

Each case is a history and a certificate: a run of a few clients at once with crashes, mostly with one or two changes that lead to answers at a
border. A second checker, in `differ/`, which is written apart from the program's code, says what has to be printed and with which status. Each
difference is printed; with --keep its files are stored in FOLDER as SEED-NUMBER.hist and .cert, beside what was wanted (.want) and what came (.got).
At the end a table says how often each answer was wanted. The status is 0 if there was no difference and each answer that histories can have was
wanted at least once, else 1. A case depends on the seed and its number alone. Some 5,000 cases reach each answer.

With --examples the second checker itself is tried on the worked examples NAME.hist, NAME.cert and NAME.want in FOLDER, of both versions of a history
file. Those of other commands, whose NAME.want isn't one line of a verdict, are left out.
"""
import argparse
import pathlib
import sys

from differ.batches import try_all
from differ.examples import try_examples


def examples(folder: str) -> int:
    agreed, differed, left_out = try_examples(folder)
    print(f"examples that agree {agreed}, that differ {differed}, left out {len(left_out)}: {' '.join(left_out)}")
    return 0 if agreed and not differed else 1


def cases(program: str, count: int, seed: str, keep) -> int:
    tally, found = try_all(str(pathlib.Path(program).resolve()), count, seed, keep)
    print("\n".join(tally.lines()))
    missed = tally.missed()
    print(f"answers that were never wanted: {', '.join(missed) if missed else 'none'}")
    print(f"cases {count}, seed {seed}, differences {found}")
    return 1 if found or missed else 0


def main() -> int:
    parser = argparse.ArgumentParser(description=__doc__.split("\n", 1)[0])
    parser.add_argument("program", nargs="?")
    parser.add_argument("count", nargs="?", type=int)
    parser.add_argument("seed", nargs="?")
    parser.add_argument("--keep", metavar="FOLDER")
    parser.add_argument("--examples", metavar="FOLDER")
    words = parser.parse_args()
    if words.examples:
        return examples(words.examples)
    if words.seed is None:
        parser.error("PROGRAM, COUNT and SEED are wanted")
    return cases(words.program, words.count, words.seed, words.keep)


if __name__ == "__main__":
    sys.exit(main())
