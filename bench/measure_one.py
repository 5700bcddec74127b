#!/usr/bin/env python3
"""How long PROGRAM judges AT.hist with AT.cert, beside sha256sum of the same file, and its peak memory: measure_one.py PROGRAM AT NAME [--bundle].

It prints a row, the least of three runs. The status is 1 where the verdict isn't yes. With --bundle the program reads both files as a bundle, from
AT.bundle, which is made.
"""
import os
import resource
import subprocess
import sys
import time


def once(words: list, stdin):
    start = time.perf_counter()
    with open(stdin or os.devnull, "rb") as given:
        said = subprocess.run(words, stdin=given, stdout=subprocess.PIPE).stdout.decode().strip()
    return time.perf_counter() - start, said


def make_bundle(at: str) -> str:
    with open(at + ".hist", "rb") as history, open(at + ".cert", "rb") as certificate, open(at + ".bundle", "wb") as bundle:
        bundle.write(history.read().hex().encode() + b"\n" + certificate.read())
    return at + ".bundle"


def main() -> int:
    program, at, name = sys.argv[1:4]
    words, stdin = ([program], make_bundle(at)) if "--bundle" in sys.argv[4:] else ([program, "check", at + ".hist", at + ".cert"], None)
    took, said = min(once(words, stdin) for _ in range(3))
    peak = resource.getrusage(resource.RUSAGE_CHILDREN).ru_maxrss / 1024
    summed, _ = min(once(["sha256sum", at + ".hist"], None) for _ in range(5))
    size = os.path.getsize(at + ".hist") / 1e6
    print(f"{name:16} {size:8.1f} {took:9.3f} {summed:9.3f} {took / summed:7.1f} {peak:8.1f} {peak / size:7.1f}   {said}", flush=True)
    return 0 if said == "yes" else 1


if __name__ == "__main__":
    sys.exit(main())
