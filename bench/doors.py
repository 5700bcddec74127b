"""Paths by doors, for the scripts that look up what imports name.

A crate hands on specs/ or proofs/ of a lower one by a line of its Lib.antt, `pub use Rattle.low.specs as low_specs`, and another crate hands on such a
door by `pub use Rattle.middle.specs.low_specs`. So a crate above names low's definitions without low in its line of crates.txt.
"""
import functools
import os
import re

TOP = os.path.dirname(os.path.dirname(os.path.abspath(__file__)))


@functools.lru_cache(None)
def doors_of(crate: str, kind: str, top: str) -> dict:
    """Of each name that a crate's Lib.antt hands on: the crate that it leads to, and what of the name is still to be looked up there."""
    path = f"{top}/crates/{crate}/{kind}/Lib.antt"
    if not os.path.isfile(path):
        return {}
    with open(path, encoding="utf-8") as file:
        lines = re.findall(rf"(?m)^pub use Rattle\.(\w+)\.{kind}(?: as (\w+)|\.(\w+))$", file.read())
    return {alias or name: (low, [name] if name else []) for low, alias, name in lines}


def by_doors(crate: str, kind: str, parts: list, top: str = TOP) -> tuple:
    """The crate to which a path of specs/ or proofs/ leads by doors, over any number of them, and the path there."""
    while parts and parts[0] in doors_of(crate, kind, top):
        crate, ahead = doors_of(crate, kind, top)[parts[0]]
        parts = ahead + parts[1:]
    return crate, parts
