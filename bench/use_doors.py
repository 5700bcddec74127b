#!/usr/bin/env python3
"""Takes edges out of crates.txt of a copy of the repository, by doors: use_doors.py COPY [--visits N]

The kit walks each path down from a library, so a crate's line shouldn't list a library that another one of its line can hand on (a door: `pub use low;` in
src/lib.rt, `pub use Rattle.low.specs as low_specs` in specs/Lib.antt, the same of proofs/). It picks the edge whose leaving out saves most visits, again and again, until there are
at most N (20,000), and writes what the crates name of it by the door. An edge stays where `unfolding(..)` or `using(..)` names a file of the library. Look with check_imports.py then.
Doors over doors cost the prover memory (docs/PROVING.md): take few edges, and look at what the crates above need then.
"""
import argparse
import functools
import os
import re

from merge_crates import TEXTS, House, files_below, read, tidy, write
from visits import edges_of, visits_of


def needs_its_edge(house: House, crate: str, library: str) -> bool:
    return any(re.search(rf"\b(?:unfolding|using)\([^)]*\b{library}::", read(path)) for path in files_below(house.path(crate, "src")))


def is_door_to(edges: dict, crate: str, library: str) -> bool:
    """Whether a library is below a crate."""
    return any(it == library or is_door_to(edges, it, library) for it in edges[crate])


def chosen(house: House, most: int) -> list:
    """The edges that go, each with the crate that hands the library on."""
    edges = {crate: [it for it in house.libraries(crate) if it in house.crates()] for crate in house.crates()}
    libraries = [crate for crate in edges if not os.path.exists(house.path(crate, "src", "main.rt"))]
    below = functools.lru_cache(None)(lambda crate, library: is_door_to(edges, crate, library))
    fixed = {(crate, it) for crate in edges for it in edges[crate] if needs_its_edge(house, crate, it)}
    found = []
    while (now := visits_of(edges, libraries)) > most:
        best = None
        for crate, line in edges.items():
            for library in line:
                doors = [it for it in line if it != library and below(it, library)]
                if not doors or (crate, library) in fixed:
                    continue
                left = visits_of({**edges, crate: [it for it in line if it != library]}, libraries)
                # The lowest door: the one that fewest of the others are below.
                door = min(doors, key=lambda it: (sum(below(it, other) for other in doors), it))
                if best is None or left < best[0]:
                    best = left, crate, library, door
        if best is None or best[0] >= now:
            break
        _, crate, library, door = best
        edges[crate] = [it for it in edges[crate] if it != library]
        found.append((crate, library, door))
    return found


class Doors:
    def __init__(self, house: House, gone: list):
        self.house = house
        self.by = {(crate, library): door for crate, library, door in gone}

    def door(self, crate: str, library: str) -> str:
        """By which crate of its line a crate reaches a library that isn't in it; a door that has gone too is replaced by what it goes by."""
        door = self.by[crate, library]
        while (crate, door) in self.by:
            door = self.by[crate, door]
        return door

    def hand_on(self, crate: str, library: str, kinds: set) -> None:
        """Sees that a crate hands a library on."""
        house = self.house
        door = self.door(crate, library) if (crate, library) in self.by else None
        if door:
            self.hand_on(door, library, kinds)
        elif library not in house.libraries(crate):
            door = next(it for it in house.libraries(crate) if it in house.crates() and is_below(house, it, library))
            self.hand_on(door, library, kinds)
        root = house.path(crate, "src", "lib.rt")
        line = f"pub use {door}::{library};" if door else f"pub use {library};"
        text = read(root)
        if not re.search(rf"(?m)^pub use (?:\w+::)*{library};$", text):
            write(root, tidy(text.rstrip("\n") + "\n" + line + "\n"))
        for kind, alias in (("specs", "specs"), ("proofs", "laws")):
            if kind not in kinds or not os.path.isdir(house.path(library, kind)):
                continue
            lib = house.path(crate, kind, "Lib.antt")
            lines = read(lib).split("\n") if os.path.isfile(lib) else []
            if not any(re.search(rf"\b{library}_{alias}$", it) for it in lines):
                line = f"pub use Rattle.{door}.{kind}.{library}_{alias}" if door else f"pub use Rattle.{library}.{kind} as {library}_{alias}"
                write(lib, "\n".join([it for it in lines if it] + [line]) + "\n")

    def go_by(self, crate: str, library: str) -> None:
        """Writes what a crate names of a library by its door."""
        door, house, kinds = self.door(crate, library), self.house, set()
        for path in files_below(house.path(crate)):
            if not path.endswith(TEXTS) or f"{os.sep}data{os.sep}" in path:
                continue
            text = new = read(path)
            for kind, alias in (("specs", "specs"), ("proofs", "laws")):
                if f"Rattle.{library}.{kind}" in new:
                    kinds.add(kind)
                new = new.replace(f"pub use Rattle.{library}.{kind} as {library}_{alias}", f"pub use Rattle.{door}.{kind}.{library}_{alias}")
                new = new.replace(f"Rattle.{library}.{kind}.", f"Rattle.{door}.{kind}.{library}_{alias}.")
            if path.endswith((".rt", ".edit")):
                new = re.sub(rf"(?<![\w:.]){library}::(?=\w|\{{)", f"{door}::{library}::", new)
                new = re.sub(rf"(?m)^pub use {library};$", f"pub use {door}::{library};", new)
            if new != text:
                write(path, new)
        self.hand_on(door, library, kinds)


def is_below(house: House, crate: str, library: str) -> bool:
    return any(it == library or (it in house.crates() and is_below(house, it, library)) for it in house.libraries(crate))


def main() -> None:
    parser = argparse.ArgumentParser(description=__doc__, formatter_class=argparse.RawDescriptionHelpFormatter)
    parser.add_argument("copy")
    parser.add_argument("--visits", type=int, default=20_000)
    words = parser.parse_args()
    house = House(os.path.abspath(words.copy))
    gone = chosen(house, words.visits)
    doors = Doors(house, gone)
    for crate, library, _ in gone:
        house.set_libraries(crate, [it for it in house.libraries(crate) if it != library])
    for crate, library, _ in gone:
        doors.go_by(crate, library)
        print(f"{crate}: {library} by {doors.door(crate, library)}")
    house.end()
    edges = edges_of(f"{words.copy}/crates.txt")
    print(f"{len(gone)} edges less, {visits_of(edges, [it for it in edges if not os.path.exists(house.path(it, 'src', 'main.rt'))])} visits")


if __name__ == "__main__":
    main()
