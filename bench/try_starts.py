#!/usr/bin/env python3
"""Tries `nfsbench check` on histories with large starts: try_starts.py PROGRAM, or try_starts.py --second.

The files are at the limits of a start, and one byte or one object over them: a file of 16 MiB, a name and a link's text of 1 MiB, a million objects, a
history file of 256 MiB; and directories deep in one another. Each has an answer that the formats give it (docs/FORMATS.md). Each case is told with what was
wanted and how long it took; the status is 1 where a line or a status differs. It wants up to 1 GB, and a minute or two.

With --second the second checker of `differ/` is tried in place of a program, but for what is deeper than it can hold.
"""
import argparse
import pathlib
import subprocess
import sys
import tempfile
import time

sys.dont_write_bytecode = True

from cases.calls import create, get_attributes, look_up, read, read_link
from cases.history import PLAIN, STRICT, certificate, start_directory, start_file, start_link, start_object, started_file
from cases.sample import laid_in_order
from cases.xdr import DIR, REG
from differ.verdicts import judge

FILE_LIMIT, TEXT_LIMIT, START_LIMIT, HISTORY_LIMIT = 16_777_216, 1_048_576, 1_000_000, 268_435_456
TOO_LARGE = "refused: TooLarge"
TIMEOUT = 600


def number_handle(number: int) -> bytes:
    return number.to_bytes(8, "big")


class Case:
    """A history of a server that held some objects at first, and the answer to it."""

    def __init__(self, name: str, wanted: str, objects, *calls, binds=(), profile=PLAIN, is_deep=False):
        self.name, self.wanted, self.is_deep = name, wanted, is_deep
        self.objects, self.calls, self.binds, self.profile = objects, calls, binds, profile

    def files(self):
        events, lines = laid_in_order(self.calls)
        bound = [(number_handle(number), number) for number in self.binds]
        return started_file(events, list(self.objects()), self.profile), certificate(lines, bound).encode()


def read_end(number: int, size: int):
    """A READ of a file's last byte, a zero."""
    return read(number_handle(number), size - 1, 9).gives(b"\0", True)


def long_items():
    """A file, a name and a text at their limits, and one byte over them."""
    yield Case("a file of the longest length", "yes", lambda: [start_file(0, "f", bytes(FILE_LIMIT))], look_up(0, "f").gives(number_handle(1)),
               get_attributes(number_handle(1)).gives(REG, FILE_LIMIT), read_end(1, FILE_LIMIT), binds=[1], profile=STRICT)
    yield Case("a file of one byte more", TOO_LARGE, lambda: [start_file(0, "f", bytes(FILE_LIMIT + 1))])
    name = b"n" * TEXT_LIMIT
    yield Case("a name of the longest length", "yes", lambda: [start_file(0, name)], look_up(0, name).gives(number_handle(1)), binds=[1])
    yield Case("a name of one byte more", TOO_LARGE, lambda: [start_file(0, name + b"n")])
    text = b"t" * TEXT_LIMIT
    yield Case("a text of the longest length", "yes", lambda: [start_link(0, "l", text)], read_link(number_handle(1)).gives(text), binds=[1])
    yield Case("a text of one byte more", TOO_LARGE, lambda: [start_link(0, "l", text + b"t")])
    yield Case("two long names that differ in the last byte", "yes", lambda: [start_file(0, name), start_file(0, name[:-1] + b"m")])
    yield Case("two long names that are the same", "refused: BadStart 2", lambda: [start_file(0, name), start_directory(0, name)])


def in_root(count: int):
    return (start_file(0, b"%06x" % number) for number in range(1, count + 1))


def in_directories(count: int):
    """A directory, files in it, and so on."""
    directory = 0
    for number in range(1, count + 1):
        if number % 100 == 1:
            directory = number
            yield start_directory(0, b"%06x" % number)
        else:
            yield start_file(directory, b"%06x" % number, b"abc")


def with_last(objects, last: bytes):
    """The objects, the last of them another one."""
    *front, _ = objects
    return [*front, last]


def many_objects():
    """As many objects as there may be, one more, and one of them at fault."""
    made, next_made = START_LIMIT + 1, START_LIMIT + 2
    calls = [create(0, "new").gives(number_handle(made)), get_attributes(number_handle(made)).gives(REG, 0)]
    yield Case("a million objects in the root", "yes", lambda: in_root(START_LIMIT), *calls, look_up(0, "0f4240").gives(number_handle(START_LIMIT)),
               binds=[START_LIMIT, made])
    yield Case("a million objects in directories", "yes", lambda: in_directories(START_LIMIT), *calls, binds=[made])
    wrong = create(0, "new").gives(number_handle(next_made))
    yield Case("a million objects and a handle of another one", "no: Illegal 1", lambda: in_root(START_LIMIT), wrong, binds=[next_made])
    yield Case("a million objects and one", TOO_LARGE, lambda: in_root(START_LIMIT + 1))
    bad = f"refused: BadStart {START_LIMIT}"
    yield Case("a million objects whose last name is taken", bad, lambda: with_last(in_root(START_LIMIT), start_file(0, b"000001")))
    yield Case("a million objects whose last lies in itself", bad, lambda: with_last(in_root(START_LIMIT), start_file(START_LIMIT, "x")))
    yield Case("a million objects whose last is of no kind", bad, lambda: with_last(in_root(START_LIMIT), start_object(0, "x", 3)))


def deep(count: int):
    return (start_directory(number, "d") for number in range(count))


def deep_directories():
    for count, is_deep in ((2_000, False), (500_000, True)):
        low = number_handle(count)
        calls = [look_up(low, "..").gives(number_handle(count - 1)), create(low, "f").gives(number_handle(count + 2)), get_attributes(low).gives(DIR, 0)]
        yield Case(f"directories {count} deep", "yes", lambda: deep(count), *calls, binds=[count - 1, count, count + 2], is_deep=is_deep)


def whole_files():
    """A history file just within its limit, and one byte over it."""
    filled = HISTORY_LIMIT // FILE_LIMIT - 1

    def objects(more: int):
        files = [start_file(0, b"%02x" % number, bytes(FILE_LIMIT)) for number in range(filled)]
        rest = HISTORY_LIMIT - len(started_file([], files)) - len(start_file(0, "last"))
        return [*files, start_file(0, "last", bytes(rest + more))]

    yield Case("a history file of the longest length", "yes", lambda: objects(0))
    yield Case("a history file of one word more", TOO_LARGE, lambda: objects(4))


def all_cases():
    for part in (long_items, many_objects, deep_directories, whole_files):
        yield from part()


def status_of(line: str) -> int:
    return 0 if line == "yes" else 1 if line.startswith("no: ") else 2


def run_program(program: str, files, folder: str):
    history, text = (pathlib.Path(folder) / name for name in ("history", "certificate"))
    history.write_bytes(files[0])
    text.write_bytes(files[1])
    began = time.perf_counter()
    ran = subprocess.run([program, "check", history, text], stdout=subprocess.PIPE, stderr=subprocess.DEVNULL, timeout=TIMEOUT)
    return ran.stdout.decode("latin-1"), ran.returncode, time.perf_counter() - began


def run_second(files):
    began = time.perf_counter()
    found = judge(*files)
    return found.line + "\n", found.status, time.perf_counter() - began


def main() -> int:
    parser = argparse.ArgumentParser(description=__doc__.split("\n", 1)[0])
    parser.add_argument("program", nargs="?")
    parser.add_argument("--second", action="store_true")
    words = parser.parse_args()
    if not words.program and not words.second:
        parser.error("PROGRAM or --second is wanted")
    differences = 0
    with tempfile.TemporaryDirectory() as folder:
        for case in all_cases():
            if words.second and case.is_deep:
                continue
            files = case.files()
            printed, status, seconds = run_second(files) if words.second else run_program(words.program, files, folder)
            is_so = (printed, status) == (case.wanted + "\n", status_of(case.wanted))
            differences += not is_so
            told = "" if is_so else f", got {printed.rstrip()!r} with status {status}"
            print(f"{case.name}, {len(files[0]):,} bytes: wanted {case.wanted!r}{told}, {seconds:.2f} s", flush=True)
    print(f"differences {differences}")
    return 1 if differences else 0


if __name__ == "__main__":
    sys.exit(main())
