#!/usr/bin/env python3
"""Puts what an export held ahead of a recording of it: add_start.py FOLDER RECORDING HISTORY [--strict]

FOLDER is a copy of the export as it stood before the first recorded call (`cp -a`), RECORDING a history file of version 1, as
`nfsbench tap` writes it. HISTORY becomes the history file of version 2 with the objects of FOLDER and the same events. --strict asks that
attributes in replies are judged.

The statuses: 0, the file is written. 1, it isn't, and standard error says why: an object is no file, directory or symbolic link, a file
has two names, something is over its limit, or RECORDING is no history file of version 1. 2, the words are wrong.
"""
import os
import pathlib
import stat
import struct
import sys

FILE, DIRECTORY, LINK = 1, 2, 5
OBJECTS, BYTES, TEXT, WHOLE = 1_000_000, 16_777_216, 1_048_576, 268_435_456


class Refused(Exception):
    """Why no history is written."""


def word(number: int) -> bytes:
    return struct.pack(">I", number)


def opaque(data: bytes) -> bytes:
    return word(len(data)) + data + b"\0" * (-len(data) % 4)


def within(data: bytes, most: int, path: bytes) -> bytes:
    if len(data) > most:
        raise Refused(f"{os.fsdecode(path)}: {len(data)} bytes are over the limit of {most}")
    return data


def what_is(path: bytes, status: os.stat_result) -> bytes:
    """The kind word of an object, and its bytes or its text."""
    if stat.S_ISDIR(status.st_mode):
        return word(DIRECTORY)
    if stat.S_ISLNK(status.st_mode):
        return word(LINK) + opaque(within(os.readlink(path), TEXT, path))
    if not stat.S_ISREG(status.st_mode):
        raise Refused(f"{os.fsdecode(path)}: no file, directory or symbolic link")
    if status.st_nlink > 1:
        raise Refused(f"{os.fsdecode(path)}: a file with {status.st_nlink} names; a start gives each object one")
    if status.st_size > BYTES:
        raise Refused(f"{os.fsdecode(path)}: {status.st_size} bytes are over the limit of {BYTES}")
    return word(FILE) + opaque(within(pathlib.Path(os.fsdecode(path)).read_bytes(), BYTES, path))


def objects(folder: bytes) -> list:
    """The objects below a folder, each directory before what lies in it: as the file has them."""
    found, waiting = [], [(0, folder)]
    while waiting:
        number, directory = waiting.pop()
        for name in sorted(os.listdir(directory)):
            path = os.path.join(directory, name)
            status = os.lstat(path)
            if len(found) == OBJECTS:
                raise Refused(f"more than {OBJECTS} objects")
            found.append(struct.pack(">Q", number) + opaque(within(name, TEXT, path)) + what_is(path, status))
            if stat.S_ISDIR(status.st_mode):
                waiting.append((len(found), path))
    return found


def recorded(path: str) -> tuple:
    """The root handle, as it is spelled, and what stands behind it: the number of events and the events."""
    data = pathlib.Path(path).read_bytes()
    if data[:8] != b"NFSHIST1" or len(data) < 16:
        raise Refused(f"{path}: no history file of version 1")
    end = 12 + (struct.unpack_from(">I", data, 8)[0] + 3) // 4 * 4
    if len(data) < end + 4:
        raise Refused(f"{path}: its root handle is cut off")
    return data[8:end], data[end:]


def main() -> int:
    words = [it for it in sys.argv[1:] if it != "--strict"]
    if len(words) != 3 or len(sys.argv) - len(words) > 2:
        print(__doc__, file=sys.stderr)
        return 2
    try:
        root, events = recorded(words[1])
        start = objects(os.fsencode(words[0]))
        whole = b"".join([b"NFSHIST2", root, word("--strict" in sys.argv), word(len(start)), *start, events])
        if len(whole) > WHOLE:
            raise Refused(f"the history has {len(whole)} bytes, over the limit of {WHOLE}")
        pathlib.Path(words[2]).write_bytes(whole)
    except (Refused, OSError) as why:
        print(f"refused: {why}", file=sys.stderr)
        return 1
    return 0


if __name__ == "__main__":
    sys.exit(main())
