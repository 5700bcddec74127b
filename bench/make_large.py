#!/usr/bin/env python3
"""Makes a large history of concurrent clients, with a certificate that is a witness of it: make_large.py KIND EVENTS SEED FOLDER.

It writes FOLDER/KIND-EVENTS.hist and .cert, of at most 1,000,000 events. KIND is

mixed    calls of all kinds by eight clients at once
writes   WRITEs of up to 256 bytes anywhere in eight files of 4 MB
dirs     one directory of up to 60,000 files, with LOOKUPs, CREATEs, REMOVEs and RENAMEs
deep     directories deep below one another that are renamed
crashes  WRITEs and READs of 200 files, with a crash at every hundredth event or so
lanes    as mixed, by 64 clients at once
both     as mixed, of a server that held as many objects as there are events: a history of version 2
starts   as many starting objects as are asked for, and no events

A million events take a minute or two, and up to 2 GB.
"""
import pathlib
import sys

from large.kinds import KINDS, make


def main() -> int:
    if len(sys.argv) != 5 or sys.argv[1] not in KINDS or not 2 <= int(sys.argv[2]) <= 1_000_000:
        print(__doc__, file=sys.stderr)
        return 2
    kind, events, seed, folder = sys.argv[1:]
    clients = make(kind, int(events), seed)
    at = pathlib.Path(folder) / f"{kind}-{events}"
    at.with_suffix(".hist").write_bytes(clients.history())
    at.with_suffix(".cert").write_text(clients.certificate())
    return 0


if __name__ == "__main__":
    sys.exit(main())
