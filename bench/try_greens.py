#!/usr/bin/env python3
"""Asks of each green of `nfsbench` what would have to be wrong for it to be green all the same: try_greens.py PROGRAM [--only NAME] [--seed N] [--port N]

Each row has something wrong: a server, a network, a disk, a clock, orders that go astray, or what is known and left open. It runs the commands that
would be looked at in the morning, and prints what is wrong, the command, what has to be printed at least, what was printed, and the judgement:

  right       it isn't green, and says what it has to, or it is green as it should be
  GREEN       the status is 0 though something is wrong, and nothing is told
  ASIDE       the status is 0 though something is wrong, and standard error alone tells of it
  BLAMES      the server gets a `no` for what isn't its fault
  SAYS OTHER  it isn't green, and what it has to say isn't said
  NO END      it didn't end by itself
  BROKEN      the trial itself failed

Rows of other scripts are run by calling them. The script ends with status 1 where a row isn't right. Full disks are tmpfs, which only root may mount, and
clocks are changed by libfaketime (Debian's package of that name): without them these rows are BROKEN. All traffic is on 127.0.0.1.
"""
import argparse
import os
import pathlib
import shutil
import signal
import sys
import tempfile

from greens.captures import CAPTURES
from greens.clocks import CLOCKS
from greens.commands import COMMANDS
from greens.disks import DISKS
from greens.faults import serve
from greens.memory import MEMORY
from greens.networks import NETWORKS
from greens.orders import ORDERS
from greens.servers import SERVERS
from greens.table import HEAD, tried
from greens.taps import TAPS
from wrong import process

ROWS = [*SERVERS, *NETWORKS, *ORDERS, *CLOCKS, *TAPS, *DISKS, *CAPTURES, *COMMANDS, *MEMORY]


def main() -> None:
    parser = argparse.ArgumentParser(description=__doc__, formatter_class=argparse.RawDescriptionHelpFormatter)
    parser.add_argument("program", metavar="PROGRAM", type=os.path.abspath)
    parser.add_argument("--only", metavar="NAME", action="append", default=[], help="the rows whose names have this in them; may be said more than once")
    parser.add_argument("--seed", type=int, default=1, help="what the clients' calls follow from (%(default)s)")
    parser.add_argument("--port", type=int, default=31000, help="the first of the ports, six for each row (%(default)s)")
    parser.add_argument("--trace", action="store_true", help="tells where a broken trial broke")
    words = parser.parse_args()
    process.SERVER = pathlib.Path(__file__).resolve()
    signal.signal(signal.SIGTERM, lambda *_: sys.exit(1))
    rows = [(number, row) for number, row in enumerate(ROWS) if not words.only or any(name in row.name for name in words.only)]
    print(HEAD)
    folder = pathlib.Path(tempfile.mkdtemp(prefix="greens-"))
    try:
        judged = [tried(row, words, number, folder) for number, row in rows]
    finally:
        shutil.rmtree(folder, ignore_errors=True)
    print(f"{judged.count('right')} of {len(judged)} right" + "".join(f", {judged.count(kind)} {kind}" for kind in sorted(set(judged) - {"right"})))
    sys.exit(0 if judged and all(kind == "right" for kind in judged) else 1)


if __name__ == "__main__":
    serve() if "--serve" in sys.argv else main()
