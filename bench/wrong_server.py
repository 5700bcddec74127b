#!/usr/bin/env python3
"""An NFS version 3 server in memory over TCP on 127.0.0.1, right by default and wrong on purpose.

It serves all procedures of NFS version 3 (LINK and MKNOD answer NFS3ERR_NOTSUPP), and MOUNT version 3 on a port of its own. It prints `ready` when it
listens. It takes orders, a line each, from standard input or from a file or fifo:

  crash   ends all connections, listens no more, and loses what a crash may lose; prints `down`
  up      listens again, with the same handles and another write verifier; prints `up`
  end     ends the program

With --fault it is wrong about once in --often calls that the fault fits, or at each crash that it fits, and says so on standard error. With --free it
is right, and about once in N calls does what RFC 1813 leaves to a server: a short READ, WRITE or list, a safer WRITE than was asked, NFS3ERR_JUKEBOX, a
reply without a handle, without attributes.
"""
import argparse
import sys

from differ.layouts import STATUSES

from wrong.faults import OFTEN, all_faults
from wrong.freedoms import FreeServer
from wrong.host import Host
from wrong.loop import Loop
from wrong.orders import Orders
from wrong.server import Server
from wrong.settled import RefusingServer, hold

DELAY = 300


def read_words(faults: dict):
    parser = argparse.ArgumentParser(description=__doc__, formatter_class=argparse.RawDescriptionHelpFormatter)
    parser.add_argument("--port", type=int, default=12049)
    parser.add_argument("--mount", type=int, default=12050)
    parser.add_argument("--export", default="/wrong")
    parser.add_argument("--fault", choices=faults, metavar="NAME")
    parser.add_argument("--free", type=int, metavar="N", help="the right server takes its freedoms about once in N calls")
    parser.add_argument("--often", type=int, default=OFTEN, metavar="N", help="once in N calls that the fault fits (%(default)s)")
    parser.add_argument("--refuses", choices=STATUSES, metavar="STATUS", help="the server answers each call but NULL with this status, such as NOTSUPP")
    parser.add_argument("--mount-status", type=int, default=0, metavar="NUMBER", help="MOUNT answers each MNT with this status, such as 13, MNT3ERR_ACCES")
    parser.add_argument("--holds", type=int, default=0, metavar="N", help="the export has N files before the first call")
    parser.add_argument("--seed", type=int, default=1)
    parser.add_argument("--orders", metavar="FILE", help="a fifo, or a file that is read as it grows; else standard input")
    parser.add_argument("--delay", type=int, default=DELAY, metavar="MICROSECONDS",
                        help="the most between a call and its effect, and between that and its reply (%(default)s)")
    parser.add_argument("--list", action="store_true", help="prints the faults, where each shows, and what it does")
    words = parser.parse_args()
    if sum(map(bool, (words.fault, words.free, words.refuses))) > 1:
        parser.error("one of --fault, --free and --refuses")
    return words


def server_for(words, faults: dict) -> Server:
    if words.fault:
        return faults[words.fault](words.seed, words.often)
    if words.refuses:
        return RefusingServer(words.seed, words.refuses)
    return FreeServer(words.seed, words.free) if words.free else Server(words.seed)


class Program:
    """Obeys orders."""

    def __init__(self, words, faults: dict):
        self.loop = Loop()
        server = server_for(words, faults)
        hold(server, words.holds)
        self.host = Host(self.loop, server, (words.port, words.mount), words.export.encode(), words.seed, words.delay)
        self.host.mounts.status = words.mount_status
        self.orders = Orders(self.loop, self.obey, words.orders)

    def obey(self, order: str) -> None:
        if order == "crash":
            print(self.host.crash(), file=sys.stderr, flush=True)
            print("down", flush=True)
        elif order == "up":
            self.host.up()
            print("up", flush=True)
        elif order == "end":
            self.loop.is_ended = True
        elif order:
            print(f"unknown order: {order}", file=sys.stderr, flush=True)

    def run(self) -> None:
        self.host.up()
        print("ready", flush=True)
        self.loop.run()


def main() -> None:
    faults = all_faults()
    words = read_words(faults)
    if words.list:
        for name, kind in faults.items():
            print(f"{name:22} {kind.seen:7} {kind.line()}")
        return
    try:
        Program(words, faults).run()
    except OSError as fault:
        sys.exit(f"can't serve: {fault}")
    except KeyboardInterrupt:
        pass


if __name__ == "__main__":
    main()
