#!/usr/bin/env python3
"""Kills `nfsbench serve` while clients call, and mends what it left: kill_serve.py NFSBENCH

Ten moments. Each call that a client saw answered more than a second before has to be in the history that `nfsbench mend` makes of the
`.part`, with its reply; `nfsbench search` has to find an order of it, which `nfsbench check` accepts. It prints a line for each moment,
and ends with status 1 where that isn't so.
"""
import os
import socket
import struct
import subprocess
import sys
import tempfile
import threading
import time

import try_tap

program = sys.argv[1]
LANES = 4


def opaque(data):
    return struct.pack(">I", len(data)) + data + bytes(-len(data) % 4)


def call(xid, procedure, arguments):
    """A call of NFS version 3 without a credential, as a record of one fragment (RFC 5531, section 9)."""
    message = struct.pack(">10I", xid, 0, 2, 100003, 3, procedure, 0, 0, 0, 0) + arguments
    return struct.pack(">I", 0x8000_0000 | len(message)) + message


ROOT = opaque(bytes(8))


def arguments_of(number, count):
    """CREATE (GUARDED) of a name, LOOKUP of it, REMOVE of it, GETATTR of the root, in turn (RFC 1813, section 3.3)."""
    name = opaque(b"%d.%d" % (number, count // 4))
    return [(8, ROOT + name + struct.pack(">7I", 1, 0, 0, 0, 0, 0, 0)), (3, ROOT + name), (12, ROOT + name), (1, ROOT)][count % 4]


def client(port, number, seen):
    """Calls on a connection until it ends, and notes when each call was answered."""
    try:
        sock = socket.create_connection(("127.0.0.1", port))
        sock.settimeout(20)
        for count in range(1_000_000):
            xid = number << 24 | count
            sock.sendall(call(xid, *arguments_of(number, count)))
            reply = try_tap.read_record(sock)
            assert reply is not None and reply[:4] == struct.pack(">I", xid)
            seen.append((xid, time.time()))
    except (OSError, AssertionError):
        pass


def run(*words):
    return subprocess.run([program, *words], capture_output=True, text=True)


def trial(moment):
    port, path, seen = 23_100 + moment, tempfile.mktemp(suffix=".hist"), []
    line = [program, "serve", "--port", str(port), "--lanes", str(LANES), "--calls", "100000", path, path + ".cert"]
    server = subprocess.Popen(line, stdout=subprocess.DEVNULL)
    while not any(f":{port:04X} 00000000:0000 0A" in row for row in open("/proc/net/tcp")):
        time.sleep(0.01)
    threads = [threading.Thread(target=client, args=(port, number, seen), daemon=True) for number in range(1, LANES + 1)]
    for thread in threads:
        thread.start()
    time.sleep(1.6 + 0.13 * moment)
    server.kill()
    ended = time.time()
    server.wait()
    for thread in threads:
        thread.join()
    again = run("serve", "--port", str(port), "--lanes", "1", "--calls", "1", path, path + ".cert")
    assert again.returncode == 2 and ".part of an earlier recording" in again.stdout, again
    mended = run("mend", path + ".part", path)
    assert mended.returncode == 0, mended
    answered = {event[2][:4] for event in try_tap.read_history(path) if event[0] == 1}
    owed = [xid for xid, at in seen if at < ended - 1]
    missing = [xid for xid in owed if xid.to_bytes(4, "big") not in answered]
    found = run("search", "--quiet", path)
    with open(path + ".cert", "w") as certificate:
        certificate.write(found.stdout)
    checked = run("check", path, path + ".cert")
    for file in (path, path + ".part", path + ".cert"):
        os.remove(file)
    print(f"after {1.6 + 0.13 * moment:.2f} s: {mended.stdout.strip()}, {len(seen)} answered, {len(owed)} a second before, {len(missing)} missing,"
          f" {checked.stdout.strip()}", flush=True)
    return not missing and bool(owed) and checked.stdout == "yes\n"


if __name__ == "__main__":
    sys.exit(0 if all([trial(moment) for moment in range(10)]) else 1)
