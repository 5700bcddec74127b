#!/usr/bin/env python3
"""Ends `nfsbench tap` by a signal while clients call, and mends what it left: kill_tap.py NFSBENCH

SIGTERM, SIGINT and SIGKILL in turn, at twenty moments. Each call that a client saw answered more than a second before has to be in the
history that `nfsbench mend` makes, with its reply, and `nfsbench check` may refuse that history for nothing but its calls. It prints a line
for each moment, and ends with status 1 where a call is missing.
"""
import os, signal, subprocess, sys, tempfile, threading, time

import try_tap

program = sys.argv[1]

SIGNALS = [signal.SIGTERM, signal.SIGINT, signal.SIGKILL]
CLIENTS = 4


def client(number, seen):
    """Calls on a connection until it ends, and notes when each call was answered."""
    try:
        sock = try_tap.connect()
        for count in range(1_000_000):
            xid = number << 24 | count
            try_tap.ask(sock, xid)
            seen.append((xid, time.time()))
    except (OSError, AssertionError):
        pass


def trial(moment):
    try_tap.PORT, try_tap.SERVER = try_tap.PORT + 2, try_tap.SERVER + 2
    server, path, seen = try_tap.Server(), tempfile.mktemp(suffix=".hist"), []
    line = [program, "tap", "--root", try_tap.ROOT, "--port", str(try_tap.PORT), "--server", str(try_tap.SERVER), "--seconds", "60", "--quiet", path]
    tap = subprocess.Popen(line, stdout=subprocess.DEVNULL)
    time.sleep(0.3)
    threads = [threading.Thread(target=client, args=(number, seen), daemon=True) for number in range(1, CLIENTS + 1)]
    for thread in threads:
        thread.start()
    time.sleep(1.6 + 0.13 * moment)
    told = SIGNALS[moment % 3]
    tap.send_signal(told)
    ended = time.time()
    tap.wait()
    for thread in threads:
        thread.join()
    server.close()
    mended = subprocess.run([program, "mend", path + ".part", path], capture_output=True, text=True)
    assert mended.returncode == 0, mended
    events = try_tap.read_history(path)
    answered = {event[2][:4] for event in events if event[0] == 1}
    owed = [xid for xid, at in seen if at < ended - 1]
    missing = [xid for xid in owed if xid.to_bytes(4, "big") not in answered]
    os.remove(path)
    os.remove(path + ".part")
    print(f"{told.name:8} after {1.6 + 0.13 * moment:.2f} s: {mended.stdout.strip()}, {len(seen)} answered, {len(owed)} a second before, {len(missing)} missing", flush=True)
    return not missing and bool(owed)


# A job in the background ignores it, and so would the recorder.
signal.signal(signal.SIGINT, signal.SIG_DFL)
sys.exit(0 if all([trial(moment) for moment in range(20)]) else 1)
