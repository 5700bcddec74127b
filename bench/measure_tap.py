#!/usr/bin/env python3
"""Measures what a recorder costs: the same calls to a server, and through `nfsbench tap` in front of it, in turn.

measure_tap.py NFSBENCH[,NFSBENCH..] ROOT SERVER_PORT TAP_PORT [MEBIBYTES [CONNECTIONS [SECONDS [PAIRS]]]]

ROOT is the root handle in hex of an export that may be written. One client, and eight, each a process with a connection, write and
read so many MiB in all (100) in pieces of 64 KiB, UNSTABLE, eight on their way at once, and ask for the root's attributes, one call
at a time. Then so many connections (64), in eight processes, ask for them for so many seconds (5). Each is done PAIRS times (5): without
a recorder, and then through each NFSBENCH, each time a new one. A row has the ratios of all pairs and the middle one: of the seconds, or of the calls
that CONNECTIONS make in their time; the recorder's seconds of a processor for a thousand calls; and its peak memory beyond its history.
The load of the machine is told with each row.
"""
import multiprocessing
import os
import socket
import struct
import subprocess
import sys
import tempfile
import time

PIECE = 65_536
WINDOW = 8
PROCESSES = 8
CALLS = 8_000       # GETATTRs of all clients
TICK = os.sysconf("SC_CLK_TCK")


def opaque(data):
    return struct.pack(">I", len(data)) + data + bytes(-len(data) % 4)


def record(xid, procedure, arguments):
    credential = struct.pack(">5I", 0, 0, 0, 0, 0)
    sealed = struct.pack(">2I", 1, len(credential)) + credential + struct.pack(">2I", 0, 0)
    message = struct.pack(">6I", xid, 0, 2, 100003, 3, procedure) + sealed + arguments
    return struct.pack(">I", 0x80000000 | len(message)) + message


class Client:
    """A connection, and the replies on it, each of one fragment or more."""

    def __init__(self, port):
        self.socket = socket.create_connection(("127.0.0.1", port))
        self.socket.setsockopt(socket.IPPROTO_TCP, socket.TCP_NODELAY, 1)
        self.reader = self.socket.makefile("rb", 1 << 17)

    def send(self, data):
        self.socket.sendall(data)

    def reply(self):
        """What stands behind the head of an accepted reply."""
        message, last = b"", False
        while not last:
            word, = struct.unpack(">I", self.reader.read(4))
            last = word >> 31 == 1
            message += self.reader.read(word & 0x7FFFFFFF)
        if struct.unpack(">3I", message[4:16])[1:] != (0, 0) or message[20:24] != bytes(4):
            raise RuntimeError("refused: %r" % message[:32])
        return message[24:]

    def close(self):
        self.reader.close()
        self.socket.close()


def make_file(client, root, name):
    attributes = struct.pack(">7I", 1, 0o644, 0, 0, 0, 0, 0)
    client.send(record(1, 8, opaque(root) + opaque(name) + struct.pack(">I", 0) + attributes))
    result = client.reply()
    if result[:8] != struct.pack(">2I", 0, 1):
        raise RuntimeError("CREATE: %r" % result[:8])
    length, = struct.unpack(">I", result[8:12])
    return result[12:12 + length]


def write_call(file, index):
    data = opaque(bytes(range(256)) * (PIECE // 256))
    return record(2 + index, 7, opaque(file) + struct.pack(">Q2I", index * PIECE, PIECE, 0) + data)


def read_call(file, index):
    return record(2 + index, 6, opaque(file) + struct.pack(">QI", index * PIECE, PIECE))


def getattr_call(file, index):
    return record(2 + index, 1, opaque(file))


# What a client makes, and how many calls are on their way at once.
KINDS = {"WRITE": (write_call, WINDOW), "READ": (read_call, WINDOW), "GETATTR": (getattr_call, 1)}


def make_calls(port, kind, file, calls, ready, go, done):
    """One client: so many calls."""
    call, window = KINDS[kind]
    client = Client(port)
    made = [call(file, index) for index in range(min(calls, 64))]
    ready.release()
    go.wait()
    sent = 0
    for got in range(calls):
        while sent < calls and sent - got < window:
            data = made[sent] if sent < len(made) else call(file, sent)
            client.send(data)
            sent += 1
        if client.reply()[:4] != bytes(4):
            raise RuntimeError("%s failed" % kind)
    done.put(time.monotonic())
    client.close()


def seconds_of(port, kind, files, calls):
    """Seconds until all clients, one a file, have made so many calls in all."""
    go, ready, done = multiprocessing.Event(), multiprocessing.Semaphore(0), multiprocessing.Queue()
    clients = [multiprocessing.Process(target=make_calls, args=(port, kind, file, calls // len(files), ready, go, done)) for file in files]
    for client in clients:
        client.start()
    for _ in clients:
        ready.acquire()
    begin = time.monotonic()
    go.set()
    end = max(done.get() for _ in clients)
    for client in clients:
        client.join()
    return end - begin


def ask(port, root, connections, ready, go, seconds, counts):
    clients = [Client(port) for _ in range(connections)]
    call = record(2, 1, opaque(root))
    ready.release()
    go.wait()
    end, calls = time.monotonic() + seconds, 0
    while time.monotonic() < end:
        calls += 1
        for client in clients:
            client.send(call)
        for client in clients:
            if client.reply()[:4] != bytes(4):
                raise RuntimeError("GETATTR failed")
    counts.put(calls * connections)
    for client in clients:
        client.close()


def calls_of(port, root, connections, seconds):
    """Calls that so many connections make."""
    go, ready, counts = multiprocessing.Event(), multiprocessing.Semaphore(0), multiprocessing.Queue()
    arguments = (port, root, connections // PROCESSES, ready, go, seconds, counts)
    asking = [multiprocessing.Process(target=ask, args=arguments) for _ in range(PROCESSES)]
    for process in asking:
        process.start()
    for _ in asking:
        ready.acquire()
    go.set()
    calls = sum(counts.get() for _ in asking)
    for process in asking:
        process.join()
    return calls


class Tap:
    """A recorder, which ends with its standard input."""

    def __init__(self, program, root, server, port):
        self.history = tempfile.mktemp(suffix=".hist")
        words = [program, "tap", "--quiet", "--root", root.hex(), "--port", str(port), "--server", str(server), self.history]
        self.process = subprocess.Popen(words, stdin=subprocess.PIPE, stdout=subprocess.PIPE, stderr=subprocess.DEVNULL)
        for _ in range(1_000):
            try:
                socket.create_connection(("127.0.0.1", port)).close()
                return
            except OSError:
                time.sleep(0.01)
        raise RuntimeError("no recorder")

    def end(self):
        """Its seconds of a processor until now, and its peak memory and the size of its history, in MiB."""
        with open("/proc/%d/stat" % self.process.pid) as stat:
            seconds = sum(int(word) for word in stat.read().rsplit(")", 1)[1].split()[11:13]) / TICK
        with open("/proc/%d/status" % self.process.pid) as status:
            peak = next(int(line.split()[1]) / 1024 for line in status if line.startswith("VmHWM"))
        self.process.stdin.close()
        self.process.stdout.read()
        if self.process.wait() != 0:
            raise RuntimeError("the recorder's status is %d" % self.process.returncode)
        size = os.path.getsize(self.history) / 2**20
        os.remove(self.history)
        return seconds, peak, size


class Row:
    """What one recorder came to in the pairs so far."""

    def __init__(self):
        self.ratios, self.seconds, self.beyond = [], [], []

    def add(self, plain, recorded, calls, told):
        self.ratios.append(recorded / plain)
        self.seconds.append(told[0] * 1000 / calls)
        self.beyond.append(told[1] - told[2])

    def line(self):
        middle = sorted(self.ratios)[len(self.ratios) // 2]
        return "%.2f of (%s), %.3f s a thousand calls, %.0f MiB beyond the history" % (
            middle, " ".join("%.2f" % it for it in self.ratios), min(self.seconds), max(self.beyond))


def compare(name, programs, root, server, port, pairs, run):
    """Runs in turn without a recorder and with each. `run` gives how long it took, or what it came to, and the calls."""
    rows = [Row() for _ in programs]
    for _ in range(pairs):
        plain, _ = run(server)
        for row, program in zip(rows, programs):
            tap = Tap(program, root, server, port)
            recorded, calls = run(port)
            row.add(plain, recorded, calls, tap.end())
    for row, program in zip(rows, programs):
        print("%-22s %s: %s; load %s" % (name, program, row.line(), " ".join(open("/proc/loadavg").read().split()[:2])), flush=True)


def main():
    programs, root, server, port = sys.argv[1].split(","), bytes.fromhex(sys.argv[2]), int(sys.argv[3]), int(sys.argv[4])
    words = sys.argv[5:] + ["100", "64", "5", "5"][len(sys.argv) - 5:]
    mebibytes, connections, seconds, pairs = (int(word) for word in words)
    maker = Client(server)
    files = [make_file(maker, root, b"measured%d.%d" % (number, os.getpid())) for number in range(PROCESSES)]
    maker.close()
    for kind in KINDS:
        for clients in (1, PROCESSES):
            calls = CALLS if kind == "GETATTR" else mebibytes * 2**20 // PIECE
            run = lambda to: (seconds_of(to, kind, files[:clients], calls), calls)
            if kind == "READ":
                seconds_of(server, "WRITE", files[:clients], calls)
            compare("%s, %d clients" % (kind, clients), programs, root, server, port, pairs, run)

    def many(to):
        calls = calls_of(to, root, connections, seconds)
        return calls, calls

    compare("%d connections" % connections, programs, root, server, port, pairs, many)


main()
