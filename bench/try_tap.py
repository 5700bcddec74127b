#!/usr/bin/env python3
"""Tries `nfsbench tap` on bad input: try_tap.py NFSBENCH [NAME..]

Each case starts a small server and the program between it and clients of its own, and looks at how the program ended,
at what it printed and at the history. It prints a line for each case, and ends with status 1 where one failed.
"""
import os, socket, struct, subprocess, sys, tempfile, threading, time

PORT, SERVER = 29470, 29471
ROOT = "00" * 8


def frame(message):
    return struct.pack(">I", 0x80000000 | len(message)) + message


def call(xid, size=0):
    """A NULL call of NFS version 3, with so many bytes behind it."""
    return struct.pack(">10I", xid, 0, 2, 100003, 3, 0, 0, 0, 0, 0) + bytes(size)


def reply(xid):
    return struct.pack(">6I", xid, 1, 0, 0, 0, 0)


def read_exact(sock, count):
    data = b""
    while len(data) < count:
        piece = sock.recv(count - len(data))
        if not piece:
            return None
        data += piece
    return data


def read_record(sock):
    head = read_exact(sock, 4)
    if head is None:
        return None
    return read_exact(sock, struct.unpack(">I", head)[0] & 0x7FFFFFFF)


class Server:
    """Answers each call; may die in the middle of a reply."""

    def __init__(self, partial_after=None, lazy=False):
        self.partial_after, self.lazy = partial_after, lazy
        self.sock = socket.socket()
        self.sock.setsockopt(socket.SOL_SOCKET, socket.SO_REUSEADDR, 1)
        self.sock.bind(("127.0.0.1", SERVER))
        self.sock.listen(256)
        self.peers = []
        threading.Thread(target=self.accept, daemon=True).start()

    def accept(self):
        while True:
            try:
                peer, _ = self.sock.accept()
            except OSError:
                return
            self.peers.append(peer)
            threading.Thread(target=self.answer, args=(peer,), daemon=True).start()

    def answer(self, peer):
        count = 0
        try:
            while True:
                message = read_record(peer)
                if message is None:
                    break
                count += 1
                if self.lazy:
                    time.sleep(0.5)
                text = frame(reply(struct.unpack(">I", message[:4])[0]))
                if self.partial_after is not None and count > self.partial_after:
                    peer.sendall(text[:10])
                    break
                peer.sendall(text)
        except OSError:
            pass
        peer.close()

    def close(self):
        try:
            self.sock.shutdown(socket.SHUT_RDWR)
        except OSError:
            pass
        self.sock.close()
        for peer in self.peers:
            try:
                peer.shutdown(socket.SHUT_RDWR)
            except OSError:
                pass


class Tap:
    def __init__(self, lanes=None, quiet=True, words=()):
        self.path = tempfile.mktemp(suffix=".hist")
        line = [sys.argv[1], "tap", "--root", ROOT, "--port", str(PORT), "--server", str(SERVER), *words]
        line += ["--lanes", str(lanes)] if lanes else []
        line += ["--quiet"] if quiet else []
        self.process = subprocess.Popen(line + [self.path], stdin=subprocess.PIPE, stdout=subprocess.PIPE,
                                        stderr=subprocess.PIPE)
        for _ in range(200):
            if any(f":{PORT:04X} 00000000:0000 0A" in row for row in open("/proc/net/tcp")) or self.process.poll() is not None:
                return
            time.sleep(0.01)

    def say(self, text):
        self.process.stdin.write(text)
        self.process.stdin.flush()

    def end(self, timeout=30):
        """Its status, what it printed, what it said, and the events of its history."""
        out, err = self.process.communicate(timeout=timeout)
        events = None
        if os.path.exists(self.path):
            events = read_history(self.path)
            os.remove(self.path)
        return self.process.returncode, out.decode(), err.decode(), events


def read_history(path):
    """The events of a history file: kind, lane, message."""
    data = open(path, "rb").read()
    at = 8
    def word():
        nonlocal at
        at += 4
        return struct.unpack(">I", data[at - 4:at])[0]
    def opaque():
        nonlocal at
        count = word()
        at += (count + 3) // 4 * 4
        return data[at - (count + 3) // 4 * 4:][:count]
    assert data[:8] == b"NFSHIST1"
    opaque()
    events = []
    for _ in range(word()):
        kind = word()
        if kind < 2:
            events.append((kind, word(), opaque()))
        else:
            events.append((kind, word() if kind == 2 else 0, b""))
    assert at == len(data)
    return events


def connect():
    sock = socket.create_connection(("127.0.0.1", PORT))
    sock.settimeout(20)
    return sock


def ask(sock, xid):
    sock.sendall(frame(call(xid)))
    message = read_record(sock)
    assert message == reply(xid), message


def count(events, kind):
    return sum(1 for event in events if event[0] == kind)


def port_in_use():
    taken = socket.socket()
    taken.bind(("127.0.0.1", PORT))
    taken.listen()
    status, out, _, events = Tap(lanes=1).end()
    taken.close()
    assert (status, out, events) == (2, "refused: cannot listen\n", None), (status, out)


def no_server():
    tap = Tap(lanes=1)
    sock = connect()
    status, out, _, events = tap.end(40)
    sock.close()
    assert (status, out, events) == (2, "refused: cannot connect\n", None), (status, out)


def no_server_open():
    tap = Tap()
    sock = connect()
    assert sock.recv(1) == b""
    server = Server()
    other = connect()
    ask(other, 7)
    other.close()
    time.sleep(0.3)
    tap.say(b"")
    tap.process.stdin.close()
    tap.process.stdin = None
    status, out, err, events = tap.end()
    server.close()
    assert (status, out) == (0, "calls 1\n") and "the server takes none" in err, (status, out, err)
    assert [event[:2] for event in events] == [(0, 1), (1, 1), (2, 1)], events


def half_record():
    server, tap = Server(), Tap(lanes=2)
    bad, good = connect(), connect()
    bad.sendall(frame(call(1))[:30])
    bad.close()
    for xid in range(50):
        ask(good, xid)
    good.close()
    status, out, err, events = tap.end()
    server.close()
    assert (status, out) == (0, "calls 50\n"), (status, out, err)
    assert count(events, 2) == 2 and err == "", (events[-3:], err)


def long_header():
    server, tap = Server(), Tap(lanes=2)
    bad, good = connect(), connect()
    ask(bad, 1)
    bad.sendall(struct.pack(">I", 0x7FFFFFFF) + bytes(100))
    ask(good, 1)
    assert bad.recv(1) in (b"",)
    ask(good, 2)
    good.close()
    bad.close()
    status, out, err, events = tap.end()
    server.close()
    assert (status, out) == (0, "calls 3\n") and "RecordTooLong" in err, (status, out, err)
    assert count(events, 2) == 2


def byte_by_byte():
    server, tap = Server(), Tap(lanes=2)
    slow, good = connect(), connect()
    slow.setsockopt(socket.IPPROTO_TCP, socket.TCP_NODELAY, 1)
    for byte in frame(call(1)) + frame(call(2)):
        slow.send(bytes([byte]))
        time.sleep(0.001)
    ask(good, 5)
    assert read_record(slow) == reply(1) and read_record(slow) == reply(2)
    slow.close()
    good.close()
    status, out, err, events = tap.end()
    server.close()
    assert (status, out, err) == (0, "calls 3\n", ""), (status, out, err)


def many_lanes():
    server, tap = Server(), Tap(lanes=64)
    socks = [connect() for _ in range(64)]
    def work(sock):
        for xid in range(100):
            ask(sock, xid)
        sock.close()
    threads = [threading.Thread(target=work, args=(sock,)) for sock in socks]
    [thread.start() for thread in threads]
    [thread.join() for thread in threads]
    status, out, err, events = tap.end()
    server.close()
    assert (status, out, err) == (0, "calls 6400\n", ""), (status, out, err)
    assert count(events, 2) == 64 and count(events, 1) == 6400
    assert {event[1] for event in events} == set(range(1, 65))


def many_in_turn():
    server, tap = Server(), Tap()
    for _ in range(200):
        sock = connect()
        ask(sock, 1)
        sock.close()
    time.sleep(0.5)
    tap.process.stdin.close()
    tap.process.stdin = None
    status, out, err, events = tap.end()
    server.close()
    assert (status, out, err) == (0, "calls 200\n", ""), (status, out, err)
    assert count(events, 2) == 200 and {event[1] for event in events} == set(range(1, 201))


def server_dies_in_reply():
    server, tap = Server(partial_after=2), Tap(lanes=1)
    sock = connect()
    ask(sock, 1)
    ask(sock, 2)
    sock.sendall(frame(call(3)))
    assert sock.recv(100) == b""
    status, out, err, events = tap.end()
    server.close()
    sock.close()
    assert (status, out) == (0, "calls 3\n"), (status, out, err)
    assert "lane 1: the server ended the connection first\n" in err, err
    assert [event[:2] for event in events] == [(0, 1), (1, 1), (0, 1), (1, 1), (0, 1), (2, 1)], events


def half_closed():
    server, tap = Server(lazy=True), Tap(lanes=1)
    sock = connect()
    sock.sendall(frame(call(1)) + frame(call(2)))
    sock.shutdown(socket.SHUT_WR)
    assert read_record(sock) == reply(1) and read_record(sock) == reply(2) and sock.recv(1) == b""
    status, out, err, events = tap.end()
    server.close()
    assert (status, out, err) == (0, "calls 2\n", ""), (status, out, err)
    assert [event[0] for event in events][-1] == 2 and count(events, 1) == 2


def xid_in_use():
    server, tap = Server(lazy=True), Tap(lanes=2)
    bad, good = connect(), connect()
    bad.sendall(frame(call(1)) + frame(call(1)))
    assert bad.recv(1000) == b""
    ask(good, 1)
    good.close()
    status, out, err, events = tap.end()
    server.close()
    bad.close()
    assert (status, out) == (0, "calls 2\n"), (status, out, err)
    assert "calls LogFault XidInUse" in err, err


def not_rpc():
    server, tap = Server(), Tap(lanes=1)
    sock = connect()
    sock.sendall(frame(b"abc"))
    assert sock.recv(1000) == b""
    status, out, err, events = tap.end()
    server.close()
    assert (status, out) == (0, "calls 0\n") and "LogFault BadRpc" in err, (status, out, err)


def late_connections():
    server, tap = Server(), Tap(lanes=1)
    first = connect()
    ask(first, 1)
    try:
        late = connect()
        late.settimeout(2)
        late.sendall(frame(call(9)))
        served = late.recv(10)
    except OSError:
        served = b""
    assert served == b"", served
    ask(first, 2)
    first.close()
    status, out, err, events = tap.end()
    server.close()
    assert (status, out, count(events, 0)) == (0, "calls 2\n", 2), (status, out, err)


def ended_by_input():
    server, tap = Server(), Tap(quiet=False)
    socks = [connect() for _ in range(5)]
    for sock in socks:
        ask(sock, 1)
    time.sleep(1.2)
    tap.process.stdin.close()
    tap.process.stdin = None
    for sock in socks:
        assert sock.recv(1) == b""
    status, out, err, events = tap.end()
    try:
        connect()
        refused = False
    except OSError:
        refused = True
    server.close()
    assert refused and (status, out) == (0, "calls 5\n") and count(events, 2) == 5, (status, out, err)
    assert "connections 5, calls 5, bytes 320" in err, err


def crash():
    server, tap = Server(), Tap()
    old = [connect() for _ in range(3)]
    for sock in old:
        ask(sock, 1)
    server.close()
    tap.say(b"cra")
    time.sleep(0.1)
    tap.say(b"sh\nno order\n\n")
    for sock in old:
        assert sock.recv(1) == b""
    time.sleep(0.2)
    pending = connect()
    pending.sendall(frame(call(4)))
    time.sleep(0.3)
    server = Server()
    assert read_record(pending) == reply(4)
    pending.close()
    time.sleep(0.3)
    tap.say(b"cras")
    tap.process.stdin.close()
    tap.process.stdin = None
    status, out, err, events = tap.end()
    server.close()
    told = ["the crash is noted", "an order is unknown: crash is the only one", "the last order isn't done: it has no line feed"]
    said = err.split("\n")
    assert all(said.count(line) == 1 for line in told), err
    kinds = [event[0] for event in events]
    assert (status, out) == (0, "calls 4\n"), (status, out, err)
    assert kinds == [0, 1] * 3 + [2] * 3 + [3, 0, 1, 2], kinds
    assert events[-1][1] == 4
    assert "without a reply" not in err, err


def bad_root():
    global ROOT
    for root in ("zz", "0", "AA", "00" * 65):
        kept, ROOT = ROOT, root
        status, out, err, events = Tap(lanes=1).end()
        ROOT = kept
        assert (status, out, events) == (2, "refused: bad root\n", None), (root, status, out)
        assert "--root takes at most 64 bytes in hexadecimal: two digits each, of 0 to 9 and a to f" in err, err


def cannot_write():
    """A place where no file can be made, a folder and a file of the kernel's: said before a client is served."""
    folder = tempfile.mkdtemp()
    for path, words in (("/nowhere/h", ["--lanes", "1"]), (folder, ["--seconds", "30"]), ("/proc/nfsbench", ["--idle", "30"])):
        line = [sys.argv[1], "tap", "--root", ROOT, "--port", str(PORT), "--server", str(SERVER), *words, path]
        process = subprocess.run(line, capture_output=True, timeout=10)
        assert (process.returncode, process.stdout) == (2, b"refused: cannot write\n"), (path, process)
    os.rmdir(folder)


def own_port():
    line = [sys.argv[1], "tap", "--root", ROOT, "--port", str(PORT), "--server", str(PORT), "--seconds", "30", "/tmp/own.hist"]
    process = subprocess.run(line, capture_output=True, timeout=10)
    assert (process.returncode, process.stdout) == (2, b"refused: cannot listen\n"), process
    assert b"--port and --server are the same port of this machine" in process.stderr, process


def wrong_root():
    """A server that answers GETATTR by NFS3ERR_STALE: that is said at once, and the recording goes on."""
    stale = lambda xid: frame(reply(xid) + struct.pack(">I", 70))
    server = Answers(stale)
    tap = Tap(words=["--seconds", "1"])
    status, out, err, events = tap.end()
    server.close()
    assert (status, out, events) == (0, "calls 0\n", []), (status, out, events)
    assert "the server answers GETATTR of the root with status 70: is --root its handle?" in err, err


def empty_root():
    server = Server()
    line = [sys.argv[1], "tap", "--root", "", "--port", str(PORT), "--server", str(SERVER), "--seconds", "1", "/tmp/empty.hist"]
    process = subprocess.run(line, capture_output=True, timeout=10)
    server.close()
    os.remove("/tmp/empty.hist")
    assert (process.returncode, process.stdout) == (0, b"calls 0\n"), process
    assert b"the root's handle has no byte: is --root empty by mistake?" in process.stderr, process


def disk_full():
    """What fits on a disk of 256 KiB stands in the file beside the history, whole events of it."""
    folder = tempfile.mkdtemp()
    if subprocess.run(["mount", "-t", "tmpfs", "-o", "size=256k", "none", folder]).returncode:
        raise RuntimeError("needs a file system of its own: run it as root")
    server, kept = Server(), tempfile.mktemp
    tempfile.mktemp = lambda suffix="": folder + "/h" + suffix
    tap = Tap(words=["--seconds", "3"])
    tempfile.mktemp = kept
    sock = connect()
    for xid in range(400):
        sock.sendall(frame(call(xid, 2_000)))
        read_record(sock)
    out, err = tap.process.communicate(timeout=20)
    server.close()
    mended = kept(suffix=".hist")
    told = subprocess.run([sys.argv[1], "mend", tap.path + ".part", mended], capture_output=True, text=True)
    events = read_history(mended)
    os.remove(mended)
    subprocess.run(["umount", folder])
    os.rmdir(folder)
    assert (tap.process.returncode, out) == (2, b"refused: cannot write\n"), (tap.process.returncode, out, err)
    assert b"what is noted isn't kept on disk any more: a write failed" in err, err
    assert told.returncode == 0 and count(events, 0) > 20, (told, len(events))


def log_full():
    """Some 130 calls of 2 MB fill a history's file."""
    server, tap = Server(), Tap()
    sock, other = connect(), connect()
    ask(other, 1)
    try:
        for xid in range(200):
            sock.sendall(frame(call(xid, 2_000_000)))
            if read_record(sock) is None:
                break
    except OSError:
        pass
    assert other.recv(1) == b""
    time.sleep(1)
    assert os.path.exists(tap.path)
    tap.process.stdin.close()
    tap.process.stdin = None
    status, out, err, events = tap.end()
    server.close()
    calls = count(events, 0)
    assert (status, out) == (0, f"calls {calls}\n") and f"LogFull; calls {calls}" in err, (status, out, err)
    assert count(events, 2) == 2 and 130 < calls < 137, calls


class Answers(Server):
    """Answers the calls of a connection by these functions in turn: each gives bytes to send, or None to end the connection."""

    def __init__(self, *answers):
        self.answers = answers
        super().__init__()

    def answer(self, peer):
        try:
            for answer in self.answers:
                message = read_record(peer)
                if message is None:
                    break
                text = answer(struct.unpack(">I", message[:4])[0])
                if text is None:
                    break
                peer.sendall(text)
            else:
                peer.recv(1)
        except OSError:
            pass
        peer.close()


def right(xid):
    return frame(reply(xid))


def unhealthy(server, calls, wanted, words=()):
    """What a strict recording of one connection with so many calls ends with: these lines, then their number, with status 1."""
    tap = Tap(lanes=1, words=["--strict", *words])
    sock = connect()
    try:
        for xid in range(calls):
            sock.sendall(frame(call(xid + 1)))
            if read_record(sock) is None:
                break
        time.sleep(0.3)
        sock.close()
    except OSError:
        pass
    status, out, err, events = tap.end()
    server.close()
    lines = out.splitlines()
    said = [line for line in lines[:-1] if line != "unhealthy: no call is judged: is the port that of NFS?"]
    assert status == 1 and said == [f"unhealthy: {line}" for line in wanted] and lines[-1] == f"calls {count(events, 0)}", (status, out, err)


def server_ends_first():
    unhealthy(Answers(right, lambda xid: None), 2,
              ["the server ended 1 connections outside a crash, the first lane 1",
               "1 calls were never answered, the first on lane 1 with transaction number 2"])


def call_unanswered():
    server, tap = Answers(right, lambda xid: b""), Tap(lanes=1, words=["--strict"])
    sock = connect()
    ask(sock, 7)
    sock.sendall(frame(call(8)))
    time.sleep(0.3)
    sock.close()
    status, out, err, _ = tap.end()
    server.close()
    assert status == 1 and "unhealthy: 1 calls were never answered, the first on lane 1 with transaction number 8\n" in out, (status, out, err)
    assert "lane 1 ended: calls without a reply 1, such as that of transaction 8\n" in err, err


def ends_while_busy():
    """What waits when the recording ends is no fault of the server's."""
    orders = tempfile.mktemp()
    open(orders, "w").close()
    server, tap = Answers(right, lambda xid: b""), Tap(words=["--strict", "--orders", orders])
    sock = connect()
    ask(sock, 7)
    sock.sendall(frame(call(8)))
    time.sleep(0.3)
    with open(orders, "a") as file:
        file.write("end\n")
    status, out, err, _ = tap.end()
    sock.close()
    server.close()
    os.remove(orders)
    assert "never answered" not in out, (status, out, err)


def answered_twice():
    unhealthy(Answers(lambda xid: right(xid) + right(xid)), 1,
              ["what the server sent on lane 1 is no reply to an open call: LogFault NoSuchCall"])


def record_too_long():
    unhealthy(Answers(lambda xid: right(xid) + struct.pack(">I", 0x80000000 | 2_097_153)), 1,
              ["what the server sent on lane 1 is no reply to an open call: RecordTooLong"])


def garbage():
    unhealthy(Answers(lambda xid: right(xid) + frame(b"garbage!")), 1,
              ["what the server sent on lane 1 is no reply to an open call: LogFault BadRpc"])


def nothing_judged():
    server, tap = Server(), Tap(lanes=1, words=["--strict"])
    sock = connect()
    ask(sock, 1)
    sock.close()
    status, out, _, _ = tap.end()
    server.close()
    assert (status, out) == (1, "unhealthy: no call is judged: is the port that of NFS?\ncalls 1\n"), (status, out)


def healthy():
    """A GETATTR that is answered NOENT's way is judged; a crash explains what it ends."""
    server, tap = Answers(getattr_failed, getattr_failed), Tap(words=["--strict"])
    sock = connect()
    for xid in (1, 2):
        sock.sendall(frame(getattr_call(xid)))
        assert read_record(sock) is not None
    sock.sendall(frame(getattr_call(3)))
    time.sleep(0.2)
    server.close()
    tap.say(b"crash\n")
    time.sleep(0.5)
    status, out, err, events = tap.end()
    assert (status, out) == (0, "calls 3\n"), (status, out, err)


def getattr_call(xid):
    return struct.pack(">10I", xid, 0, 2, 100003, 3, 1, 0, 0, 0, 0) + struct.pack(">I", 8) + bytes(8)


def getattr_failed(xid):
    return frame(reply(xid) + struct.pack(">I", 70))


def refused_call():
    """A LINK that succeeded is refused by check."""
    message = struct.pack(">10I", 1, 0, 2, 100003, 3, 15, 0, 0, 0, 0) + (struct.pack(">I", 8) + bytes(8)) * 2 + struct.pack(">I", 1) + b"a\0\0\0"
    server, tap = Answers(lambda xid: frame(reply(xid) + bytes(16))), Tap(lanes=1, words=["--strict"])
    sock = connect()
    sock.sendall(frame(message))
    assert read_record(sock) is not None
    sock.close()
    status, out, err, _ = tap.end()
    server.close()
    assert (status, out) == (1, "unhealthy: check refuses the history: Outside 1 Link\ncalls 1\n"), (status, out, err)


def ends_in_time():
    server = Server()
    begun, tap = time.time(), Tap(words=["--seconds", "1"])
    sock = connect()
    ask(sock, 1)
    assert sock.recv(1) == b""
    status, out, _, events = tap.end()
    assert (status, out) == (0, "calls 1\n") and 0.9 < time.time() - begun < 4, (status, out)
    assert not os.path.exists(tap.path + ".part")
    tap = Tap(words=["--idle", "1"])
    sock = connect()
    for xid in range(4):
        ask(sock, xid)
        time.sleep(0.5)
    status, out, _, events = tap.end()
    server.close()
    assert (status, out) == (0, "calls 4\n"), (status, out)


def ordered_by_a_file():
    server, orders = Server(), tempfile.mktemp()
    open(orders, "w").close()
    tap = Tap(words=["--orders", orders])
    sock = connect()
    ask(sock, 1)
    open(orders, "a").write("cra")
    time.sleep(0.2)
    open(orders, "a").write("sh\nwhat\n")
    assert sock.recv(1) == b""
    time.sleep(0.2)
    ask(connect(), 1)
    open(orders, "a").write("end\n")
    status, out, err, events = tap.end()
    server.close()
    os.remove(orders)
    assert (status, out) == (0, "calls 2\n") and "an order is unknown: crash and end are known" in err, (status, out, err)
    assert [event[0] for event in events] == [0, 1, 2, 3, 0, 1, 2]
    status, out, _, _ = Tap(words=["--orders", orders]).end()
    assert (status, out) == (2, "refused: cannot read orders\n"), (status, out)


def orders_astray():
    """An order that is unknown, and one that has no line feed at the end: a crash may not be noted."""
    orders = tempfile.mktemp()
    open(orders, "w").close()
    server, tap = Answers(getattr_failed), Tap(words=["--strict", "--seconds", "2", "--orders", orders])
    open(orders, "a").write("crush\ncra")
    sock = connect()
    sock.sendall(frame(getattr_call(1)))
    assert read_record(sock) is not None
    sock.close()
    status, out, err, _ = tap.end()
    server.close()
    os.remove(orders)
    assert (status, out) == (1, "unhealthy: 2 orders weren't understood or read\ncalls 1\n"), (status, out, err)


def orders_of_before_and_over():
    """What the orders had before isn't read; where they are written over, that is told, and they are read from their beginning."""
    orders = tempfile.mktemp()
    open(orders, "w").write("crash\nend\n")
    server, tap = Answers(getattr_failed), Tap(words=["--strict", "--orders", orders])
    sock = connect()
    sock.sendall(frame(getattr_call(1)))
    assert read_record(sock) is not None
    sock.close()
    open(orders, "w").write("end\n")
    status, out, err, events = tap.end()
    server.close()
    os.remove(orders)
    assert (status, out) == (1, "unhealthy: 1 orders weren't understood or read\ncalls 1\n"), (status, out, err)
    assert "the orders had 10 bytes before the recording began" in err and "the orders were written over" in err, err
    assert 3 not in [event[0] for event in events], events


def mended_by_hand():
    """A crash, and behind it nothing, the beginning of an event, and what no event begins with."""
    part, history = tempfile.mktemp(), tempfile.mktemp()
    for behind, wanted in (b"", 0), (bytes(2), 0), (struct.pack(">I", 4), 1), (struct.pack(">III", 1, 1, 1) + b"x\0\0\0", 1):
        with open(part, "wb") as file:
            file.write(b"NFSHIST1" + struct.pack(">III", 0, 0, 3) + behind)
        told = subprocess.run([sys.argv[1], "mend", part, history], capture_output=True, text=True)
        assert (told.returncode, told.stdout) == (wanted, "events 1\n"), (behind, told)
        assert len(read_history(history)) == 1, read_history(history)
    os.remove(part)
    os.remove(history)


def part_stands():
    tap = Tap(words=["--seconds", "1"])
    tap.end()
    kept, tempfile.mktemp = tempfile.mktemp, lambda suffix="": tap.path
    open(tap.path + ".part", "w").close()
    status, out, _, _ = Tap(words=["--seconds", "1"]).end()
    tempfile.mktemp = kept
    os.remove(tap.path + ".part")
    assert (status, out) == (2, "refused: a .part of an earlier recording is there: mend it, or remove it\n"), (status, out)


def from_a_folder():
    """The history begins with what the folder holds; what can't be a start is named."""
    folder = tempfile.mkdtemp()
    os.mkdir(folder + "/b")
    open(folder + "/b/c", "w").write("abc")
    os.symlink("b", folder + "/a")
    server = Server()
    tap = Tap(words=["--seconds", "1", "--start", folder, "--profile", "strict"])
    ask(connect(), 1)
    out, err = tap.process.communicate(timeout=20)
    data = open(tap.path, "rb").read()
    os.remove(tap.path)
    head = b"NFSHIST2" + struct.pack(">I", 8) + bytes(8) + struct.pack(">II", 1, 3)
    link = bytes(8) + struct.pack(">I", 1) + b"a\0\0\0" + struct.pack(">II", 5, 1) + b"b\0\0\0"
    directory = bytes(8) + struct.pack(">I", 1) + b"b\0\0\0" + struct.pack(">I", 2)
    file = struct.pack(">QI", 2, 1) + b"c\0\0\0" + struct.pack(">II", 1, 3) + b"abc\0"
    assert out == b"calls 1\n" and data.startswith(head + link + directory + file), (out, err, data[:120])
    os.link(folder + "/b/c", folder + "/d")
    tap = Tap(words=["--seconds", "1", "--start", folder])
    status, out, err, events = tap.end()
    server.close()
    assert (status, out, events) == (2, "refused: no start\n", None) and "has 2 names (hard links)" in err, (status, out, err)


CASES = [from_a_folder, server_ends_first, call_unanswered, ends_while_busy, answered_twice, record_too_long, garbage, nothing_judged, healthy, refused_call, ends_in_time,
         ordered_by_a_file, orders_astray, orders_of_before_and_over, mended_by_hand, part_stands, port_in_use, no_server, no_server_open, half_record, long_header, byte_by_byte, many_lanes, many_in_turn,
         server_dies_in_reply, half_closed, xid_in_use, not_rpc, late_connections, ended_by_input, crash, bad_root,
         cannot_write, own_port, wrong_root, empty_root, disk_full, log_full]

if __name__ == "__main__":
    faults = 0
    for case in CASES:
        if sys.argv[2:] and case.__name__ not in sys.argv[2:]:
            continue
        begun, PORT, SERVER = time.time(), PORT + 2, SERVER + 2
        try:
            case()
            said = "ok"
        except Exception as error:
            said, faults = f"FAILED {type(error).__name__}: {error}", 1
        print(f"{case.__name__}: {said} ({time.time() - begun:.1f} s)", flush=True)
    sys.exit(faults)
