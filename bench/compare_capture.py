#!/usr/bin/env python3
"""Compares a recording with a capture of the same calls: compare_capture.py NFSBENCH [--port N] [--export FOLDER] [--keep FOLDER]

It starts nfs-ganesha with an empty export, `nfsbench tap` before it and tcpdump at the server's own ports, and has libnfs's programs call through tap.
Then `nfsbench import` makes a history of the capture. Lane by lane, whatever their numbers are, the calls and the replies of both histories have to be
the same; and `search` has to find a certificate of each, with which `check` says yes. Its status is 0 only if all is so.

It needs root, and Debian's packages tcpdump, nfs-ganesha, nfs-ganesha-vfs, libnfs-utils and rpcbind. It uses three ports from N (28049) on. FOLDER
(/srv/captured) mustn't be there; it is made on a file system that has file handles, and removed.
"""
import argparse
import os
import pathlib
import shutil
import signal
import subprocess
import sys
import tempfile
import time
from collections import Counter

from differ.histories import CALL, REPLY, read_file

CONFIGURATION = """NFS_CORE_PARAM { Protocols = 3; NFS_Port = %d; MNT_Port = %d; Bind_addr = 127.0.0.1; Enable_UDP = false;
  Enable_NLM = false; Enable_RQUOTA = false; }
EXPORT { Export_Id = 1; Path = "%s"; Pseudo = "/captured"; Protocols = 3; Transports = TCP; Access_Type = RW; Squash = No_Root_Squash;
  SecType = sys; FSAL { Name = VFS; } }
LOG { Default_Log_Level = EVENT; }
"""
PATIENCE = 60


def stop(*what) -> None:
    sys.exit(" ".join(str(word) for word in what))


def soon(question, what: str) -> None:
    end = time.monotonic() + PATIENCE
    while not question():
        if time.monotonic() > end:
            stop(f"not within {PATIENCE} seconds:", what)
        time.sleep(0.1)


def listens(port: int) -> bool:
    rows = [row.split() for name in ("/proc/net/tcp", "/proc/net/tcp6") if os.path.exists(name) for row in open(name)]
    return any(row[1].endswith(f":{port:04X}") and row[3] == "0A" for row in rows)


class Programs:
    """What was started, to be ended at the end: each by its own number."""

    def __init__(self, folder: pathlib.Path):
        self.folder, self.running = folder, []

    def start(self, name: str, *words) -> subprocess.Popen:
        with open(self.folder / (name + ".out"), "w") as out, open(self.folder / (name + ".err"), "w") as told:
            process = subprocess.Popen([str(word) for word in words], stdin=subprocess.DEVNULL, stdout=out, stderr=told)
        self.running.append(process)
        return process

    def told(self, name: str) -> str:
        return (self.folder / (name + ".err")).read_text(errors="replace") + (self.folder / (name + ".out")).read_text(errors="replace")

    def end(self) -> None:
        for process in reversed(self.running):
            if process.poll() is None:
                process.terminate()
                try:
                    process.wait(20)
                except subprocess.TimeoutExpired:
                    process.kill()
                    process.wait()


def start_server(programs: Programs, words) -> None:
    if any(listens(port) for port in range(words.port, words.port + 3)):
        stop(f"a port from {words.port} to {words.port + 2} is in use")
    if not listens(111):
        programs.start("rpcbind", "rpcbind", "-f")
        soon(lambda: listens(111), "rpcbind listens")
    configuration = programs.folder / "ganesha.conf"
    configuration.write_text(CONFIGURATION % (words.port, words.port + 1, words.export))
    log = programs.folder / "ganesha.log"
    server = programs.start("ganesha", "ganesha.nfsd", "-F", "-f", configuration, "-L", log, "-p", programs.folder / "ganesha.pid")
    soon(lambda: listens(words.port) and listens(words.port + 1) or server.poll() is not None, "nfs-ganesha listens")
    if server.poll() is not None:
        stop("nfs-ganesha ended:", log.read_text()[-600:])


def call_through(words, folder: pathlib.Path) -> int:
    """Has clients of libnfs call through the recorder; gives how many programs ran."""
    asked = f"version=3&nfsport={words.port + 2}&mountport={words.port + 1}&autoreconnect=0"
    at = f"nfs://127.0.0.1{words.export}"
    large = folder / "large"
    large.write_bytes(bytes(range(251)) * 4_000)
    runs = [("nfs-cp", "/etc/hosts", f"{at}/hosts?{asked}"), ("nfs-cp", large, f"{at}/large?{asked}"), ("nfs-ls", f"{at}?{asked}"),
            ("nfs-cat", f"{at}/hosts?{asked}"), ("nfs-cp", f"{at}/large?{asked}", folder / "back"), ("nfs-cat", f"{at}/large?{asked}")]
    for run in runs:
        done = subprocess.run([str(word) for word in run], capture_output=True, timeout=PATIENCE)
        if done.returncode:
            stop(run[0], "failed:", done.stderr.decode(errors="replace")[:300], done.stdout[:100])
    if (folder / "back").read_bytes() != large.read_bytes():
        stop("the file that was read isn't the one that was written")
    together = [subprocess.Popen(["nfs-cat", f"{at}/large?{asked}"], stdout=subprocess.DEVNULL) for _ in range(3)]
    if any(client.wait(PATIENCE) for client in together):
        stop("nfs-cat failed beside others")
    return len(runs) + len(together)


def record(programs: Programs, words) -> None:
    """Recording and capture of the same calls, in the folder: tap.hist and capture."""
    folder, orders = programs.folder, programs.folder / "orders"
    orders.touch()
    ports = f"tcp port {words.port} or tcp port {words.port + 1}"
    dump = programs.start("tcpdump", "tcpdump", "-i", "lo", "-s", "0", "-B", "16384", "-U", "-Z", "root", "-w", folder / "capture", ports)
    soon(lambda: "listening on" in programs.told("tcpdump") or dump.poll() is not None, "tcpdump listens")
    tap = programs.start("tap", words.program, "tap", "--quiet", "--mount", words.port + 1, "--export", words.export, "--port", words.port + 2,
                         "--server", words.port, "--orders", orders, folder / "tap.hist")
    soon(lambda: listens(words.port + 2) or tap.poll() is not None, "tap listens")
    if tap.poll() is not None:
        stop("tap ended:", programs.told("tap"))
    print(f"{call_through(words, folder)} programs called")
    time.sleep(1)
    orders.write_text("end\n")
    if tap.wait(PATIENCE):
        stop("tap ended with status", tap.returncode, programs.told("tap"))
    time.sleep(1)
    dump.send_signal(signal.SIGINT)
    dump.wait(PATIENCE)
    print("tap:", programs.told("tap").strip(), "\ntcpdump:", ", ".join(programs.told("tcpdump").split("\n")[-4:]).strip(", "))


def lanes_of(path: pathlib.Path) -> tuple[bytes, Counter]:
    """The root, and the calls and replies of each lane that has any, as often as there are such lanes."""
    head, events = read_file(path.read_bytes())
    lanes = {}
    for kind, lane, message in events:
        if kind in (CALL, REPLY):
            lanes.setdefault(lane, ([], []))[kind].append(message)
    return head.root, Counter((tuple(calls), tuple(replies)) for calls, replies in lanes.values())


def are_same(folder: pathlib.Path) -> bool:
    (root, recorded), (other_root, imported) = lanes_of(folder / "tap.hist"), lanes_of(folder / "import.hist")
    print(f"lanes {sum(recorded.values())} and {sum(imported.values())}, calls {sum(len(calls) * count for (calls, _), count in recorded.items())} "
          f"and {sum(len(calls) * count for (calls, _), count in imported.items())}, root {root.hex()}")
    for name, more in (("the recording", recorded - imported), ("the capture", imported - recorded)):
        for calls, replies in more:
            print(f"only in {name}: a lane of {len(calls)} calls and {len(replies)} replies, first {calls[:1] and calls[0][:4].hex()}")
    if root != other_root:
        print("the capture's root is", other_root.hex())
    return root == other_root and recorded == imported and bool(recorded)


def verdict(program: str, history: pathlib.Path) -> str:
    certificate = history.with_suffix(".cert")
    found = subprocess.run([program, "search", "--quiet", "--seconds", "120", str(history)], capture_output=True, text=True)
    certificate.write_text(found.stdout)
    if found.returncode:
        return f"search: status {found.returncode}, {found.stdout[:100].strip()}"
    return subprocess.run([program, "check", str(history), str(certificate)], capture_output=True, text=True).stdout.strip()


def compared(words, folder: pathlib.Path) -> bool:
    programs = Programs(folder)
    os.makedirs(words.export)
    try:
        start_server(programs, words)
        record(programs, words)
    finally:
        programs.end()
        shutil.rmtree(words.export)
    run = subprocess.run([words.program, "import", "--port", str(words.port), folder / "capture", folder / "import.hist"], capture_output=True, text=True)
    print("import:", run.stdout.strip(), f"(status {run.returncode})", *run.stderr.splitlines()[:9], sep="\n  ")
    if run.returncode:
        return False
    is_same = are_same(folder)
    verdicts = [verdict(words.program, folder / name) for name in ("tap.hist", "import.hist")]
    print("verdict on the recording:", verdicts[0], "\nverdict on the capture:", verdicts[1])
    return is_same and verdicts == ["yes", "yes"]


def main() -> None:
    parser = argparse.ArgumentParser(description=__doc__, formatter_class=argparse.RawDescriptionHelpFormatter)
    parser.add_argument("program", metavar="NFSBENCH", type=os.path.abspath)
    parser.add_argument("--port", type=int, default=28_049, metavar="N")
    parser.add_argument("--export", default="/srv/captured", metavar="FOLDER")
    parser.add_argument("--keep", metavar="FOLDER", help="keeps the capture, both histories and what was said there")
    words = parser.parse_args()
    if os.path.exists(words.export):
        stop(words.export, "is there already")
    signal.signal(signal.SIGTERM, lambda number, frame: stop("ended by a signal"))
    with tempfile.TemporaryDirectory() as folder:
        try:
            is_right = compared(words, pathlib.Path(folder))
        finally:
            if words.keep:
                shutil.copytree(folder, words.keep, dirs_exist_ok=True)
    print("the same" if is_right else "not the same")
    sys.exit(0 if is_right else 1)


main()
