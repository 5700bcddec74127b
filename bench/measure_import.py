#!/usr/bin/env python3
"""Measures `nfsbench import` beside `sha256sum` of the same capture: measure_import.py NFSBENCH [EVENTS [WRITES]]

The capture has so many events (990,000), half of them calls and half their replies, in eight connections of which segments come in turn, and MOUNT's
reply. Calls are GETATTRs, but each WRITES-th one (30) is a WRITE of 8 KiB. Of a million events a tenth can't be WRITEs of that size: a history has
room for 268,435,456 bytes, and an importer needs some of its 1,000,000 events for closes. It prints a row for each of three pairs of runs, with the
seconds on the clock and those of a processor, which other work on the machine changes less; then the least of each, the ratios, and the peak of memory.
Its status is 1 where the program doesn't find all calls.
"""
import os
import struct
import subprocess
import sys
import tempfile
import time

from capture_traffic import MOUNT_PORT, NFS_PORT, call, framed, mnt_call, mnt_reply, opaque, reply
from captures import ACK, FORMS, SYN, End, Packet, Segment, classic_head, datagram

LANES, PAIRS, SIZE, PIECE = 8, 3, 8_192, 1_448
EVENTS, WRITES = 990_000, 30
SERVER, CLIENT = b"\x0a\0\0\x01", b"\x0a\0\0\x02"
FORM = FORMS["micro, lowest first"]
HANDLE = bytes(range(28))
HEAD = bytes.fromhex("0200000000020200000000010800")


class Way:
    """Packets of one way of a connection, laid out after one that was built in full. Check sums aren't those of its bytes."""

    def __init__(self, source: End, destination: End):
        self.sequence = 1_000
        self.pattern = datagram(Packet(segment=Segment(source, destination, 0, ACK)))[1]

    def packet(self, time_of_packet: int, payload: bytes, flags: int = ACK) -> bytes:
        ip, length = self.pattern, 40 + len(payload)
        frame = HEAD + ip[:2] + struct.pack(">H", length) + ip[4:24] + struct.pack(">I", self.sequence) + ip[28:33] + bytes([flags]) + ip[34:] + payload
        self.sequence = (self.sequence + len(payload) + (flags & SYN and 1)) % 2**32
        seconds, part = divmod(time_of_packet, 1_000_000)
        return struct.pack("<IIII", 1_700_000_000 + seconds, part, len(frame), len(frame)) + frame


class Lane:
    def __init__(self, port: int, server_port: int = NFS_PORT):
        client, server = End(CLIENT, port), End(SERVER, server_port)
        self.calls, self.replies = Way(client, server), Way(server, client)

    def opening(self, at: int) -> bytes:
        return self.calls.packet(at, b"", SYN) + self.replies.packet(at, b"", SYN | ACK)

    def exchange(self, at: int, asked: bytes, given: bytes) -> bytes:
        pieces = (asked[begin:begin + PIECE] for begin in range(0, len(asked), PIECE))
        return b"".join(self.calls.packet(at, piece) for piece in pieces) + self.replies.packet(at, given)


def messages(number: int, writes: int) -> tuple[bytes, bytes]:
    """A call of this number, and its reply: a GETATTR, or a WRITE."""
    if number % writes == 0:
        arguments = opaque(HANDLE) + struct.pack(">QII", 0, SIZE, 2) + opaque(bytes(SIZE))
        return framed(call(number, 7, arguments)), framed(reply(number, bytes(12) + struct.pack(">IIQ", SIZE, 2, 1)))
    return framed(call(number, 1, opaque(HANDLE))), framed(reply(number, bytes(88)))


def make_capture(path: str, calls: int, writes: int) -> None:
    mount, lanes = Lane(700, MOUNT_PORT), [Lane(701 + number) for number in range(LANES)]
    with open(path, "wb") as file:
        file.write(classic_head(FORM, 1) + mount.opening(0) + mount.exchange(0, framed(mnt_call(1)), framed(mnt_reply(1))))
        file.write(b"".join(lane.opening(1) for lane in lanes))
        for number in range(1, calls + 1):
            file.write(lanes[number % LANES].exchange(number, *messages(number, writes)))


class Run:
    """A run of a program: what it said, its seconds on the clock and of a processor, and its peak of memory in MB."""

    def __init__(self, *words):
        begin = time.perf_counter()
        process = subprocess.Popen(words, stdout=subprocess.PIPE, stderr=subprocess.STDOUT, text=True)
        self.said = process.stdout.read().strip()
        _, process.returncode, used = os.wait4(process.pid, 0)
        self.clock, self.processor = time.perf_counter() - begin, used.ru_utime + used.ru_stime
        self.peak = used.ru_maxrss * 1_024 / 1e6


def row(imported: list, summed: list) -> str:
    """The least of each."""
    pairs = [(min(run.clock for run in runs), min(run.processor for run in runs)) for runs in (imported, summed)]
    (clock, processor), (clock_of_sum, processor_of_sum) = pairs
    return f"{clock:8.3f} {clock_of_sum:8.3f} {clock / clock_of_sum:6.2f}   {processor:8.3f} {processor_of_sum:8.3f} {processor / processor_of_sum:6.2f}   "


def measured(program: str, events: int, writes: int) -> int:
    with tempfile.TemporaryDirectory() as folder:
        capture, history = os.path.join(folder, "capture"), os.path.join(folder, "history")
        make_capture(capture, events // 2, writes)
        size, imported, summed = os.path.getsize(capture) / 1e6, [], []
        print(f"{events} events, one call of {writes} a WRITE of {SIZE} bytes, {size:.1f} MB")
        print("   clock   sha256  ratio  processor   sha256  ratio", flush=True)
        for _ in range(PAIRS):
            imported.append(Run(program, "import", "--port", str(NFS_PORT), capture, history))
            summed.append(Run("sha256sum", capture))
            print(row(imported[-1:], summed[-1:]) + imported[-1].said[:200], flush=True)
        peak = max(run.peak for run in imported)
        print(row(imported, summed) + f"least; peak {peak:.1f} MB, {peak / size:.2f} of the capture")
        return 0 if all(run.said == f"calls {events // 2}" for run in imported) else 1


def main() -> int:
    numbers = [int(word) for word in sys.argv[2:]]
    return measured(sys.argv[1], *numbers, *[EVENTS, WRITES][len(numbers):])


if __name__ == "__main__":
    sys.exit(main())
