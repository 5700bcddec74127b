#!/usr/bin/env python3
"""Tries `nfsbench import` on captures: try_import.py NFSBENCH [--seeds A-B] [--keep FOLDER] [NAME..]

The same messages over each link layer in each format; captures made at random by seeds (1-300), with what networks do to segments; what
docs/CAPTURES.md says of gaps, beginnings and roots, case by case; bad input, each with its line and status; and each of the first 4,096 bytes as the
end of a capture. What a history must be, `capture_model.py` says. It prints a line for each that is wrong, then `N of M`, and its status is 0 only if
all are right. With --keep the captures that were read wrongly are stored in FOLDER.
"""
import argparse
import os
import pathlib
import random
import re
import resource
import shutil
import subprocess
import sys
import tempfile
from dataclasses import dataclass, field
from typing import Optional

import capture_cases
from capture_model import TOO_EARLY, Wanted, history_of
from capture_traffic import NFS_PORT, ROOT, offloaded, traffic
from captures import (FORMS, IPV4, IPV6, LINKS, WHOLE, Interface, Link, block_file, classic_file, datagram, laid_out, odd_block, option, packet_block,
                      section_block)
from differ.histories import read_file
from differ.refusals import Refused

PREFIX = 4_096
PATIENCE = 600


@dataclass
class Ran:
    """How a run ended: its status, its standard output, the lines of standard error, the history's root and events, and a processor's seconds."""
    status: int
    out: str
    told: list
    root: Optional[bytes]
    events: Optional[list]
    seconds: float


def seconds_of_children() -> float:
    used = resource.getrusage(resource.RUSAGE_CHILDREN)
    return used.ru_utime + used.ru_stime


class Bench:
    """The program, a folder for its files, and how many trials there were and how many were right."""

    def __init__(self, words, folder: pathlib.Path):
        self.program, self.keep, self.names = words.program, words.keep, words.names
        self.folder, self.capture, self.history = folder, folder / "capture", folder / "history"
        self.count = self.right = 0

    def is_wanted(self, name: str) -> bool:
        return not self.names or any(part in name for part in self.names)

    def run(self, *words, capture=None, history=None, port=NFS_PORT) -> Ran:
        capture, history = capture or self.capture, history or self.history
        line = [self.program, "import", "--port", str(port), *words, str(capture), str(history)]
        before = seconds_of_children()
        try:
            run = subprocess.run(line, capture_output=True, text=True, errors="replace", timeout=PATIENCE)
        except subprocess.TimeoutExpired:
            return Ran(-1, f"no end within {PATIENCE} seconds", [], None, None, PATIENCE)
        seconds = seconds_of_children() - before
        root, events = self.taken()
        return Ran(run.returncode, run.stdout, run.stderr.splitlines(), root, events, seconds)

    def taken(self):
        """What the run wrote, if anything."""
        if not self.history.is_file():
            return None, None
        data = self.history.read_bytes()
        self.history.unlink()
        try:
            head, events = read_file(data)
        except Refused as fault:
            return None, [str(fault)]
        return head.root, [(kind, lane, message or b"") for kind, lane, message in events]

    def note(self, name: str, faults: list) -> None:
        self.count += 1
        self.right += not faults
        for fault in faults[:4]:
            print(f"{name}: {fault}", flush=True)
        if faults and self.keep and self.capture.is_file():
            os.makedirs(self.keep, exist_ok=True)
            shutil.copy(self.capture, os.path.join(self.keep, re.sub(r"\W+", "-", name) + ".pcap"))


def ended_lanes(ran: Ran) -> list:
    found = (re.fullmatch(r"lane (\d+): ends.* at (\d+)\.(\d{3}) seconds", line) for line in ran.told)
    return sorted((int(one[1]), int(one[2]) * 1_000 + int(one[3])) for one in found if one)


def passed_packets(ran: Ran) -> dict:
    passed = (re.fullmatch(r"packets passed over: (\d+): (.*)", line) for line in ran.told)
    early = (re.match(rf"packets ({TOO_EARLY}): (\d+): ", line) for line in ran.told)
    return {one[2]: int(one[1]) for one in passed if one} | {one[1]: int(one[2]) for one in early if one}


def event_faults(seen: Optional[list], wanted: list) -> list:
    if seen is None:
        return ["no history is written"]
    for number, (ours, theirs) in enumerate(zip(wanted, seen), 1):
        if ours != theirs:
            return [f"event {number} is {shown(theirs)}, wanted {shown(ours)}"]
    if len(seen) != len(wanted):
        rest = (seen if len(seen) > len(wanted) else wanted)[min(len(seen), len(wanted))]
        return [f"{len(seen)} events, wanted {len(wanted)}; the first that the other lacks is {shown(rest)}"]
    return []


def shown(event) -> str:
    if not isinstance(event, tuple):
        return str(event)
    kind, lane, message = event
    return f"{['call', 'reply', 'close', 'crash'][kind]} of lane {lane}" + (f" {message[:4].hex()} of {len(message)} bytes" if message else "")


def line_faults(ran: Ran, status: int, line: Optional[str]) -> list:
    """Where the status is another, or the pattern of the one line of standard output doesn't fit."""
    if ran.status == status and (line is None or re.fullmatch(line + "\n", ran.out)):
        return []
    return [f"status {ran.status} and {ran.out!r}, wanted {status} and {line!r}; {ran.told[:1]}"]


def history_faults(ran: Ran, wanted: Wanted) -> list:
    """Where a run gave another history than the model, or told something else of lanes and packets."""
    faults = line_faults(ran, 0, f"calls {wanted.calls}") + event_faults(ran.events, wanted.events)
    if ran.root != wanted.root:
        faults.append(f"the root is {ran.root and ran.root.hex()}, wanted {wanted.root.hex()}")
    ended = sorted((lane, at // 10**6) for lane, at in wanted.ended)
    if ended_lanes(ran) != ended:
        faults.append(f"lanes that are told to end (lane, milliseconds): {ended_lanes(ran)}, wanted {ended}")
    if passed_packets(ran) != wanted.passed:
        faults.append(f"packets that are told of: {passed_packets(ran)}, wanted {wanted.passed}")
    left_out = sum(1 for line in ran.told if re.match(r"lane \d+: record not taken: ", line))
    if left_out != wanted.left_out:
        faults.append(f"{left_out} records are told to be left out, wanted {wanted.left_out}")
    return faults


def try_capture(bench: Bench, name: str, data: bytes, seen: list, *words) -> None:
    """A capture whose history has to be one of two that the model gives: gaps are told at once, or by what was captured behind them."""
    bench.capture.write_bytes(data)
    ran = bench.run(*words)
    each = [history_faults(ran, history_of(seen, NFS_PORT, ROOT if words else None, shows_all)) for shows_all in (True, False)]
    bench.note(name, min(each, key=len))


def versions_of(link) -> tuple:
    return tuple(version for version, protocol in ((4, IPV4), (6, IPV6)) if protocol in link.protocols)


def try_layers(bench: Bench) -> None:
    """The same traffic over each link layer, in each format."""
    for link_name, link in LINKS.items():
        packets = traffic(random.Random(link_name), versions_of(link), has_arp=len(link.protocols) == 3)
        laid = [laid_out(packet, link) for packet in packets]
        frames, seen = [frame for frame, _ in laid], [seen for _, seen in laid]
        files = {name: classic_file(form, frames) for name, form in FORMS.items()}
        for order, order_name in (("<", "lowest first"), (">", "highest first")):
            for kind in ("enhanced", "old"):
                files[f"pcapng, {kind} packets, {order_name}"] = block_file(order, Interface(link, resolution=9), frames, kind)
        for name, data in files.items():
            try_capture(bench, f"layers: {link_name}; {name}", data, seen)


@dataclass
class Mixed:
    """A capture made at random: its bytes, and what a reader can know of its packets."""
    data: bytes = b""
    seen: list = field(default_factory=list)


def mixed_classic(draw: random.Random, link: Link, packets: list, snap: int) -> Mixed:
    form = draw.choice(list(FORMS.values()))
    for packet in packets:
        packet.time -= 0 if form.is_nano else packet.time % 1_000
    laid = [laid_out(packet, link, snap) for packet in packets]
    return Mixed(classic_file(form, [frame for frame, _ in laid], snap), [seen for _, seen in laid])


def random_section(draw: random.Random, order: str, snap: int) -> tuple[list, bytes]:
    """The interfaces of a section, and its first blocks. The first interface carries all protocols."""
    links, resolutions = list(LINKS.values()), [None, 3, 6, 9, 128 + 20, 128 + 30]
    limit = draw.choice([0, WHOLE]) if snap == WHOLE else snap
    interfaces = [Interface(draw.choice([link for link in links if len(link.protocols) == 3]), limit, draw.choice(resolutions))]
    interfaces += [Interface(draw.choice(links), limit, draw.choice(resolutions)) for _ in range(draw.randrange(4))]
    return interfaces, section_block(order) + b"".join(interface.block(order) for interface in interfaces)


def mixed_blocks(draw: random.Random, packets: list, snap: int) -> Mixed:
    """Several sections, each in its order and with interfaces of its own, with packets of all kinds and other blocks between."""
    mixed, data, last = Mixed(), [], 0
    for packet in packets:
        if not data or draw.random() < 0.02:
            order = draw.choice("<>")
            interfaces, head = random_section(draw, order, snap)
            data.append(head)
        if draw.random() < 0.1:
            data.append(odd_block(draw, order))
        kind = draw.choice(["enhanced", "enhanced", "old", "simple"])
        carriers = [number for number, interface in enumerate(interfaces) if datagram(packet)[0] in interface.link.protocols]
        number = 0 if kind == "simple" else draw.choice(carriers)
        packet.time = last = last if kind == "simple" else interfaces[number].rounded(packet.time)
        frame, seen = laid_out(packet, interfaces[number].link, snap)
        options = draw.choice([b"", option(order, 1, b"abc") + bytes(4)])
        data.append(packet_block(order, kind, number, interfaces[number], frame, options))
        mixed.seen.append(seen)
    mixed.data = b"".join(data)
    return mixed


def mixed_of(seed: int) -> tuple[Mixed, tuple]:
    """The capture of a seed, and the words that it needs."""
    draw = random.Random(seed)
    snap = draw.choice([160, 300, 1_000]) if draw.random() < 0.2 else WHOLE
    has_mount = draw.random() < 0.7 and snap == WHOLE
    link = draw.choice(list(LINKS.values())) if draw.random() < 0.4 else None
    versions = versions_of(link) if link else draw.choice([(4,), (6,), (4, 6)])
    packets = traffic(draw, versions, link is None or len(link.protocols) == 3, has_mount)
    if snap == WHOLE:
        offloaded(draw, packets)
    mixed = mixed_classic(draw, link, packets, snap) if link else mixed_blocks(draw, packets, snap)
    return mixed, () if has_mount else ("--root", ROOT.hex())


def try_seed(bench: Bench, seed: int) -> None:
    mixed, words = mixed_of(seed)
    try_capture(bench, f"seed {seed}", mixed.data, mixed.seen, *words)


def try_cases(bench: Bench) -> None:
    for case in capture_cases.all_cases():
        if not bench.is_wanted(case.name):
            continue
        ran = run_case(bench, case)
        faults = line_faults(ran, case.status, case.line)
        if case.wanted is not None:
            faults = min((history_faults(ran, wanted) for wanted in (case.wanted, case.otherwise) if wanted is not None), key=len)
        elif case.status == 2 and ran.events is not None:
            faults.append("a history is written")
        faults += [f"standard error says nothing like {told!r}: {ran.told[:3]}" for told in case.told if not any(re.search(told, line) for line in ran.told)]
        if ran.seconds > 20:
            faults.append(f"{ran.seconds:.1f} seconds")
        bench.note(case.name, faults)


def run_case(bench: Bench, case) -> Ran:
    bench.capture.unlink(missing_ok=True)
    if case.data is not None:
        bench.capture.write_bytes(case.data)
    capture = bench.folder / case.capture if case.capture else bench.capture
    history = bench.folder / case.history if case.history else bench.history
    ran = bench.run(*case.words, capture=capture, history=history, port=case.port)
    if case.data is not None and bench.capture.read_bytes() != case.data:
        ran.out += "the capture was changed"
    return ran


def prefix_faults(ran: Ran, size: int, capture) -> list:
    """Where the first bytes of a capture aren't read up to the last whole item, and its cut isn't told; within a second of a processor."""
    start = max((start for start in capture.calls if start <= size), default=0)
    faults = [f"{ran.seconds:.1f} seconds"] if ran.seconds > 1 else []
    if size < 4:
        return faults + line_faults(ran, 2, "refused: capture: not a capture file")
    if start == 0:
        return faults + line_faults(ran, 2, "refused: capture: cut off in the item at byte 0")
    told = [] if size == start else [f"the capture is cut off in the packet at byte {start}"]
    if [line for line in ran.told if "cut off" in line] != told:
        faults.append(f"standard error says {ran.told[:3]}, wanted {told}")
    return faults + line_faults(ran, 0, f"calls {capture.calls[start]}")


def try_prefixes(bench: Bench) -> None:
    """Each of the first bytes of a capture as its end, each eighth of them twice: the same is said again."""
    for capture in capture_cases.cut_captures():
        for size in range(PREFIX + 1):
            bench.capture.write_bytes(capture.data[:size])
            ran = bench.run("--root", ROOT.hex())
            faults = prefix_faults(ran, size, capture)
            if size % 8 == 0:
                other = bench.run("--root", ROOT.hex())
                if (other.status, other.out, other.told, other.events) != (ran.status, ran.out, ran.told, ran.events):
                    faults.append("another run says something else")
            bench.note(f"prefix {size} of {capture.name}", faults)


def seeds_of(text: str) -> range:
    first, last = text.split("-")
    return range(int(first), int(last) + 1)


def main() -> None:
    parser = argparse.ArgumentParser(description=__doc__, formatter_class=argparse.RawDescriptionHelpFormatter)
    parser.add_argument("program", metavar="NFSBENCH", type=os.path.abspath)
    parser.add_argument("--seeds", type=seeds_of, default=range(1, 301), metavar="A-B", help="1-300")
    parser.add_argument("--keep", metavar="FOLDER")
    parser.add_argument("names", nargs="*", metavar="NAME", help="only what has one of these words in its name: layers, seed, prefix, or a case's own")
    words = parser.parse_intermixed_args()
    with tempfile.TemporaryDirectory() as folder:
        bench = Bench(words, pathlib.Path(folder))
        if bench.is_wanted("layers"):
            try_layers(bench)
        try_cases(bench)
        for seed in words.seeds if bench.is_wanted("seed") else []:
            try_seed(bench, seed)
        if bench.is_wanted("prefix"):
            try_prefixes(bench)
    print(f"{bench.right} of {bench.count}")
    sys.exit(0 if bench.count and bench.right == bench.count else 1)


if __name__ == "__main__":
    main()
