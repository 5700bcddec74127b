"""What inputs have to come to, by the rules of bench/differ and the pages of docs/: each function yields what is wrong with one input.

A history's verdict is judged by the second checker, a page of `draw` by bench/pictures, the right replies of `explain` by try_reasons.py, a decision by the
plain walk of try_walks.py, what `mend` makes by the rules of docs/FORMATS.md for events that may follow. Of the other commands the statuses are looked at, and
that what they write is what `check` accepts.
"""
import collections
import json
import pathlib
import re
import subprocess

import try_pictures
import try_reasons
import try_walks
from differ.histories import CALL, CRASH, REPLY, read_file, read_history, read_message
from differ.refusals import Refused
from differ.rpc import read_call, read_reply
from differ.verdicts import judge
from fuzzing import shapes

TIMEOUT = 20
# Histories of more calls, or with more of them open at once, aren't walked.
WALKED_CALLS, WALKED_OPEN = 14, 4
PAGE_PATH = "history"
ILLEGAL = re.compile(r"no: Illegal ([0-9]+)")


def parted(data: bytes) -> tuple:
    """The history and the certificate of an input."""
    at = data.rfind(b"witness ")
    return (data, b"") if at < 0 else (data[:at], data[at:])


class Bench:
    """The program, and a folder for its files."""

    def __init__(self, program: str, folder: pathlib.Path):
        self.program, self.folder, self.tally = program, folder, collections.Counter()
        self.reasons = try_reasons.Trial(program, str(folder), None)
        self.pictures = try_pictures.Trial(program, str(folder), None)

    def put(self, **files) -> None:
        for name, data in files.items():
            (self.folder / name).write_bytes(data)

    def run(self, line: str, stdin: bytes = b"") -> tuple:
        """What is printed, and the status."""
        try:
            ran = subprocess.run([self.program, *line.split()], cwd=self.folder, input=stdin, stdout=subprocess.PIPE, stderr=subprocess.DEVNULL, timeout=TIMEOUT)
        except subprocess.TimeoutExpired:
            return "", f"none after {TIMEOUT} seconds"
        return ran.stdout.decode("utf-8", "replace"), ran.returncode


def expect(bench: Bench, line: str, wanted: tuple, stdin: bytes = b""):
    got = bench.run(line, stdin)
    if got != wanted:
        yield f"{line}: {got[0][:200]!r} with status {got[1]} for {wanted[0][:200]!r} with {wanted[1]}"


def of_json(said: dict) -> str:
    """The line of `check` that an object of `check --json` says."""
    values = [str(value) for name, value in said.items() if name not in ("verdict", "reason", "fault")]
    names = [said["verdict"] + ":"] + [said["fault"]] if "fault" in said else [said["verdict"]]
    return " ".join(names + values)


def verdict_faults(bench: Bench, history: bytes, certificate: bytes):
    wanted = judge(history, certificate)
    bench.tally[f"verdict {wanted.name}"] += 1
    whole = wanted.line + "\n", wanted.status
    bench.put(history=history, certificate=certificate)
    yield from expect(bench, "check history certificate", whole)
    yield from expect(bench, "", whole, history.hex().encode() + b"\n" + certificate)
    printed, status = bench.run("check --json history certificate")
    if (of_json(json.loads(printed)), status) != (wanted.line, wanted.status):
        yield f"check --json: {printed!r} with status {status}"
    for line in ("report history certificate", "show history certificate"):
        printed, status = bench.run(line)
        if status != wanted.status or (printed.split("\n")[-2:] != [wanted.line, ""] and wanted.status != 2):
            yield f"{line}: {printed[-200:]!r} with status {status} for {wanted.line}"


def reason_faults(bench: Bench, history: bytes, certificate: bytes):
    wanted, told = judge(history, certificate), len(bench.reasons.faults)
    illegal = ILLEGAL.fullmatch(wanted.line)
    if illegal:
        bench.reasons.case("explain", (history, certificate), int(illegal[1]), wanted.line)
    else:
        said = bench.reasons.explained("explain", (history, certificate))
        if said and (said["line"], said["status"]) != (wanted.line, wanted.status):
            yield f"explain: {said['line']!r} with status {said['status']} for {wanted.line!r}"
    yield from bench.reasons.faults[told:]


def page_faults(bench: Bench, history: bytes, certificate):
    told = len(bench.pictures.found.faults)
    bench.put(history=history)
    path = bench.pictures.put(PAGE_PATH, (history, certificate))
    sheet = try_pictures.wanted(path, history, certificate, {})
    bench.pictures.draw("draw", path, (history, certificate), [], sheet, bench.pictures.show(path))
    yield from bench.pictures.found.faults[told:]


def is_walked(history) -> bool:
    spans = [(call.begin, call.end or 1 << 30) for call in history.calls]
    return len(spans) <= WALKED_CALLS and all(sum(begin <= at < end for begin, end in spans) <= WALKED_OPEN for at, _ in spans)


def walked(data: bytes):
    """Whether a history has a witness, by the plain walk; None where that isn't said."""
    try:
        history = read_history(data)
        return try_walks.walk(history) if is_walked(history) else None
    except (Refused, try_walks.Undecided, MemoryError):
        return None


def decision_faults(bench: Bench, history: bytes, certificate: bytes):
    has_witness = walked(history)
    bench.put(history=history)
    printed, status = bench.run("decide --states 1000 --seconds 2 --certificate made history")
    bench.tally[f"decided {printed.split(':')[0].strip()}, walked {has_witness}"] += 1
    found, searched = bench.run("search --workers 1 --turns 2000 --seconds 2 --quiet history")
    if status not in (0, 1, 2) or searched not in (0, 1, 2):
        yield f"decide: status {status}, search: status {searched}"
    if (has_witness is True and status == 1) or (has_witness is False and 0 in (status, searched)):
        yield f"decide: {printed!r}, search: {searched}; the plain walk says {has_witness}"
    if status == 1 and (searched == 0 or judge(history, certificate).status == 0):
        yield f"decide: {printed!r}, and there is a witness"
    if searched == 0 and judge(history, found.encode()).status != 0:
        yield f"search found what isn't a witness: {found!r}"
    if status == 0 and judge(history, (bench.folder / "made").read_bytes()).status != 0:
        yield "decide made what isn't a witness"


def can_follow(events: list):
    """How many events stand ahead of the first one that may not follow."""
    waiting, used, closed = set(), set(), set()
    for number, (kind, lane, message) in enumerate(events):
        if kind == CRASH:
            closed |= used
            continue
        if lane in closed:
            return number
        used.add(lane)
        if kind not in (CALL, REPLY):
            closed.add(lane)
            continue
        try:
            xid = read_message(read_call if kind == CALL else read_reply, message, number)["xid"]
        except Refused:
            return number
        if (kind == CALL) == ((lane, xid) in waiting):
            return number
        waiting ^= {(lane, xid)}
    return len(events)


def event_of(item: bytes) -> tuple:
    kind = int.from_bytes(item[:4], "big")
    message = shapes.Source(item[8:]).opaque() if kind in (CALL, REPLY) else None
    return kind, int.from_bytes(item[4:8], "big") if kind != CRASH else None, message


def prefix_faults(bench: Bench, history: bytes):
    """What `prefix` writes: the first events, and of those behind them the replies to the calls that are open then."""
    try:
        read_history(history)
        events = read_file(history)[1]
    except Refused:
        return
    bench.put(history=history)
    for count in sorted({0, 1, len(events) // 2, max(len(events) - 1, 0), len(events) + 1}):
        printed, status = bench.run(f"prefix history {count} made")
        made = (bench.folder / "made").read_bytes()
        kept, waiting = list(events[:count]), set()
        for kind, lane, message in kept:
            if kind in (CALL, REPLY):
                waiting ^= {(lane, message[:4])}
        for kind, lane, message in events[count:]:
            if kind == REPLY and (lane, message[:4]) in waiting:
                waiting.discard((lane, message[:4]))
                kept.append((kind, lane, message))
            elif kind == CALL:
                waiting.discard((lane, message[:4]))
        if (printed, status) != (f"events {len(kept)}\n", 0) or read_file(made)[1] != kept:
            yield f"prefix {count}: {printed!r} with status {status} for {len(kept)} events"


def part_faults(bench: Bench, data: bytes):
    bench.put(part=data, made=b"")
    printed, status = bench.run("mend part made")
    bench.tally[f"mend: status {status}"] += 1
    wanted = events_to_mend(data)
    made = (bench.folder / "made").read_bytes()
    if status == 2:
        if wanted is not None:
            yield f"mend: {printed!r} for {len(wanted)} events"
        return
    if wanted is None or printed != f"events {len(wanted)}\n" or read_file(made)[1] != wanted:
        yield f"mend: {printed!r} with status {status} for {None if wanted is None else len(wanted)} events"


def events_to_mend(data: bytes):
    """The longest list of whole events that may follow each other; None where the head can't be read."""
    parts = shapes.split_history(data)
    if parts.kind == "whole":
        return None
    head = shapes.join_history(shapes.Parts("history", parts.head, parts.starts, parts.middle))
    try:
        read_file(head)
    except Refused:
        return None
    at = len(head)
    if len(data) < at or data[:at - 4] != head[:-4]:
        return None
    source, events = shapes.Source(data), []
    source.at = at
    for item in shapes.taken_items(source, take_limited_event, shapes.MOST_EVENTS):
        events.append(event_of(item))
    return events[:can_follow(events)]


def take_limited_event(source) -> None:
    begin = source.at
    shapes.take_event(source)
    if source.at - begin > shapes.LONGEST_MESSAGE + 12:
        raise shapes.Short
