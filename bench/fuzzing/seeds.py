"""Small inputs to begin with, from what the repository has: histories with certificates, plans, captures, streams of records."""
import pathlib
import random
import re
import struct

import capture_cases
import try_plans
from differ.changes import make_case
from differ.verdicts import judge

LONGEST = 4_096
DRAWN = 60
# How many stored cases of each verdict there are at most.
OF_A_VERDICT = 4
BUNDLE = re.compile(r"\n(4e4653484953543[12][0-9a-f]*)\n(witness 1\n(?:[a-z].*\n)*?end\n)")
PLAN = b"plan 1\nlane 1 create a\ngo\nlane 1 write a 0 abc F\nlane 2 read a 0 9\ngo\ncrash 1\nlane 3 rename a b\nlane 3 lookup c\ngo\nend\n"


def with_partners(folder: pathlib.Path) -> list:
    """Each history of a folder with each certificate whose name begins like its own."""
    pairs = []
    for end, other in ((".history", ".certificate"), (".hist", ".cert")):
        certificates = sorted(folder.glob("*" + other))
        for history in sorted(folder.glob("*" + end)):
            mine = [it for it in certificates if it.stem.split("_")[:2] == history.stem.split("_")[:2]] or certificates[:1]
            pairs += [(history.read_bytes(), it.read_bytes()) for it in mine]
    return pairs


def stored_pairs(top: pathlib.Path) -> list:
    """Of the cases of command_cases the shortest few of each verdict."""
    text = (top / "crates/command_cases/stdin").read_text()
    found = sorted(((bytes.fromhex(history), certificate.encode()) for history, certificate in BUNDLE.findall(text)), key=lambda it: len(it[0] + it[1]))
    counts, kept = {}, []
    for pair in found:
        name = judge(*pair).name, pair[0][:8], procedures(pair[0])
        counts[name] = counts.get(name, 0) + 1
        if counts[name] <= OF_A_VERDICT:
            kept.append(pair)
    return kept


def procedures(history: bytes) -> frozenset:
    """The procedures that a history seems to call."""
    return frozenset(it[-1] for it in re.findall(rb"\0\x01\x86\xa3\0\0\0\x03\0\0\0.", history, re.DOTALL))


def pairs(top: pathlib.Path, more: list) -> list:
    folders = [top / "crates/command_cases/data", top / "examples/no", *more]
    found = [pair for folder in folders for pair in with_partners(folder)] + stored_pairs(top)
    return found + [make_case(f"fuzz/{number}") for number in range(DRAWN)]


def fewest(found: list) -> list:
    """The inputs that are short enough, each once."""
    return [it for it in dict.fromkeys(found) if 0 < len(it) <= LONGEST]


def spelled(text: str) -> bytes:
    """The bytes that bench/books/wire.py spells."""
    data = b""
    for part in text.split("."):
        if "*" in part:
            value, times = part.split("*")
            data += bytes([int(value)]) * int(times)
        else:
            data += bytes.fromhex(part[1:]) if part.startswith("x") else struct.pack(">I", int(part))
    return data


def streams(top: pathlib.Path) -> list:
    """The calls to each server of server_cases, as records of a stream, in parts."""
    found = []
    for block in (top / "crates/server_cases/stdin").read_text().split("\n\n"):
        calls = [spelled(line.split(" ")[2]) for line in block.split("\n") if line.startswith("call ") and len(line.split(" ")) == 3]
        records = [struct.pack(">I", 1 << 31 | len(it)) + it for it in calls if len(it) < 1_000]
        found += [b"".join(records[at:at + 12]) for at in range(0, min(len(records), 36), 12)]
    return found


def plans(top: pathlib.Path) -> list:
    dice = random.Random(1)
    drawn = [try_plans.draw_plan(dice).encode() for _ in range(DRAWN)]
    return [PLAN] + [it.read_bytes() for it in sorted((top / "crates/command_cases/data").glob("*.plan"))] + drawn


def captures(top: pathlib.Path) -> list:
    made = [case.data for make in (capture_cases.gaps, capture_cases.beginnings, capture_cases.orders, capture_cases.mounts, capture_cases.words,
                                   capture_cases.bad_classic, capture_cases.bad_blocks, capture_cases.strict) for case in make() if case.data]
    made += [it.data[:1_500] for it in capture_cases.cut_captures()]
    return [it.read_bytes() for it in sorted((top / "crates/command_cases/data").glob("*.pcap"))] + made


def parts(top: pathlib.Path, found: list) -> list:
    """What a recorder leaves: the number of events is none yet, and the last event may be cut."""
    left = [history[:-cut] if cut else history for number, (history, _) in enumerate(found) for cut in [(0, 1, 7, 30)[number % 4]]]
    return [it.read_bytes() for it in sorted((top / "crates/command_cases/data").glob("*.part"))] + left


def seeds(top: pathlib.Path, kind: str, more: list) -> list:
    if kind == "plan":
        return fewest(plans(top))
    if kind == "capture":
        return fewest(captures(top))
    if kind == "stream":
        return fewest(streams(top))
    found = pairs(top, more)
    if kind == "history":
        return fewest(parts(top, found))
    return fewest([certificate if kind == "certificate" else history + certificate for history, certificate in found])
