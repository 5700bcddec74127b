#!/usr/bin/env python3
"""Decides recordings, and of each that has no witness two fronts up to the event that is named: try_prefixes.py PROGRAM HISTORY.., or
try_prefixes.py PROGRAM --refused COUNT [SEED].

`PROGRAM decide HISTORY` names an event E. The events before it alone, with no later reply, should have a witness, and what `PROGRAM prefix HISTORY E` writes
should have none, at the same event. A later COMMIT or write verifier can make the difference: such histories are told, with what was said of both. It prints
how often each came up; the status is 1 where a front of a history says otherwise.

With --refused it makes COUNT histories of a right server to which a call or an event is added that has them refused (a LINK that succeeds, as an example,
with a LOOKUP that finds what it made), and takes prefixes of them. Each has to have as many events as the rule says (docs/COMMANDS.md, "prefix"), and
`decide` never says that it has no witness.
"""
import collections
import pathlib
import re
import struct
import subprocess
import sys
import tempfile

from differ import layouts as nfs
from differ.draws import Dice
from differ.histories import CALL, CRASH, REPLY, look_at_call, match_events, read_file, read_head
from differ.items import Source
from differ.refusals import Refused
from differ.rpc import RPCSEC_GSS
from differ.runs import CallEvent, ReplyEvent
from differ.server import make_run
from differ.spelling import spell_certificate, spell_history
from differ.verdicts import judge

NAMED = re.compile(r"no witness: event (\d+) call (\d+)")


def decided(program, file) -> str:
    """The line of a decision."""
    ran = subprocess.run([program, "decide", file, "--seconds", "20"], stdout=subprocess.PIPE, stderr=subprocess.DEVNULL)
    return ran.stdout.decode().splitlines()[0]


def first_events(data: bytes, count: int) -> bytes:
    """The history of the first events alone."""
    source = Source(data)
    read_head(source)
    counted = source.at
    source.word()
    for _ in range(count):
        kind = source.word()
        if kind != CRASH:
            source.word()
        if kind in (CALL, REPLY):
            source.take(-(-source.word() // 4) * 4)
    return data[:counted] + struct.pack(">I", count) + data[counted + 4:source.at]


def fronts_of(program, file, event: int, folder) -> tuple:
    """What is decided of the events before this one, and of the prefix up to it."""
    front, prefix = folder / "front.history", folder / "prefix.history"
    front.write_bytes(first_events(file.read_bytes(), event - 1))
    subprocess.run([program, "prefix", file, str(event), prefix], stdout=subprocess.DEVNULL, check=True)
    return decided(program, front), decided(program, prefix)


# ---- histories that are refused

def word(number):
    return struct.pack(">I", number)


def opaque(data):
    return word(len(data)) + data + b"\0" * (-len(data) % 4)


def refused_calls(root: bytes, name: bytes) -> list:
    """Calls that have a history refused: the procedure, the arguments, the result of a reply (none for a call that stays open), the flavor."""
    place, one = opaque(root) + opaque(name), opaque(b"\x01")
    write = one + struct.pack(">QI", 1 << 24, 1) + word(2) + opaque(b"w")
    short = one + struct.pack(">QI", 0, 2) + word(2) + opaque(b"w")
    return [
        (nfs.LINK, one + place, word(0) + word(0) * 3, 0), (nfs.LINK, one + place, None, 0), (nfs.LINK, one + place, word(0)[:3], 0),
        (nfs.MKNOD, place + word(7) + word(0) * 6, word(0) + word(0) * 4, 0), (nfs.WRITE, write, None, 0), (nfs.WRITE, short, None, 0),
        (nfs.GETATTR, opaque(root), word(0), RPCSEC_GSS), (nfs.GETATTR, opaque(root), None, RPCSEC_GSS),
        (nfs.GETATTR, word(1), word(70), 0), (nfs.GETATTR, opaque(root), word(0) + word(1), 0),
    ]


def put_at(events: list, dice, first: int, event) -> int:
    """Puts an event somewhere from a place on, where no crash ends its lane first; where it is now."""
    crashes = [at for at in range(first, len(events)) if type(events[at]).__name__ == "CrashEvent"]
    at = dice.randint(first, crashes[0] if crashes else len(events))
    events.insert(at, event)
    return at


def refuse(run, dice) -> None:
    """Adds what has a run's history refused, on lanes of its own: a call, mostly between a LOOKUP and its reply that finds what a LINK made; or an event."""
    lane, events, name = 900_000, run.events, b"made by what is refused"
    for number in range(dice.choice([1, 1, 2, 3])):
        lane += 2
        if dice.random() < 0.15:
            events.insert(dice.randint(0, len(events)), ReplyEvent(lane, 1, nfs.GETATTR, raw=word(70)))
            continue
        at = dice.randint(0, len(events))
        if dice.random() < 0.7:
            events.insert(at, CallEvent(lane + 1, 1, nfs.LOOKUP, raw=opaque(run.root) + opaque(name)))
            at += 1
        if dice.random() < 0.3:
            # One that fails, and is open for a while.
            at = put_at(events, dice, at, CallEvent(lane, 2, nfs.LINK, raw=opaque(b"\x01") + opaque(run.root) + opaque(b"n")))
            put_at(events, dice, at + 1, ReplyEvent(lane, 2, nfs.LINK, raw=word(70) + word(0) * 3))
            at += 1
        procedure, arguments, result, flavor = dice.choice(refused_calls(run.root, name))
        at = put_at(events, dice, at, CallEvent(lane, 1, procedure, raw=arguments, flavor=flavor))
        if result is not None:
            at = put_at(events, dice, at + 1, ReplyEvent(lane, 1, procedure, raw=result))
        if any(isinstance(it, CallEvent) and it.lane == lane + 1 for it in events):
            put_at(events, dice, at + 1, ReplyEvent(lane + 1, 1, nfs.LOOKUP, raw=word(0) + opaque(b"\x01made") + word(0) * 2))


def front_count(data: bytes) -> int:
    """How many events are kept: cut before what is named until nothing is."""
    _, events = read_file(data)
    while True:
        try:
            calls, _ = match_events(events)
        except Refused as refusal:
            events = events[:int(str(refusal).split()[-1]) - 1]
            continue
        for number, call in enumerate(calls, 1):
            try:
                look_at_call(call, number)
            except Refused:
                events = events[:call.begin - 1]
                break
        else:
            return len(events)


def prefix_count(data: bytes, last: int) -> int:
    """How many events the prefix of the kept ones has: the first, and later replies to calls among them."""
    _, events = read_file(data)
    calls, _ = match_events(events[:front_count(data)])
    front = front_count(data)
    return min(last, front) + sum(call.begin <= last < (call.end or 0) for call in calls)


def refused_case(program, dice, folder, tally) -> str:
    """What is wrong with the prefixes of one history, if anything."""
    run = make_run(dice)
    if judge(spell_history(run), spell_certificate(run)).line != "yes":
        tally["another server, left out"] += 1
        return ""
    refuse(run, dice)
    data, (whole, small) = spell_history(run), (folder / "whole.history", folder / "small.history")
    whole.write_bytes(data)
    for last in {len(run.events), dice.randint(0, len(run.events)), max(0, front_count(data) - 1)}:
        ran = subprocess.run([program, "prefix", whole, str(last), small], stdout=subprocess.PIPE, stderr=subprocess.PIPE)
        wanted = f"events {prefix_count(data, last)}"
        if ran.stdout.decode().rstrip("\n") != wanted or ran.returncode != 0:
            return f"{last}: wanted {wanted}, got {ran.stdout.decode()!r} with {ran.returncode}"
        line = decided(program, small)
        tally[NAMED.sub("no witness", line)] += 1
        if line.startswith("no witness"):
            return f"{last}: {line}"
    return ""


def try_refused(program, count: int, seed: str) -> int:
    tally, wrong = collections.Counter(), 0
    with tempfile.TemporaryDirectory() as name:
        folder = pathlib.Path(name)
        for number in range(count):
            fault = refused_case(program, Dice(f"{seed}/{number}"), folder, tally)
            if fault:
                wrong += 1
                print(f"case {number}: {fault}")
    for line, many in sorted(tally.items()):
        print(f"{line}: {many}")
    print(f"cases {count}, seed {seed}, at fault {wrong}")
    return 1 if wrong else 0


def main() -> int:
    if sys.argv[2] == "--refused":
        return try_refused(sys.argv[1], int(sys.argv[3]), (sys.argv[4:] or ["1"])[0])
    program, files, tally = sys.argv[1], [pathlib.Path(it) for it in sys.argv[2:]], collections.Counter()
    with tempfile.TemporaryDirectory() as folder:
        for file in files:
            line = decided(program, file)
            named = NAMED.match(line)
            if not named:
                tally[line.rstrip("0123456789")] += 1
                continue
            front, prefix = fronts_of(program, file, int(named[1]), pathlib.Path(folder))
            is_as_said = front == "yes" and prefix.startswith(f"no witness: event {named[1]} ")
            tally["no witness, and its fronts say so" if is_as_said else "no witness, and a front says otherwise"] += 1
            if not is_as_said:
                print(f"{file}: {line}; before it: {front}; its prefix: {prefix}")
    for line, many in sorted(tally.items()):
        print(f"{line}: {many}")
    return 1 if tally["no witness, and a front says otherwise"] else 0


if __name__ == "__main__":
    sys.exit(main())
