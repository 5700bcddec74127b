#!/usr/bin/env python3
"""Tries the right replies of `nfsbench explain`: try_reasons.py PROGRAM [--count 2000] [--seed 1] [--keep FOLDER].

Each case is a small history with a certificate whose first fault is `Illegal n`, by the rules of `differ/`: some replies of a run are changed, or it is a
case of `try_histories.py`. `PROGRAM explain --json` tells a reply that would have been right at that place, as the bytes of its result (RFC 1813,
section 3.3). These are put in place of the wrong ones. Then the place has to be legal: by the rules of `differ/` the first fault is another one that
comes later, or there is none, and `PROGRAM check` says the same. The line, the place and the words are compared too, and the words with those of
`explain` without --json.

It prints how many reasons each procedure had, with which wrong and right statuses, and for how many no right reply was found, with what the tree there
would have taken. It also counts the right replies that look like the wrong ones in words. Each difference is printed, and the status is 1 where there
is one. With --keep the files of differences are stored in FOLDER. It takes some minutes, by two workers.
"""
import argparse
import collections
import json
import os
import pathlib
import re
import subprocess
import sys
import tempfile
from concurrent.futures import ProcessPoolExecutor

sys.dont_write_bytecode = True

from differ import histories, replies, reply_changes
from differ import layouts as nfs
from differ.certificates import read_certificate
from differ.changes import make_case
from differ.draws import Dice
from differ.failure import JUDGED_STATUSES, permitted
from differ.histories import read_head, read_history
from differ.items import Bad, Source
from differ.plans import next_tree
from differ.server import make_run
from differ.spelling import spell_certificate, spell_history, spell_result
from differ.success import after_success, found
from differ.trees import Binds, entries_of, path_of
from differ.verdicts import judge

BATCH, TIMEOUT, WORKERS, TRIES, CHANGES_MOST = 25, 600, 2, 400, 4
MEMORY_FOLDER = "/dev/shm"
ILLEGAL = re.compile(r"no: Illegal (\d+)")
CHANGES = {
    reply_changes.change_status: 6, reply_changes.make_success: 6, reply_changes.change_written: 3, reply_changes.change_read: 5,
    reply_changes.change_listing: 5, reply_changes.change_shown: 4, reply_changes.change_shown_handle: 5, reply_changes.change_carried: 6,
}
# Reasons that few histories have: each is looked for in every such case.
RARE = [nfs.COMMIT, nfs.SETATTR, nfs.READLINK, nfs.SYMLINK, nfs.RENAME, nfs.RMDIR, nfs.READDIR, nfs.READDIRPLUS, nfs.GETATTR, nfs.WRITE]
RIGHT = re.compile(r"  right there(?:, with [^:]*)?: ((NFS3\S+).*)")
REPLY, VERIFIER = "  its reply: ", re.compile(r" verifier [0-9a-f]{16}")
PRINTABLE = re.compile(r"[^\x00-\x1f\x7f-\x9f]*")


def unjudged_out(words: str) -> str:
    """The words of a reply without its write verifier."""
    return VERIFIER.sub("", words)


def illegal_call(files):
    """The call whose place is the first fault, and the line of `check`; None where the fault is another one."""
    line = judge(*files).line
    told = ILLEGAL.fullmatch(line)
    return (int(told[1]), line) if told else None


def change_reply(dice: Dice, run, procedure: int) -> bool:
    """Another reply to some call of a procedure: a judged failure, or a success that may fit or not."""
    pairs = [pair for pair in run.pairs() if pair[0].procedure == procedure]
    if not pairs:
        return False
    call, reply = dice.choice(pairs)
    status = dice.choice([0, dice.choice(sorted(JUDGED_STATUSES))])
    value = replies.failure_value(dice, procedure) if status else reply_changes.loose_success(dice, run, call)
    reply.status, reply.value = status, value
    return True


def changed_files(dice: Dice, rare):
    """The files of a run after one change, after two and so on. `rare` is a procedure whose replies alone are changed, or None."""
    run = make_run(dice)
    for _ in range(CHANGES_MOST):
        if change_reply(dice, run, rare) if rare is not None else dice.weighted(CHANGES)(dice, run):
            yield spell_history(run), spell_certificate(run)


def make_files(seed: str, number: int):
    """The files of a case, the call at fault, and the line of `check`."""
    rare = RARE[number // 3 % len(RARE)] if number % 3 == 0 else None
    for attempt in range(TRIES):
        dice = Dice(f"reasons {seed}/{number}/{attempt}")
        all_files = [make_case(f"{seed}/{number}/{attempt}")] if rare is None and dice.chance(0.35) else changed_files(dice, rare)
        for files in all_files:
            illegal = illegal_call(files)
            if illegal and (rare is None or read_history(files[0]).calls[illegal[0] - 1].procedure == rare):
                return files, *illegal
    raise RuntimeError(f"case {number} has no illegal place")


def message_at(data: bytes, event: int):
    """Where the message of an event stands in a history file, and its length."""
    source = Source(data)
    read_head(source)
    source.word()
    for _ in range(event):
        kind = source.word()
        if kind != histories.CRASH:
            source.word()
        at = length = None
        if kind in (histories.CALL, histories.REPLY):
            length = source.word()
            at = source.at
            source.take(length + -length % 4)
    return at, length


def with_result(data: bytes, call, result: bytes) -> bytes:
    """The history in which another result stands in the reply to a call."""
    at, length = message_at(data, call.end)
    message = data[at:at + length].removesuffix(call.reply["result"]) + result
    return data[:at - 4] + len(message).to_bytes(4, "big") + message + bytes(-len(message) % 4) + data[at + length + -length % 4:]


def spot_of(text, number: int):
    """The era and the position of a call's place, from 1 on."""
    return next((era, at, place) for era, part in enumerate(text.eras, 1) for at, place in enumerate(part.places, 1) if place.number == number)


def tree_at(history, text, number: int) -> dict:
    """The tree ahead of a call's place, and what handles name."""
    binds, tree = Binds(history.head.root, text.binds), history.head.opening
    for part in text.eras:
        trees = [tree]
        for place in part.places:
            if place.number == number:
                return binds, trees[-1]
            trees.append(next_tree(binds, trees[-1], history, place))
        tree = trees[part.cut] if part.cut is not None else None
    raise ValueError(number)


class Success:
    """Makes a success of a call that may fit a tree."""

    def __init__(self, binds, tree: dict, call, made: int):
        self.binds, self.tree, self.call, self.made = binds, tree, call, made
        first = call.arguments.get("object", call.arguments.get("dir"))
        named = binds.object_of(first)
        self.path = None if named is None else path_of(tree, named)

    def handle(self, number: int):
        return next((handle for handle, named in self.binds.pairs.items() if named == number), None)

    def value(self):
        procedure, arguments, weak = self.call.procedure, self.call.arguments, {"before": None, "after": None}
        node = self.tree.get(self.path)
        if node is None:
            return None
        if procedure == nfs.GETATTR:
            blank = {field: 0 for field in nfs.attributes.fields} | {field: {"seconds": 0, "nanoseconds": 0} for field in ("atime", "mtime", "ctime")}
            return {"attributes": {**blank, "type": node.kind, "size": len(node.data)}}
        if procedure == nfs.LOOKUP:
            there = found(self.tree, self.path + (arguments["name"],)) if node.is_directory else None
            handle = None if there is None else self.handle(there.object)
            return None if handle is None else {"handle": handle, "post": None, "dir_post": None}
        if procedure == nfs.READLINK:
            return {"post": None, "text": node.data}
        if procedure == nfs.READ:
            data = node.data[arguments["offset"]:arguments["offset"] + arguments["count"]]
            return {"post": None, "count": len(data), "eof": arguments["offset"] + len(data) >= len(node.data), "data": data}
        if procedure in (nfs.READDIR, nfs.READDIRPLUS):
            entries = [{"fileid": 0, "name": name, "cookie": 0, "post": None, "handle": None} for name in entries_of(self.tree, self.path)]
            return {"post": None, "verifier": bytes(8), "entries": entries, "eof": True}
        if procedure in (nfs.CREATE, nfs.MKDIR, nfs.SYMLINK):
            return {"handle": None, "post": None, "weak": weak}
        more = {nfs.WRITE: {"count": arguments.get("count"), "level": arguments.get("level"), "verifier": bytes(8)}, nfs.COMMIT: {"verifier": bytes(8)}}
        return {"weak": weak, "to_weak": weak, **more.get(procedure, {})}

    def fits(self) -> bool:
        value = self.value()
        return value is not None and after_success(self.binds, self.tree, self.made, self.call.procedure, self.call.arguments, value) is not None


def could_be(history, text, number: int, call) -> str:
    """What the tree at a place would have taken."""
    binds, tree = tree_at(history, text, number)
    if Success(binds, tree, call, history.head.first + number).fits():
        return "a success is right"
    statuses = permitted(binds, tree, call.procedure, call.arguments)
    return f"right is {', '.join(sorted(nfs.STATUS_NAMES[it] for it in statuses))}" if statuses else "right are excused failures alone"


class Trial:
    def __init__(self, program: str, folder: str, keep):
        self.program, self.folder, self.keep = program, pathlib.Path(folder), keep
        self.tally, self.faults = collections.Counter(), []

    def run(self, *words):
        files = [str(self.folder / name) for name in ("history", "certificate")]
        try:
            ran = subprocess.run([self.program, *words, *files], stdout=subprocess.PIPE, stderr=subprocess.PIPE, timeout=TIMEOUT)
        except subprocess.TimeoutExpired as late:
            return late.stdout or b"", f"none after {TIMEOUT} seconds"
        return ran.stdout, ran.returncode

    def put(self, files) -> None:
        for name, data in zip(("history", "certificate"), files):
            (self.folder / name).write_bytes(data)

    def tell(self, name: str, fault: str, *all_files) -> None:
        self.faults.append(f"{name}: {fault}")
        if self.keep:
            stem = pathlib.Path(self.keep) / name.replace(" ", "-")
            stem.parent.mkdir(parents=True, exist_ok=True)
            for which, files in zip(("", ".mended"), all_files):
                for end, data in zip((".history", ".certificate"), files):
                    stem.with_name(stem.name + which + end).write_bytes(data)

    def explained(self, name: str, files):
        """The object that is printed, or None."""
        self.put(files)
        printed, status = self.run("explain", "--json")
        try:
            told = json.loads(printed)
        except ValueError:
            told = None
        if told is None or printed.count(b"\n") != 1 or not printed.endswith(b"\n") or set(told) != {"line", "status", "reason", "words"}:
            self.tell(name, f"printed {printed[:300]!r}", files)
            return None
        plain, plain_status = self.run("explain")
        lines = [told["line"], *told["words"]]
        if (status, plain_status) != (told["status"],) * 2 or plain.decode("utf-8", "replace") != "".join(line + "\n" for line in lines):
            self.tell(name, f"statuses {status} and {plain_status}, words {told['words']} for {plain[:1000]!r}", files)
        if not all(PRINTABLE.fullmatch(line) for line in lines):
            self.tell(name, f"a control in {lines}", files)
        return told

    def case(self, name: str, files, number: int, line: str) -> None:
        told = self.explained(name, files)
        if told is None:
            return
        history, text = read_history(files[0]), read_certificate(files[1])
        call, (era, position, place) = history.calls[number - 1], spot_of(text, number)
        reason = told["reason"] or {}
        wanted = {"kind": "Illegal", "call": number, "era": era, "position": position}
        if (told["line"], told["status"]) != (line, 1) or {key: reason.get(key) for key in wanted} != wanted:
            self.tell(name, f"{told['line']!r} with {reason} for {line!r} with {wanted}", files)
            return
        for fault in self.word_faults(told["words"], call, number, era, position, reason.get("right")):
            self.tell(name, fault, files)
        self.right(name, files, history, text, number, place, reason.get("right"))

    def word_faults(self, words: list, call, number: int, era: int, position: int, right):
        answered = ", not answered" if call.end is None else f", answered by event {call.end}"
        for line in (f"  begun by event {call.begin}{answered}", f"  placed at position {position} of era {era}"):
            if line not in words:
                yield f"no {line!r} in {words}"
        if not words[0].startswith(f"call {number} {nfs.NAMES[call.procedure]} "):
            yield f"the first of the words is {words[0]!r}"
        told = [found for found in map(RIGHT.match, words) if found]
        status = None if right is None else "NFS3_OK" if right.startswith("00000000") else f"NFS3ERR_{nfs.STATUS_NAMES.get(int(right[:8], 16))}"
        if [found[2] for found in told] != ([] if right is None else [status]):
            yield f"{words} for {right}"
        if told and any(line.startswith(REPLY) and unjudged_out(line.removeprefix(REPLY)) == unjudged_out(told[0][1]) for line in words):
            self.tally[f"{nfs.NAMES[call.procedure]}: the words don't tell the right reply from the wrong one"] += 1

    def right(self, name: str, files, history, text, number: int, place, right) -> None:
        call = history.calls[number - 1]
        procedure = nfs.NAMES[call.procedure]
        if place.is_taken:
            could = "none is found" if right is None else nfs.STATUS_NAMES[int(right[:8], 16)]
            self.tally[f"{procedure}: taken; of the replies that could have come {could}"] += 1
            return
        wrong = nfs.STATUS_NAMES[call.result[0]]
        self.tally[f"{procedure}: reasons"] += 1
        if right is None:
            could = could_be(history, text, number, call)
            self.tally[f"{procedure}: no right reply for {wrong}, though {could}"] += 1
            return
        try:
            result = bytes.fromhex(right)
            status, value = nfs.read_result(call.procedure, result)
        except (ValueError, Bad) as error:
            self.tell(name, f"right {right} is no result of {procedure}: {error!r}", files)
            return
        self.tally[f"{procedure}: {nfs.STATUS_NAMES[status]} for {wrong}"] += 1
        if right != right.lower() or spell_result(call.procedure, status, value) != result:
            self.tell(name, f"right {right} is spelled otherwise", files)
        self.mended(name, files, (with_result(files[0], call, result), files[1]), text, number, right)

    def mended(self, name: str, files, mended, text, number: int, right: str) -> None:
        """With the right reply the first fault is one behind the place, or none."""
        line = judge(*mended).line
        self.tally["mended: " + " ".join(line.split(" ")[:2])] += 1
        told = ILLEGAL.fullmatch(line)
        spots = [spot_of(text, it)[:2] for it in (number, int(told[1]) if told else number)]
        is_legal = line == "yes" or (told and spots[0] < spots[1]) or line.startswith(("no: ShortCut ", "no: Verifier "))
        if not is_legal:
            self.tell(name, f"with the right reply {right} to call {number} the rules say {line!r}", files, mended)
        self.put(mended)
        printed, status = self.run("check")
        if (printed.decode("latin-1"), status) != (line + "\n", 0 if line == "yes" else 2 if line.startswith("refused") else 1):
            self.tell(name, f"with the right reply {right} to call {number} check says {printed!r} for {line!r}", files, mended)


def try_batch(program: str, seed: str, numbers: range, keep):
    place = MEMORY_FOLDER if os.path.isdir(MEMORY_FOLDER) else None
    with tempfile.TemporaryDirectory(dir=place) as folder:
        trial = Trial(program, folder, keep)
        for number in numbers:
            trial.case(f"case {number}", *make_files(seed, number))
    return trial.tally, trial.faults


def main() -> int:
    parser = argparse.ArgumentParser(description=__doc__.split("\n", 1)[0])
    parser.add_argument("program")
    parser.add_argument("--count", type=int, default=2_000)
    parser.add_argument("--seed", default="1")
    parser.add_argument("--keep", metavar="FOLDER")
    words = parser.parse_args()
    program, tally, faults = str(pathlib.Path(words.program).resolve()), collections.Counter(), []
    with ProcessPoolExecutor(WORKERS) as pool:
        starts = range(1, words.count + 1, BATCH)
        batches = [pool.submit(try_batch, program, words.seed, range(first, min(first + BATCH, words.count + 1)), words.keep) for first in starts]
        for batch in batches:
            part, told = batch.result()
            tally += part
            faults += told
            for fault in told:
                print(fault, flush=True)
    print("\n".join(f"{count:8}  {name}" for name, count in sorted(tally.items())))
    none = sum(count for name, count in tally.items() if "no right reply" in name)
    print(f"cases {words.count}, seed {words.seed}, without a right reply {none}, differences {len(faults)}")
    return 1 if faults else 0


if __name__ == "__main__":
    sys.exit(main())
