#!/usr/bin/env python3
"""Runs two programs on the same words and files, and compares all that comes of it: compare_outputs.py OLD NEW [FOLDER..] [--jobs N] [--stored]

For each pair of runs: the bytes on standard output and standard error, the status, and each file that was written. The runs are

- the command lines of command_cases, one after the other, where its data lies, since a line reads what earlier ones wrote (--stored: these alone);
- of each history there, in examples/ and in each FOLDER (`*.history`, `*.hist`): report and check with each certificate whose name begins alike, show, draw and
  explain with and without it, decide and search, each also with --json where it has that, each in its whole and of some parts; prefix of some events; mend;
- of each capture (`*.pcap`) import, of each plan (`*.plan`) run.

What `run` writes isn't compared: its clients are threads, so its calls come in another order each time. It prints each run that differs, with the first line
that does, how many runs there were, and ends with status 1 where one differed.
"""
import argparse
import os
import pathlib
import re
import shlex
import shutil
import subprocess
import sys
import tempfile
from concurrent.futures import ThreadPoolExecutor

TOP = pathlib.Path(__file__).resolve().parent.parent
CASES = TOP / "crates" / "command_cases"
PATIENCE = 120
WITH_JSON = ("check", "report", "search", "explain")
NOTHING = b"", b"", 0
# A search and a decision end by these, not by the clock, and a search has one thread: so both programs do the same.
EFFORT = {"search": ["--workers", "1", "--turns", "20000"], "decide": ["--states", "2000", "--seconds", "60"]}


def run(program: str, words: list, folder: str) -> tuple:
    """What it said, and its status."""
    try:
        ended = subprocess.run([program, *words], cwd=folder, stdin=subprocess.DEVNULL, capture_output=True, timeout=PATIENCE)
    except subprocess.TimeoutExpired:
        return b"", b"", "no end"
    return ended.stdout, ended.stderr, ended.returncode


def contents(folder: str) -> dict:
    return {os.path.relpath(os.path.join(at, name), folder): pathlib.Path(at, name).read_bytes() for at, _, names in os.walk(folder) for name in names}


def first_difference(old: bytes, new: bytes) -> str:
    lines = old.splitlines(), new.splitlines()
    for number, (one, other) in enumerate(zip(*lines), 1):
        if one != other:
            return f"line {number}: {one[:200]!r}, now {other[:200]!r}"
    return f"{len(lines[0])} lines, now {len(lines[1])}"


def differences(words: list, old: tuple, new: tuple, files: list = ({}, {})) -> list:
    found = []
    for name, one, other in zip(("standard output", "standard error"), old, new):
        if one != other:
            found.append(f"{shlex.join(words)}: {name}: {first_difference(one, other)}")
    if old[2] != new[2]:
        found.append(f"{shlex.join(words)}: status {old[2]}, now {new[2]}")
    for name in sorted(set(files[0]) | set(files[1])):
        if files[0].get(name) != files[1].get(name):
            found.append(f"{shlex.join(words)}: the file {name}: {first_difference(files[0].get(name, b''), files[1].get(name, b''))}")
    return found


def stored_lines() -> list:
    return [shlex.split(line)[1:] for line in (CASES / "stdin").read_text(encoding="utf-8", errors="replace").splitlines() if re.match(r"nfsbench( |$)", line)]


def compare_stored(programs: list) -> tuple:
    """The lines one after the other, each program in a folder of its own."""
    found, lines = [], stored_lines()
    with tempfile.TemporaryDirectory() as above:
        folders = [shutil.copytree(CASES / "data", f"{above}/{name}/data") for name in ("old", "new")]
        for words in lines:
            said = [run(program, words, folder) for program, folder in zip(programs, folders)]
            # `serve` and `tap` wait for connections where their words are right: no such line is stored.
            found += differences(words, *said)
        by_threads = {name for words in lines if words[:1] == ["run"] for name in words[-2:]}
        left = [{name: held for name, held in contents(folder).items() if name not in by_threads} for folder in folders]
        found += differences(["(all lines)"], NOTHING, NOTHING, left)
    return len(lines), found


def words_of(history: pathlib.Path, certificates: list) -> list:
    """What is asked of a history, with the certificates that are beside it."""
    path = str(history)
    runs = [["show", path], ["draw", path], ["explain", path], ["decide", *EFFORT["decide"], path], ["search", *EFFORT["search"], path], ["show", "--call", "1", path],
            ["show", "--from", "2", "--to", "6", path], ["draw", "--call", "1", path], ["decide", *EFFORT["decide"], "--go-on", "2", path]]
    for certificate in map(str, certificates):
        runs += [["check", path, certificate], ["report", path, certificate], ["show", path, certificate], ["draw", path, certificate], ["explain", path, certificate]]
    runs += [[words[0], "--json", *words[1:]] for words in runs if words[0] in WITH_JSON]
    return runs + [["prefix", path, str(events), "OUT"] for events in (1, 3, 8)] + [["mend", path, "OUT"]]


def all_words(folders: list) -> list:
    runs = []
    for folder in folders:
        files = sorted(path for path in pathlib.Path(folder).rglob("*") if path.is_file())
        certificates = [path for path in files if path.suffix in (".certificate", ".cert")]
        for path in files:
            if path.suffix in (".history", ".hist"):
                stem = path.stem.split("_")[0]
                beside = [it for it in certificates if it.parent == path.parent and it.stem.startswith(stem)]
                runs += words_of(path, beside[:6])
            elif path.suffix in (".pcap", ".pcapng"):
                runs += [["import", "--port", "2049", *words, str(path), "OUT"] for words in ([], ["--strict"])]
            elif path.suffix == ".plan":
                runs += [["run", str(path), "OUT", "OUT.certificate"]]
    return runs


def compare_one(programs: list, words: list) -> list:
    with tempfile.TemporaryDirectory() as above:
        folders = [f"{above}/old", f"{above}/new"]
        for folder in folders:
            os.mkdir(folder)
        said = [run(program, words, folder) for program, folder in zip(programs, folders)]
        return differences(words, *said, [{} if words[0] == "run" else contents(folder) for folder in folders])


def main() -> int:
    parser = argparse.ArgumentParser(description=__doc__, formatter_class=argparse.RawDescriptionHelpFormatter)
    parser.add_argument("programs", nargs=2, metavar="PROGRAM")
    parser.add_argument("folders", nargs="*", metavar="FOLDER")
    parser.add_argument("--jobs", type=int, default=os.cpu_count())
    parser.add_argument("--stored", action="store_true")
    words = parser.parse_args()
    programs = [os.path.abspath(program) for program in words.programs]
    count, found = compare_stored(programs)
    if not words.stored:
        runs = all_words([CASES / "data", TOP / "examples", *map(os.path.abspath, words.folders)])
        with ThreadPoolExecutor(words.jobs) as pool:
            for differs in pool.map(lambda it: compare_one(programs, it), runs):
                found += differs
        count += len(runs)
    for line in found:
        print(line)
    print(f"{count} runs, {len(found)} differences")
    return 1 if found else 0


if __name__ == "__main__":
    sys.exit(main())
