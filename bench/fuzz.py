#!/usr/bin/env python3
"""Fuzzes what nfsbench reads, guided by coverage: fuzz.py WORK [--seconds 120] [--jobs 1] [--only build|fuzz|look] [TARGET..].

Three steps, all in the folder WORK, which may be there already:

- build: takes the module that `rt try` compiles (or --module FILE), drops what isn't used, has clang put a call on each edge and each comparison, and
  links it with `fuzzing/commands.c`, which runs commands on one input after the other in a process: WORK/covered.
- fuzz: AFL++ for so many seconds a target, so many targets at once, with changes of bytes and those of `fuzzing/mutate.py`, which keep lengths and counts
  right. Another run goes on with the inputs that the one before kept.
- look: runs each input that was kept once more by PROGRAM (--program), a plain one, and compares what it says with the second checker and other models
  (`fuzzing/oracles.py`). It measures the time of a processor and the peak of memory, and how both grow where the slowest inputs are repeated.

A crash, an abort or a hang is a file of WORK/TARGET/out/default/crashes or hangs. The last lines are a table and each fault; the status is 1 if there is one.
AFL++ (Debian's afl++) and objcopy are wanted. The server of `serve` listens on 127.0.0.1, on ports from --port on.
"""
import argparse
import collections
import os
import pathlib
import shutil
import subprocess
import sys
import tempfile
from concurrent.futures import ThreadPoolExecutor

import build_unproved

sys.dont_write_bytecode = True
HERE = pathlib.Path(__file__).resolve().parent
TOP = HERE.parent
COVERAGE = "-fsanitize-coverage=edge,trace-pc-guard,trace-cmp"
MEMORY_FOLDER = "/dev/shm"
HISTORY = TOP / "crates/command_cases/data/crashed.history"
# Of a process of afl-fuzz's: milliseconds of one input, megabytes. The longest input.
MOST_MILLISECONDS, MOST_MEGABYTES, LONGEST = 4_000, 2_000, 16_384
# In `look`: an input may take so many bytes of memory beside four times its size, some commands more (the tables of `search`, trees that `decide` prints,
# files of 16 MiB that the bundled server holds), and so many seconds of a processor.
ROOM, MOST_SECONDS = 16 << 20, 10
ROOMS = {"search": 128 << 20, "decide": 128 << 20, "run": 512 << 20, "serve": 512 << 20}
# How many of the slowest inputs are repeated, up to about how many bytes, and how much longer twice the bytes may take.
SLOWEST, REPEATED_BYTES, GROWTH = 6, 200_000, 2.8
# Where `look` has `serve` listen.
SERVE_PORT = 23_399


class Target:
    """A kind of input (`fuzzing/shapes.py`), and the commands that `look` measures on it."""

    def __init__(self, kind: str, *commands: str):
        self.kind, self.commands = kind, commands


TARGETS = {
    "judge": Target("pair", "check history certificate", "report history certificate"),
    "tell": Target("pair", "show history certificate", "draw history certificate", "explain --states 100 --seconds 1 history certificate"),
    "look": Target("pair", "show history", "draw history", "prefix history 5 made"),
    "search": Target("pair", "decide --states 100 --seconds 1 history", "search --workers 1 --turns 500 --seconds 1 --quiet history"),
    "certify": Target("certificate", "check history certificate", "explain --states 100 --seconds 1 history certificate"),
    "mend": Target("history", "mend part made"),
    "import": Target("capture", "import --port 2049 --root 0001 capture made"),
    "run": Target("plan", "run plan made witness"),
    "start": Target("pair", "run --start history plan made witness"),
    "serve": Target("stream", "serve"),
}


# Building.

def build(work: pathlib.Path, module) -> None:
    work.mkdir(parents=True, exist_ok=True)
    whole, live, compiled = work / "whole.bc", work / "live.bc", work / "covered.o"
    if module:
        shutil.copyfile(module, whole)
    elif not build_unproved.take_module(str(TOP / "crates/nfsbench"), str(whole)):
        sys.exit("there is no module")
    linker = f"{build_unproved.kit_and_rt()[0]}/toolchain/bin/ld.lld"
    # What `main` doesn't reach is over half of the module.
    subprocess.run([linker, "-m", "elf_x86_64", "--lto-O0", "-e", "main", "-u", "main", "--unresolved-symbols=ignore-all", "--lto-emit-llvm",
                    whole, "-o", live], check=True)
    build_unproved.compile_module(str(live), str(compiled), "-O1", COVERAGE)
    link(work)


def link(work: pathlib.Path) -> None:
    subprocess.run(["objcopy", "--redefine-sym", "main=nfsbench_main", work / "covered.o", work / "named.o"], check=True)
    subprocess.run(["afl-clang-fast", "-O2", HERE / "fuzzing/commands.c", work / "named.o", *build_unproved.kit_files(), "-lpthread", "-Wl,--gc-sections",
                    "-Wl,--wrap=nanosleep", "-Wl,--wrap=_exit", "-o", work / "linked"], check=True, stdout=subprocess.DEVNULL)
    os.replace(work / "linked", work / "covered")


# Fuzzing.

def write_seeds(work: pathlib.Path, name: str, more: list) -> pathlib.Path:
    from fuzzing import seeds
    folder = work / name / "seeds"
    if not folder.is_dir():
        folder.mkdir(parents=True)
        for number, data in enumerate(seeds.seeds(TOP, TARGETS[name].kind, more)):
            (folder / f"{number:04}").write_bytes(data)
    return folder


def around(name: str, folder: str, port: int) -> dict:
    """The environment of afl-fuzz."""
    settings = {"FUZZ_TARGET": name, "FUZZ_FOLDER": folder, "FUZZ_PORT": str(port), "FUZZ_KIND": TARGETS[name].kind, "PYTHONPATH": str(HERE / "fuzzing"),
                "AFL_PYTHON_MODULE": "mutate", "PYTHONDONTWRITEBYTECODE": "1", "AFL_NO_UI": "1", "AFL_SKIP_CPUFREQ": "1", "AFL_NO_AFFINITY": "1",
                "AFL_I_DONT_CARE_ABOUT_MISSING_CRASHES": "1", "AFL_AUTORESUME": "1", "AFL_FAST_CAL": "1", "AFL_CMPLOG_ONLY_NEW": "1",
                "AFL_FORKSRV_INIT_TMOUT": "60000"}
    return {**os.environ, **settings}


def put_files(folder: str) -> None:
    """The files that commands take beside the input."""
    from fuzzing import seeds
    (pathlib.Path(folder) / "history").write_bytes(HISTORY.read_bytes())
    (pathlib.Path(folder) / "plan").write_bytes(seeds.PLAN)


def fuzz(work: pathlib.Path, name: str, seconds: int, port: int, more: list) -> None:
    seeds, out = write_seeds(work, name, more), work / name / "out"
    with tempfile.TemporaryDirectory(dir=MEMORY_FOLDER if os.path.isdir(MEMORY_FOLDER) else None) as folder:
        put_files(folder)
        words = ["afl-fuzz", "-i", seeds, "-o", out, "-V", str(seconds), "-t", str(MOST_MILLISECONDS), "-m", str(MOST_MEGABYTES), "-G", str(LONGEST),
                 "-x", HERE / "fuzzing/words.dict", "-c", "0", "--", work / "covered"]
        with open(work / name / "log", "w") as log:
            ran = subprocess.run(words, env=around(name, folder, port), stdin=subprocess.DEVNULL, stdout=log, stderr=log, start_new_session=True)
    print(f"{name}: afl-fuzz ended with status {ran.returncode}", flush=True)


def stats_of(work: pathlib.Path, name: str) -> dict:
    file = work / name / "out/default/fuzzer_stats"
    lines = file.read_text().splitlines() if file.exists() else []
    return {line.split(":", 1)[0].strip(): line.split(":", 1)[1].strip() for line in lines}


# Looking.

class Looked:
    """What was seen of a target's inputs: the longest time and the most memory, each with the command and the input, and faults."""

    def __init__(self):
        self.count, self.times, self.slowest, self.largest, self.faults = 0, [], (0, "", 0), (0, "", 0), []
        self.tally = collections.Counter()


def files_in(work: pathlib.Path, name: str, folder: str) -> list:
    return sorted((work / name / "out/default" / folder).glob("id:*"))


def sampled(files: list, most) -> list:
    """At most so many, from the newest on, spread over all."""
    return files if most is None or len(files) <= most else files[::-(-(-len(files) // most))]


def files_of(kind: str, data: bytes) -> dict:
    """The files that an input stands for."""
    from fuzzing import oracles
    if kind == "pair":
        return dict(zip(("history", "certificate"), oracles.parted(data)))
    return {{"history": "part"}.get(kind, kind): data}


def measured(work: pathlib.Path, bench, command: str) -> tuple:
    """The status, microseconds of a processor and bytes of memory. `serve` has its client in the program that was built to fuzz."""
    words = [work / "covered"] if command == "serve" else [bench.program, *command.split()]
    reading, writing = os.pipe()
    with open(bench.folder / "stream" if command == "serve" else os.devnull, "rb") as stdin:
        subprocess.run([bench.folder / "once", str(MOST_SECONDS), *words], cwd=bench.folder, env=around("serve", str(bench.folder), SERVE_PORT), stdin=stdin,
                       stdout=subprocess.DEVNULL, stderr=subprocess.DEVNULL, close_fds=False, preexec_fn=lambda: os.dup2(writing, 3))
    os.close(writing)
    with os.fdopen(reading) as told:
        status, time, memory = (int(it) for it in told.read().split())
    return status, time, memory * 1024


def measure(work: pathlib.Path, name: str, bench, file: pathlib.Path, looked: Looked) -> None:
    size, most = file.stat().st_size, 0
    for command in TARGETS[name].commands:
        status, time, memory = measured(work, bench, command)
        looked.tally[f"{command.split()[0]}: status {status}"] += 1
        looked.slowest = max(looked.slowest, (time, f"{command.split()[0]} {file.name}", size))
        looked.largest = max(looked.largest, (memory, f"{command.split()[0]} {file.name}", size))
        most = max(most, time)
        if not 0 <= status <= 2:
            looked.faults.append(f"{name} {file.name}: {command}: status {status}")
        if memory > 4 * size + ROOMS.get(command.split()[0], ROOM):
            looked.faults.append(f"{name} {file.name}: {command}: {memory} bytes of memory for {size}")
    looked.times.append((most, file))


def faults_of(name: str, bench, data: bytes):
    """What the models say of an input."""
    from fuzzing import oracles
    if name in ("judge", "certify"):
        pair = oracles.parted(data) if name == "judge" else (HISTORY.read_bytes(), data)
        yield from oracles.verdict_faults(bench, *pair)
    if name in ("tell", "certify"):
        pair = oracles.parted(data) if name == "tell" else (HISTORY.read_bytes(), data)
        yield from oracles.reason_faults(bench, *pair)
        yield from oracles.page_faults(bench, *pair)
    if name == "look":
        yield from oracles.page_faults(bench, oracles.parted(data)[0], None)
        yield from oracles.prefix_faults(bench, oracles.parted(data)[0])
    if name == "search":
        yield from oracles.decision_faults(bench, *oracles.parted(data))
    if name == "mend":
        yield from oracles.part_faults(bench, data)


def told_faults(name: str, bench, data: bytes) -> list:
    """The same, also where a model can't read what is printed, or fails itself."""
    faults = []
    try:
        for fault in faults_of(name, bench, data):
            faults.append(fault)
    except Exception as error:
        faults.append(f"a model fails: {error!r}")
    return faults


def grown(work: pathlib.Path, name: str, bench, looked: Looked) -> None:
    """Repeats the slowest inputs: twice the bytes may take little more than twice the time."""
    from fuzzing import shapes
    kind = TARGETS[name].kind
    for _, file in sorted(looked.times, reverse=True)[:SLOWEST]:
        data = file.read_bytes()
        times = max(REPEATED_BYTES // max(len(data), 1), 1)
        for command in TARGETS[name].commands:
            took = []
            for factor in (1, 2, 4):
                bench.put(**files_of(kind, shapes.repeated(kind, data, times * factor)))
                took.append(min(measured(work, bench, command)[1] for _ in range(2)))
            looked.tally[f"{command.split()[0]}: repeated"] += 1
            if took[2] > 100_000 and took[2] > GROWTH * took[1] and took[1] > GROWTH / 1.3 * took[0]:
                looked.faults.append(f"{name} {file.name}: {command}: {took} microseconds for {times}, {2 * times} and {4 * times} times the input")


def put_input(work: pathlib.Path, name: str, bench, file: pathlib.Path) -> bytes:
    data = file.read_bytes()
    put_files(str(bench.folder))
    bench.put(**files_of(TARGETS[name].kind, data))
    return data


def late_faults(work: pathlib.Path, name: str, bench, looked: Looked) -> None:
    """Hangs: on a busy machine some aren't any."""
    for file in files_in(work, name, "hangs"):
        put_input(work, name, bench, file)
        took = max(measured(work, bench, command)[1] for command in TARGETS[name].commands)
        looked.tally["late, on a busy machine" if took < 1e6 else "hangs"] += 1
        if took >= 1e6:
            looked.faults.append(f"{name}: {file}: {took / 1e6:.1f} seconds")


def look(work: pathlib.Path, name: str, program: str, most) -> Looked:
    from fuzzing import oracles
    looked = Looked()
    with tempfile.TemporaryDirectory(dir=MEMORY_FOLDER if os.path.isdir(MEMORY_FOLDER) else None) as folder:
        bench = oracles.Bench(program, pathlib.Path(folder))
        subprocess.run(["cc", "-O1", "-o", f"{folder}/once", HERE / "fuzzing/once.c"], check=True)
        for file in sampled(files_in(work, name, "queue"), most):
            looked.count += 1
            data = put_input(work, name, bench, file)
            measure(work, name, bench, file, looked)
            looked.faults += [f"{name} {file.name}: {fault}" for fault in told_faults(name, bench, data)]
        bench.pictures.lint()
        late_faults(work, name, bench, looked)
        grown(work, name, bench, looked)
        looked.tally += bench.tally + bench.reasons.tally + bench.pictures.found.tally
    looked.faults += [f"{name}: a crash: {it}" for it in files_in(work, name, "crashes")]
    return looked


def row(work: pathlib.Path, name: str, looked: Looked) -> str:
    stats = stats_of(work, name)
    told = [stats.get(it, "-") for it in ("run_time", "execs_done", "corpus_count", "edges_found")] + [str(looked.count)]
    time, memory = looked.slowest, looked.largest
    return (f"| {name} | {' | '.join(told)} | {time[0] / 1e3:.1f} ms ({time[1].split(' ')[0] if time[1] else '-'}, {time[2]} bytes) | "
            f"{memory[0] / 1e6:.1f} MB ({memory[1].split(' ')[0] if memory[1] else '-'}, {memory[2]} bytes) | {len(looked.faults)} |")


def look_at_all(work: pathlib.Path, names: list, program: str, most) -> int:
    rows, faults = [], []
    for name in names:
        looked = look(work, name, program, most)
        rows.append(row(work, name, looked))
        faults += looked.faults
        print("\n".join(f"{count:8}  {name}: {what}" for what, count in sorted(looked.tally.items())), flush=True)
    print("| target | seconds | executions | inputs kept | edges | looked at | longest time | most memory | faults |\n|---|---|---|---|---|---|---|---|---|")
    print("\n".join(rows + faults))
    return 1 if faults else 0


def main() -> int:
    parser = argparse.ArgumentParser(description=__doc__.split("\n", 1)[0])
    parser.add_argument("work", type=pathlib.Path)
    parser.add_argument("targets", nargs="*", metavar="TARGET", help=", ".join(TARGETS))
    parser.add_argument("--seconds", type=int, default=120)
    parser.add_argument("--jobs", type=int, default=1)
    parser.add_argument("--only", choices=["build", "fuzz", "look"])
    parser.add_argument("--module", metavar="FILE")
    parser.add_argument("--program", default=str(TOP / "crates/nfsbench/out/nfsbench"))
    parser.add_argument("--sample", type=int, metavar="N", help="look at N inputs of each target at most")
    parser.add_argument("--port", type=int, default=23_400)
    parser.add_argument("--more", type=pathlib.Path, action="append", default=[], metavar="FOLDER", help="a folder of more histories and certificates")
    words = parser.parse_intermixed_args()
    work, names = words.work.resolve(), words.targets or list(TARGETS)
    if words.only == "build" or (words.only is None and not (work / "covered").exists()):
        build(work, words.module)
    if words.only in (None, "fuzz"):
        with ThreadPoolExecutor(words.jobs) as pool:
            list(pool.map(lambda it: fuzz(work, it[1], words.seconds, words.port + it[0], words.more), enumerate(names)))
    if words.only in (None, "look"):
        return look_at_all(work, names, str(pathlib.Path(words.program).resolve()), words.sample)
    return 0


if __name__ == "__main__":
    sys.exit(main())
