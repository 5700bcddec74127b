"""Cases beside a program, in several processes. A case is made again from its seed and number alone."""
import os
import pathlib
import subprocess
import tempfile
from concurrent.futures import ProcessPoolExecutor, as_completed

from .changes import make_case
from .tally import Tally
from .verdicts import judge

BATCH = 50
TIMEOUT = 120
MEMORY_FOLDER = "/dev/shm"


class Difference:
    def __init__(self, number: int, wanted, printed: bytes, status):
        self.number, self.wanted = number, (wanted.line, wanted.status)
        self.got = printed.decode("latin-1").removesuffix("\n"), status

    def line(self) -> str:
        return f"case {self.number}: wanted {self.wanted[0]!r} with status {self.wanted[1]}, got {self.got[0]!r} with status {self.got[1]}"


def run_program(program: str, history: pathlib.Path, certificate: pathlib.Path):
    """What the program prints, and its status, or words where it has none."""
    try:
        ran = subprocess.run([program, "check", history, certificate], stdout=subprocess.PIPE, stderr=subprocess.DEVNULL, timeout=TIMEOUT)
    except subprocess.TimeoutExpired as late:
        return late.stdout or b"", f"none after {TIMEOUT} seconds"
    return ran.stdout, ran.returncode


def try_batch(program: str, seed: str, numbers: range, folder: str, keep):
    tally, differences = Tally(), []
    history, certificate = (pathlib.Path(folder) / f"{numbers[0]}.{end}" for end in ("hist", "cert"))
    for number in numbers:
        files = make_case(f"{seed}/{number}")
        wanted = judge(*files)
        tally.note(wanted)
        history.write_bytes(files[0])
        certificate.write_bytes(files[1])
        printed, status = run_program(program, history, certificate)
        if (printed, status) != (wanted.line.encode() + b"\n", wanted.status):
            differences.append(Difference(number, wanted, printed, status))
            if keep:
                keep_case(pathlib.Path(keep) / f"{seed}-{number}", files, differences[-1])
    history.unlink()
    certificate.unlink()
    return tally, differences


def keep_case(stem: pathlib.Path, files, difference: Difference) -> None:
    stem.parent.mkdir(parents=True, exist_ok=True)
    for end, data in (("hist", files[0]), ("cert", files[1]), ("want", f"{difference.wanted[0]}\n".encode()), ("got", f"{difference.got[0]}\n".encode())):
        stem.with_name(f"{stem.name}.{end}").write_bytes(data)


def try_all(program: str, count: int, seed: str, keep, tell=print):
    """The tally of all cases and the number of differences. Each difference is told as it comes."""
    tally, found = Tally(), 0
    place = MEMORY_FOLDER if os.path.isdir(MEMORY_FOLDER) else None
    with tempfile.TemporaryDirectory(dir=place) as folder, ProcessPoolExecutor() as pool:
        batches = [pool.submit(try_batch, program, seed, range(first, min(first + BATCH, count + 1)), folder, keep) for first in range(1, count + 1, BATCH)]
        for batch in as_completed(batches):
            part, differences = batch.result()
            tally.add(part)
            found += len(differences)
            for difference in differences:
                tell(difference.line())
    return tally, found
