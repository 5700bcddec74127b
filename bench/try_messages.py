#!/usr/bin/env python3
"""Tries what `nfsbench` says on standard error of files that can't be used, and of what is read: try_messages.py PROGRAM

No stored run shows standard error. Each case is a command line in a folder of small files, with what it has to print there, on standard output, and
with which status (docs/COMMANDS.md, "What standard error says"). One case has a terminal as standard input. Each case at fault is printed; the status
is 1 where there is one.
"""
import os
import pathlib
import pty
import subprocess
import sys
import tempfile

MISSING = "No such file or directory (os error 2)"
BELOW = "Not a directory (os error 20)"
FOLDER = "is a directory"
FRONT = ("this isn't a history file of nfsbench: a history begins with NFSHIST1 or NFSHIST2; a packet capture goes to nfsbench import")
NOTHING = "nothing was judged: no call of a judged procedure was answered"
READ_TOO = "this file is read too"
BUNDLE = ("nfsbench: reads a bundle from standard input: a history in hexadecimal, a line feed, a certificate; nfsbench --help lists the commands")
# A history of no events, and one of a crash. The certificate has an era for each.
EMPTY = b"NFSHIST1" + bytes(8)
CRASHED = b"NFSHIST1" + bytes(4) + b"\0\0\0\1" + b"\0\0\0\3"
NUMBERS = "calls 0\njudged 0\nanswered 0\nunjudged 0\nexcused 0\neras {}\nlost 0\nyes\n"
FILES = {
    "empty": EMPTY, "crashed": CRASHED, "none": b"witness 1\nend\n", "cut": b"witness 1\ncut 0\nend\n", "capture": b"\xd4\xc3\xb2\xa1" + bytes(40),
    "short": b"NFSHIST", "plan": b"plan 1\nend\n",
    "bundle": EMPTY.hex().encode() + b"\nwitness 1\nend\n",
}


def told(path, reason):
    return f"nfsbench: {path}: {reason}\n"


def refused(reason):
    return f"refused: {reason}\n", 2


# The words, then standard output and the status, then standard error.
CASES = [
    ("check missing none", refused("unreadable history"), told("missing", MISSING)),
    ("check empty missing", refused("unreadable certificate"), told("missing", MISSING)),
    ("check folder none", refused("unreadable history"), told("folder", FOLDER)),
    ("check --json empty/below none", ('{"verdict":"refused","reason":"unreadable history"}\n', 2), told("empty/below", BELOW)),
    ("report missing missing", refused("unreadable history"), told("missing", MISSING) * 2),
    ("explain missing", refused("unreadable history"), told("missing", MISSING)),
    ("explain empty missing", refused("unreadable certificate"), told("missing", MISSING)),
    ("show missing", refused("unreadable history"), told("missing", MISSING)),
    ("show empty missing", refused("unreadable certificate"), told("missing", MISSING)),
    ("draw missing", refused("unreadable history"), told("missing", MISSING)),
    ("search missing", refused("unreadable history"), told("missing", MISSING)),
    ("decide missing", refused("unreadable history"), told("missing", MISSING)),
    ("prefix missing 1 new", refused("unreadable history"), told("missing", MISSING)),
    ("prefix crashed 1 crashed", refused("cannot write"), told("crashed", READ_TOO)),
    ("prefix crashed 1 missing/new", refused("cannot write"), told("missing/new", MISSING)),
    ("decide --certificate empty empty", refused("cannot write"), told("empty", READ_TOO)),
    ("decide --certificate missing/new empty", refused("cannot write"), told("missing/new", MISSING)),
    ("mend missing new", refused("unreadable part"), told("missing", MISSING)),
    ("mend empty empty", refused("cannot write"), told("empty", "this file is the one to be mended")),
    ("mend capture new", refused("BadMagic"), told("capture", "this isn't what nfsbench left: a history begins with NFSHIST1 or NFSHIST2")),
    ("import --port 2049 missing new", refused("unreadable capture"), told("missing", MISSING)),
    ("import --port 2049 folder new", refused("unreadable capture"), told("folder", "Is a directory (os error 21)")),
    ("run missing new other", refused("unreadable plan"), told("missing", MISSING)),
    ("run --start missing plan new other", refused("start: cannot read"), told("missing", MISSING)),
    ("serve --port 65535 --lanes 1 --calls 1 missing/new other", refused("cannot write"), told("missing/new", MISSING)),
    ("tap --root 00 --port 65535 --server 1 --orders missing new", refused("cannot read orders"), told("missing", MISSING)),
    ("tap --root 00 --port 65535 --server 1 --lanes 1 missing/new", refused("cannot write"), told("missing/new", MISSING)),
    ("tap --root 00 --port 65535 --server 1 --lanes 1 folder", refused("cannot write"), told("folder", FOLDER)),
    ("test --port 1 --mount 1 --export / --out folder", refused(
        "the folder of --out is there already: name one that isn't, so that no night's files are lost"), told("folder", "File exists (os error 17)")),
    ("test --quiet --port 1 --mount 1 --export / --out folder", refused(
        "the folder of --out is there already: name one that isn't, so that no night's files are lost"), ""),
    ("check capture none", refused("BadMagic"), told("capture", FRONT)),
    ("check --json short none", ('{"verdict":"refused","reason":"bad history","fault":"BadMagic"}\n', 2), told("short", FRONT)),
    ("report capture none", refused("BadMagic"), told("capture", FRONT)),
    ("show capture", refused("BadMagic"), told("capture", FRONT)),
    ("decide capture", refused("BadMagic"), told("capture", FRONT)),
    ("run --start capture plan new other", refused("start: BadMagic"), told("capture", FRONT)),
    ("check empty none", ("yes\n", 0), told("empty", NOTHING)),
    ("report empty none", (NUMBERS.format(1), 0), told("empty", NOTHING)),
    ("report crashed cut", (NUMBERS.format(2), 0), told("crashed", NOTHING)),
    ("check --json empty none", ('{"verdict":"yes"}\n', 0), told("empty", NOTHING)),
    ("check empty cut", ("no: WrongEras\n", 1), ""),
]


def run(program, folder, words, stdin=subprocess.DEVNULL):
    ended = subprocess.run([program, *words], stdin=stdin, capture_output=True, cwd=folder, timeout=60, check=False)
    return (ended.stdout.decode(), ended.returncode), ended.stderr.decode()


def differs(line, want, got):
    if want == got:
        return 0
    print(f"nfsbench {line}\n  wanted {want}\n  got    {got}")
    return 1


def at_terminal(program, folder):
    """What is said where standard input is a terminal, at which its end is typed at once."""
    ours, theirs = pty.openpty()
    os.write(ours, b"\4")
    got = run(program, folder, [], theirs)
    os.close(theirs)
    os.close(ours)
    return got


def main():
    program = os.path.abspath(sys.argv[1])
    with tempfile.TemporaryDirectory() as folder:
        for name, data in FILES.items():
            pathlib.Path(folder, name).write_bytes(data)
        pathlib.Path(folder, "folder").mkdir()
        faults = sum(differs(line, (said, stderr), run(program, folder, line.split())) for line, said, stderr in CASES)
        faults += differs("at a terminal", (refused("bad bundle"), BUNDLE + "\n"), at_terminal(program, folder))
        faults += differs("of nothing", (refused("bad bundle"), BUNDLE + "\n"), run(program, folder, []))
        with open(pathlib.Path(folder, "bundle"), "rb") as bundle:
            faults += differs("of a bundle", (("yes\n", 0), ""), run(program, folder, [], bundle))
    print(f"{len(CASES) + 3} cases, {faults} at fault")
    sys.exit(1 if faults else 0)


if __name__ == "__main__":
    main()
