#!/usr/bin/env bash
# Proves the program, without the gate's tests and wrong bodies: bench/prove_program.sh [PROGRAM]
#
# It copies PROGRAM (nfsbench) and the libraries below it into a folder of their own, has `rt ci` prove them there, a process on each processor, and
# leaves the program at crates/PROGRAM/out/PROGRAM. Its stored run is compared too. What it proves is kept where the kit keeps proofs. `rt run` alone
# reads all sources at once where a library has yet to be built, which takes more memory than many machines have.
set -eu
cd "$(dirname "$0")/.."
program=${1:-nfsbench}
copy=$(mktemp -d)
trap 'rm -rf "$copy"' EXIT

# Copies the crates below the program, and their lines of crates.txt; no wrong bodies, and no tests, which are crates of their own.
python3 - "$program" "$copy" <<'END'
import re
import shutil
import sys

program, copy = sys.argv[1:]
lines = {}
for line in open("crates.txt"):
    match = re.match(r"(\w+)(?: [\w=+]+)*:(.*)", line)
    if match:
        lines[match[1]] = line, match[2].split()
if program not in lines:
    sys.exit(f"crates.txt names no {program}: name a crate that it names")
wanted, open_names = set(), [program]
while open_names:
    name = open_names.pop()
    if name in lines and name not in wanted:
        wanted.add(name)
        open_names += lines[name][1]
for name in wanted:
    shutil.copytree(f"crates/{name}", f"{copy}/crates/{name}", ignore=shutil.ignore_patterns("must-fail", "attacks", "out"))
with open(f"{copy}/crates.txt", "w") as file:
    file.writelines(line for name, (line, _) in lines.items() if name in wanted)
shutil.copy("HANDLES", copy)
END
git init --quiet "$copy"
(cd "$copy" && RT_JOBS=$(nproc) rt ci)
mkdir -p "crates/$program/out"
cp "$copy/crates/$program/out/$program" "crates/$program/out/$program"
echo "crates/$program/out/$program is proved"
