#!/usr/bin/env python3
"""An optimized program without a proof, to measure a change ahead of proving it: build_unproved.py CRATE PROGRAM.

`rt try` compiles a crate's program without optimization. This takes the module that it compiles, compiles it as a build does, and
links it with the kit's C files: some five minutes of a processor for nfsbench. Each step is still checked (bounds, overflow), so it takes
1.6 to 1.9 times as long as the program that `rt run` proves and builds: compare two such programs. CRATE is a folder, PROGRAM the file to write. The status is 1 where there is no program.
"""
import os
import shutil
import subprocess
import sys
import tempfile

# What stands for clang: it keeps the last module that it is given, and compiles. It gets no environment.
CLANG = """#!/bin/sh
[ -f module.bc ] && cp module.bc '{module}'
exec '{clang}' "$@"
"""

# rt, with another toolchain for the one tool that is looked on.
RT = """
import os, subprocess, sys
class Popen(subprocess.Popen):
    def __init__(self, words, *rest, **named):
        words = [os.environ["OTHER_TOOLCHAIN"] if at and words[at - 1] == "--toolchain" else it for at, it in enumerate(words)]
        super().__init__(words, *rest, **named)
subprocess.Popen = Popen
path = sys.argv[1]
sys.argv = ["rt", "try", "--steps", "1", "--seconds", "1"]
sys.path.insert(0, os.path.dirname(path))
exec(compile(open(path).read(), path, "exec"), {"__name__": "__main__", "__file__": path})
"""

# What a build gives clang.
FLAGS = """--target=x86_64-unknown-linux-gnu -march=x86-64-v2 -mllvm -no-trap-after-noreturn -ffunction-sections -fdata-sections
-mllvm -trap-unreachable -no-canonical-prefixes -fPIE -O3 -c -x ir""".split()


def kit_and_rt() -> tuple:
    rt = os.path.realpath(shutil.which("rt"))
    return os.path.dirname(os.path.dirname(rt)), rt


def take_module(crate: str, module: str) -> bool:
    """Writes the module of a crate's program. Says whether there is one."""
    kit, rt = kit_and_rt()
    with tempfile.TemporaryDirectory() as work:
        other = f"{work}/toolchain"
        shutil.copytree(f"{kit}/toolchain", other, symlinks=True, ignore=lambda folder, names: ["clang"] if folder.endswith("/bin") else [])
        for name in ("ld.lld", "llvm-ar"):
            os.remove(f"{other}/bin/{name}")
            os.symlink(f"{kit}/toolchain/bin/{name}", f"{other}/bin/{name}")
        with open(f"{other}/bin/clang", "w") as file:
            file.write(CLANG.format(module=module, clang=f"{kit}/toolchain/bin/clang"))
        os.chmod(f"{other}/bin/clang", 0o755)
        around = {**os.environ, "OTHER_TOOLCHAIN": other}
        subprocess.run([sys.executable, "-c", RT, rt], cwd=crate, env=around, stdin=subprocess.DEVNULL, stdout=subprocess.DEVNULL)
    return os.path.isfile(module)


def compile_module(module: str, compiled: str, *more: str) -> None:
    """With the flags of a build, and more."""
    kit, _ = kit_and_rt()
    subprocess.run([f"{kit}/toolchain/bin/clang", f"--sysroot={kit}/toolchain", *FLAGS, *more, module, "-o", compiled], check=True)


def kit_files() -> list:
    """The kit's C files, for the linker."""
    return [f"{kit_and_rt()[0]}/c/{it}" for it in ("libos_c.a", "liblibc_c.a")]


def main() -> int:
    crate, program = (os.path.realpath(it) for it in sys.argv[1:3])
    with tempfile.TemporaryDirectory() as work:
        module, compiled = f"{work}/kept.bc", f"{work}/kept.o"
        if not take_module(crate, module):
            return 1
        compile_module(module, compiled)
        subprocess.run(["cc", compiled, *kit_files(), "-lpthread", "-Wl,--gc-sections", "-o", program], check=True)
    return 0


if __name__ == "__main__":
    sys.exit(main())
