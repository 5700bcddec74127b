#!/usr/bin/env python3
"""Judges two files by the second checker, without the toolchain: judge.py HISTORY CERTIFICATE

It prints the line that `nfsbench check` has to print of them, and has its status: 0 after `yes`, 1 after `no: ..`, else 2. The checker in `differ/` is written from the rules alone
and compared with the proved one (`try_histories.py`), but nothing is proved of it: what it says is no verdict. It is made to be
read, not to be fast: some thousand calls take seconds.
"""
import pathlib
import sys

from differ.verdicts import judge


def main() -> int:
    if len(sys.argv) != 3:
        print(__doc__, file=sys.stderr)
        return 2
    try:
        files = [pathlib.Path(path).read_bytes() for path in sys.argv[1:]]
    except OSError as error:
        print(f"judge.py: {error.filename}: {error.strerror}", file=sys.stderr)
        return 2
    line = judge(*files).line
    print(line)
    return {"yes": 0, "no": 1}.get(line.split(":")[0], 2)


if __name__ == "__main__":
    sys.exit(main())
