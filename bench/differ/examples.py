"""Worked examples: NAME.hist and NAME.cert with NAME.want, which is the line that `nfsbench check` prints of them.

An example is left out if NAME.want isn't one such line (it is of another command), or if a file of it is missing.
"""
import pathlib
import re

from .verdicts import judge

VERDICT = re.compile(r"(yes|(no|refused): [A-Z][A-Za-z]*( [A-Za-z0-9]+)*)\n")


def try_examples(folder: str, tell=print):
    """How many examples agree, differ and are left out."""
    agreed = differed = 0
    left_out = []
    for want in sorted(pathlib.Path(folder).glob("*.want")):
        files = [want.with_suffix(end) for end in (".hist", ".cert")]
        wanted = want.read_text()
        if not VERDICT.fullmatch(wanted) or not all(file.exists() for file in files):
            left_out.append(want.stem)
            continue
        line = judge(*(file.read_bytes() for file in files)).line
        if line + "\n" == wanted:
            agreed += 1
        else:
            differed += 1
            tell(f"{want.stem}: wanted {wanted!r}, said {line!r}")
    return agreed, differed, left_out
