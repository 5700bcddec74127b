"""A tree for the cases, and the calls that make it and show it.

`f` is a file `abc`, `d` a directory with the empty file `g`, `l` a link `x/y`, `e` an empty directory, and `v` an empty file
that an exclusive CREATE with verifier 1 made. What call n makes is object n, and its handle is the byte of its number.
"""
import dataclasses

from cases.calls import create, create_exclusive, get_attributes, list_entries, make_directory, make_link, read, read_link, write
from cases.history import CRASH_EVENT, call_event, call_message, certificate, history_file, reply_event, reply_message
from cases.xdr import DIR, LNK, REG

ROOT, F, D, G, L, E, V = 0, 1, 2, 3, 4, 5, 6

# Its calls are seven, so the call behind them is call 8, and what it makes is this object.
NEW = 8

# An object that has a handle and is never made, and a handle that names nothing.
NEVER_MADE, UNBOUND = 50, 99

BINDS = [(bytes([number]), number) for number in (1, 2, 3, 4, 5, 6, 7, 8, 9, NEVER_MADE)]

SAMPLE = [
    create(ROOT, "f").gives(F),
    make_directory(ROOT, "d").gives(D),
    create(D, "g").gives(G),
    make_link(ROOT, "l", b"x/y").gives(L),
    make_directory(ROOT, "e").gives(E),
    create_exclusive(ROOT, "v", 1).gives(V),
    write(F, 0, b"abc").gives(),
]


@dataclasses.dataclass(frozen=True)
class Directory:
    number: int


@dataclasses.dataclass(frozen=True)
class File:
    number: int
    data: bytes = b""
    verifier: int | None = None


@dataclasses.dataclass(frozen=True)
class Link:
    number: int
    text: bytes


# The tree by its paths.
TREE = {"d": Directory(D), "d/g": File(G), "e": Directory(E), "f": File(F, b"abc"), "l": Link(L, b"x/y"), "v": File(V, b"", 1)}


def without(*paths):
    return {path: node for path, node in TREE.items() if path not in paths}


def shown(tree):
    """Calls that succeed in this tree alone: each directory is listed whole, each file and link is read."""
    yield from shown_directory(tree, "", ROOT)
    for path, node in sorted(tree.items()):
        if isinstance(node, Directory):
            yield get_attributes(node.number).gives(DIR, 4096)
            yield from shown_directory(tree, path + "/", node.number)
        elif isinstance(node, Link):
            yield get_attributes(node.number).gives(LNK, len(node.text))
            yield read_link(node.number).gives(node.text)
        else:
            yield get_attributes(node.number).gives(REG, len(node.data))
            yield read(node.number).gives(node.data, eof=True)


def shown_directory(tree, front, number):
    inside = {path[len(front):]: node for path, node in tree.items() if path.startswith(front)}
    entries = {path: node for path, node in inside.items() if "/" not in path}
    yield list_entries(number).gives([(entry, node.number) for entry, node in sorted(entries.items())], eof=True)
    for entry, node in sorted(entries.items()):
        if isinstance(node, File) and node.verifier is not None:
            # It finds its own file, and changes nothing.
            yield create_exclusive(number, entry, node.verifier).gives(node.number)


@dataclasses.dataclass(frozen=True)
class Crash:
    """The server goes down. So many places of the era survive."""

    kept: int


def laid_in_order(steps):
    """The events of calls one after another, each answered before the next, and the lines of a certificate with that order."""
    events, lines, lane, number = [], [], 1, 0
    for step in steps:
        if isinstance(step, Crash):
            events.append(CRASH_EVENT)
            lines.append("cut %d" % step.kept)
            lane += 1
            continue
        number += 1
        events.append(call_event(lane, call_message(number, step.procedure, step.arguments)))
        if step.result is not None:
            events.append(reply_event(lane, reply_message(number, step.result)))
            lines.append("place %d" % number)
        elif step.take is not None:
            lines.append("take %d%s" % (number, step.take))
    return events, lines


def run(cases, case, answer, *steps, binds=BINDS, laid_out=history_file):
    """A history of calls one after another, each answered before the next, and the certificate with that order."""
    events, lines = laid_in_order(steps)
    cases.judge(case, answer, laid_out(events), certificate(lines, binds))


def becomes(cases, case, tree, call):
    """The call comes behind the sample's, and makes this tree."""
    run(cases, case, "yes", *SAMPLE, call, *shown(tree))


def illegal(cases, case, call):
    """Behind the sample's calls the call can't have come out so."""
    run(cases, case, "no: Illegal 8", *SAMPLE, call)


def allowed(cases, case, *calls):
    """Behind the sample's calls these, which leave the tree, may have come out so."""
    run(cases, case, "yes", *SAMPLE, *calls, *shown(TREE))
