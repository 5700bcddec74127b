#!/usr/bin/env python3
"""Walks histories of up to some thirty calls in a plain way, and compares what `nfsbench decide` says: try_walks.py PROGRAM [COUNT [SEED]] [OPTION..].

The histories are those of `try_histories.py`: clients over files, directories and links, crashes, starting objects, both profiles, right ones and ones with a
change or two. The walk is written apart from the program, over the rules of `differ`, and takes no short cut: at each reply it places every list of open calls
that ends in the call, each place may be the first that a crash loses, and what is lost behind it is judged place by place. A handle is bound by the first placed
reply that gives it, or before that by a call that asks by it, which is placed with each object that it may name, and with none. States are merged only if
nothing that is judged later can tell them apart. A history with more than 5,000 states at once, or of which the walk needs more than 2 GiB, isn't decided,
and the program isn't asked. COUNT is 1,000 and SEED 1 if they are left out. It prints how many were a yes, a no and undecided, and each history that the two
decide differently; the status is 1 where there is one. Its last line has how many there were with a WRITE of over 64 bytes that got no reply, with a handle
that no reply gave before a call asked by it, and with an object that a crash may have brought back. The options ask for more of these.
"""
import argparse
import collections
import functools
import itertools
import pathlib
import resource
import sys
import tempfile

from differ import layouts as nfs
from differ.certificates import Place
from differ.changes import make_case
from differ.failure import JUDGED_STATUSES
from differ.histories import read_history
from differ.plans import is_stable, next_tree, shown_verifiers
from differ.rare import Tally, add_options, named
from differ.refusals import Refused
from differ.success import found
from differ.trees import Binds, entries_of, path_of
from try_decisions import noted, tell, told_by

MOST_STATES, MOST_MEMORY = 5_000, 2 << 30
MAKING = (nfs.CREATE, nfs.MKDIR, nfs.SYMLINK)
NOTHING = -1


class Undecided(Exception):
    pass


class State:
    """What a partial plan has come to. `base` is None up to the cut; then the tree there, and the answered WRITEs behind it. `losers` are the eras that lost
    bytes of an answered WRITE."""

    def __init__(self, tree, pairs, placed, base, losers):
        self.tree, self.pairs, self.placed, self.base, self.losers = tree, pairs, placed, base, losers

    def key(self):
        base = None if self.base is None else (frozenset(self.base[0].items()), self.base[1])
        return frozenset(self.tree.items()), frozenset(self.pairs.items()), self.placed, base, self.losers

    def copy(self, **new):
        return State(**{**self.__dict__, **new})


def given(history, state, number, call, shown):
    """The handles that a success gives, each with the object that it has to name: none where there is no such object."""
    head, arguments = history.head, call.arguments
    binds = Binds(head.root, state.pairs)
    if call.procedure not in (nfs.LOOKUP, nfs.CREATE, nfs.MKDIR, nfs.SYMLINK, nfs.READDIRPLUS):
        return []
    path = path_of(state.tree, binds.object_of(arguments["dir"]))
    if path is None:
        return []
    if call.procedure == nfs.READDIRPLUS:
        entries = entries_of(state.tree, path)
        return [(entry["handle"], entries[entry["name"]].object) for entry in shown["entries"] if entry["handle"] is not None and entry["name"] in entries]
    if shown["handle"] is None:
        return []
    if call.procedure == nfs.LOOKUP:
        node = found(state.tree, path + (arguments["name"],)) if state.tree[path].is_directory else None
        return [] if node is None else [(shown["handle"], node.object)]
    there = state.tree.get(path + (arguments["name"],))
    return [(shown["handle"], head.first + number if there is None else there.object)]


def ways(call, number):
    if call.result is not None:
        return [Place(number, False)]
    if call.end is not None or not call.is_modifying:
        return []
    return [Place(number, True, count) for count in (range(len(call.arguments["data"]) + 1) if call.procedure == nfs.WRITE else [None])]


def lost(history, state, call, number, is_taken):
    """The answered WRITEs behind the cut with this call too, or None where it keeps one of them or can't be lost itself."""
    behind = frozenset() if state.base is None else state.base[1]
    if is_taken or not call.has_success:
        return behind
    binds = Binds(history.head.root, state.pairs)
    if is_stable(binds, [call], 0) or any(is_stable(binds, [history.calls[write - 1], call], 0) for write in behind):
        return None
    return behind | {number} if call.procedure == nfs.WRITE and call.result[1]["count"] > 0 else behind


@functools.lru_cache(maxsize=1)
def nameable(history):
    """What a handle may name: the root, what stood at first, what a call may make, or nothing."""
    first = history.head.first
    makers = [number for number, call in enumerate(history.calls, 1) if call.is_judged and call.procedure in MAKING and (call.result is None or call.has_success)]
    return [NOTHING, *range(first + 1), *(first + number for number in makers)]


def bound(history, state, call, place):
    """The state with each way to bind the handles by which the call asks, and which aren't bound. One of no bytes can't be. A failure that may answer any
    call asks for none, unless its attributes are judged."""
    is_judged = place.is_taken or call.result[0] == 0 or call.result[0] in JUDGED_STATUSES or history.head.is_strict
    free = {handle for handle in named(call) if handle and handle != history.head.root and handle not in state.pairs} if is_judged else ()
    for things in itertools.product(nameable(history), repeat=len(free)):
        yield state.copy(pairs={**state.pairs, **dict(zip(free, things))})


def step(history, state, number):
    """The states to which a call may lead."""
    call = history.calls[number - 1]
    if not call.is_judged:
        return
    for place in ways(call, number):
        for before in bound(history, state, call, place):
            yield from after_place(history, before, call, place)


def after_place(history, state, call, place):
    """The states behind a place: up to the cut, and behind it."""
    pairs, number = dict(state.pairs), place.number
    if not place.is_taken and call.result[0] == 0:
        for handle, thing in given(history, state, number, call, call.result[1]):
            if handle and handle != history.head.root:
                pairs.setdefault(handle, thing)
    tree = next_tree(Binds(history.head.root, pairs), state.tree, history, place)
    if tree is None:
        return
    after = state.copy(tree=tree, pairs=pairs, placed=state.placed | {number})
    if state.base is None:
        yield after
    if call.era < history.eras:
        behind = lost(history, after.copy(base=state.base), call, number, place.is_taken)
        if behind is not None:
            yield after.copy(base=(state.tree if state.base is None else state.base[0], behind))


def merged(states, by_key=None):
    by_key = {} if by_key is None else by_key
    for state in states:
        by_key.setdefault(state.key(), state)
        if len(by_key) > MOST_STATES:
            raise Undecided("states")
    return by_key


def answered(history, states, waiting, number):
    done, layer = {}, {}
    for state in states:
        merged([state], done if number in state.placed else layer)
    while layer:
        for state in layer.values():
            merged(step(history, state, number), done)
        following = {}
        for state in layer.values():
            for other in waiting:
                if other != number and other not in state.placed:
                    merged(step(history, state, other), following)
        layer = following
    return list(done.values())


def ended(era, states):
    """The states behind a crash."""
    behind = {}
    for state in states:
        tree, losers = (state.tree, state.losers) if state.base is None else (state.base[0], state.losers | {era} if state.base[1] else state.losers)
        merged([State(tree, state.pairs, frozenset(), None, losers)], behind)
    return list(behind.values())


def all_orders_at_end(history, states, waiting):
    """At a crash any open calls without a reply may stand at the end."""
    every, layer = {}, merged(states)
    while layer:
        every.update(layer)
        following = {}
        for state in layer.values():
            for other in waiting:
                if other not in state.placed:
                    merged(step(history, state, other), following)
        layer = {key: state for key, state in following.items() if key not in every}
    return list(every.values())


def verifiers_agree(history, shown, losers):
    return not any(shown[era] & shown[later] for era in losers for later in shown if later > era)


def walk(history):
    """Whether the history has a witness."""
    shown = {era: shown_verifiers([call for call in history.calls if call.era == era and call.result is not None and call.is_judged]) for era in range(1, history.eras + 1)}
    if any(len(of_era) > 1 for of_era in shown.values()):
        return False
    states = [State(history.head.opening, {}, frozenset(), None, frozenset())]
    for era in range(1, history.eras + 1):
        numbers = [number for number, call in enumerate(history.calls, 1) if call.era == era]
        events = sorted([(history.calls[number - 1].begin, 0, number) for number in numbers] +
                        [(history.calls[number - 1].end, 1, number) for number in numbers if history.calls[number - 1].end is not None])
        waiting = []
        for _, is_end, number in events:
            if not is_end:
                waiting.append(number)
            else:
                if history.calls[number - 1].is_judged and history.calls[number - 1].result is not None:
                    states = answered(history, states, waiting, number)
                waiting.remove(number)
                states = [state.copy(placed=state.placed - {number}) for state in states]
        if era < history.eras:
            states = ended(era, all_orders_at_end(history, states, waiting))
    return any(verifiers_agree(history, shown, state.losers) for state in states)


def limit_memory():
    """The walk is given up where it takes too much."""
    _, most = resource.getrlimit(resource.RLIMIT_AS)
    resource.setrlimit(resource.RLIMIT_AS, (MOST_MEMORY if most == resource.RLIM_INFINITY else min(MOST_MEMORY, most), most))


def main():
    parser = argparse.ArgumentParser(description=__doc__, formatter_class=argparse.RawDescriptionHelpFormatter)
    parser.add_argument("program", metavar="PROGRAM")
    parser.add_argument("count", metavar="COUNT", type=int, nargs="?", default=1000)
    parser.add_argument("seed", metavar="SEED", nargs="?", default="1")
    add_options(parser)
    words = parser.parse_intermixed_args()
    program, seed = words.program, words.seed
    tally, whys, sizes, rare, differ = collections.Counter(), collections.Counter(), collections.Counter(), Tally(), 0
    left_out = 0
    limit_memory()
    with tempfile.TemporaryDirectory() as folder:
        file = pathlib.Path(folder) / "some.history"
        for number in range(words.count):
            data = make_case(f"{seed}/{number}", words.wishes)[0]
            try:
                history = read_history(data)
            except Refused:
                continue
            sizes[len(history.calls) // 10 * 10] += 1
            try:
                wanted = "yes" if walk(history) else "no"
            except (Undecided, MemoryError):
                left_out += 1
                continue
            file.write_bytes(data)
            line = told_by(program, file)
            got = noted(tally, whys, wanted, line)
            rare.note(history, wanted, got)
            if {wanted, got} == {"yes", "no"}:
                differ += 1
                print(f"{number}: the plain walk says {wanted}, the program {line}")
    tell("the plain walk", tally, whys)
    print(f"undecided by the plain walk: {left_out}")
    print("calls:", ", ".join(f"{size} to {size + 9}: {many}" for size, many in sorted(sizes.items())))
    print(rare.line())
    return 1 if differ else 0


if __name__ == "__main__":
    sys.exit(main())
