"""The faults of a certificate for a history, in their order: shape, order, run, cuts, write verifiers."""
from . import layouts as nfs
from .failure import may_fail
from .strict import agrees
from .success import after_success, after_taken
from .trees import Binds


class Fault(Exception):
    """The name of a fault and its values."""

    def __init__(self, *words):
        super().__init__(" ".join(str(word) for word in words))


def all_places(text):
    """Each place with the number of its era, from 1."""
    return [(era, place) for era, part in enumerate(text.eras, 1) for place in part.places]


def is_placeable(call, place) -> bool:
    """An answered judged call with its reply; an unanswered one that changes the tree as taken, a WRITE with at most its own count."""
    if not place.is_taken:
        return call.result is not None
    if not call.is_modifying or call.end is not None:
        return False
    if call.procedure != nfs.WRITE:
        return place.count is None
    return place.count is not None and place.count <= len(call.arguments["data"])


def check_shape(history, text) -> None:
    if len(text.eras) != history.eras:
        raise Fault("WrongEras")
    places = all_places(text)
    for _, place in places:
        if not 1 <= place.number <= len(history.calls):
            raise Fault("Unknown", place.number)
    for era, place in places:
        if history.calls[place.number - 1].era != era:
            raise Fault("WrongEra", place.number)
    seen = set()
    for _, place in places:
        if place.number in seen:
            raise Fault("Twice", place.number)
        seen.add(place.number)
    for _, place in places:
        if not is_placeable(history.calls[place.number - 1], place):
            raise Fault("NotToPlace", place.number)
    for number, call in enumerate(history.calls, 1):
        if call.result is not None and number not in seen:
            raise Fault("Missing", number)
    for era, part in enumerate(text.eras[:-1], 1):
        if part.cut > len(part.places):
            raise Fault("BadCut", era)


def check_order(history, text) -> None:
    """No call stands ahead of one that ended before it began."""
    for part in text.eras:
        for at, place in enumerate(part.places):
            end = history.calls[place.number - 1].end
            early = [earlier.number for earlier in part.places[:at] if end is not None and end < history.calls[earlier.number - 1].begin]
            if early:
                raise Fault("Early", max(early, key=lambda number: history.calls[number - 1].begin), place.number)


def next_tree(binds, tree, history, place, note=lambda call, spot, is_right: None):
    """The tree after a place, or None where nothing permits it. In a strict history the attributes of the reply have to agree too."""
    call, number = history.calls[place.number - 1], history.head.first + place.number
    if place.is_taken:
        return after_taken(binds, tree, number, call.procedure, call.arguments, place.count)
    status, shown = call.result
    if status == 0:
        after = after_success(binds, tree, number, call.procedure, call.arguments, shown)
    else:
        after = tree if may_fail(binds, tree, call.procedure, call.arguments, status) else None
    if after is None or not history.head.is_strict:
        return after
    is_agreed = agrees(binds, tree, after, call.procedure, call.arguments, status, shown, lambda spot, is_right: note(call, spot, is_right))
    return after if is_agreed else None


class Notes:
    """What a run came by: each call that its tree permitted, each attributes that were judged."""

    def call(self, call) -> None:
        pass

    def attributes(self, call, spot, is_right) -> None:
        pass


def check_run(history, text, notes=Notes()) -> None:
    """Each era starts from the tree behind the places that the era before kept."""
    binds, base = Binds(history.head.root, text.binds), history.head.opening
    for part in text.eras:
        trees = [base]
        for place in part.places:
            tree = next_tree(binds, trees[-1], history, place, notes.attributes)
            if tree is None:
                raise Fault("Illegal", place.number)
            notes.call(history.calls[place.number - 1])
            trees.append(tree)
        base = trees[part.cut] if part.cut is not None else None


def shared_byte(call, commit) -> bool:
    """Whether the bytes that a WRITE wrote and the range of a COMMIT share one. A COMMIT of count 0 has no end."""
    first, last = call.arguments["offset"], call.arguments["offset"] + call.result[1]["count"]
    start, count = commit.arguments["offset"], commit.arguments["count"]
    return max(first, start) < (last if count == 0 else min(last, start + count))


def is_stable(binds, calls: list, at: int) -> bool:
    """A place that no crash may lose. `calls` are those of the era's places, None for one that is taken."""
    call = calls[at]
    if call is None or not call.is_modifying or not call.has_success:
        return False
    if call.procedure != nfs.WRITE or call.result[1]["level"] != nfs.UNSTABLE:
        return True
    written = binds.object_of(call.arguments["object"])
    return written is not None and any(
        later is not None and later.procedure == nfs.COMMIT and later.has_success and
        binds.object_of(later.arguments["object"]) == written and shared_byte(call, later) for later in calls[at + 1:])


def placed_calls(history, part) -> list:
    return [None if place.is_taken else history.calls[place.number - 1] for place in part.places]


def check_cuts(history, text) -> None:
    binds = Binds(history.head.root, text.binds)
    for era, part in enumerate(text.eras[:-1], 1):
        calls = placed_calls(history, part)
        needed = max((at + 1 for at in range(len(calls)) if is_stable(binds, calls, at)), default=0)
        if part.cut < needed:
            raise Fault("ShortCut", era, needed)


def shown_verifiers(calls: list) -> set:
    return {call.result[1]["verifier"] for call in calls if call and call.procedure in (nfs.WRITE, nfs.COMMIT) and call.has_success}


def check_verifiers(history, text) -> None:
    """One verifier an era; and no later era shows that of an era which lost bytes of an answered WRITE (RFC 1813, sections 3.3.7 and 3.3.21)."""
    eras = [placed_calls(history, part) for part in text.eras]
    for era, (part, calls) in enumerate(zip(text.eras, eras), 1):
        shown, lost = shown_verifiers(calls), [] if part.cut is None else calls[part.cut:]
        has_lost = any(call and call.procedure == nfs.WRITE and call.has_success and call.result[1]["count"] > 0 for call in lost)
        if len(shown) > 1 or (has_lost and any(shown & shown_verifiers(later) for later in eras[era:])):
            raise Fault("Verifier", era)
