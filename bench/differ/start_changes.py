"""Changes of what a history of version 2 has in front of its events. A change gives False where the run has nothing for it.

Those of an object take its index, from 0.
"""
from . import layouts as nfs
from .draws import FAR, Dice
from .items import Sink
from .runs import Run, StartObject
from .spelling import put_head, spell_certificate, spell_history
from .starts import START_LIMIT, TEXT_LIMIT

TRIES = 20


def lie_in_itself(dice, run, at):
    run.start.objects[at].parent = at + 1
    return True


def lie_in_later(dice, run, at):
    """In one that comes later, or that there isn't."""
    run.start.objects[at].parent = dice.choice([at + 2, dice.randrange(at + 2, run.first + 3), 2**32, 2**64 - 1, 256 * (at + 2)])
    return True


def lie_in_file(dice, run, at):
    """In an earlier one that is no directory."""
    ahead = [number for number, one in enumerate(run.start.objects[:at], 1) if one.kind != nfs.DIRECTORY]
    if ahead:
        run.start.objects[at].parent = dice.choice(ahead)
    return bool(ahead)


def name_oddly(dice, run, at):
    run.start.objects[at].name = dice.choice([b"", b".", b"..", b"...", b"/", b"\0"])
    return True


def take_name(dice, run, at):
    """That of an earlier one in the same directory, or, which is no fault, in another."""
    if at == 0:
        return False
    one, ahead = run.start.objects[at], dice.choice(run.start.objects[:at])
    one.name = ahead.name
    if dice.chance(0.8):
        one.parent = ahead.parent
    return True


def name_long(dice, run, at):
    """A name of too many bytes, or of nearly too many; mostly none of them are there."""
    one = run.start.objects[at]
    length = dice.choice([TEXT_LIMIT + 1, TEXT_LIMIT + 1, TEXT_LIMIT])
    if dice.chance(0.2):
        one.name = b"n" * length
    else:
        one.name_length = dice.choice([length, 2**32 - 1])
    return True


def change_kind(dice, run, at):
    run.start.objects[at].kind = dice.choice([0, 3, 4, 6, 7, 256, 2**32 - 1, 1, 2, 5])
    return True


def hold_much(dice, run, at):
    """A file or a link with too many bytes, or nearly; mostly none of them are there."""
    one = run.start.objects[at]
    one.kind = dice.choice([nfs.REGULAR, nfs.LINK_TYPE])
    limit = FAR if one.kind == nfs.REGULAR else TEXT_LIMIT
    length = dice.choice([limit + 1, limit + 1, limit])
    if dice.chance(0.2 if one.kind == nfs.LINK_TYPE else 0.02):
        one.data = bytes(length)
    else:
        one.data_length = dice.choice([length, 2**32 - 1])
    return True


OF_OBJECT = {lie_in_itself: 2, lie_in_later: 3, lie_in_file: 3, name_oddly: 4, take_name: 4, name_long: 2, change_kind: 4, hold_much: 2}


def change_profile(dice, run):
    run.start.profile = dice.choice([2, 2, 2**32 - 1, 3, 256, 1 - run.start.profile])
    return True


def change_count(dice, run):
    """One object more or less, or far too many."""
    run.start.count = dice.choice([run.first + 1, run.first + 1, max(0, run.first - 1), max(0, run.first - 1), START_LIMIT, START_LIMIT + 1, 2**32 - 1])
    return True


def change_object(dice, run):
    """One object, mostly with one fault, or with two of which the first item decides."""
    if not run.start.objects:
        run.start.objects.append(StartObject(0, b"a", nfs.REGULAR))
    at = dice.randrange(run.first)
    for _ in range(dice.choice([1, 1, 2])):
        for _ in range(TRIES):
            if dice.weighted(OF_OBJECT)(dice, run, at):
                break
    return True


CHANGES = {change_object: 12, change_profile: 3, change_count: 3}


def spoil(dice: Dice, run: Run):
    """The two files of a run with a change or two there, or with its history cut there."""
    if dice.chance(0.15):
        head = Sink()
        put_head(head, run)
        return spell_history(run)[:dice.randrange(8, len(head.data()) + 1)], spell_certificate(run)
    for _ in range(dice.choice([1, 1, 1, 2])):
        dice.weighted(CHANGES)(dice, run)
    return spell_history(run), spell_certificate(run)
