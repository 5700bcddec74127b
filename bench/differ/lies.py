"""Replies that break one rule, or nearly: a success where there can be none, a failure without its cause, a success with one detail changed.

What stands in the tree at that moment decides the answer, so most of these are near what a server may say.
"""
from . import layouts as nfs
from . import replies, reply_changes
from .clients import ALL, World, draw_call
from .draws import Dice
from .failure import JUDGED_STATUSES, permitted
from .runs import CallEvent, ReplyEvent, Run
from .success import Try, after_success

DRAWS = 15
PROCEDURES = {**ALL, nfs.RENAME: 5, nfs.CREATE: 3, nfs.READ: 2, nfs.SETATTR: 2, nfs.LOOKUP: 2, nfs.RMDIR: 2, nfs.REMOVE: 2}
PLAUSIBLE = {nfs.STATUSES[name] for name in ("NOENT", "EXIST", "NOTDIR", "ISDIR", "NOTEMPTY")}
SHOWING = {nfs.GETATTR, nfs.LOOKUP, nfs.READLINK, nfs.READ, nfs.READDIR, nfs.READDIRPLUS}
DETAILS = [reply_changes.change_read, reply_changes.change_listing, reply_changes.change_shown, reply_changes.change_shown_handle,
           reply_changes.change_written, reply_changes.change_verifier]


def attempt(dice: Dice, world: World, made: int, procedure: int, arguments: dict):
    """A reply as if the call succeeded, or None, and whether it may. `made` is the number of an object that it makes."""
    one = Try(None, world.tree, made, arguments, None)
    one.binds = replies.binds_of(world)
    value = replies.success_value(dice, world, one, procedure)
    is_right = value is not None and after_success(replies.binds_of(world), world.tree, made, procedure, arguments, value) is not None
    return value, is_right


def draw_lying_call(dice: Dice, world: World):
    """A call that mostly can't succeed, though its handles are live and its names are there; of each kind of obstacle as often."""
    procedure = dice.weighted(PROCEDURES)
    usual = world.right_share, world.hit_share, world.odd_share
    world.right_share, world.hit_share, world.odd_share = 45, 0.6, 0.2
    calls = [draw_call(dice, world, {procedure: 1}) for _ in range(DRAWS)]
    world.right_share, world.hit_share, world.odd_share = usual
    near = {}
    for call in calls:
        causes = permitted(replies.binds_of(world), world.tree, *call)
        is_far = nfs.STATUSES["STALE"] in causes or causes == {nfs.STATUSES["NOENT"]}
        if not is_far and not attempt(dice, world, 0, *call)[1]:
            near.setdefault(tuple(sorted(causes)), call)
    return dice.choice(list(near.values())) if near and dice.chance(0.3 if procedure in SHOWING else 0.65) else dice.choice(calls)


def change_detail(dice: Dice, world: World, event: CallEvent, value: dict):
    """The success with a detail changed, or as it was."""
    reply = ReplyEvent(event.lane, event.xid, event.procedure, 0, value)
    run = Run(world.root, [event, reply], [(handle, 1) for handle in sorted(world.known()) if handle])
    for one in dice.sample(DETAILS, len(DETAILS)):
        if one(dice, run):
            break
    return reply.value


def lie(dice: Dice, world: World, made: int, event: CallEvent):
    """Status and value of a reply that likely isn't allowed."""
    value, is_right = attempt(dice, world, made, event.procedure, event.arguments)
    if value is not None and dice.chance(0.55):
        return 0, change_detail(dice, world, event, value) if is_right else value
    wrong = JUDGED_STATUSES - permitted(replies.binds_of(world), world.tree, event.procedure, event.arguments)
    return dice.choice(sorted(wrong & PLAUSIBLE if wrong & PLAUSIBLE and dice.chance(0.6) else wrong)), replies.failure_value(dice, event.procedure)
