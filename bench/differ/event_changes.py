"""Changes of the events' order and number. A change gives False where the run has nothing for it."""
import copy

from .draws import Dice
from .runs import CallEvent, CloseEvent, CrashEvent, PlanEra, ReplyEvent, Run


def follow_numbers(run: Run, before: list) -> None:
    """Places and binds name the same calls as before, by their new numbers. Those of calls that are gone go too."""
    now = {id(call): number for number, call in enumerate(run.calls(), 1)}
    numbers = {number: now.get(id(call)) for number, call in enumerate(before, 1)}
    for era in run.eras:
        era.places = [place for place in era.places if numbers.get(place.number, place.number) is not None]
        for place in era.places:
            place.number = numbers.get(place.number, place.number)
    first = run.first
    run.binds = [(handle, first + (numbers.get(number - first) or number - first) if number > first else number) for handle, number in run.binds]


def move_event(dice, run):
    """An event goes to another place: near by mostly, so that calls overlap more or less."""
    if len(run.events) < 2:
        return False
    old = dice.randrange(len(run.events))
    new = max(0, min(len(run.events) - 1, old + dice.choice([-1, 1, -1, 1, 2, -2, 5, -5, 20])))
    run.events.insert(new, run.events.pop(old))
    return True


def widen(dice, run):
    """A call begins earlier or is answered later, as far as its lane's other events and crashes allow."""
    kind = dice.choice([CallEvent, ReplyEvent])
    spots = [at for at, event in enumerate(run.events) if isinstance(event, kind)]
    if not spots:
        return False
    at = dice.choice(spots)
    event, step = run.events[at], -1 if kind is CallEvent else 1
    for _ in range(dice.randrange(1, 12)):
        if not 0 <= at + step < len(run.events):
            break
        other = run.events[at + step]
        is_blocking = isinstance(other, (CrashEvent, CloseEvent)) or (other.lane, other.xid) == (event.lane, event.xid)
        if is_blocking:
            break
        run.events[at], run.events[at + step] = other, event
        at += step
    return True


def swap_events(dice, run):
    if len(run.events) < 2:
        return False
    at = dice.randrange(len(run.events) - 1)
    run.events[at:at + 2] = run.events[at:at + 2][::-1]
    return True


def drop_event(dice, run):
    if run.events:
        del run.events[dice.randrange(len(run.events))]
        return True
    return False


def drop_reply(dice, run):
    spots = [at for at, event in enumerate(run.events) if isinstance(event, ReplyEvent)]
    if not spots:
        return False
    del run.events[dice.choice(spots)]
    return True


def drop_call(dice, run):
    """A call goes with its reply."""
    rows = [(call, reply) for call, reply in zip(run.calls(), run.replies())]
    if not rows:
        return False
    gone = [id(event) for event in dice.choice(rows)]
    run.events = [event for event in run.events if id(event) not in gone]
    return True


def double_event(dice, run):
    if not run.events:
        return False
    event = dice.choice(run.events)
    run.events.insert(dice.randrange(len(run.events) + 1), copy.deepcopy(event))
    return True


def add_crash(dice, run):
    """A crash, mostly with an era that ends there: what began behind it is of the next one."""
    at = dice.randrange(len(run.events) + 1)
    index = sum(isinstance(event, CrashEvent) for event in run.events[:at])
    began = sum(isinstance(event, CallEvent) for event in run.events[:at])
    run.events.insert(at, CrashEvent())
    if index < len(run.eras) and dice.chance(0.8):
        era = run.eras[index]
        early, late = [place for place in era.places if place.number <= began], [place for place in era.places if place.number > began]
        run.eras.insert(index + 1, PlanEra(late, era.cut))
        era.places, era.cut = early, dice.choice([len(early), dice.randrange(len(early) + 1)])
    return True


def drop_crash(dice, run):
    spots = [at for at, event in enumerate(run.events) if isinstance(event, CrashEvent)]
    if not spots:
        return False
    index = dice.randrange(len(spots))
    del run.events[spots[index]]
    if index + 1 < len(run.eras) and dice.chance(0.8):
        behind = run.eras.pop(index + 1)
        run.eras[index].places += behind.places
        run.eras[index].cut = behind.cut
    return True


def lanes_of(run: Run) -> list:
    return [event.lane for event in run.events if not isinstance(event, CrashEvent)]


def add_close(dice, run):
    run.events.insert(dice.randrange(len(run.events) + 1), CloseEvent(dice.choice([*lanes_of(run), 77])))
    return True


def change_lane(dice, run):
    events = [event for event in run.events if not isinstance(event, CrashEvent)]
    if not events:
        return False
    dice.choice(events).lane = dice.choice([*lanes_of(run), 77])
    return True


def change_xid(dice, run):
    events = [event for event in run.events if isinstance(event, (CallEvent, ReplyEvent))]
    if not events:
        return False
    dice.choice(events).xid = dice.choice([event.xid for event in events] + [77])
    return True


CHANGES = {
    move_event: 3, widen: 6, swap_events: 3, drop_event: 1, drop_reply: 3, drop_call: 3, double_event: 1, add_crash: 3, drop_crash: 2, add_close: 1,
    change_lane: 1, change_xid: 2,
}


def change(dice: Dice, run: Run, one) -> bool:
    """Mostly the certificate follows the calls."""
    before = run.calls()
    is_done = one(dice, run)
    if is_done and dice.chance(0.85):
        follow_numbers(run, before)
    return is_done
