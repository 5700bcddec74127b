"""Changes of a certificate: places, cuts, binds. A change gives False where the run has nothing for it."""
from . import draws
from . import layouts as nfs
from .draws import Dice
from .runs import PlanEra, PlanPlace, Run

FAR_NUMBERS = [0, 2**32, 2**64 - 1]


def era_with(dice: Dice, run: Run, least: int):
    eras = [era for era in run.eras if len(era.places) >= least]
    return dice.choice(eras) if eras else None


def swap_neighbours(dice, run):
    era = era_with(dice, run, 2)
    if era:
        at = dice.randrange(len(era.places) - 1)
        era.places[at:at + 2] = era.places[at:at + 2][::-1]
    return era is not None


def swap_two(dice, run):
    era = era_with(dice, run, 2)
    if era:
        one, two = dice.sample(range(len(era.places)), 2)
        era.places[one], era.places[two] = era.places[two], era.places[one]
    return era is not None


def move_in_era(dice, run):
    era = era_with(dice, run, 2)
    if era:
        place = era.places.pop(dice.randrange(len(era.places)))
        era.places.insert(dice.randrange(len(era.places) + 1), place)
    return era is not None


def shuffle_some(dice, run):
    era = era_with(dice, run, 3)
    if era:
        at, size = dice.randrange(len(era.places) - 2), dice.choice([3, 4, 6])
        some = era.places[at:at + size]
        dice.shuffle(some)
        era.places[at:at + size] = some
    return era is not None


def move_over_era(dice, run):
    """A place goes to another era; now and then the cut goes with it."""
    full = [at for at, era in enumerate(run.eras) if era.places]
    if not full or len(run.eras) < 2:
        return False
    old = dice.choice(full)
    new = dice.choice([at for at in (old - 1, old + 1) if 0 <= at < len(run.eras)])
    place = run.eras[old].places.pop(dice.choice([0, -1, dice.randrange(len(run.eras[old].places))]))
    run.eras[new].places.insert(dice.choice([0, len(run.eras[new].places)]), place)
    if run.eras[old].cut and dice.chance(0.6):
        run.eras[old].cut -= 1
    return True


def drop_place(dice, run):
    era = era_with(dice, run, 1)
    if era:
        at = dice.randrange(len(era.places))
        del era.places[at]
        if era.cut and at < era.cut and dice.chance(0.7):
            era.cut -= 1
    return era is not None


def double_place(dice, run):
    era = era_with(dice, run, 1)
    if era:
        place = dice.choice(era.places)
        to = era if dice.chance(0.8) else dice.choice(run.eras)
        to.places.insert(dice.randrange(len(to.places) + 1), PlanPlace(place.number, place.is_taken, place.count))
    return era is not None


def exchange_taken(dice, run):
    era = era_with(dice, run, 1)
    if era:
        place = dice.choice([place for place in era.places if place.is_taken] or era.places if dice.chance(0.5) else era.places)
        place.is_taken = not place.is_taken
        place.count = dice.choice([None, 0, 3]) if place.is_taken else None
    return era is not None


def change_count(dice, run):
    """The count of a taken call: one more than a WRITE's own, one less, none, or one where none belongs."""
    places = [place for place in run.places() if place.is_taken]
    if not places:
        return False
    place, calls = dice.choice(places), run.calls()
    own = len(calls[place.number - 1].arguments.get("data", b"")) if place.number <= len(calls) and calls[place.number - 1].arguments else 0
    place.count = dice.choice([None, 0, own, own + 1, max(0, own - 1), dice.randrange(own + 1), 2**32 - 1])
    return True


def change_number(dice, run):
    places = run.places()
    if not places:
        return False
    place = dice.choice(places)
    place.number = dice.choice([place.number + 1, max(0, place.number - 1), len(run.calls()) + 1, len(run.calls()), *FAR_NUMBERS])
    return True


def unplaced(run: Run, is_wanted) -> list:
    """Calls without a place that are wanted: their numbers, with their eras and themselves."""
    placed = {place.number for place in run.places()}
    rows = zip(run.calls(), run.replies(), run.era_numbers())
    return [(number, era, call) for number, (call, reply, era) in enumerate(rows, 1)
            if number not in placed and era < len(run.eras) and is_wanted(call, reply)]


def take_unanswered(dice, run):
    """A call that was never answered is taken as done."""
    free = unplaced(run, lambda call, reply: reply is None and call.arguments is not None and call.procedure in nfs.MODIFYING)
    if not free:
        return False
    number, era, call = dice.choice(free)
    own = len(call.arguments.get("data", b""))
    count = dice.choice([own, own, dice.randrange(own + 1), own + 1]) if call.procedure == nfs.WRITE else None
    at = dice.randrange(len(run.eras[era].places) + 1)
    run.eras[era].places.insert(at, PlanPlace(number, True, count))
    if run.eras[era].cut is not None and at < run.eras[era].cut and dice.chance(0.8):
        run.eras[era].cut += 1
    return True


def leave_taken_out(dice, run):
    eras = [era for era in run.eras if any(place.is_taken for place in era.places)]
    if not eras:
        return False
    era = dice.choice(eras)
    at = dice.choice([at for at, place in enumerate(era.places) if place.is_taken])
    del era.places[at]
    if era.cut and at < era.cut:
        era.cut -= 1
    return True


def place_unjudged(dice, run):
    """A place for a call that has none: it was never answered, or isn't judged."""
    free = unplaced(run, lambda call, reply: True)
    if not free:
        return False
    number, era, _ = dice.choice(free)
    run.eras[era].places.insert(dice.randrange(len(run.eras[era].places) + 1), PlanPlace(number, dice.chance(0.4)))
    return True


def shift_cut(dice, run):
    eras = [era for era in run.eras if era.cut is not None]
    if not eras:
        return False
    era = dice.choice(eras)
    era.cut = dice.choice([max(0, era.cut - 1), max(0, era.cut - 1), era.cut + 1, era.cut + 1, 0, len(era.places), len(era.places) + 1, 2**64 - 1])
    return True


def join_eras(dice, run):
    if len(run.eras) < 2:
        return False
    at = dice.randrange(len(run.eras) - 1)
    behind = run.eras.pop(at + 1)
    run.eras[at].places += behind.places
    run.eras[at].cut = behind.cut
    return True


def split_era(dice, run):
    era = dice.choice(run.eras)
    at = dice.randrange(len(era.places) + 1)
    behind = PlanEra(era.places[at:], era.cut)
    del era.places[at:]
    era.cut = dice.choice([at, max(0, at - 1)])
    run.eras.insert(run.eras.index(era) + 1, behind)
    return True


def put_bind(run: Run, handle: bytes, number: int) -> None:
    run.binds = sorted([(one, named) for one, named in run.binds if one != handle] + [(handle, number)])


def change_bind(dice, run):
    if not run.binds:
        return False
    handle, number = dice.choice(run.binds)
    others = [named for _, named in run.binds] + [max(0, number - 1), number + 1, 0, 2**64 - 1]
    put_bind(run, handle, dice.choice(others))
    return True


def mistake_numbers(dice, run):
    """Where objects stood at first: handles of what calls made are bound to the calls' numbers, or those of starting objects to the next ones."""
    first = run.first
    if not first or not run.binds:
        return False
    kind, some = dice.randrange(3), dice.choice(run.binds)[0]
    for at, (handle, number) in enumerate(run.binds):
        if kind == 0 and number > first:
            run.binds[at] = handle, number - first
        elif (kind == 1 and 0 < number <= first) or (kind == 2 and handle == some):
            run.binds[at] = handle, number + dice.choice([1, -1, first])
    return True


def drop_bind(dice, run):
    if run.binds:
        del run.binds[dice.randrange(len(run.binds))]
        return True
    return False


def add_bind(dice, run):
    """One more handle: of the root, of an object that has another one, one that only a call used."""
    used = [handle for call in run.calls() if call.arguments for field, handle in call.arguments.items() if field in ("dir", "object", "to_dir")]
    handles = [draws.fresh_handle(dice, {handle for handle, _ in run.binds}), *([run.root] if run.root else []), *(handle for handle in used if handle)]
    put_bind(run, dice.choice(handles), dice.choice([0, 1, 2, 3, run.first, run.first + 1, *(number for _, number in run.binds)]))
    return True


def disorder_binds(dice, run):
    if not run.binds:
        return False
    kind = dice.randrange(3)
    at = dice.randrange(len(run.binds))
    if kind == 0:
        run.binds.insert(at, run.binds[at])
    elif kind == 1:
        run.binds.insert(at, (b"", 1))
    else:
        dice.shuffle(run.binds)
    return True


CHANGES = {
    swap_neighbours: 5, swap_two: 3, move_in_era: 3, shuffle_some: 3, move_over_era: 3, drop_place: 2, double_place: 1, exchange_taken: 2, change_count: 2,
    change_number: 2, take_unanswered: 5, leave_taken_out: 2, place_unjudged: 1, shift_cut: 7, join_eras: 1, split_era: 1, change_bind: 3, drop_bind: 2, add_bind: 2,
    disorder_binds: 1, mistake_numbers: 4,
}
