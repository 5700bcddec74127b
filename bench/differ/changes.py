"""Cases: a run with its certificate, most of them with one or two changes, as the bytes of both files."""
import copy

from . import byte_changes, call_changes, event_changes, plan_changes, reply_changes, start_changes
from .draws import Dice
from .runs import Run
from .server import make_run
from .spelling import spell_certificate, spell_history
from .verdicts import judge

TRIES = 20

# Of some variants of a case the one is taken whose answer is wanted most. Those that most changes lead to are wanted least.
WANTED = {"Verifier": 9, "ShortCut": 8, "Outside TooFar": 7, "Outside CountDiffers": 7, "TooLarge": 7, "XidInUse": 7, "Illegal": 6, "yes": 5, "Early": 4,
          "Missing": 3}
AIMED = {"Verifier": 3, "ShortCut": 2, "yes": 1}
VARIANTS = [1, 2, 3, 4]
GRAMMAR_CHANGES = {**call_changes.GRAMMAR_CHANGES, **reply_changes.GRAMMAR_CHANGES}


def change_run(dice: Dice, run: Run) -> None:
    """One change of the run, of a kind that it has something for."""
    for _ in range(TRIES):
        if dice.chance(0.15) and aim_cut(dice, run):
            return
        part = dice.weighted({plan_changes: 35, reply_changes: 30, call_changes: 20, event_changes: 15})
        one = dice.weighted(part.CHANGES)
        if event_changes.change(dice, run, one) if part is event_changes else one(dice, run):
            return


def aim_cut(dice: Dice, run: Run) -> bool:
    """The cut for which the answer is wanted most: one that comes too early, and nothing behind it shows that."""
    eras = [era for era in run.eras if era.cut is not None and era.places]
    if not eras:
        return False
    era = dice.choice(eras)
    cuts = dice.sample(range(len(era.places) + 1), min(6, len(era.places) + 1))

    def worth(cut: int) -> int:
        era.cut = cut
        return AIMED.get(judge(*spell(dice, run)).name, 0)

    era.cut = max(cuts, key=worth)
    return True


def spell(dice: Dice, run: Run):
    pad = dice.randbytes if dice.chance(0.1) else bytes
    return spell_history(run, pad), spell_certificate(run)


def variant(dice: Dice, run: Run, changes: int):
    """The two files of a run with some changes."""
    run = copy.deepcopy(run)
    for _ in range(changes):
        change_run(dice, run)
    return spell(dice, run)


def spoiled(dice: Dice, run: Run, changes: int):
    """The two files of a run whose last change is of the grammar: of a message, of starting objects, or of bytes of a file."""
    for _ in range(changes - 1):
        change_run(dice, run)
    if run.start is not None and dice.chance(0.4):
        return start_changes.spoil(dice, run)
    if dice.chance(0.5):
        return byte_changes.change_files(dice, *spell(dice, run))
    for _ in range(TRIES):
        if dice.weighted(GRAMMAR_CHANGES)(dice, run):
            break
    return spell(dice, run)


def make_case(seed: str, wishes=()):
    """The two files of a case, of a run with these wishes."""
    dice = Dice(seed)
    run, changes = make_run(dice, wishes), dice.weighted({0: 45, 1: 37, 2: 18})
    if changes == 0:
        return spell(dice, run)
    if dice.chance(0.25):
        return spoiled(dice, run, changes)
    variants = [variant(dice, run, changes) for _ in range(dice.choice(VARIANTS))]
    return max(variants, key=lambda files: WANTED.get(judge(*files).name, 0))
