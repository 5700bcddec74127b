"""What a run reached."""
from books.odd import BAD
from books.run import Run
from books.wrong import ALL_KINDS

REFUSALS = {
    "begin": ("Down", "EraOver", "LaneClosed", "BadRecord", "XidInUse"),
    "place": ("Down", "EraOver", "LaneClosed", "OutOfTurn", "NotLegal", "DeviceFault"),
    "flush": ("Down", "DeviceFault"),
    "answer": ("Down", "EraOver", "LaneClosed", "OutOfTurn", "NotDurable"),
    "close_lane": ("EraOver", "LaneClosed"),
    "crash": ("Down", "KeepTooSmall", "KeepTooLarge", "DeviceFault"),
}


def print_report(run: Run) -> int:
    """Tells how often each refusal was reached, and gives 1 where one never was."""
    missing = []
    print(f"{len(run.given)} commands, {run.eras} eras")
    counts = [(f"{how} {what}", run.openings[start, strict]) for start, how in ((False, "from nothing"), (True, "from a start"))
              for strict, what in ((False, "plain"), (True, "strict"))]
    print("books: " + ", ".join(f"{name} {count}" for name, count in counts))
    missing += [f"books {name}" for name, count in counts if not count]
    for word, names in REFUSALS.items():
        counts = [("ok", run.done[word])] + [(name, run.refused[word, name]) for name in names]
        print(f"{word}: " + ", ".join(f"{name} {count}" for name, count in counts))
        missing += [f"{word} {name}" for name, count in counts if not count]
    for word in REFUSALS:
        pairs = [f"{first} ahead of {other} {run.pairs[key]}" for key in sorted(run.pairs)
                 for own, first, other in [key] if own == word]
        if pairs:
            print(f"{word}, two at once: " + ", ".join(pairs))
    placed = sorted(key for key in run.done if isinstance(key, tuple))
    print("placed: " + ", ".join(f"{name} {how} {run.done[name, how]}" for name, how in placed))
    print("not legal: " + ", ".join(f"{kind} {run.wrong[kind]}" for kind in ALL_KINDS))
    missing += [kind for kind in ALL_KINDS if not run.wrong[kind]]
    print("bad records: " + ", ".join(f"{kind} {run.bad[kind]}" for kind in BAD))
    missing += [kind for kind in BAD if not run.bad[kind]]
    if missing:
        print("never reached: " + ", ".join(missing))
    return 1 if missing else 0
