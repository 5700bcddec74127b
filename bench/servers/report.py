"""What a run reached."""
from books.strict import carried
from books.tree import NAMED, NAMETOOLONG, TOOSMALL
from books.wire import (
    COMMIT, CREATE, JUDGED, LOOKUP, MKDIR, NAMES, READ, READDIR, READDIRPLUS, READLINK, REMOVE, RENAME, RMDIR, SETATTR,
    SYMLINK, WRITE,
)
from servers.messages import UNSERVED
from servers.run import Run

FAULTS = {
    "join": ("TooManyLanes",),
    "call": ("BadRecord", "Down", "EraOver", "LaneClosed"),
    "leave": ("EraOver", "LaneClosed"),
    "crash": ("Down", "DeviceFault"),
    "close": ("MissingPass", "Torn"),
}
KINDS = ("recorded", "no call", "a message too long", "another program", "another version", "a sealed call",
         "no procedure", "NULL", *(f"procedure {number}" for number in UNSERVED), "garbage", "another count", "too far")
OF_DATA = (READ, WRITE, COMMIT, SETATTR)
# The causes of which each is the first one of a failure of these procedures.
FIRST_CAUSES = {
    "a handle that isn't live": JUDGED,
    "no directory": (*NAMED, READDIR, READDIRPLUS),
    "no link": (READLINK,),
    "data of a directory": OF_DATA,
    "data of a link": OF_DATA,
    "an absent name": (LOOKUP, REMOVE, RMDIR, RENAME),
    "a present name": (CREATE, MKDIR, SYMLINK),
    "REMOVE of a directory": (REMOVE,),
    "RMDIR of no directory": (RMDIR,),
    "RMDIR of a filled directory": (RMDIR,),
    "RENAME of a directory onto none": (RENAME,),
    "RENAME of no directory onto one": (RENAME,),
    "RENAME onto a filled directory": (RENAME,),
    "RENAME below itself": (RENAME,),
    "an empty name or points": (CREATE, MKDIR, SYMLINK, RENAME),
}


def counted(pairs) -> str:
    return ", ".join(f"{name} {count}" for name, count in pairs)


def print_faults(run: Run) -> list[str]:
    missing = []
    for word, names in FAULTS.items():
        counts = [("ok", run.done[word])] + [(name, run.faults[word, name]) for name in names]
        print(f"{word}: {counted(counts)}")
        missing += [f"{word} {name}" for name, count in counts if not count]
    pairs = [(f"{word} {first} ahead of {other}", count)
             for (word, first, other), count in sorted(run.fault_pairs.items())]
    print(f"two at once: {counted(pairs)}")
    return missing


def print_replies(run: Run) -> list[str]:
    missing = []
    for procedure in JUDGED:
        counts = sorted((status, count) for (own, status), count in run.replies.items() if own == procedure)
        print(f"{NAMES[procedure]}: {counted(counts)}")
        missing += [] if run.replies[procedure, 0] else [f"{NAMES[procedure]} 0"]
    free = [(READDIR, TOOSMALL), (READDIRPLUS, TOOSMALL), (SYMLINK, NAMETOOLONG)]
    return missing + [f"{NAMES[own]} {status}" for own, status in free if not run.replies[own, status]]


def print_causes(run: Run) -> list[str]:
    missing = []
    for cause, procedures in FIRST_CAUSES.items():
        counts = [(NAMES[procedure], run.causes[procedure, cause]) for procedure in procedures]
        print(f"{cause}: {counted(counts)}")
        missing += [f"{cause} {name}" for name, count in counts if not count]
    pairs = {}
    for (_, first, other), count in sorted(run.pairs.items()):
        pairs[f"{first} ahead of {other}"] = pairs.get(f"{first} ahead of {other}", 0) + count
    print(f"two causes at once: {counted(pairs.items())}")
    return missing


def print_openings(run: Run) -> list[str]:
    counts = [(f"{how} {what}", run.openings[start, strict]) for start, how in ((False, "from nothing"), (True, "from a start"))
              for strict, what in ((False, "plain"), (True, "strict"))]
    print(f"servers: {counted(counts)}")
    return [f"servers {name}" for name, count in counts if not count]


def print_attributes(run: Run) -> list[str]:
    """In how many replies each of the optional attributes stood."""
    missing = []
    for procedure in JUDGED:
        for status, how in ((0, "success"), (1, "failure")):
            counts = [(name, run.attributes[procedure, status == 0, name]) for name in carried(procedure, status)]
            if counts:
                print(f"attributes of {NAMES[procedure]}, {how}: {counted(counts)}")
            missing += [f"{name} of {NAMES[procedure]}, {how}" for name, count in counts if not count]
    return missing


def print_report(run: Run) -> int:
    """Tells how often each answer was reached, and gives 1 where one never was."""
    print(f"{run.commands()} commands, {len(run.blocks)} servers, {run.eras} eras")
    missing = print_openings(run) + print_attributes(run) + print_faults(run) + print_replies(run) + print_causes(run)
    print(f"messages: {counted((kind, run.kinds[kind]) for kind in KINDS)}")
    missing += [kind for kind in KINDS if not run.kinds[kind]]
    if missing:
        print("never reached: " + ", ".join(missing))
    return 1 if missing else 0
