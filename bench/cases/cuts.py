"""Cuts and write verifiers of crashes (docs/PROFILE.md, the section on crashes)."""
from cases.calls import commit, create, create_guarded, make_directory, read, remove, rename, set_attributes, write
from cases.faults import answered, sent
from cases.history import CRASH_EVENT, certificate, history_file
from cases.sample import BINDS, ROOT, Crash, run
from cases.xdr import DATA_SYNC, FILE_SYNC, IO, STALE, UNSTABLE

# Two files `f` and `g` are made, and survive the first crash: the first era is calls 1 and 2.
F, G = 1, 2
FILES = [create(ROOT, "f").gives(F), create(ROOT, "g").gives(G), Crash(2)]


def add_all(cases):
    stable_places(cases)
    covered_bytes(cases)
    two_writes(cases)
    writes_behind(cases)
    verifiers(cases)
    changes(cases)
    lost_and_kept(cases)


def overlapping(cases, case, answer, order, cut, commit_shows=7, later_shows=8):
    """In the second era a REMOVE, a WRITE of verifier 7 and a COMMIT overlap, calls 3, 4 and 5; in the third `f` is written once more."""
    second = [remove(ROOT, "g").gives(), write(F, 0, b"abc", UNSTABLE).gives(verifier=7), commit(F).gives(commit_shows)]
    third = write(F, 0, b"abc", FILE_SYNC).gives(verifier=later_shows)
    events = [sent(1, 1, FILES[0]), answered(1, 1, FILES[0]), sent(1, 2, FILES[1]), answered(1, 2, FILES[1]), CRASH_EVENT]
    events += [sent(n, n, call) for n, call in enumerate(second, 3)] + [answered(n, n, call) for n, call in enumerate(second, 3)]
    events += [CRASH_EVENT, sent(6, 6, third), answered(6, 6, third)]
    lines = ["place 1", "place 2", "cut 2", *("place %d" % n for n in order), "cut %d" % cut, "place 6"]
    cases.judge(case, answer, history_file(events), certificate(lines, BINDS))


REMOVE, WRITE, COMMIT = 3, 4, 5


def stable_places(cases):
    overlapping(cases, "a-commit-behind-its-write-may-be-lost", "yes", [REMOVE, WRITE, COMMIT], 2)
    overlapping(cases, "a-committed-write-survives", "no: ShortCut 2 2", [REMOVE, WRITE, COMMIT], 1)
    overlapping(cases, "a-write-behind-the-commit-may-be-lost", "yes", [REMOVE, COMMIT, WRITE], 1)
    overlapping(cases, "a-remove-survives", "no: ShortCut 2 1", [REMOVE, COMMIT, WRITE], 0)
    overlapping(cases, "the-last-stable-place-is-named", "no: ShortCut 2 3", [WRITE, COMMIT, REMOVE], 1)
    run(cases, "a-write-without-a-commit-may-be-lost", "yes", *FILES, write(F, 0, b"abc", UNSTABLE).gives(), Crash(0))


def needs(cases, case, needed, *calls):
    """So many places of the second era have to survive: with them the history is accepted, and with one fewer it isn't."""
    run(cases, case, "yes", *FILES, *calls, Crash(needed))
    if needed > 0:
        run(cases, case + "-and-no-fewer", "no: ShortCut 2 %d" % needed, *FILES, *calls, Crash(needed - 1))


def covered_bytes(cases):
    """Behind two stable places an UNSTABLE WRITE, and a COMMIT of some bytes: the WRITE is stable where they share one."""

    def covers(case, written, committed, needed):
        offset, told = written
        calls = [remove(ROOT, "g").gives(), write(F, 0, b"ab", FILE_SYNC).gives(), write(F, offset, b"abcde", UNSTABLE).gives(told)]
        needs(cases, "a-commit-" + case, needed, *calls, commit(F, *committed).gives())

    last = 2**64 - 1
    covers("of-the-last-byte", (0, 3), (2, 1), 3)
    covers("of-the-byte-behind", (0, 3), (3, 1), 2)
    covers("of-all-behind", (0, 5), (5, 0), 2)
    covers("of-all-from-the-last-byte", (0, 5), (4, 0), 3)
    covers("of-a-write-of-no-bytes", (0, 0), (0, 0), 2)
    covers("of-the-bytes-ahead", (5, 2), (0, 5), 2)
    covers("of-the-bytes-ahead-and-the-first", (5, 2), (0, 6), 3)
    covers("of-the-last-byte-of-a-far-write", (65_534, 2), (65_535, 9), 3)
    covers("of-all-behind-a-far-write", (65_534, 2), (65_536, 0), 2)
    covers("of-the-last-offset", (0, 5), (last, 1), 2)
    covers("of-all-from-the-last-offset", (0, 5), (last, 0), 2)
    covers("of-the-longest-range", (5, 2), (0, 2**32 - 1), 3)
    calls = [set_attributes(G).gives(), write(F, 0, b"ab", FILE_SYNC).gives(), write(F, 0, b"abcde", UNSTABLE).gives(), commit(G).gives()]
    needs(cases, "a-commit-of-another-file", 2, *calls)


def two_writes(cases):
    """UNSTABLE WRITEs of bytes 0 to 4 and 3 to 9, and a COMMIT."""
    for case, committed, needed in (
        ("of-a-byte-of-both", (4, 1), 2),
        ("of-the-last-byte-of-the-second", (9, 1), 2),
        ("of-the-first-byte-of-the-first", (0, 1), 1),
        ("of-a-byte-of-the-first-alone", (2, 1), 1),
        ("of-two-bytes-to-the-second", (2, 2), 2),
        ("of-all-behind-both", (10, 0), 0),
        ("of-all", (0, 0), 2),
    ):
        writes = [write(F, 0, b"abcde", UNSTABLE).gives(), write(F, 3, b"fghijkl", UNSTABLE).gives()]
        needs(cases, "behind-two-writes-a-commit-" + case, needed, *writes, commit(F, *committed).gives())


def writes_behind(cases):
    three = [write(F, 0, b"abc", UNSTABLE).gives(), commit(F).gives(), write(F, 0, b"abc", UNSTABLE).gives()]
    needs(cases, "a-commit-reaches-no-write-behind-it", 1, *three)
    needs(cases, "a-write-that-is-synchronized-is-stable", 4, *three, write(F, 9, b"a", DATA_SYNC).gives())
    needs(cases, "a-commit-that-failed-makes-nothing-stable", 0, write(F, 0, b"abc", UNSTABLE).gives(), commit(F).fails(IO))
    needs(cases, "a-write-that-is-answered-as-synchronized-is-stable", 1, write(F, 0, b"abc", UNSTABLE).gives(at=DATA_SYNC))
    needs(cases, "a-synchronized-write-of-no-bytes-is-stable", 1, write(F, 0, b"abc", FILE_SYNC).gives(0))


def verifiers(cases):
    order = [REMOVE, COMMIT, WRITE]
    overlapping(cases, "a-lost-write-and-another-verifier", "yes", order, 2, 7, 8)
    overlapping(cases, "a-kept-write-and-the-same-verifier", "yes", order, 3, 7, 7)
    overlapping(cases, "a-lost-write-and-the-same-verifier", "no: Verifier 2", order, 2, 7, 7)
    overlapping(cases, "a-commit-of-another-verifier", "no: Verifier 2", order, 3, 9, 8)
    overlapping(cases, "a-commit-of-the-next-verifier", "no: Verifier 2", order, 3, 8, 8)


def changes(cases):
    """A change of the tree that was answered is stable, also one that changed nothing."""
    needs(cases, "a-file-that-is-made-survives", 1, create_guarded(ROOT, "x").gives())
    needs(cases, "a-directory-that-is-made-survives", 1, make_directory(ROOT, "x").gives())
    needs(cases, "attributes-that-are-set-survive", 1, set_attributes(F).gives())
    needs(cases, "a-rename-onto-itself-survives", 1, rename(ROOT, "f", ROOT, "f").gives())
    needs(cases, "a-call-that-is-taken-may-be-lost", 0, make_directory(ROOT, "x").taken())
    needs(cases, "a-read-may-be-lost", 0, read(F).gives(b"", True))


def lost_and_kept(cases):
    """What a crash lost isn't read behind it, and what it kept is."""
    steps = [*FILES, write(F, 0, b"abc", UNSTABLE).gives(verifier=7)]
    run(cases, "what-was-lost-is-gone", "yes", *steps, Crash(0), read(F).gives(b"", True))
    run(cases, "what-was-lost-is-not-read", "no: Illegal 4", *steps, Crash(0), read(F).gives(b"abc", True))
    run(cases, "what-was-kept-is-read", "yes", *steps, Crash(1), read(F).gives(b"abc", True))
    run(cases, "what-was-kept-is-not-gone", "no: Illegal 4", *steps, Crash(1), read(F).gives(b"", True))
    renamed = [*FILES[:2], rename(ROOT, "f", ROOT, "g").taken(), Crash(2)]
    run(cases, "a-rename-that-was-lost-is-taken-back", "yes", *renamed, read(G).gives(b"", True), rename(ROOT, "g", ROOT, "h").gives())
    run(cases, "the-handle-of-a-file-that-was-lost-is-stale", "yes", create(ROOT, "f").taken(), Crash(0), read(1).fails(STALE))
