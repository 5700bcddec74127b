"""Histories of version 2 whose server held something before the first event (docs/FORMATS.md): faults of what they begin with, and what stands at
first."""
import functools

from cases.calls import (create, create_exclusive, create_guarded, get_attributes, list_names, look_up, make_directory, make_link, read, read_link, remove,
                         remove_directory, rename, set_attributes, write)
from cases.history import (CRASH_EVENT, PLAIN, STRICT, call_event, certificate, history_file, start_directory, start_file, start_link, start_object,
                           started_file)
from cases.sample import D, E, F, G, L, ROOT, SAMPLE, TREE, Crash, Directory, File, Link, laid_in_order, run, shown, without
from cases.xdr import DIR, EXIST, LNK, NOENT, REG, STALE, UNSTABLE, double, name, word

NO_PLACES = certificate([])

# The limits of a name or a link's text, of a file's bytes, and of how many objects there are.
TEXT_LIMIT, FILE_LIMIT, START_LIMIT = 1_048_576, 16_777_216, 1_000_000

BAD_PROFILE, TOO_LARGE, TRUNCATED, TRAILING = "refused: BadProfile", "refused: TooLarge", "refused: Truncated", "refused: Trailing"

# The sample's objects but `v`, in the order of their numbers: what the next call makes is object 6.
SAMPLE_START = [start_file(ROOT, "f", b"abc"), start_directory(ROOT, "d"), start_file(D, "g"), start_link(ROOT, "l", b"x/y"), start_directory(ROOT, "e")]
START_TREE, MADE = without("v"), 6


def add_all(cases):
    parents(cases)
    names(cases)
    kinds(cases)
    lengths(cases)
    counts(cases)
    heads(cases)
    first_items(cases)
    magics(cases)
    cut_files(cases)
    numbers(cases)
    handles(cases)
    opening_trees(cases)
    made_of_the_start(cases)
    crashes(cases)
    searches(cases)


def bad(number):
    return "refused: BadStart %d" % number


def begun(cases, case, answer, *objects, **more):
    """A history without events that begins with these objects."""
    cases.judge(case, answer, started_file([], objects, **more), NO_PLACES)


def parents(cases):
    directory, inner, file, link = start_directory(0, "d"), start_directory(1, "i"), start_file(0, "f"), start_link(0, "l", b"t")
    begun(cases, "a-start-of-nothing", "yes")
    begun(cases, "a-starting-file-in-the-root", "yes", file)
    begun(cases, "a-starting-file-in-itself", bad(1), start_file(1, "f"))
    begun(cases, "a-starting-directory-in-itself", bad(1), start_directory(1, "d"))
    begun(cases, "a-starting-file-in-a-later-directory", bad(1), start_file(2, "f"), directory)
    begun(cases, "a-starting-file-in-what-is-not-there", bad(2), directory, start_file(9, "f"))
    begun(cases, "a-starting-file-in-a-starting-directory", "yes", directory, start_file(1, "f"))
    begun(cases, "a-starting-file-in-a-starting-file", bad(2), file, start_file(1, "g"))
    begun(cases, "a-starting-file-in-a-starting-link", bad(2), link, start_file(1, "g"))
    begun(cases, "starting-directories-in-one-another", "yes", directory, inner, start_directory(2, "j"), start_file(3, "f"), start_file(1, "f"))
    begun(cases, "a-starting-file-in-the-second-of-two-which-is-a-file", bad(3), directory, file, start_file(2, "g"))
    begun(cases, "a-starting-file-in-the-second-of-two-which-is-a-directory", "yes", file, start_directory(0, "d"), start_file(2, "g"))
    for parent in (2**32, 2**32 + 1, 2**64 - 1):
        begun(cases, "a-starting-file-in-object-%d" % parent, bad(2), directory, start_file(parent, "f"))


def names(cases):
    for case, entry in (("no-name", ""), ("the-name-of-a-dot", "."), ("the-name-of-two-dots", "..")):
        begun(cases, "a-starting-object-of-" + case, bad(1), start_file(0, entry))
        begun(cases, "a-second-starting-object-of-" + case, bad(2), start_directory(0, "d"), start_link(1, entry, b"t"))
    for case, entry in (("three-dots", "..."), ("a-slash", "a/b"), ("a-zero", b"\0"), ("a-high-byte", b"\xff"), ("a-dot-and-a-letter", ".a")):
        begun(cases, "a-starting-object-named-by-" + case, "yes", start_file(0, entry))
    one, directory = start_file(0, "a"), start_directory(0, "a")
    begun(cases, "a-starting-name-that-is-taken", bad(2), one, start_file(0, "a", b"x"))
    begun(cases, "a-starting-name-that-a-directory-has", bad(2), directory, start_link(0, "a", b"t"))
    begun(cases, "a-starting-name-of-another-directory", "yes", directory, start_file(1, "a"))
    begun(cases, "a-starting-name-that-is-taken-below", bad(3), directory, start_file(1, "a"), start_directory(1, "a"))
    begun(cases, "a-starting-name-in-two-directories", "yes", start_directory(0, "d"), start_directory(0, "e"), start_file(1, "a"), start_file(2, "a"))
    begun(cases, "a-starting-name-that-is-taken-behind-others", bad(4), one, start_file(0, "b"), start_file(0, "c"), start_file(0, "a"))
    begun(cases, "a-starting-name-that-begins-another", "yes", one, start_file(0, "aa"), start_file(0, b"a\0"))
    long = "n" * 255
    begun(cases, "starting-names-that-differ-in-the-last-byte", "yes", start_file(0, long), start_file(0, long[:-1] + "m"))
    begun(cases, "a-long-starting-name-that-is-taken", bad(2), start_file(0, long), start_file(0, long))


def kinds(cases):
    for kind in (0, 3, 4, 6, 2**24 + 1, 2**32 - 1):
        begun(cases, "a-starting-object-of-kind-%d" % kind, bad(1), start_object(0, "a", kind))
    begun(cases, "a-second-starting-object-of-no-kind", bad(2), start_file(0, "a"), start_object(0, "b", 3))


def lengths(cases):
    """Of lengths at their limits and over them. No bytes are there."""
    for case, limit, front in (("name", TEXT_LIMIT, double(0)), ("file", FILE_LIMIT, start_object(0, "a", REG)),
                               ("link", TEXT_LIMIT, start_object(0, "a", LNK))):
        begun(cases, "a-starting-%s-of-the-longest-length-of-which-nothing-is-there" % case, TRUNCATED, front + word(limit))
        begun(cases, "a-starting-%s-that-is-too-long" % case, TOO_LARGE, front + word(limit + 1))
        begun(cases, "a-starting-%s-of-the-longest-word" % case, TOO_LARGE, front + word(2**32 - 1))


def counts(cases):
    file = start_file(0, "a", b"abc")
    begun(cases, "a-million-starting-objects-of-which-none-is-there", TRUNCATED, count=START_LIMIT)
    begun(cases, "a-million-starting-objects-and-one", TOO_LARGE, count=START_LIMIT + 1)
    begun(cases, "the-most-starting-objects-that-a-word-tells", TOO_LARGE, count=2**32 - 1)
    begun(cases, "one-starting-object-too-few", TRUNCATED, file, count=2)
    begun(cases, "one-starting-object-behind-their-number", TRAILING, file, count=0)
    cases.judge("one-starting-object-too-few-ahead-of-events", bad(2), started_file([CRASH_EVENT, CRASH_EVENT], [file], count=2), NO_PLACES)
    cases.judge("a-byte-behind-a-start", TRAILING, started_file([], [file]) + b"\0", NO_PLACES)


def heads(cases):
    file = start_file(0, "a")
    for profile, answer in ((PLAIN, "yes"), (STRICT, "yes"), (2, BAD_PROFILE), (2**24, BAD_PROFILE), (2**32 - 1, BAD_PROFILE)):
        begun(cases, "a-profile-of-%d" % profile, answer, file, profile=profile)
    begun(cases, "a-root-handle-of-64-bytes-ahead-of-a-start", "yes", file, root=bytes(64))
    begun(cases, "a-root-handle-of-no-bytes-ahead-of-a-start", "yes", file, root=b"")
    begun(cases, "a-root-handle-of-65-bytes-ahead-of-a-start", TOO_LARGE, file, root=bytes(65))


def first_items(cases):
    """Of two faults the first item's is told; of one item, that it is too long."""
    file, front = start_file(0, "a"), double(0) + name("b")
    begun(cases, "a-bad-parent-ahead-of-a-bad-name", bad(1), start_file(1, ""))
    begun(cases, "a-bad-parent-ahead-of-a-long-name", bad(1), double(1) + word(TEXT_LIMIT + 1))
    begun(cases, "a-bad-parent-ahead-of-an-end", bad(1), double(1))
    begun(cases, "a-long-name-ahead-of-a-bad-kind", TOO_LARGE, double(0) + word(TEXT_LIMIT + 1) + word(3))
    begun(cases, "a-taken-name-ahead-of-a-bad-kind", bad(2), file, start_object(0, "a", 3))
    begun(cases, "a-taken-name-ahead-of-a-long-file", bad(2), file, start_object(0, "a", REG, word(FILE_LIMIT + 1)))
    begun(cases, "a-taken-name-ahead-of-an-end", bad(2), file, double(0) + name("a"))
    begun(cases, "a-bad-kind-ahead-of-what-is-long-behind-it", bad(1), start_object(0, "a", 3, word(2**32 - 1)))
    begun(cases, "a-name-of-which-bytes-are-missing-is-not-looked-at", TRUNCATED, double(0) + word(9) + b".")
    begun(cases, "a-bad-object-ahead-of-a-long-one", bad(1), start_file(0, "."), front + word(REG) + word(FILE_LIMIT + 1))
    begun(cases, "a-long-object-ahead-of-a-bad-one", TOO_LARGE, front + word(LNK) + word(TEXT_LIMIT + 1), start_file(0, "."))
    begun(cases, "a-bad-profile-ahead-of-too-many-objects", BAD_PROFILE, profile=2, count=START_LIMIT + 1)
    begun(cases, "a-bad-profile-ahead-of-a-bad-object", BAD_PROFILE, start_file(1, "a"), profile=2)
    begun(cases, "a-long-root-handle-ahead-of-a-bad-profile", TOO_LARGE, profile=2, root=bytes(65))
    begun(cases, "too-many-objects-ahead-of-a-bad-one", TOO_LARGE, start_file(1, "a"), count=START_LIMIT + 1)
    begun(cases, "a-bad-object-ahead-of-bytes-behind-the-file", bad(1), start_file(1, "a") + b"\0")
    cases.judge("a-bad-object-ahead-of-a-bad-event", bad(1), started_file([word(9)], [start_file(1, "a")]), NO_PLACES)
    cases.judge("a-bad-event-behind-a-start", "refused: BadEvent 1", started_file([word(9)], [file]), NO_PLACES)
    cases.judge("a-bad-call-behind-a-start", "refused: BadRpc 1", started_file([call_event(1, b"")], [file]), NO_PLACES)
    cases.judge("a-start-ahead-of-a-bad-text", "refused: BadLine 2", started_file([], [file]), "witness 1\nplace 01\nend\n")
    cases.judge("a-bad-start-and-a-bad-text", bad(1), started_file([], [start_file(1, "a")]), "witness 2\n")


def magics(cases):
    body = started_file([], [start_file(0, "a")])[8:]
    cases.judge("a-third-version", "refused: BadMagic", b"NFSHIST3" + body, NO_PLACES)
    cases.judge("a-start-in-the-first-version", TRAILING, b"NFSHIST1" + body, NO_PLACES)
    cases.judge("no-start-in-the-second-version", TRUNCATED, b"NFSHIST2" + history_file([])[8:], NO_PLACES)


def cut_files(cases):
    """A file of version 2 that ends early, at each of its bytes."""
    whole = started_file([], [start_file(0, "f", b"abc")])
    for length in range(len(whole)):
        cases.judge("a-start-cut-to-%d-bytes" % length, "refused: BadMagic" if length < 8 else TRUNCATED, whole[:length], NO_PLACES)


def started(objects, profile=PLAIN):
    """Lays out the events of a history that begins with these objects."""
    return functools.partial(started_file, objects=objects, profile=profile)


def numbers(cases):
    """Behind one starting object call n makes object n + 1, and is called n everywhere else."""
    one, file, made = [start_file(0, "a", b"abc")], b"\xaa", b"\xbb"
    calls = [look_up(0, "a").gives(file), create(0, "b").gives(made)]

    def bound(case, answer, *binds, steps=calls):
        run(cases, case, answer, *steps, binds=binds, laid_out=started(one))

    bound("what-a-call-makes-is-numbered-behind-the-start", "yes", (file, 1), (made, 3))
    bound("what-a-call-makes-has-not-the-number-of-the-call", "no: Illegal 2", (file, 1), (made, 2))
    bound("what-a-call-makes-has-not-the-number-behind", "no: Illegal 2", (file, 1), (made, 4))
    bound("a-starting-object-has-not-the-number-of-the-first-call", "no: Illegal 1", (file, 2), (made, 3))
    bound("a-starting-object-is-not-the-root", "no: Illegal 1", (file, 0), (made, 3))
    bound("what-a-call-makes-is-no-starting-object", "no: Illegal 2", (file, 1), (made, 1))
    bound("the-first-call-makes-the-object-behind-the-start", "yes", (made, 2), steps=[calls[1]])
    bound("the-first-call-makes-no-starting-object", "no: Illegal 1", (made, 1), steps=[calls[1]])
    exchange = functools.partial(run, laid_out=started(SAMPLE_START))
    exchange(cases, "behind-five-starting-objects-the-second-call-makes-the-seventh", "yes", make_directory(0, "x").gives(6), create(6, "y").gives(7),
             get_attributes(7).gives(REG, 0))
    exchange(cases, "behind-five-starting-objects-the-second-call-makes-no-second-one", "no: Illegal 2", make_directory(0, "x").gives(6),
             create(6, "y").gives(2))

    def placed(case, answer, *lines):
        cases.judge(case, answer, started_file(laid_in_order(calls)[0], one), certificate(lines, [(file, 1), (made, 3)]))

    placed("places-name-calls-not-objects", "no: Unknown 3", "place 1", "place 3")
    placed("a-call-is-missing-by-its-own-number", "no: Missing 2", "place 1")
    placed("calls-are-early-by-their-own-numbers", "no: Early 2 1", "place 2", "place 1")


def handles(cases):
    """A handle of a starting object may be known before any reply gives it."""
    given = functools.partial(run, laid_out=started(SAMPLE_START))
    given(cases, "a-starting-object-is-known-by-a-bind", "yes", get_attributes(F).gives(REG, 3), read(F, 0, 9).gives(b"abc", True),
          read_link(L).gives(b"x/y"))
    given(cases, "a-starting-object-without-a-bind-is-not-known", "no: Illegal 1", get_attributes(F).gives(REG, 3), binds=[])
    given(cases, "a-starting-object-without-a-bind-is-stale", "yes", get_attributes(F).fails(STALE), binds=[])
    given(cases, "a-starting-object-that-is-bound-is-not-stale", "no: Illegal 1", get_attributes(F).fails(STALE))
    given(cases, "a-starting-object-that-is-removed-is-stale", "yes", remove(ROOT, "f").gives(), read(F).fails(STALE), look_up(ROOT, "f").fails(NOENT))
    given(cases, "a-starting-object-has-no-other-bytes", "no: Illegal 1", read(F, 0, 9).gives(b"abd", True))
    given(cases, "a-starting-object-is-not-another-one", "no: Illegal 1", look_up(ROOT, "f").gives(D))
    given(cases, "a-starting-object-may-have-two-handles", "yes", look_up(ROOT, "f").gives(F), look_up(ROOT, "f").gives(0xBB),
          binds=[(bytes([F]), F), (b"\xbb", F)])


def opening_trees(cases):
    """The tree is that of the starting objects, and of no others."""
    run(cases, "the-sample-as-a-start", "yes", *shown(START_TREE), laid_out=started(SAMPLE_START))
    run(cases, "the-sample-as-a-strict-start", "yes", *shown(START_TREE), laid_out=started(SAMPLE_START, STRICT))
    run(cases, "the-sample-behind-a-start-of-nothing", "yes", *SAMPLE, *shown(TREE), laid_out=started([]))
    run(cases, "a-start-that-leaves-an-object-out", "no: Illegal 1", list_names(ROOT).gives(["d", "e", "f", "l"], True),
        laid_out=started(SAMPLE_START[:-1]))
    run(cases, "a-start-with-one-object-more", "no: Illegal 1", list_names(ROOT).gives(["d", "e", "f", "l"], True),
        laid_out=started([*SAMPLE_START, start_file(ROOT, "x")]))
    run(cases, "a-start-with-a-name-of-a-slash", "yes", look_up(ROOT, "a/b").gives(1), list_names(ROOT).gives(["a/b"], True),
        laid_out=started([start_file(ROOT, "a/b")]))


def made_of_the_start(cases):
    """Calls change what stood at first as what calls made."""

    def becomes(case, tree, *calls):
        run(cases, case, "yes", *calls, *shown(tree), laid_out=started(SAMPLE_START))

    def illegal(case, call):
        run(cases, case, "no: Illegal 1", call, laid_out=started(SAMPLE_START))

    becomes("a-starting-file-is-written", START_TREE | {"f": File(F, b"abXYZ")}, write(F, 2, b"XYZ").gives())
    becomes("a-starting-file-is-cut", START_TREE | {"f": File(F, b"a")}, set_attributes(F, 1).gives())
    becomes("a-starting-file-is-found-by-a-create", START_TREE, create(ROOT, "f").gives(F))
    becomes("a-starting-file-is-emptied-by-a-create", START_TREE | {"f": File(F, b"")}, create(ROOT, "f", 0).gives(F))
    becomes("a-starting-file-is-there-for-a-create", START_TREE, create_guarded(ROOT, "f").fails(EXIST), create_exclusive(ROOT, "f", 0).fails(EXIST))
    illegal("a-starting-file-was-made-by-no-exclusive-create", create_exclusive(ROOT, "f", 0).gives(F))
    becomes("a-starting-directory-gets-an-entry", START_TREE | {"d/x": File(MADE)}, create(D, "x").gives(MADE))
    becomes("a-directory-is-made-beside-starting-objects", START_TREE | {"x": Directory(MADE)}, make_directory(ROOT, "x").gives(MADE))
    becomes("a-link-is-made-in-a-starting-directory", START_TREE | {"e/x": Link(MADE, b"t")}, make_link(E, "x", b"t").gives(MADE))
    becomes("a-starting-directory-is-removed", {path: node for path, node in START_TREE.items() if path != "e"}, remove_directory(ROOT, "e").gives())
    illegal("a-filled-starting-directory-is-not-removed", remove_directory(ROOT, "d").gives())
    moved = {path: node for path, node in START_TREE.items() if path not in ("d", "d/g", "e")}
    becomes("a-starting-directory-is-renamed-onto-another", moved | {"e": Directory(D), "e/g": File(G)}, rename(ROOT, "d", ROOT, "e").gives())
    illegal("a-starting-name-is-not-made-again", make_directory(ROOT, "e").gives(MADE))


def crashes(cases):
    """Behind a crash stands what the era kept, and first the starting objects."""
    lost = functools.partial(run, laid_out=started(SAMPLE_START))
    lost(cases, "a-lost-write-leaves-the-starting-bytes", "yes", write(F, 0, b"xyz", UNSTABLE).gives(), Crash(0), read(F).gives(b"abc", True))
    lost(cases, "a-write-without-a-reply-leaves-the-starting-bytes", "yes", write(F, 0, b"xyz", UNSTABLE), Crash(0), read(F).gives(b"abc", True))
    lost(cases, "a-kept-write-leaves-no-starting-bytes", "no: Illegal 2", write(F, 0, b"xyz", UNSTABLE).gives(), Crash(1), read(F).gives(b"abc", True))
    lost(cases, "a-starting-file-comes-back-where-its-remove-is-lost", "yes", remove(ROOT, "f").taken(), Crash(0), look_up(ROOT, "f").gives(F))
    lost(cases, "a-starting-file-stays-away-where-its-remove-is-kept", "yes", remove(ROOT, "f").taken(), Crash(1), look_up(ROOT, "f").fails(NOENT))
    lost(cases, "a-starting-file-that-was-removed-stays-away", "no: ShortCut 1 1", remove(ROOT, "f").gives(), Crash(0), look_up(ROOT, "f").gives(F))
    lost(cases, "behind-a-crash-the-numbers-of-objects-go-on", "yes", create(ROOT, "x").gives(6), Crash(1), create(ROOT, "y").gives(7),
         get_attributes(6).gives(REG, 0))
    lost(cases, "two-crashes-leave-the-starting-objects", "yes", Crash(0), Crash(0), *shown(START_TREE))


def searches(cases):
    """A search binds starting objects by the replies that give their handles."""
    file, made = b"\xaa", b"\xbb"
    found = [look_up(0, "a").gives(file), create(0, "b").gives(made), get_attributes(made).gives(REG, 0)]
    wrong = [look_up(0, "a").gives(file), get_attributes(file).gives(DIR, 3)]
    for case, calls, answer in (("a-start", found, "found"), ("a-start-that-no-order-explains", wrong, "not found")):
        history = started_file(laid_in_order(calls)[0], [start_file(0, "a", b"abc")])
        for workers in (1, 4):
            whole = "search-%s-%d" % (case, workers)
            cases.add(whole, "%s search %d 1000 %s\n" % (whole, workers, history.hex()), answer)
