"""Attributes in the replies of a strict history (docs/PROFILE.md): what a success or a failure carries agrees with the tree. Plain histories carry any.

Each history but a few begins with the sample's objects: the file `f` of 3 bytes, the directory `d` with the empty file `g`, the link `l`, the empty
directory `e`. What its call makes is object 6.
"""
import dataclasses

from cases.calls import (commit, create, create_exclusive, create_guarded, get_attributes, list_entries, list_names, look_up, make_directory, make_link,
                         of_object, other_procedure, read, read_link, remove, remove_directory, rename, set_attributes, write)
from cases.faults import answered, sent
from cases.history import PLAIN, STRICT, certificate, started_file
from cases.sample import D, E, F, G, L, NEVER_MADE, ROOT, SAMPLE, TREE, UNBOUND, Crash, run, shown
from cases.starts import MADE, SAMPLE_START, started
from cases.xdr import (ACCES, BAD_COOKIE, BADHANDLE, BLK, DIR, EXIST, FIFO, INVAL, IO, ISDIR, LNK, NOENT, NOT_SYNC, NOTDIR, NOTEMPTY, OK, REG,
                       SOCK, STALE, UNSTABLE, UNTOLD, attributes, double, flag, handle, name, opaque, optional, word)

# The optional attributes of an object, and what they are of a directory and of a link, whose sizes may be any.
DIRECTORY, LINK = optional(attributes(DIR, 77)), optional(attributes(LNK, 77))


def told(kind, size):
    return optional(attributes(kind, size))


def both(before=None, after=UNTOLD):
    """The size of before a call, if it is told, and the attributes of after it."""
    return optional(None if before is None else double(before) + bytes(16)) + after


# What a call answers, laid out with attributes.


def ends(call, status, *parts):
    return dataclasses.replace(call, result=word(status) + b"".join(parts))


def found(call, given, of_found=UNTOLD, of_directory=UNTOLD):
    return ends(call, OK, handle(given), of_found, of_directory)


def made(call, given, of_made=UNTOLD, of_directory=both()):
    return ends(call, OK, of_object(given), of_made, of_directory)


def were_read(call, data, eof, of_file):
    return ends(call, OK, of_file, word(len(data)), flag(eof), opaque(data))


def were_written(call, count, of_file):
    return ends(call, OK, of_file, word(count), word(UNSTABLE), double(1))


def listed(call, of_directory, *entries):
    """Entries are a name, attributes and the object whose handle is given, or None."""
    laid_out = [double(1) + name(entry) + double(1) + of_entry + of_object(given) for entry, of_entry, given in entries]
    return ends(call, OK, of_directory, double(0), *(flag(True) + one for one in laid_out), flag(False), flag(False))


OBJECTS = [(bytes([number]), number) for number in (F, D, G, L, E, MADE, NEVER_MADE)]


def judged(cases, case, answer, *calls, objects=SAMPLE_START, profile=STRICT):
    run(cases, case, answer, *calls, binds=OBJECTS, laid_out=started(objects, profile))


def right(cases, case, *calls):
    """In this order they may have come out so, in a strict history."""
    judged(cases, case, "yes", *calls)


def wrong(cases, case, *calls):
    """None of these can have come out so in a strict history. In a plain one each can; of the first that is asked."""
    for number, call in enumerate(calls, 1):
        judged(cases, case if number == 1 else "%s-%d" % (case, number), "no: Illegal 1", call)
    judged(cases, case + "-in-a-plain-history", "yes", calls[0], profile=PLAIN)


def add_all(cases):
    absent(cases)
    sizes_set(cases)
    lookups(cases)
    links_and_bytes(cases)
    writes(cases)
    creates(cases)
    other_makings(cases)
    removals(cases)
    renames(cases)
    lists(cases)
    lists_of_entries(cases)
    commits(cases)
    failed_looks(cases)
    failed_changes(cases)
    failed_renames(cases)
    free_attributes(cases)
    places(cases)


def absent(cases):
    run(cases, "a-strict-history-without-attributes", "yes", *SAMPLE, *shown(TREE), laid_out=started([], STRICT))
    judged(cases, "a-strict-reply-has-the-type-that-it-is-asked-for", "no: Illegal 1", get_attributes(F).gives(DIR, 3))
    judged(cases, "a-strict-reply-has-the-size-that-it-is-asked-for", "no: Illegal 1", get_attributes(F).gives(REG, 4))
    judged(cases, "a-plain-reply-has-the-size-that-it-is-asked-for", "no: Illegal 1", get_attributes(F).gives(REG, 4), profile=PLAIN)


def sizes_set(cases):
    cut, set_of = set_attributes(F, 1), set_attributes(D)
    right(cases, "a-file-that-is-cut-has-two-sizes", ends(cut, OK, both(3, told(REG, 1))), ends(cut, OK, both(1)), ends(cut, OK, both(None, told(REG, 1))))
    right(cases, "what-is-set-of-others-than-files-has-any-size", ends(set_of, OK, both(5, DIRECTORY)), ends(set_attributes(L), OK, both(5, LINK)))
    wrong(cases, "a-file-that-is-cut-had-its-old-size", ends(cut, OK, both(1)), ends(cut, OK, both(2, told(REG, 1))))
    wrong(cases, "a-file-that-is-cut-has-its-new-size", ends(cut, OK, both(3, told(REG, 3))), ends(cut, OK, both(None, told(REG, 0))))
    wrong(cases, "a-file-that-is-cut-is-a-file", ends(cut, OK, both(3, told(DIR, 1))), ends(cut, OK, both(3, told(FIFO, 1))))
    wrong(cases, "what-is-set-has-its-type", ends(set_of, OK, both(None, told(REG, 0))), ends(set_attributes(L), OK, both(None, told(REG, 3))))


def lookups(cases):
    of_file, inner = look_up(ROOT, "f"), look_up(D, "g")
    right(cases, "what-is-found-has-its-attributes-and-so-has-its-directory", found(of_file, F, told(REG, 3), DIRECTORY),
          found(inner, G, told(REG, 0), DIRECTORY), found(look_up(ROOT, "d"), D, DIRECTORY, DIRECTORY), found(look_up(ROOT, "l"), L, LINK, UNTOLD))
    wrong(cases, "a-file-that-is-found-has-its-size", found(of_file, F, told(REG, 4)), found(inner, G, told(REG, 3)))
    wrong(cases, "a-file-that-is-found-is-one", found(of_file, F, told(DIR, 3)), found(of_file, F, told(LNK, 3), DIRECTORY))
    wrong(cases, "a-directory-that-is-looked-in-is-one", found(of_file, F, UNTOLD, told(REG, 3)), found(of_file, F, told(REG, 3), LINK))
    wrong(cases, "a-link-that-is-found-is-one", found(look_up(ROOT, "l"), L, told(REG, 3)), found(look_up(ROOT, "d"), D, told(LNK, 77)))
    right(cases, "dots-have-the-attributes-of-directories", found(look_up(D, "."), D, DIRECTORY, DIRECTORY),
          found(look_up(D, ".."), ROOT, DIRECTORY, DIRECTORY),
          found(look_up(ROOT, ".."), ROOT, DIRECTORY, UNTOLD))
    wrong(cases, "a-dot-is-a-directory", found(look_up(D, "."), D, told(REG, 0)), found(look_up(D, "."), D, DIRECTORY, told(REG, 0)))
    wrong(cases, "two-dots-are-a-directory", found(look_up(D, ".."), ROOT, told(REG, 0)), found(look_up(ROOT, ".."), ROOT, told(LNK, 0)))


def links_and_bytes(cases):
    text, bytes_of = read_link(L), read(F, 1, 1)
    right(cases, "a-link-that-is-read-has-its-type", ends(text, OK, LINK, opaque(b"x/y")), ends(text, OK, told(LNK, 3), opaque(b"x/y")))
    wrong(cases, "a-link-that-is-read-is-a-link", ends(text, OK, told(REG, 3), opaque(b"x/y")))
    right(cases, "a-file-that-is-read-has-its-size", were_read(bytes_of, b"b", False, told(REG, 3)))
    wrong(cases, "a-file-that-is-read-has-no-other-size", were_read(bytes_of, b"b", False, told(REG, 1)), were_read(bytes_of, b"b", False, told(REG, 4)),
          were_read(bytes_of, b"b", False, told(REG, 3 + 2**32)))
    wrong(cases, "a-file-that-is-read-is-a-file", were_read(bytes_of, b"b", False, told(BLK, 3)))


def writes(cases):
    call = write(F, 2, b"XYZ", UNSTABLE)
    right(cases, "a-file-that-is-written-has-two-sizes", were_written(call, 3, both(3, told(REG, 5))), were_written(call, 3, both(5, told(REG, 5))))
    right(cases, "a-file-that-is-written-in-part-has-the-size-of-that-part", were_written(call, 2, both(3, told(REG, 4))))
    right(cases, "a-file-of-which-nothing-is-written-keeps-its-size", were_written(write(F, 9, b"XYZ", UNSTABLE), 0, both(3, told(REG, 3))))
    wrong(cases, "a-file-that-is-written-had-its-old-size", were_written(call, 3, both(5, told(REG, 5))), were_written(call, 3, both(0)))
    wrong(cases, "a-file-that-is-written-has-its-new-size", were_written(call, 3, both(3, told(REG, 3))), were_written(call, 2, both(3, told(REG, 5))))
    wrong(cases, "a-file-that-is-written-is-a-file", were_written(call, 3, both(3, told(LNK, 5))))


def creates(cases):
    new, old, emptied = create(ROOT, "x", 2), create(ROOT, "f"), create(ROOT, "f", 0)
    right(cases, "a-file-that-is-made-has-its-size", made(new, MADE, told(REG, 2), both(5, DIRECTORY)), get_attributes(MADE).gives(REG, 2))
    right(cases, "a-file-that-is-made-without-a-handle-has-its-size", made(new, None, told(REG, 2), both(5, DIRECTORY)), made(new, None, told(REG, 2)))
    right(cases, "a-file-that-a-create-finds-has-its-size", made(old, F, told(REG, 3)), made(old, None, told(REG, 3), both(None, DIRECTORY)))
    right(cases, "a-file-that-a-create-empties-has-its-size", made(emptied, F, told(REG, 0)))
    exclusive = create_exclusive(ROOT, "x", 1)
    right(cases, "a-file-that-is-made-for-one-has-its-size", made(exclusive, MADE, told(REG, 0)), made(exclusive, None, told(REG, 0)))
    wrong(cases, "a-file-that-is-made-has-no-other-size", made(new, MADE, told(REG, 0)), made(create_guarded(ROOT, "x"), MADE, told(REG, 2)),
          made(exclusive, MADE, told(REG, 1)))
    wrong(cases, "a-file-that-is-made-without-a-handle-has-no-other-size", made(new, None, told(REG, 0)))
    wrong(cases, "a-file-that-is-made-is-a-file", made(new, MADE, told(DIR, 2)))
    wrong(cases, "a-directory-in-which-a-file-is-made-is-one", made(new, MADE, told(REG, 2), both(None, told(REG, 2))))
    wrong(cases, "a-file-that-a-create-finds-has-no-other-size", made(old, F, told(REG, 0)), made(old, None, told(REG, 4)))
    wrong(cases, "a-file-that-a-create-empties-has-no-bytes", made(emptied, F, told(REG, 3)))


def other_makings(cases):
    directory, link = make_directory(D, "x", 9), make_link(E, "x", b"text", 9)
    right(cases, "a-directory-that-is-made-has-any-size", made(directory, MADE, DIRECTORY, both(1, DIRECTORY)))
    right(cases, "a-directory-that-is-made-without-a-handle-has-any-size", made(directory, None, DIRECTORY))
    right(cases, "a-link-that-is-made-has-any-size", made(link, MADE, LINK, both(1, DIRECTORY)))
    right(cases, "a-link-that-is-made-without-a-handle-has-any-size", made(link, None, LINK))
    wrong(cases, "a-directory-that-is-made-is-one", made(directory, MADE, told(REG, 0)), made(directory, None, LINK))
    wrong(cases, "a-directory-in-which-one-is-made-is-one", made(directory, MADE, DIRECTORY, both(1, LINK)))
    wrong(cases, "a-link-that-is-made-is-one", made(link, MADE, told(REG, 4)), made(link, None, DIRECTORY))
    wrong(cases, "a-directory-in-which-a-link-is-made-is-one", made(link, MADE, LINK, both(1, told(REG, 0))))


def removals(cases):
    file, directory = remove(ROOT, "f"), remove_directory(ROOT, "e")
    right(cases, "a-directory-from-which-is-removed-has-its-type", ends(file, OK, both(1, DIRECTORY)), ends(directory, OK, both(2, DIRECTORY)))
    wrong(cases, "a-directory-from-which-a-file-is-removed-is-one", ends(file, OK, both(None, told(REG, 3))))
    wrong(cases, "a-directory-from-which-one-is-removed-is-one", ends(directory, OK, both(None, told(LNK, 3))))


def renames(cases):
    call = rename(ROOT, "f", D, "x")
    right(cases, "both-directories-of-a-rename-have-their-type", ends(call, OK, both(1, DIRECTORY), both(2, DIRECTORY)))
    right(cases, "both-directories-of-a-rename-may-be-told-alone", ends(call, OK, both(), both(2, DIRECTORY)),
          ends(rename(D, "x", ROOT, "f"), OK, both(1, DIRECTORY), both()))
    wrong(cases, "the-first-directory-of-a-rename-is-one", ends(call, OK, both(1, told(REG, 3)), both()),
          ends(call, OK, both(1, told(REG, 3)), both(1, DIRECTORY)))
    wrong(cases, "the-second-directory-of-a-rename-is-one", ends(call, OK, both(), both(1, told(REG, 3))),
          ends(call, OK, both(1, DIRECTORY), both(1, LINK)))


def lists(cases):
    def names(of_directory):
        return ends(list_names(ROOT), OK, of_directory, double(0), flag(True), double(1), name("f"), double(1), flag(False), flag(False))

    right(cases, "a-directory-that-is-listed-has-its-type", names(DIRECTORY), names(told(DIR, 0)))
    wrong(cases, "a-directory-that-is-listed-is-one", names(told(REG, 3)), names(LINK))


def lists_of_entries(cases):
    call = list_entries(ROOT)
    right(cases, "entries-that-are-listed-have-their-attributes",
          listed(call, DIRECTORY, ("f", told(REG, 3), F), ("d", DIRECTORY, None), ("l", LINK, L), ("e", UNTOLD, E)))
    right(cases, "dots-that-are-listed-have-any-attributes", listed(call, DIRECTORY, (".", told(REG, 1), None), ("..", told(FIFO, 9), UNBOUND)))
    wrong(cases, "a-directory-whose-entries-are-listed-is-one", listed(call, told(REG, 3), ("f", told(REG, 3), F)))
    wrong(cases, "a-file-that-is-listed-has-its-size", listed(call, DIRECTORY, ("f", told(REG, 2), F)), listed(call, UNTOLD, ("f", told(REG, 0), None)))
    wrong(cases, "an-entry-that-is-listed-has-its-type", listed(call, DIRECTORY, ("f", told(DIR, 3), F)), listed(call, DIRECTORY, ("d", told(REG, 0), D)),
          listed(call, DIRECTORY, ("l", told(REG, 3), None)))
    wrong(cases, "each-entry-that-is-listed-has-its-attributes", listed(call, DIRECTORY, ("d", DIRECTORY, D), ("l", LINK, L), ("f", told(REG, 4), F)),
          listed(call, DIRECTORY, ("f", told(REG, 4), F), ("d", DIRECTORY, D), ("l", LINK, L)))


def commits(cases):
    def committed(of_file):
        return ends(commit(F), OK, of_file, double(1))

    right(cases, "a-file-that-is-committed-has-its-size", committed(both(3, told(REG, 3))), committed(both(3)), committed(both(None, told(REG, 3))))
    wrong(cases, "a-file-that-is-committed-had-its-size", committed(both(2)), committed(both(4, told(REG, 3))))
    wrong(cases, "a-file-that-is-committed-has-no-other-size", committed(both(3, told(REG, 2))), committed(both(3, told(SOCK, 3))))


def failed_looks(cases):
    """Failures that carry attributes of after the call alone."""
    absent_name, in_file, of_link = look_up(ROOT, "x"), look_up(F, "x"), read_link(F)
    right(cases, "a-look-that-fails-tells-of-its-object", ends(absent_name, NOENT, DIRECTORY), ends(in_file, NOTDIR, told(REG, 3)),
          ends(of_link, INVAL, told(REG, 3)), ends(read(D), ISDIR, DIRECTORY), ends(read(F), IO, told(REG, 3)), ends(list_names(L), NOTDIR, LINK),
          ends(list_entries(ROOT, 1), BAD_COOKIE, DIRECTORY))
    wrong(cases, "a-lookup-that-fails-tells-no-wrong-type", ends(absent_name, NOENT, told(REG, 3)), ends(in_file, NOTDIR, DIRECTORY))
    wrong(cases, "a-lookup-that-fails-tells-no-wrong-size", ends(in_file, NOTDIR, told(REG, 2)))
    wrong(cases, "a-read-that-fails-tells-no-wrong-type", ends(read(D), ISDIR, told(REG, 0)), ends(of_link, INVAL, LINK))
    wrong(cases, "a-list-that-fails-tells-no-wrong-type", ends(list_names(L), NOTDIR, DIRECTORY), ends(list_entries(ROOT, 1), BAD_COOKIE, LINK))
    wrong(cases, "an-excused-failure-tells-no-wrong-size", ends(read(F), IO, told(REG, 4)), ends(read(F), ACCES, told(DIR, 3)))


def failed_changes(cases):
    """A failure leaves the tree, so that both sizes are those of before it."""
    removal, making = remove(ROOT, "zz"), create_guarded(D, "g")
    right(cases, "a-change-that-fails-tells-of-its-object", ends(removal, NOENT, both(1, DIRECTORY)), ends(making, EXIST, both(1, DIRECTORY)),
          ends(write(F, 0, b"12345"), IO, both(3, told(REG, 3))), ends(set_attributes(F, 1, guard=1), NOT_SYNC, both(3, told(REG, 3))),
          ends(create(F, "x"), NOTDIR, both(3, told(REG, 3))), ends(commit(D), ISDIR, both(1, DIRECTORY)),
          ends(remove_directory(ROOT, "d"), NOTEMPTY, both(1, DIRECTORY)))
    wrong(cases, "a-remove-that-fails-tells-no-wrong-type", ends(removal, NOENT, both(None, told(REG, 0))),
          ends(remove_directory(ROOT, "d"), NOTEMPTY, both(1, LINK)))
    wrong(cases, "a-create-that-fails-tells-no-wrong-type", ends(making, EXIST, both(1, told(REG, 0))), ends(create(F, "x"), NOTDIR, both(3, DIRECTORY)))
    wrong(cases, "what-is-made-in-a-file-tells-no-wrong-size", ends(create(F, "x"), NOTDIR, both(2)),
          ends(make_directory(F, "x"), NOTDIR, both(3, told(REG, 4))),
          ends(make_link(F, "x", b"t"), NOTDIR, both(4)))
    wrong(cases, "no-making-that-fails-tells-a-wrong-type", ends(make_directory(ROOT, "e"), EXIST, both(1, LINK)),
          ends(make_link(ROOT, "e", b"t"), EXIST, both(1, told(REG, 0))))
    wrong(cases, "a-write-that-fails-leaves-the-size", ends(write(F, 0, b"12345"), IO, both(3, told(REG, 5))), ends(write(F, 0, b"12345"), IO, both(5)))
    wrong(cases, "a-size-that-is-not-set-leaves-the-size", ends(set_attributes(F, 1, guard=1), NOT_SYNC, both(3, told(REG, 1))),
          ends(set_attributes(F, 1), IO, both(1)))
    wrong(cases, "a-commit-that-fails-tells-no-wrong-size", ends(commit(F), IO, both(2)), ends(commit(D), ISDIR, both(1, told(REG, 1))))


def failed_renames(cases):
    call, onto_file = rename(ROOT, "x", D, "y"), rename(ROOT, "f", F, "y")
    right(cases, "a-rename-that-fails-tells-of-both-directories", ends(call, NOENT, both(1, DIRECTORY), both(1, DIRECTORY)),
          ends(onto_file, NOTDIR, both(1, DIRECTORY), both(3, told(REG, 3))), ends(rename(F, "x", ROOT, "y"), NOTDIR, both(3, told(REG, 3)), both()))
    wrong(cases, "the-first-directory-of-a-rename-that-fails-is-one", ends(call, NOENT, both(1, LINK), both()),
          ends(rename(F, "x", D, "y"), NOTDIR, both(4), both()))
    wrong(cases, "the-second-directory-of-a-rename-that-fails-is-one", ends(call, NOENT, both(), both(1, told(REG, 0))),
          ends(call, IO, both(1, DIRECTORY), both(1, LINK)))
    wrong(cases, "a-file-that-a-rename-leads-to-has-its-size", ends(onto_file, NOTDIR, both(), both(2)),
          ends(onto_file, NOTDIR, both(), both(3, told(REG, 4))))
    half = rename(UNBOUND, "x", D, "y")
    right(cases, "a-rename-of-which-one-handle-is-not-live-tells-of-the-other", ends(half, STALE, both(9, told(FIFO, 9)), both(9, DIRECTORY)))
    wrong(cases, "a-rename-of-which-one-handle-is-not-live-tells-nothing-wrong", ends(half, STALE, both(), both(9, LINK)),
          ends(rename(D, "x", UNBOUND, "y"), STALE, both(9, LINK), both(9, LINK)))


def free_attributes(cases):
    """What doesn't stand has any attributes."""
    any_file = told(REG, 2**64 - 1)
    right(cases, "a-handle-that-is-not-bound-has-any-attributes", ends(read(UNBOUND), STALE, any_file), ends(look_up(UNBOUND, "x"), BADHANDLE, LINK),
          ends(write(UNBOUND, 0, b"a"), STALE, both(7, told(FIFO, 9))), ends(read(UNBOUND), IO, told(BLK, 0)))
    right(cases, "an-object-that-is-never-made-has-any-attributes", ends(read(NEVER_MADE), STALE, any_file),
          ends(commit(NEVER_MADE), STALE, both(9, any_file)))
    right(cases, "an-object-that-is-gone-has-any-attributes", remove(ROOT, "f").gives(), ends(read(F), STALE, told(DIR, 1)),
          ends(write(F, 0, b"a"), IO, both(9, any_file)))
    access = other_procedure(4, handle(F) + word(63)).gives(told(DIR, 9) + word(63))
    cases.judge("an-access-has-any-attributes", "yes", started_file([sent(1, 1, access), answered(1, 1, access)], SAMPLE_START, STRICT), certificate([]))


def places(cases):
    """Attributes agree with the tree at the call's place."""
    writing, seen = were_written(write(F, 3, b"de", UNSTABLE), 2, both(3, told(REG, 5))), were_read(read(F, 0, 1), b"a", False, told(REG, 3))
    events = [sent(1, 1, writing), sent(2, 2, seen), answered(1, 1, writing), answered(2, 2, seen)]
    overlapping = started_file(events, SAMPLE_START, STRICT)
    cases.judge("attributes-of-ahead-of-a-write", "yes", overlapping, certificate(["place 2", "place 1"], OBJECTS))
    cases.judge("attributes-of-ahead-of-a-write-behind-it", "no: Illegal 2", overlapping, certificate(["place 1", "place 2"], OBJECTS))
    cases.judge("attributes-behind-a-write-in-a-plain-history", "yes", started_file(events, SAMPLE_START), certificate(["place 1", "place 2"], OBJECTS))
    apart = started_file([events[0], events[2], events[1], events[3]], SAMPLE_START, STRICT)
    cases.judge("attributes-of-ahead-of-a-write-that-has-ended", "no: Early 2 1", apart, certificate(["place 2", "place 1"], OBJECTS))

    def crashed(case, answer, kept, size):
        judged(cases, case, answer, writing, Crash(kept), were_read(read(F, 0, 1), b"a", False, told(REG, size)))

    crashed("attributes-behind-a-crash-that-lost-a-write", "yes", 0, 3)
    crashed("attributes-behind-a-crash-that-kept-a-write", "yes", 1, 5)
    crashed("attributes-of-a-write-that-was-lost", "no: Illegal 2", 0, 5)
    crashed("attributes-of-ahead-of-a-write-that-was-kept", "no: Illegal 2", 1, 3)
    right(cases, "a-call-that-is-taken-tells-nothing", write(F, 3, b"de").taken(2), were_read(read(F, 0, 1), b"a", False, told(REG, 5)))
    later = were_read(read(F, 0, 1), b"a", False, told(REG, 4))
    judged(cases, "the-first-reply-with-a-wrong-detail-is-told", "no: Illegal 2", seen, later, later)
    file = [create(ROOT, "a").gives(1), write(1, 0, b"abc").gives()]
    shown_wrong = were_read(read(1, 0, 1), b"a", False, told(REG, 4))
    judged(cases, "a-strict-history-of-a-server-that-held-nothing", "no: Illegal 3", *file, shown_wrong, objects=[])
    judged(cases, "a-plain-history-of-a-server-that-held-nothing", "yes", *file, shown_wrong, objects=[], profile=PLAIN)
