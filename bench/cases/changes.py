"""What calls make of the sample tree: SETATTR, WRITE, CREATE, MKDIR, SYMLINK, REMOVE, RMDIR and RENAME."""
from cases.calls import (commit, create, create_exclusive, create_guarded, look_up, make_directory, make_link, remove, remove_directory, rename,
                         set_attributes, write)
from cases.sample import D, E, F, G, L, NEW, ROOT, SAMPLE, TREE, UNBOUND, V, Directory, File, Link, becomes, illegal, run, without
from cases.xdr import DATA_SYNC, FILE_SYNC, IO, NOENT, UNSTABLE

# The most bytes that a file may have.
LIMIT = 16_777_216


def add_all(cases):
    sizes(cases)
    writes(cases)
    short_writes(cases)
    creates(cases)
    exclusive_creates(cases)
    directories(cases)
    links(cases)
    removals(cases)
    renames(cases)
    failures(cases)
    taken(cases)


def sizes(cases):
    becomes(cases, "a-size-cuts-a-file", TREE | {"f": File(F, b"a")}, set_attributes(F, 1).gives())
    becomes(cases, "a-size-fills-a-file-with-zeros", TREE | {"f": File(F, b"abc\0\0")}, set_attributes(F, 5).gives())
    becomes(cases, "attributes-of-a-directory-are-set", TREE, set_attributes(D).gives())
    becomes(cases, "attributes-with-a-guard-are-set", TREE, set_attributes(F, guard=5).gives())
    illegal(cases, "no-directory-gets-a-size", set_attributes(D, 0).gives())
    illegal(cases, "no-link-gets-a-size", set_attributes(L, 0).gives())
    illegal(cases, "no-attributes-are-set-at-a-handle-that-names-nothing", set_attributes(UNBOUND).gives())
    refused(cases, "a-size-over-the-limit-is-refused", "refused: Outside 8 TooFar", set_attributes(F, LIMIT + 1).gives())


def refused(cases, case, answer, call):
    run(cases, case, answer, *SAMPLE, call)


def writes(cases):
    becomes(cases, "a-write-goes-over-what-is-there", TREE | {"f": File(F, b"aXYZ")}, write(F, 1, b"XYZ").gives())
    becomes(cases, "a-write-behind-the-end-leaves-zeros", TREE | {"f": File(F, b"abc\0XYZ")}, write(F, 4, b"XYZ").gives())
    becomes(cases, "a-write-keeps-the-verifier-of-the-create", TREE | {"v": File(V, b"XYZ", 1)}, write(V, 0, b"XYZ").gives())
    illegal(cases, "no-directory-is-written", write(D, 0, b"XYZ").gives())
    illegal(cases, "no-link-is-written", write(L, 0, b"XYZ").gives())
    illegal(cases, "nothing-is-written-at-a-handle-that-names-nothing", write(UNBOUND, 0, b"XYZ").gives())
    refused(cases, "a-write-past-the-limit-is-refused", "refused: Outside 8 TooFar", write(F, LIMIT - 2, b"XYZ").gives())
    refused(cases, "a-write-at-the-last-offset-is-refused", "refused: Outside 8 TooFar", write(F, 2**64 - 1, b"XYZ").gives())


def short_writes(cases):
    front = TREE | {"f": File(F, b"XYc")}
    becomes(cases, "fewer-bytes-may-be-written", front, write(F, 0, b"XYZ", DATA_SYNC).gives(2))
    becomes(cases, "none-may-be-written", TREE, write(F, 0, b"XYZ", DATA_SYNC).gives(0))
    becomes(cases, "a-write-may-be-synchronized-more-than-asked", front, write(F, 0, b"XY", DATA_SYNC).gives(at=FILE_SYNC))
    illegal(cases, "a-write-is-not-synchronized-less-than-asked", write(F, 0, b"XYZ", DATA_SYNC).gives(0, UNSTABLE))
    illegal(cases, "no-more-is-written-than-asked", write(F, 0, b"XYZ", DATA_SYNC).gives(4))
    differs = "refused: Outside 8 CountDiffers"
    refused(cases, "a-count-below-the-length-of-the-data-is-refused", differs, write(F, 0, b"XYZW", count=3).gives(4))
    refused(cases, "a-count-over-the-length-of-the-data-is-refused", differs, write(F, 0, b"XY", count=3).gives(3))


def creates(cases):
    empty, zeros = TREE | {"x": File(NEW)}, TREE | {"x": File(NEW, b"\0\0")}
    becomes(cases, "an-absent-name-becomes-an-empty-file", empty, create(ROOT, "x").gives())
    becomes(cases, "an-absent-name-becomes-a-file-of-a-size", zeros, create(ROOT, "x", 2).gives())
    becomes(cases, "the-handle-of-a-new-file-is-its-own", empty, create(ROOT, "x").gives(NEW))
    illegal(cases, "the-handle-of-a-new-file-is-no-other", create(ROOT, "x").gives(V))
    illegal(cases, "no-file-is-made-at-two-dots", create(ROOT, "..").gives())
    illegal(cases, "no-file-is-made-in-a-file", create(F, "x").gives())
    refused(cases, "a-create-over-the-limit-is-refused", "refused: Outside 8 TooFar", create(ROOT, "x", LIMIT + 1).gives())
    becomes(cases, "an-unchecked-create-takes-the-file-that-is-there", TREE, create(ROOT, "f").gives())
    becomes(cases, "an-unchecked-create-gives-the-handle-of-the-file", TREE, create(ROOT, "f").gives(F))
    becomes(cases, "an-unchecked-create-sets-a-size", TREE | {"f": File(F, b"a")}, create(ROOT, "f", 1).gives())
    illegal(cases, "an-unchecked-create-gives-no-new-handle", create(ROOT, "f").gives(NEW))
    illegal(cases, "an-unchecked-create-takes-no-directory", create(ROOT, "d").gives())
    illegal(cases, "an-unchecked-create-takes-no-link", create(ROOT, "l").gives())
    becomes(cases, "a-guarded-create-makes-a-file-of-a-size", TREE | {"x": File(NEW, b"\0")}, create_guarded(ROOT, "x", 1).gives())
    illegal(cases, "a-guarded-create-takes-no-file", create_guarded(ROOT, "f", 1).gives())


def exclusive_creates(cases):
    made = TREE | {"x": File(NEW, b"", 5)}
    becomes(cases, "an-exclusive-create-makes-a-file-with-its-verifier", made, create_exclusive(ROOT, "x", 5).gives())
    becomes(cases, "an-exclusive-create-finds-its-own-file", TREE, create_exclusive(ROOT, "v", 1).gives())
    illegal(cases, "an-exclusive-create-takes-no-file-of-another-verifier", create_exclusive(ROOT, "v", 2).gives())
    illegal(cases, "an-exclusive-create-takes-no-file-without-a-verifier", create_exclusive(ROOT, "f", 0).gives())


def directories(cases):
    below = TREE | {"d/x": Directory(NEW)}
    becomes(cases, "an-absent-name-becomes-a-directory", below, make_directory(D, "x", 3).gives(NEW))
    illegal(cases, "the-handle-of-a-new-directory-is-its-own", make_directory(D, "x", 3).gives(V))
    illegal(cases, "no-directory-is-made-over-a-file", make_directory(D, "g", 3).gives(NEW))
    illegal(cases, "no-directory-is-made-at-a-dot", make_directory(D, ".", 3).gives(NEW))
    illegal(cases, "no-directory-is-made-in-a-file", make_directory(F, "x", 3).gives(NEW))
    becomes(cases, "three-dots-are-a-name", TREE | {"...": Directory(NEW)}, make_directory(ROOT, "...").gives(NEW))
    run(cases, "a-name-may-have-a-slash", "yes", *SAMPLE, make_directory(ROOT, "a/b").gives(NEW), look_up(ROOT, "a/b").gives(NEW))


def links(cases):
    linked = TREE | {"x": Link(NEW, b"t")}
    becomes(cases, "an-absent-name-becomes-a-link", linked, make_link(ROOT, "x", b"t", 3).gives(NEW))
    illegal(cases, "the-handle-of-a-new-link-is-its-own", make_link(ROOT, "x", b"t", 3).gives(F))
    illegal(cases, "no-link-is-made-over-a-link", make_link(ROOT, "l", b"t", 3).gives(NEW))
    illegal(cases, "no-link-is-made-at-an-empty-name", make_link(ROOT, "", b"t", 3).gives(NEW))


def removals(cases):
    becomes(cases, "a-file-is-removed", without("f"), remove(ROOT, "f").gives())
    becomes(cases, "a-link-is-removed", without("l"), remove(ROOT, "l").gives())
    illegal(cases, "no-directory-is-removed-as-an-entry", remove(ROOT, "e").gives())
    illegal(cases, "nothing-absent-is-removed", remove(ROOT, "x").gives())
    becomes(cases, "an-empty-directory-is-removed", without("e"), remove_directory(ROOT, "e").gives())
    illegal(cases, "no-filled-directory-is-removed", remove_directory(ROOT, "d").gives())
    illegal(cases, "no-file-is-removed-as-a-directory", remove_directory(ROOT, "f").gives())
    illegal(cases, "no-directory-is-removed-at-two-dots", remove_directory(ROOT, "..").gives())


def renames(cases):
    along = without("d", "d/g") | {"x": Directory(D), "x/g": File(G)}
    becomes(cases, "what-lies-below-goes-along", along, rename(ROOT, "d", ROOT, "x").gives())
    replaced = without("d", "d/g") | {"e": Directory(D), "e/g": File(G)}
    becomes(cases, "a-directory-takes-the-place-of-an-empty-one", replaced, rename(ROOT, "d", ROOT, "e").gives())
    becomes(cases, "a-rename-onto-itself-changes-nothing", TREE, rename(ROOT, "d", ROOT, "d").gives())
    illegal(cases, "no-directory-goes-below-itself", rename(ROOT, "d", D, "x").gives())
    inside = without("d", "d/g") | {"e/x": Directory(D), "e/x/g": File(G)}
    becomes(cases, "a-directory-goes-into-another", inside, rename(ROOT, "d", E, "x").gives())
    becomes(cases, "a-file-goes-into-a-directory", without("f") | {"d/x": File(F, b"abc")}, rename(ROOT, "f", D, "x").gives())
    becomes(cases, "a-file-takes-the-place-of-a-file", without("f") | {"d/g": File(F, b"abc")}, rename(ROOT, "f", D, "g").gives())
    illegal(cases, "no-file-goes-to-a-dot", rename(ROOT, "f", ROOT, ".").gives())
    illegal(cases, "no-file-goes-into-a-file", rename(ROOT, "f", F, "x").gives())
    illegal(cases, "no-file-takes-the-place-of-a-directory", rename(ROOT, "f", ROOT, "e").gives())
    illegal(cases, "no-directory-takes-the-place-of-a-file", rename(ROOT, "e", ROOT, "f").gives())
    illegal(cases, "no-directory-takes-the-place-of-a-filled-one", rename(ROOT, "e", ROOT, "d").gives())
    illegal(cases, "nothing-absent-is-renamed", rename(ROOT, "x", ROOT, "y").gives())


def failures(cases):
    becomes(cases, "a-failure-leaves-the-tree", TREE, look_up(ROOT, "x").fails(NOENT))
    becomes(cases, "a-write-that-failed-leaves-the-tree", TREE, write(F, 0, b"XYZ").fails(IO))
    becomes(cases, "a-failure-that-is-not-judged-may-answer-any-call", TREE, look_up(ROOT, "f").fails(IO))
    illegal(cases, "no-entry-that-is-there-is-told-to-be-absent", look_up(ROOT, "f").fails(NOENT))


def taken(cases):
    front = TREE | {"f": File(F, b"XYc")}
    becomes(cases, "a-write-is-taken-with-its-count", front, write(F, 0, b"XYZ").taken(2))
    refused(cases, "a-write-is-not-taken-with-more-bytes-than-it-has", "no: NotToPlace 8", write(F, 0, b"XYZ").taken(4))
    refused(cases, "a-write-is-not-taken-without-a-count", "no: NotToPlace 8", write(F, 0, b"XYZ").taken())
    becomes(cases, "a-directory-is-taken-as-made", TREE | {"x": Directory(NEW)}, make_directory(ROOT, "x").taken())
    refused(cases, "only-a-write-is-taken-with-a-count", "no: NotToPlace 8", make_directory(ROOT, "x").taken(1))
    becomes(cases, "a-file-is-taken-as-made", TREE | {"x": File(NEW)}, create_guarded(ROOT, "x").taken())
    illegal(cases, "no-file-is-taken-as-made-over-another", create_guarded(ROOT, "f").taken())
    becomes(cases, "an-unanswered-call-may-be-left-out", TREE, create(ROOT, "x"))
    refused(cases, "no-call-is-taken-that-changes-nothing", "no: NotToPlace 8", commit(F).taken())
