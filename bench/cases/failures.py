"""Failures in the sample tree: which status may answer which call (docs/PROFILE.md, the section on failures)."""
from cases.calls import (commit, create, create_exclusive, create_guarded, get_attributes, list_entries, list_names, look_up, make_directory,
                         make_link, read, read_link, remove, remove_directory, rename, set_attributes, write)
from cases.sample import D, E, F, L, NEVER_MADE, ROOT, UNBOUND, allowed, illegal
from cases.xdr import (ACCES, BAD_COOKIE, BADHANDLE, EXIST, INVAL, IO, ISDIR, JUKEBOX, NOENT, NOT_SYNC, NOTDIR, NOTEMPTY, STALE, TOOSMALL,
                       UNSTABLE)


def add_all(cases):
    handles(cases)
    kinds(cases)
    absent_names(cases)
    present_names(cases)
    removals(cases)
    special_names(cases)
    renames(cases)
    others(cases)


def handles(cases):
    allowed(cases, "a-handle-that-is-not-live-is-stale-or-bad", get_attributes(UNBOUND).fails(STALE), get_attributes(UNBOUND).fails(BADHANDLE),
            get_attributes(NEVER_MADE).fails(STALE))
    illegal(cases, "no-live-handle-is-stale", get_attributes(F).fails(STALE))
    illegal(cases, "no-live-handle-is-bad", get_attributes(F).fails(BADHANDLE))
    allowed(cases, "the-second-handle-may-be-the-stale-one", rename(ROOT, "f", UNBOUND, "x").fails(STALE))
    illegal(cases, "no-rename-between-live-handles-is-stale", rename(ROOT, "f", D, "x").fails(STALE))
    allowed(cases, "names-lie-in-directories-alone", look_up(F, "a").fails(NOTDIR), rename(ROOT, "f", F, "x").fails(NOTDIR))
    illegal(cases, "a-directory-is-a-directory", look_up(D, "a").fails(NOTDIR))
    illegal(cases, "what-a-handle-does-not-name-is-not-told-to-be-no-directory", look_up(UNBOUND, "a").fails(NOTDIR))
    illegal(cases, "a-directory-that-a-rename-leads-to-is-one", rename(ROOT, "f", D, "x").fails(NOTDIR))
    allowed(cases, "only-directories-are-listed", list_names(L).fails(NOTDIR))
    illegal(cases, "an-empty-directory-is-a-directory", list_names(E).fails(NOTDIR))
    illegal(cases, "attributes-ask-for-no-directory", get_attributes(F).fails(NOTDIR))


def kinds(cases):
    allowed(cases, "only-a-link-has-a-text", read_link(F).fails(INVAL), read_link(D).fails(INVAL))
    illegal(cases, "no-file-is-told-to-be-an-absent-link", read_link(F).fails(NOENT))
    allowed(cases, "a-directory-has-no-bytes", read(D).fails(ISDIR), write(D, 0, b"x", UNSTABLE).fails(ISDIR), commit(D).fails(ISDIR),
            read(D).fails(INVAL))
    illegal(cases, "a-file-that-is-read-is-no-directory", read(F).fails(ISDIR))
    illegal(cases, "a-file-that-is-written-is-no-directory", write(F, 0, b"x", UNSTABLE).fails(ISDIR))
    illegal(cases, "a-file-that-is-committed-is-no-directory", commit(F).fails(ISDIR))
    illegal(cases, "a-link-that-is-read-is-no-directory", read(L).fails(ISDIR))
    allowed(cases, "a-link-has-no-bytes", read(L).fails(INVAL))
    illegal(cases, "a-link-that-is-read-is-not-stale", read(L).fails(STALE))
    allowed(cases, "only-a-size-asks-for-a-file", set_attributes(D, 1).fails(ISDIR))
    illegal(cases, "no-other-attribute-asks-for-a-file", set_attributes(D).fails(ISDIR))
    illegal(cases, "a-file-that-gets-a-size-is-no-directory", set_attributes(F, 1).fails(ISDIR))


def absent_names(cases):
    allowed(cases, "an-absent-name-is-told", look_up(ROOT, "x").fails(NOENT), look_up(D, "f").fails(NOENT))
    illegal(cases, "no-name-that-is-there-is-told-to-be-absent", look_up(ROOT, "f").fails(NOENT))
    illegal(cases, "nothing-is-absent-at-a-handle-that-names-nothing", look_up(UNBOUND, "x").fails(NOENT))
    illegal(cases, "no-absent-name-is-told-to-be-present", look_up(ROOT, "x").fails(EXIST))
    allowed(cases, "what-is-absent-is-not-removed", remove(ROOT, "x").fails(NOENT), remove_directory(ROOT, "x").fails(NOENT))
    illegal(cases, "a-file-to-remove-is-there", remove(ROOT, "f").fails(NOENT))
    illegal(cases, "a-directory-to-remove-is-there", remove_directory(ROOT, "e").fails(NOENT))
    allowed(cases, "what-is-absent-is-not-renamed", rename(ROOT, "x", ROOT, "y").fails(NOENT))
    illegal(cases, "only-the-source-of-a-rename-has-to-be-there", rename(ROOT, "f", ROOT, "y").fails(NOENT))
    illegal(cases, "what-is-made-may-be-absent", make_directory(ROOT, "x").fails(NOENT))


def present_names(cases):
    allowed(cases, "what-is-made-is-absent", make_directory(ROOT, "f").fails(EXIST), make_link(ROOT, "d", b"t").fails(EXIST),
            create_guarded(ROOT, "f").fails(EXIST), create_exclusive(ROOT, "f", 1).fails(EXIST))
    illegal(cases, "a-directory-to-make-is-not-there", make_directory(ROOT, "x").fails(EXIST))
    illegal(cases, "a-link-to-make-is-not-there", make_link(ROOT, "x", b"t").fails(EXIST))
    illegal(cases, "a-file-to-make-is-not-there", create_guarded(ROOT, "x").fails(EXIST))
    illegal(cases, "an-unchecked-create-takes-a-file-as-no-fault", create(ROOT, "f").fails(EXIST))
    allowed(cases, "an-unchecked-create-may-find-a-link-or-a-directory", create(ROOT, "l").fails(EXIST), create(ROOT, "d").fails(EXIST),
            create(ROOT, "d").fails(ISDIR))
    illegal(cases, "a-link-that-a-create-finds-is-no-directory", create(ROOT, "l").fails(ISDIR))
    illegal(cases, "a-guarded-create-tells-of-no-directory", create_guarded(ROOT, "d").fails(ISDIR))
    illegal(cases, "an-exclusive-create-tells-of-no-directory", create_exclusive(ROOT, "d", 1).fails(ISDIR))
    allowed(cases, "an-exclusive-create-may-not-know-its-own-file", create_exclusive(ROOT, "v", 1).fails(EXIST))


def removals(cases):
    allowed(cases, "a-directory-is-not-removed-as-an-entry", remove(ROOT, "d").fails(ISDIR), remove(ROOT, "d").fails(INVAL))
    illegal(cases, "a-file-to-remove-is-no-directory", remove(ROOT, "f").fails(ISDIR))
    illegal(cases, "a-directory-to-remove-may-be-one", remove_directory(ROOT, "d").fails(ISDIR))
    allowed(cases, "no-file-is-told-to-be-a-directory", remove_directory(ROOT, "f").fails(NOTDIR))
    illegal(cases, "a-directory-to-remove-is-a-directory", remove_directory(ROOT, "e").fails(NOTDIR))
    illegal(cases, "an-absent-name-is-not-told-to-be-no-directory", remove_directory(ROOT, "x").fails(NOTDIR))
    illegal(cases, "a-file-to-remove-may-be-no-directory", remove(ROOT, "f").fails(NOTDIR))
    allowed(cases, "a-filled-directory-is-not-removed", remove_directory(ROOT, "d").fails(NOTEMPTY), remove_directory(ROOT, "d").fails(EXIST))
    illegal(cases, "an-empty-directory-is-empty", remove_directory(ROOT, "e").fails(NOTEMPTY))
    illegal(cases, "an-empty-directory-holds-nothing", remove_directory(ROOT, "e").fails(EXIST))
    illegal(cases, "a-remove-does-not-look-below", remove(ROOT, "d").fails(NOTEMPTY))


def special_names(cases):
    allowed(cases, "dots-are-no-names-of-entries", look_up(UNBOUND, ".").fails(NOENT), make_directory(ROOT, "..").fails(EXIST),
            remove(ROOT, "").fails(ISDIR), rename(ROOT, "f", ROOT, ".").fails(NOTEMPTY))
    illegal(cases, "a-name-may-begin-with-dots", make_directory(ROOT, "..x").fails(EXIST))
    illegal(cases, "a-directory-in-which-a-dot-is-looked-up-is-one", look_up(ROOT, ".").fails(NOTDIR))
    allowed(cases, "a-name-with-a-slash-may-be-invalid", make_directory(ROOT, "a/b").fails(INVAL), make_directory(ROOT, b"a\0").fails(INVAL),
            make_directory(ROOT, b"\x80").fails(INVAL))
    illegal(cases, "a-name-with-a-slash-is-absent", make_directory(ROOT, "a/b").fails(EXIST))


def renames(cases):
    allowed(cases, "a-directory-takes-no-place-of-another-kind", rename(ROOT, "d", ROOT, "f").fails(EXIST),
            rename(ROOT, "d", ROOT, "l").fails(NOTDIR))
    illegal(cases, "a-directory-takes-the-place-of-a-directory", rename(ROOT, "d", ROOT, "e").fails(NOTDIR))
    illegal(cases, "a-free-place-does-not-exist", rename(ROOT, "d", ROOT, "x").fails(EXIST))
    illegal(cases, "a-free-place-is-not-told-to-be-no-directory", rename(ROOT, "d", ROOT, "x").fails(NOTDIR))
    allowed(cases, "nothing-else-takes-the-place-of-a-directory", rename(ROOT, "f", ROOT, "e").fails(EXIST),
            rename(ROOT, "l", ROOT, "e").fails(ISDIR))
    illegal(cases, "a-file-may-take-the-place-of-a-link", rename(ROOT, "f", ROOT, "l").fails(EXIST))
    illegal(cases, "a-link-whose-place-is-taken-is-no-directory", rename(ROOT, "f", ROOT, "l").fails(ISDIR))
    illegal(cases, "a-directory-may-take-the-place-of-an-empty-one", rename(ROOT, "d", ROOT, "e").fails(ISDIR))
    allowed(cases, "a-filled-directory-keeps-its-place", rename(ROOT, "e", ROOT, "d").fails(NOTEMPTY), rename(ROOT, "e", ROOT, "d").fails(EXIST),
            rename(ROOT, "f", ROOT, "d").fails(NOTEMPTY))
    illegal(cases, "a-filled-directory-takes-its-own-place", rename(ROOT, "d", ROOT, "d").fails(NOTEMPTY))
    illegal(cases, "the-place-of-an-empty-directory-is-empty", rename(ROOT, "d", ROOT, "e").fails(NOTEMPTY))
    illegal(cases, "nothing-absent-asks-for-an-empty-place", rename(ROOT, "x", ROOT, "d").fails(NOTEMPTY))
    allowed(cases, "a-rename-below-itself-is-invalid", rename(ROOT, "d", D, "x").fails(INVAL))


def others(cases):
    allowed(cases, "a-guard-may-not-hold", set_attributes(F, guard=1).fails(NOT_SYNC))
    illegal(cases, "without-a-guard-nothing-is-out-of-step", set_attributes(F).fails(NOT_SYNC))
    illegal(cases, "a-remove-has-no-guard", remove(ROOT, "f").fails(NOT_SYNC))
    allowed(cases, "a-cookie-may-be-bad", list_names(ROOT, 1).fails(BAD_COOKIE), list_entries(UNBOUND, 1).fails(BAD_COOKIE))
    illegal(cases, "the-first-cookie-is-never-bad", list_names(ROOT).fails(BAD_COOKIE))
    illegal(cases, "the-first-cookie-of-a-long-list-is-never-bad", list_entries(ROOT).fails(BAD_COOKIE))
    allowed(cases, "a-list-may-not-fit", list_names(ROOT).fails(TOOSMALL), list_entries(F).fails(TOOSMALL))
    illegal(cases, "attributes-always-fit", get_attributes(ROOT).fails(TOOSMALL))
    allowed(cases, "what-is-not-judged-may-answer-any-call", get_attributes(F).fails(IO), look_up(ROOT, "f").fails(ACCES),
            list_names(ROOT).fails(JUKEBOX), remove(ROOT, "f").fails(INVAL))
