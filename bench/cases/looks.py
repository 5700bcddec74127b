"""What calls that leave the tree may tell of the sample tree: GETATTR, LOOKUP, READLINK, READ, READDIR, READDIRPLUS and COMMIT."""
from cases.calls import commit, create, create_guarded, get_attributes, list_entries, list_names, look_up, make_directory, read, read_link, remove
from cases.sample import BINDS, D, E, F, G, L, NEVER_MADE, ROOT, SAMPLE, UNBOUND, V, allowed, illegal, run
from cases.xdr import DIR, FIFO, LNK, NOENT, REG


def add_all(cases):
    attributes(cases)
    names(cases)
    name_lengths(cases)
    handles(cases)
    handle_lengths(cases)
    handle_numbers(cases)
    many_calls(cases)
    texts(cases)
    bytes_read(cases)
    ends(cases)
    lists(cases)
    lists_with_handles(cases)
    commits(cases)


def attributes(cases):
    allowed(cases, "an-object-has-its-type-and-a-file-its-size", get_attributes(F).gives(REG, 3), get_attributes(D).gives(DIR, 4096),
            get_attributes(L).gives(LNK, 3), get_attributes(L).gives(LNK, 77))
    illegal(cases, "a-file-has-no-other-size", get_attributes(F).gives(REG, 4))
    illegal(cases, "a-file-has-not-the-type-of-a-directory", get_attributes(F).gives(DIR, 3))
    illegal(cases, "a-directory-has-not-the-type-of-a-file", get_attributes(D).gives(REG, 0))
    illegal(cases, "a-link-has-not-the-type-of-a-pipe", get_attributes(L).gives(FIFO, 3))
    illegal(cases, "no-attributes-are-told-at-a-handle-that-names-nothing", get_attributes(UNBOUND).gives(REG, 3))
    illegal(cases, "no-attributes-are-told-of-an-object-that-was-never-made", get_attributes(NEVER_MADE).gives(REG, 3))


def names(cases):
    allowed(cases, "a-name-is-looked-up", look_up(ROOT, "f").gives(F), look_up(D, "g").gives(G))
    illegal(cases, "a-name-leads-to-no-other-object", look_up(ROOT, "f").gives(D))
    illegal(cases, "a-name-is-not-found-in-the-directory-above", look_up(ROOT, "g").gives(G))
    illegal(cases, "a-name-is-not-found-in-a-file", look_up(F, "f").gives(F))
    illegal(cases, "a-name-is-not-found-at-a-handle-that-names-nothing", look_up(UNBOUND, "f").gives(F))
    allowed(cases, "dots-lead-to-the-directory-and-its-parent", look_up(D, ".").gives(D), look_up(D, "..").gives(ROOT),
            look_up(ROOT, "..").gives(ROOT))
    illegal(cases, "two-dots-lead-not-to-the-directory-itself", look_up(D, "..").gives(D))
    illegal(cases, "a-dot-leads-not-to-the-parent", look_up(D, ".").gives(ROOT))
    illegal(cases, "an-empty-name-leads-nowhere", look_up(D, "").gives(D))


def name_lengths(cases):
    """Each byte of a name counts, whatever its length: of a directory's first name, of one behind a few others and behind many."""
    short = ["%02d" % number for number in range(12)]
    for length in (22, 23, 24, 255):
        long, other = "n" * length, "n" * (length - 1) + "m"
        for ahead in (0, 5, 12):
            entries = [*short[:ahead], long, *short[ahead:]]
            binds = [(bytes([number]), number) for number, _ in enumerate(entries, 1)]
            made = [create(ROOT, entry).gives(number) for number, entry in enumerate(entries, 1)]
            found = [look_up(ROOT, entry).gives(number) for number, entry in enumerate(entries, 1)]
            absent = [look_up(ROOT, entry).fails(NOENT) for entry in (other, long[:-1], long + "n")]
            gone = [remove(ROOT, long).gives(), look_up(ROOT, long).fails(NOENT), list_names(ROOT).gives(short, True)]
            case = "a-name-of-%d-bytes-behind-%d-others" % (length, ahead)
            run(cases, case, "yes", *made, *found, *absent, list_names(ROOT).gives(entries, True), *gone, binds=binds)
            run(cases, case + "-is-no-other-name", "no: Illegal 14", *made, look_up(ROOT, other).gives(ahead + 1), binds=binds)
            run(cases, case + "-is-not-absent", "no: Illegal 14", *made, look_up(ROOT, long).fails(NOENT), binds=binds)
            run(cases, case + "-is-not-left-out", "no: Illegal 14", *made, list_names(ROOT).gives(short, True), binds=binds)


def handles(cases):
    """Two handles may name one object, and the root's handle names the root, whatever it is bound to."""
    binds = [*BINDS, (b"\xbb", F), (b"\xbc", ROOT), (b"\0", D)]
    run(cases, "two-handles-may-name-one-object", "yes", *SAMPLE, get_attributes(0xBB).gives(REG, 3), look_up(ROOT, "f").gives(0xBB),
        look_up(0xBC, "f").gives(F), look_up(D, "..").gives(0xBC), get_attributes(ROOT).gives(DIR, 0), binds=binds)
    run(cases, "a-second-handle-names-no-second-object", "no: Illegal 8", *SAMPLE, look_up(ROOT, "d").gives(0xBB), binds=binds)
    run(cases, "the-root-handle-is-not-bound-to-another", "no: Illegal 8", *SAMPLE, look_up(ROOT, "d").gives(ROOT), binds=binds)


def handle_lengths(cases):
    """A handle has 1 to 64 bytes (RFC 1813, section 2.3.3), and each byte of it counts."""
    for length in (1, 23, 24, 31, 32, 33, 63, 64):
        handle = bytes(range(1, length + 1))
        other = handle[:-1] + b"\xff"
        calls = create(ROOT, "h").gives(handle), get_attributes(handle).gives(REG, 0)
        run(cases, "a-made-file-with-a-handle-of-%d-bytes" % length, "yes", *calls, binds=[(handle, 1)])
        run(cases, "a-made-file-with-a-handle-of-%d-bytes-bound-to-another-object" % length, "no: Illegal 1", *calls, binds=[(handle, 2)])
        run(cases, "a-made-file-with-a-handle-of-%d-bytes-of-which-the-last-is-another" % length, "no: Illegal 1", *calls, binds=[(other, 1)])


def handle_numbers(cases):
    """A handle that is a number in eight bytes names what it is bound to, whether that is the object of this number or another one."""
    for number in (1, 2, 255, 256, 65_599, 65_600, 2**62, 2**64 - 1):
        handle = number.to_bytes(8, "big")
        calls = create(ROOT, "h").gives(handle), get_attributes(handle).gives(REG, 0)
        run(cases, "a-made-file-with-the-handle-%d" % number, "yes", *calls, binds=[(handle, 1)])
        if handle != handle[::-1]:
            run(cases, "a-made-file-with-the-handle-%d-of-which-the-bytes-are-bound-backwards" % number, "no: Illegal 1", *calls, binds=[(handle[::-1], 1)])
        if number > 1:
            run(cases, "a-made-file-with-the-handle-%d-bound-to-that-number" % number, "no: Illegal 1", *calls, binds=[(handle, number)])
    one, two = ((number).to_bytes(8, "big") for number in (1, 2))
    made = create(ROOT, "a").gives(one), make_directory(ROOT, "b").gives(two), get_attributes(one).gives(REG, 0), get_attributes(two).gives(DIR, 0)
    run(cases, "two-made-objects-whose-handles-are-their-numbers", "yes", *made, binds=[(one, 1), (two, 2)])
    run(cases, "two-made-objects-whose-handles-are-each-other's-numbers", "yes", create(ROOT, "a").gives(two), make_directory(ROOT, "b").gives(one),
        get_attributes(two).gives(REG, 0), get_attributes(one).gives(DIR, 0), binds=[(one, 2), (two, 1)])
    run(cases, "two-made-objects-whose-handles-are-bound-to-each-other's-numbers", "no: Illegal 1", *made, binds=[(one, 2), (two, 1)])


def many_calls(cases):
    """Each call is judged at its place and on what those ahead of it made, however many there are, and the first that can't have come out so is named."""
    for count in (31, 32, 33, 64, 65, 97):
        binds = [(number.to_bytes(8, "big"), number) for number in range(1, count + 1)]
        made = [create(ROOT, "%02d" % number).gives(handle) for handle, number in binds]
        case = "the-last-of-%d-calls" % count
        run(cases, case, "yes", *made, list_names(ROOT).gives(["%02d" % number for _, number in binds], True), binds=binds)
        run(cases, case + "-makes-no-name-that-is-there", "no: Illegal %d" % count, *made[:-1], create_guarded(ROOT, "01").gives(binds[0][0]), made[-1], binds=binds)
        run(cases, case + "-finds-what-the-one-ahead-of-it-made", "yes", *made[:-1], look_up(ROOT, "%02d" % (count - 1)).gives(binds[-2][0]), binds=binds)
        run(cases, case + "-finds-nothing-that-is-made-behind-it", "no: Illegal %d" % count, *made[:-1], look_up(ROOT, "%02d" % count).gives(binds[-1][0]),
            made[-1], binds=binds)


def texts(cases):
    allowed(cases, "a-link-has-its-text", read_link(L).gives(b"x/y"))
    illegal(cases, "a-link-has-no-other-text", read_link(L).gives(b"x/z"))
    illegal(cases, "a-file-has-no-text", read_link(F).gives(b"abc"))


def bytes_read(cases):
    allowed(cases, "a-read-gives-the-bytes-of-the-file", read(F, 0, 9).gives(b"abc", True), read(F, 1, 1).gives(b"b", False))
    illegal(cases, "a-read-gives-no-other-bytes", read(F, 1, 1).gives(b"a", False))
    illegal(cases, "a-read-gives-no-bytes-behind-the-file", read(F, 0, 9).gives(b"abcd", True))
    allowed(cases, "a-read-may-give-fewer-bytes", read(F, 0, 2).gives(b"ab", False), read(F, 0, 2).gives(b"a", False),
            read(F, 0, 9).gives(b"ab", False))
    illegal(cases, "a-read-gives-no-more-than-is-asked", read(F, 0, 2).gives(b"abc", True))
    illegal(cases, "the-count-of-a-read-is-that-of-its-data", read(F, 0, 9).gives(b"abc", True, told=2))
    allowed(cases, "an-empty-file-is-read", read(G, 0, 9).gives(b"", True))
    illegal(cases, "no-directory-is-read", read(D, 0, 9).gives(b"", True))
    illegal(cases, "no-link-is-read", read(L, 0, 9).gives(b"", True))
    illegal(cases, "nothing-is-read-at-a-handle-that-names-nothing", read(UNBOUND, 0, 9).gives(b"", True))


def ends(cases):
    illegal(cases, "the-end-is-told-where-it-is-reached", read(F, 1, 9).gives(b"bc", False))
    illegal(cases, "no-end-is-told-ahead-of-it", read(F, 0, 2).gives(b"ab", True))
    allowed(cases, "the-end-is-told-behind-the-last-byte", read(F, 3, 9).gives(b"", True), read(F, 100, 9).gives(b"", True),
            read(F, 0, 0).gives(b"", False))
    illegal(cases, "the-end-is-told-far-behind-it", read(F, 100, 9).gives(b"", False))


def lists(cases):
    allowed(cases, "a-whole-list-has-every-entry", list_names(ROOT).gives(["l", "f", "v", "e", "d"], True),
            list_names(ROOT).gives([".", "d", "e", "f", "l", "v"], True), list_names(D).gives(["g"], True))
    illegal(cases, "a-whole-list-leaves-no-entry-out", list_names(ROOT).gives(["d", "e", "f", "v"], True))
    allowed(cases, "a-part-of-a-list-may-leave-entries-out", list_names(ROOT).gives(["d", "f"], False),
            list_names(ROOT, 7).gives(["d", "f"], True))
    illegal(cases, "a-list-has-only-entries-of-its-directory", list_names(ROOT).gives(["d", "e", "f", "l", "v", "g"], True))
    illegal(cases, "a-list-has-no-name-twice", list_names(ROOT).gives(["d", "d"], False))
    illegal(cases, "no-file-is-listed", list_names(F).gives([], True))
    illegal(cases, "nothing-is-listed-at-a-handle-that-names-nothing", list_names(UNBOUND).gives([], True))
    allowed(cases, "both-dots-may-be-listed", list_names(ROOT).gives(["."], False), list_names(ROOT).gives([".."], False))
    illegal(cases, "three-dots-are-listed-only-where-they-are-there", list_names(ROOT).gives(["..."], False))
    illegal(cases, "no-empty-name-is-listed", list_names(ROOT).gives([""], False))


def lists_with_handles(cases):
    allowed(cases, "entries-may-be-listed-with-their-handles",
            list_entries(ROOT).gives([("d", D), ("e", E), ("f", F), ("l", None), ("v", V)], True),
            list_entries(ROOT).gives([(".", UNBOUND), ("..", F)], False))
    illegal(cases, "no-entry-is-listed-with-the-handle-of-another",
            list_entries(ROOT).gives([("d", D), ("e", E), ("f", D), ("l", L), ("v", V)], True))
    illegal(cases, "no-entry-is-listed-with-a-handle-that-names-nothing", list_entries(ROOT).gives([("d", UNBOUND)], False))
    illegal(cases, "a-dot-alone-is-no-whole-list", list_entries(ROOT).gives([(".", ROOT)], True))
    illegal(cases, "no-absent-name-is-listed-with-a-handle", list_entries(ROOT).gives([("x", F)], False))


def commits(cases):
    allowed(cases, "a-file-is-committed", commit(F).gives())
    illegal(cases, "no-directory-is-committed", commit(D).gives())
    illegal(cases, "no-link-is-committed", commit(L).gives())
    illegal(cases, "nothing-is-committed-at-a-handle-that-names-nothing", commit(UNBOUND).gives())
