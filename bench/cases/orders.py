"""Certificates' lines, and plans with faults of their shape and their order (docs/FORMATS.md)."""
from cases.calls import make_directory, read, write
from cases.faults import BINDS, CREATE_ANSWERED, CREATE_SENT, EXAMPLE, FILE, answered, sent
from cases.history import CRASH_EVENT, certificate, close_event, history_file
from cases.xdr import IO, UNSTABLE

# A READ whose failure leaves open what is there, and a call that may be taken in any tree without its directory.
READ, MAKE = read(FILE, 0, 1).fails(IO), make_directory(0, "m")


def add_all(cases):
    lines(cases)
    lines_of_eras(cases)
    shapes(cases)
    taken_writes(cases)
    early_places(cases)
    eras(cases)
    no_bundles(cases)


def lines(cases):
    def bad(case, line, text):
        cases.judge(case, "refused: BadLine %d" % line, history_file([]), text)

    bad("a-certificate-of-no-lines", 1, "")
    bad("a-certificate-of-another-version", 1, "witness 2\nend\n")
    bad("upper-case-digits-of-a-handle", 2, "witness 1\nbind AA 1\nend\n")
    bad("a-carriage-return", 2, "witness 1\nbind aa 1\r\nend\n")
    bad("two-spaces", 2, "witness 1\nbind aa  1\nend\n")
    bad("a-handle-bound-twice", 3, "witness 1\nbind aa 1\nbind aa 2\nend\n")
    bad("binds-that-fall", 3, "witness 1\nbind ab 1\nbind aa 2\nend\n")
    bad("a-number-with-a-leading-zero", 2, "witness 1\nplace 01\nend\n")
    bad("a-number-over-its-limit", 2, "witness 1\nplace 18446744073709551616\nend\n")
    bad("a-bind-behind-a-place", 3, "witness 1\nplace 1\nbind aa 1\nend\n")
    bad("a-second-end", 4, "witness 1\nplace 1\nend\nend\n")
    cases.judge("a-leading-zero-in-a-whole-certificate", "refused: BadLine 3", EXAMPLE,
                "witness 1\nbind aa 1\nplace 01\nplace 2\nplace 3\nend\n")
    # The history's faults come ahead of those of the text.
    cases.judge("a-bad-history-and-a-bad-certificate", "refused: BadMagic", b"NFSHIST", "witness 2\nend\n")


def lines_of_eras(cases):
    def bad(case, line, text):
        cases.judge(case, "refused: BadLine %d" % line, history_file([]), text)

    bad("no-end-behind-a-cut", 4, "witness 1\nplace 1\ncut 1\n")
    bad("a-cut-over-its-limit", 2, "witness 1\ncut 18446744073709551616\nend\n")
    bad("a-cut-without-a-number", 2, "witness 1\ncut\nend\n")
    bad("a-count-over-its-limit", 2, "witness 1\ntake 1 4294967296\nend\n")
    bad("a-space-without-a-count", 2, "witness 1\ntake 1 \nend\n")
    bad("two-counts", 2, "witness 1\ntake 1 2 3\nend\n")
    bad("a-taken-number-with-a-leading-zero", 2, "witness 1\ntake 01\nend\n")
    bad("a-taken-number-over-its-limit", 2, "witness 1\ntake 18446744073709551616 1\nend\n")
    bad("a-bind-behind-a-taken-call", 3, "witness 1\ntake 1\nbind aa 1\nend\n")
    bad("a-bind-behind-a-cut", 3, "witness 1\ncut 0\nbind aa 1\nend\n")
    bad("a-first-line-behind-a-cut", 3, "witness 1\ncut 0\nwitness 1\nend\n")
    cases.judge("the-largest-numbers", "no: Unknown 18446744073709551615", history_file([CRASH_EVENT]),
                "witness 1\nbind ff 18446744073709551615\ntake 18446744073709551615 4294967295\ncut 18446744073709551615\nend\n")


def of_places(first, *rest):
    """The lines of eras, the first with its places' numbers and its cut, then the places of those behind it."""
    places, cut = first
    return ["place %d" % n for n in places] + ["cut %d" % cut] + ["place %d" % n for n in rest]


def shapes(cases):
    """Of two faults of the shape that compete the one that is named."""
    # Calls 1 and 2 overlap; behind a crash a WRITE is sent.
    file = history_file([sent(1, 1, READ), sent(2, 2, READ), answered(2, 2, READ), answered(1, 1, READ), CRASH_EVENT,
                         sent(3, 3, write(FILE, 0, b"ab", UNSTABLE))])

    def shape(case, answer, *places):
        cases.judge(case, answer, file, certificate(of_places(*places)))

    shape("a-number-of-no-call-ahead-of-another-era", "no: Unknown 9", ([3, 1], 0), 9)
    shape("a-call-of-another-era-ahead-of-one-placed-twice", "no: WrongEra 3", ([1, 1, 3], 0))
    shape("a-call-placed-twice-ahead-of-one-not-to-place", "no: Twice 2", ([1, 2, 2, 1], 0), 3)
    shape("a-call-not-to-place-ahead-of-a-missing-one", "no: NotToPlace 3", ([1], 0), 3)
    shape("a-missing-call-ahead-of-a-bad-cut", "no: Missing 2", ([1], 2))
    shape("a-cut-of-more-places-than-there-are", "no: BadCut 1", ([2, 1], 3))
    shape("calls-that-overlap-in-any-order", "yes", ([2, 1], 2))
    cases.judge("another-number-of-eras-ahead-of-a-number-of-no-call", "no: WrongEras",
                history_file([CRASH_EVENT, sent(1, 1, write(FILE, 0, b"ab"))]), certificate(["place 9"]))
    cases.judge("an-answered-call-is-not-taken", "no: NotToPlace 1", file, certificate(["take 1", "place 2", "cut 0"]))


def taken_writes(cases):
    """An unanswered WRITE of two bytes, behind a crash."""
    file = history_file([CREATE_SENT, CREATE_ANSWERED, CRASH_EVENT, sent(2, 2, write(FILE, 0, b"ab"))])
    for case, answer, words in (("none-of-its-bytes", "yes", "take 2 0"), ("all-of-its-bytes", "yes", "take 2 2"),
                                ("more-than-its-bytes", "no: NotToPlace 2", "take 2 3"), ("no-count", "no: NotToPlace 2", "take 2")):
        cases.judge("a-write-taken-with-" + case, answer, file, certificate(["place 1", "cut 1", words], BINDS))


def early_places(cases):
    """Call 1 overlaps all others; 2, 3 and 4 come one after another, then 5 is sent and gets no reply."""
    file = history_file([sent(1, 1, READ), sent(2, 2, READ), answered(2, 2, READ), sent(3, 3, READ), answered(3, 3, READ), sent(4, 4, READ),
                         answered(4, 4, READ), sent(5, 5, MAKE), close_event(6), answered(1, 1, READ)])

    def order(case, answer, *numbers):
        cases.judge(case, answer, file, certificate(["take 5" if n == 5 else "place %d" % n for n in numbers]))

    order("an-overlapping-call-between", "yes", 2, 1, 3, 4, 5)
    order("an-overlapping-call-at-the-end", "yes", 2, 3, 4, 5, 1)
    order("an-overlapping-call-in-front", "yes", 1, 2, 3, 4, 5)
    order("a-taken-call-too-early", "no: Early 5 2", 5, 2, 1, 3, 4)
    order("the-call-that-began-last-is-named", "no: Early 4 2", 1, 3, 4, 2, 5)
    order("the-first-place-that-is-too-late-is-named", "no: Early 4 3", 1, 4, 3, 2, 5)
    order("the-first-of-two-early-pairs", "no: Early 3 2", 3, 2, 4, 1, 5)


def eras(cases):
    """Each call belongs to the era in which it was sent."""

    def era(case, events, right, wrong, fault):
        cases.judge(case, "yes", history_file(events), certificate(right))
        cases.judge(case + "-and-in-no-other", fault, history_file(events), certificate(wrong))

    one, two = sent(1, 1, MAKE), sent(2, 2, MAKE)
    whole = [sent(1, 1, READ), answered(1, 1, READ)]
    era("one-era-without-a-crash", [], [], ["cut 0"], "no: WrongEras")
    era("a-call-behind-a-crash", [CRASH_EVENT, *whole], ["cut 0", "place 1"], ["place 1", "cut 0"], "no: WrongEra 1")
    era("a-call-ahead-of-a-crash", [*whole, CRASH_EVENT], ["place 1", "cut 0"], ["cut 0", "place 1"], "no: WrongEra 1")
    era("a-call-behind-two-crashes", [CRASH_EVENT, CRASH_EVENT, one], ["cut 0", "cut 0", "take 1"], ["cut 0", "take 1", "cut 0"],
        "no: WrongEra 1")
    era("calls-ahead-of-two-crashes-and-behind", [one, CRASH_EVENT, CRASH_EVENT, two], ["take 1", "cut 0", "cut 0", "take 2"],
        ["take 1", "cut 0", "take 2", "cut 0"], "no: WrongEra 2")
    era("calls-on-both-sides-of-a-crash", [one, CRASH_EVENT, sent(2, 2, READ), answered(2, 2, READ)], ["take 1", "cut 1", "place 2"],
        ["take 1", "place 2", "cut 1"], "no: WrongEra 2")
    era("a-call-behind-a-closed-lane-and-a-crash", [close_event(1), CRASH_EVENT, two], ["cut 0", "take 1"], ["take 1", "cut 0"],
        "no: WrongEra 1")


def no_bundles(cases):
    """First lines that are no bytes in lower case hex."""
    for case, line in (("upper-case", EXAMPLE.hex().upper()), ("an-odd-number-of-digits", "4e4"), ("a-space", "4e 6"), ("no-digit", "4g")):
        cases.judge_line("a-history-in-hex-with-" + case, "refused: bad bundle", line, "witness 1\nend\n")
