"""The line and the status that `nfsbench check` has to give of a history and a certificate."""
from .certificates import read_certificate
from .histories import read_history
from .plans import Fault, Notes, check_cuts, check_order, check_run, check_shape, check_verifiers
from .refusals import Refused

CHECKS = [check_shape, check_order, check_run, check_cuts, check_verifiers]


# Kinds of histories.
FIRST_VERSION, PLAIN_START, STRICT = "version 1", "version 2, plain", "version 2, strict"


class Verdict:
    """`failures` are procedure and status of each failure that the run permitted, `attributes` procedure, whether it succeeded, whose they are, whether of
    before the call, and whether they are right, of each attributes that were judged; kind and crashes are None where the history is refused."""

    def __init__(self, line: str, status: int, kind=None, crashes=None, seen=None):
        self.line, self.status, self.kind, self.crashes = line, status, kind, crashes
        self.failures, self.attributes = (seen.failures, seen.judged) if seen else ([], [])

    @property
    def name(self) -> str:
        """The answer without its numbers."""
        words = self.line.split(" ")
        if words[0] == "yes":
            return "yes"
        return " ".join([words[1], words[3]] if words[1] == "Outside" else words[1:2])


class Seen(Notes):
    def __init__(self):
        self.failures, self.judged = [], []

    def call(self, call) -> None:
        if call.result is not None and call.result[0] != 0:
            self.failures.append((call.procedure, call.result[0]))

    def attributes(self, call, spot, is_right) -> None:
        self.judged.append((call.procedure, call.has_success, spot.role, spot.is_before, is_right))


def kind_of(head) -> str:
    if head.is_strict:
        return STRICT
    return PLAIN_START if head.has_start else FIRST_VERSION


def judge(history_file: bytes, certificate_file: bytes) -> Verdict:
    try:
        history = read_history(history_file)
        text = read_certificate(certificate_file)
    except Refused as refusal:
        return Verdict(f"refused: {refusal}", 2)
    seen, kind, crashes = Seen(), kind_of(history.head), history.eras - 1
    try:
        for check in CHECKS:
            check(history, text, seen) if check is check_run else check(history, text)
    except Fault as fault:
        return Verdict(f"no: {fault}", 1, kind, crashes, seen)
    return Verdict("yes", 0, kind, crashes, seen)
