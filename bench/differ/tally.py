"""What was reached: how often each answer was wanted, which failures were permitted, which attributes were judged, of which kind histories were and
how many crashes they had."""
from collections import Counter

from . import layouts as nfs
from .failure import EXCUSED_STATUSES
from .strict import ANSWER, ENTRY, FIRST, FOUND_OR_MADE, SECOND
from .verdicts import FIRST_VERSION, PLAIN_START, STRICT, Verdict

PLAN_FAULTS = ["WrongEras", "Unknown", "WrongEra", "Twice", "NotToPlace", "Missing", "BadCut", "Early", "Illegal", "ShortCut", "Verifier"]
HISTORY_FAULTS = ["BadMagic", "TooLarge", "Truncated", "BadEvent", "BadStart", "BadProfile", "Trailing", "LaneClosed", "BadRpc", "XidInUse", "NoSuchCall",
                  "Sealed", "BadArgs", "BadResult", "Outside Link", "Outside Node", "Outside CountDiffers", "Outside TooFar"]
ANSWERS = ["yes", *PLAN_FAULTS, *HISTORY_FAULTS, "BadLine"]
CRASHES = ["0", "1", "2", "3+"]
KINDS = [FIRST_VERSION, PLAIN_START, STRICT]

NAMED = [nfs.LOOKUP, nfs.CREATE, nfs.MKDIR, nfs.SYMLINK, nfs.REMOVE, nfs.RMDIR, nfs.RENAME]
LISTS = [nfs.READDIR, nfs.READDIRPLUS]
PERMITTED_SOMEWHERE = {
    "STALE": nfs.JUDGED, "BADHANDLE": nfs.JUDGED, "NOTDIR": NAMED + LISTS, "ISDIR": NAMED + [nfs.READ, nfs.WRITE, nfs.COMMIT, nfs.SETATTR],
    "NOENT": NAMED, "EXIST": NAMED, "NOTEMPTY": NAMED, "NOT_SYNC": [nfs.SETATTR], "BAD_COOKIE": LISTS, "TOOSMALL": LISTS,
    **{nfs.STATUS_NAMES[status]: nfs.JUDGED for status in EXCUSED_STATUSES},
}


def spots_of(procedure: int) -> list:
    """Success or not, whose, and of before the call or after it: the attributes that a reply of the procedure may carry and that can be wrong.

    A size of before the call can be wrong of a file alone: RENAME's second directory may be one where the RENAME failed.
    """
    after = [(has_success, FIRST, False) for has_success in (False, True)]
    if procedure == nfs.GETATTR:
        return []
    if procedure in FOUND_OR_MADE:
        after.append((True, ANSWER, False))
    if procedure == nfs.READDIRPLUS:
        after.append((True, ENTRY, False))
    if procedure == nfs.RENAME:
        after += [(has_success, SECOND, False) for has_success in (False, True)] + [(False, SECOND, True)]
    if "weak" in nfs.FAILURES[procedure].fields:
        after.append((False, FIRST, True))
    if procedure in (nfs.SETATTR, nfs.WRITE, nfs.COMMIT):
        after.append((True, FIRST, True))
    return after


def spot_words(procedure: int, has_success: bool, role: str, is_before: bool) -> str:
    return f"{nfs.NAMES[procedure]} {'OK' if has_success else 'failed'} {role}{' before' if is_before else ''}"


class Tally:
    def __init__(self):
        self.answers, self.failures, self.crashes, self.kinds, self.attributes = Counter(), Counter(), Counter(), Counter(), Counter()

    def note(self, wanted: Verdict) -> None:
        self.answers[wanted.name] += 1
        self.failures.update(wanted.failures)
        self.attributes.update(wanted.attributes)
        if wanted.kind is not None:
            self.kinds[wanted.kind, wanted.name] += 1
        if wanted.crashes is not None:
            self.crashes[CRASHES[min(wanted.crashes, 3)]] += 1

    def add(self, other: "Tally") -> None:
        self.answers += other.answers
        self.failures += other.failures
        self.crashes += other.crashes
        self.kinds += other.kinds
        self.attributes += other.attributes

    def missed(self) -> list:
        return [name for name in ANSWERS if not self.answers[name]]

    def missed_failures(self) -> list:
        return [f"{nfs.NAMES[procedure]} {name}" for name, procedures in PERMITTED_SOMEWHERE.items() for procedure in sorted(procedures)
                if not self.failures[procedure, nfs.STATUSES[name]]]

    def missed_attributes(self) -> list:
        """Those that were never judged, or never wrong."""
        return [f"{spot_words(procedure, *spot)} {'right' if is_right else 'wrong'}" for procedure in sorted(nfs.JUDGED) for spot in spots_of(procedure)
                for is_right in (True, False) if not self.attributes[(procedure, *spot, is_right)]]

    def kind_lines(self) -> list:
        return [f"  {kind:22} " + ", ".join(f"{name} {self.kinds[kind, name]}" for name in ["yes", *PLAN_FAULTS]) for kind in KINDS]

    def lines(self) -> list:
        lines = ["answers wanted:"]
        lines += [f"  {name:22} {self.answers[name]}" for name in ANSWERS]
        lines += ["crashes in a history that isn't refused:", *(f"  {name:22} {self.crashes[name]}" for name in CRASHES)]
        lines += ["answers to histories that aren't refused, by their kinds:", *self.kind_lines()]
        lines += ["failures that a run permitted:"]
        for status, name in nfs.STATUS_NAMES.items():
            of_status = [(procedure, count) for (procedure, number), count in sorted(self.failures.items()) if number == status]
            if of_status:
                lines.append(f"  {name:12} " + ", ".join(f"{nfs.NAMES[procedure]} {count}" for procedure, count in of_status))
        never = self.missed_failures()
        lines.append(f"failures that can be permitted and never were: {', '.join(never) if never else 'none'}")
        never = self.missed_attributes()
        lines.append(f"attributes that were never judged so: {', '.join(never) if never else 'none'}")
        return lines
