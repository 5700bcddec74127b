"""Which page, or which line, `nfsbench draw` has to print. By docs/COMMANDS.md and the rules of `differ`."""
from differ import layouts as nfs
from differ.certificates import read_certificate
from differ.histories import CRASH, read_file, read_history
from differ.refusals import Refused
from differ.verdicts import judge

MOST, MARGIN, REACH = 2_000, 12, 100
# So many bytes at the end of a handle are told.
HANDLE_BYTES = 8
# Faults that say that a certificate is no plan of the history's calls.
NO_PLAN = {"WrongEras", "Unknown", "WrongEra", "Twice", "NotToPlace", "Missing", "BadCut"}
REFUSALS = {1: "PROG_UNAVAIL", 2: "PROG_MISMATCH", 3: "PROC_UNAVAIL", 4: "GARBAGE_ARGS", 5: "SYSTEM_ERR"}


class Line:
    """A line in place of a page."""

    def __init__(self, line: str, status: int):
        self.line, self.status = line, status


class Sheet:
    """What a page shows. `fault` and `explaining` are calls; `two` says that both are any two calls of an era that got two write verifiers."""

    status = 0

    def __init__(self, history, crashes: list, events: int, text):
        self.history, self.crashes, self.events, self.text = history, crashes, events, text
        self.caption, self.fault, self.explaining, self.two, self.asked = "", None, None, False, None
        self.first, self.asked_last, self.is_late = 1, events, False

    @property
    def last(self) -> int:
        return min(self.asked_last, self.first + MOST - 1)

    def around(self, first: int, last: int) -> None:
        self.first, self.asked_last = max(1, first - MARGIN), min(self.events, last + MARGIN)

    def around_call(self, number: int, explaining=None) -> None:
        call = self.history.calls[number - 1]
        begin = call.begin
        if explaining is not None and call.begin - self.history.calls[explaining - 1].begin <= REACH:
            begin = self.history.calls[explaining - 1].begin
        self.around(begin, call.end or call.begin)

    def over_at(self, call):
        """The event of the reply, or of the crash that ends the call's era; None where it is under way at the history's end."""
        if call.end is not None:
            return call.end
        return self.crashes[call.era - 1] if call.era <= len(self.crashes) else None

    def is_drawn(self, call) -> bool:
        return any(event is not None and self.first <= event <= self.last for event in (call.begin, self.over_at(call)))

    def drawn(self) -> list:
        return [number for number, call in enumerate(self.history.calls, 1) if self.is_drawn(call)]

    def left_out(self) -> int:
        """Calls that began ahead of the first event, and that neither a reply nor a crash ended up to the last one."""
        ends = [(call.begin, self.over_at(call)) for call in self.history.calls]
        return sum(begin < self.first and (end is None or end > self.last) for begin, end in ends)

    def places(self) -> dict:
        """The place of each call that has one, and whether a crash took it away."""
        places = {}
        for era in self.text.eras if self.text else []:
            for at, place in enumerate(era.places):
                places[place.number] = len(places) + 1, era.cut is not None and at >= era.cut
        return places


def procedure_of(call) -> str:
    if (call.head["program"], call.head["version"]) != (nfs.PROGRAM, nfs.VERSION) or call.procedure >= len(nfs.NAMES):
        return "no procedure of NFS 3"
    return nfs.NAMES[call.procedure]


def name_of(call) -> bytes:
    """The name that a judged call asks for, both of a RENAME, or its handle."""
    if not call.is_judged:
        return b""
    if call.procedure == nfs.RENAME:
        return call.arguments["name"] + b" to " + call.arguments["to_name"]
    if "name" in call.arguments:
        return call.arguments["name"]
    handle = call.arguments.get("object", call.arguments.get("dir"))
    return b"handle " + (b".." if len(handle) > HANDLE_BYTES else b"") + handle[-HANDLE_BYTES:].hex().encode()


def reply_of(call, message) -> str:
    if call.end is None:
        return "no reply"
    result = call.reply["result"]
    if result is None:
        return refusal_of(message)
    status = int.from_bytes(result[:4], "big")
    has_status = procedure_of(call) not in ("NULL", "no procedure of NFS 3") and len(result) >= 4 and status in nfs.STATUS_NAMES
    return "SUCCESS" if not has_status else "NFS3_OK" if status == 0 else f"NFS3ERR_{nfs.STATUS_NAMES[status]}"


def refusal_of(message: bytes) -> str:
    words = [int.from_bytes(message[at:at + 4], "big") for at in range(0, len(message), 4)]
    if words[2] == 1:
        return "RPC_MISMATCH" if words[3] == 0 else "AUTH_ERROR"
    return REFUSALS[words[5 + (words[4] + 3) // 4]]


def two_verifiers(history):
    """The first era in which WRITEs and COMMITs got two write verifiers."""
    for era in range(1, history.eras + 1):
        shown = {call.result[1]["verifier"] for call in history.calls if call.era == era and shows_verifier(call)}
        if len(shown) > 1:
            return era
    return None


def shows_verifier(call) -> bool:
    return call.is_judged and call.has_success and call.procedure in (nfs.WRITE, nfs.COMMIT)


def put_fault(sheet: Sheet, line: str) -> None:
    """What a line of `check` names."""
    _, name, *values = line.split(" ")
    values = [int(it) for it in values]
    if name in ("Illegal", "Early"):
        sheet.fault, sheet.explaining = values[0], values[1] if name == "Early" else None
        sheet.around_call(*values)
    elif name == "ShortCut":
        sheet.fault = sheet.text.eras[values[0] - 1].places[values[1] - 1].number
        sheet.around_call(sheet.fault)
    elif two_verifiers(sheet.history) == values[0]:
        sheet.two = True
    else:
        sheet.around(*[sheet.crashes[values[0] - 1]] * 2)


def put_wish(sheet: Sheet, wish: dict):
    """The events that options ask for; a line where they aren't there."""
    if "call" in wish:
        if wish["call"] > len(sheet.history.calls):
            return Line(f"refused: no call {wish['call']}", 2)
        sheet.asked = wish["call"]
        sheet.around_call(wish["call"])
        return None
    first, last = wish.get("from", 1), wish.get("to")
    for event in (first, last):
        if event is not None and event > sheet.events:
            return Line(f"refused: no event {event}", 2)
    if last is not None and last < first:
        return Line("refused: the last event is ahead of the first", 2)
    sheet.first, sheet.asked_last = first, sheet.events if last is None else last
    return None


def wanted(path: str, history_file: bytes, text, wish: dict):
    """Of a history, a certificate's text or None, and options: {}, {"call": N}, or "from" and "to"."""
    try:
        history = read_history(history_file)
    except Refused as refusal:
        return Line(f"refused: {refusal}", 2)
    _, events = read_file(history_file)
    crashes = [number for number, event in enumerate(events, 1) if event[0] == CRASH]
    line = None
    if text is not None:
        verdict = judge(history_file, text)
        line = verdict.line
        if verdict.status == 2 or verdict.name in NO_PLAN:
            return Line(line, verdict.status)
    sheet = Sheet(history, crashes, len(events), None if text is None else read_certificate(text))
    sheet.messages = [event[2] for event in events]
    sheet.caption = path if line is None else f"{path}: {line}"
    if line is None:
        sheet.two = two_verifiers(history) is not None
    elif line != "yes":
        put_fault(sheet, line)
    sheet.is_window_free = sheet.two and not wish
    return (put_wish(sheet, wish) if wish else None) or sheet
