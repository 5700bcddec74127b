"""What differs between a page and what it has to show."""
import collections

from .escapes import escaped, is_front
from .pages import STRIP, Page, Wrong
from .wanted import name_of, procedure_of, reply_of, shows_verifier

LABEL_BYTES, LISTED_BYTES, LINE_BYTES = 32, 160, 400
# How wide a character of a label is, in common fonts, and how high a bar.
CHARACTER, HEIGHT = 7.3, 18


def caption_faults(page: Page, sheet):
    wanted = escaped(sheet.caption.encode())
    if sheet.two and sheet.text is None:
        fault, explaining = marked(page, "fault"), marked(page, "explains")
        told = page.heading.removeprefix(wanted)
        if fault and explaining and told != f": calls {explaining[0]} and {fault[0]} got two write verifiers":
            yield f"the heading {page.heading!r}"
        if not told.endswith("got two write verifiers"):
            yield f"the heading {page.heading!r} doesn't tell of two write verifiers"
    elif page.heading != wanted:
        yield f"the heading {page.heading!r} for {wanted!r}"
    if page.title != page.heading:
        yield f"the title {page.title!r}"


def marked(page: Page, look: str) -> list:
    return [int(row.number) for row in page.rows if row.look == look]


def range_faults(page: Page, sheet):
    """The events that are drawn, and what is told of those that aren't."""
    if sheet.is_window_free:
        sheet.first, sheet.asked_last = page.first, page.asked_last or page.last
    told = page.first, page.last, page.events, page.asked_last, page.left_out
    first = None if sheet.last < sheet.first else sheet.first
    wanted = first, sheet.last, sheet.events, sheet.asked_last if sheet.last < sheet.asked_last else None, sheet.left_out()
    if told != wanted:
        yield f"events, and calls left out: {told} for {wanted}"


def row_faults(page: Page, sheet):
    drawn, places = sheet.drawn(), sheet.places()
    if [int(row.number) for row in page.rows] != drawn:
        yield f"rows of the calls {[row.number for row in page.rows]} for {drawn}"
        return
    for row, number in zip(page.rows, drawn):
        call = sheet.history.calls[number - 1]
        place, is_lost = places.get(number, ("", False))
        told = row.lane, row.events, row.procedure, row.reply, row.place
        wanted = (str(call.lane), str(call.begin) if call.end is None else f"{call.begin} to {call.end}", procedure_of(call),
                  reply_of(call, call.end and sheet.messages[call.end - 1]), f"{place}, lost" if is_lost else str(place))
        if told != wanted:
            yield f"row {number}: {told} for {wanted}"
        if not is_front(row.name, name_of(call), LISTED_BYTES):
            yield f"row {number}: the name {row.name!r} for {name_of(call)[:200]!r}"


def mark_faults(page: Page, sheet):
    calls, drawn = sheet.history.calls, set(sheet.drawn())
    fault, explaining, asked = (marked(page, look) for look in ("fault", "explains", "asked"))
    if sheet.two:
        both = [calls[number - 1] for number in explaining + fault]
        if len(both) == 2 and not (all(map(shows_verifier, both)) and both[0].era == both[1].era and
                                   both[0].result[1]["verifier"] != both[1].result[1]["verifier"] and explaining < fault):
            yield f"calls {explaining} and {fault} got no two write verifiers"
        if sheet.is_window_free and len(fault) != 1:
            yield f"{fault} at fault, for one of two calls with two write verifiers"
        return
    wanted = {sheet.fault: "fault"}
    wanted.setdefault(sheet.explaining, "explains")
    wanted.setdefault(sheet.asked, "asked")
    for look, told in (("fault", fault), ("explains", explaining), ("asked", asked)):
        if told != [number for number, mark in wanted.items() if mark == look and number in drawn]:
            yield f"calls {told} look {look}: wanted are {wanted}"


def bars_of(page: Page):
    """The bars of each call, strip by strip."""
    by_number = collections.defaultdict(dict)
    for at, (bars, _, _) in enumerate(page.strips):
        for bar in bars:
            if at in by_number[bar.number]:
                raise Wrong(f"call {bar.number} twice in strip {at}")
            by_number[bar.number][at] = bar
    return by_number


def bar_faults(page: Page, sheet, words):
    """Each call that is drawn, in each strip that it reaches into; it stands and looks the same in all of them. `words` are the lines of `show` by events."""
    by_number, places = bars_of(page), sheet.places()
    if sorted(by_number) != sheet.drawn():
        yield f"bars of the calls {sorted(by_number)} for {sheet.drawn()}"
        return
    looks = {int(row.number): row.look for row in page.rows}
    for number, bars in by_number.items():
        call, one = sheet.history.calls[number - 1], next(iter(bars.values()))
        if len({bar.stand for bar in bars.values()}) > 1:
            yield f"call {number} stands at {[bar.stand for bar in bars.values()]}"
        inside = all(event is not None and sheet.first <= event <= sheet.last for event in (call.begin, call.end))
        kind = "unanswered" if call.end is None else "bar" if inside else "cut"
        place, is_lost = places.get(number, ("", False))
        if (one.look, one.kind, one.is_lost) != (looks[number], kind, is_lost):
            yield f"call {number} looks {one.look} {one.kind} {one.is_lost} for {looks[number]} {kind} {is_lost}"
        yield from label_faults(page, number, call, bars, place)
        yield from word_faults(number, call, bars, words)
        reached = reached_strips(page, one.left, one.right)
        if not reached <= set(bars):
            yield f"call {number} isn't in the strips {sorted(reached - set(bars))}"


def reached_strips(page: Page, left, right) -> set:
    return {at for at in range(len(page.strips)) if STRIP * at <= right and left < STRIP * (at + 1)}


def label_end(bar):
    return bar.label_left + CHARACTER * len(bar.label)


def label_faults(page: Page, number, call, bars, place):
    """A label stands in its bar, or behind it, in each strip that it reaches into."""
    labels = {(bar.label, bar.label_left, bar.label_foot, bar.place) for bar in bars.values() if bar.label is not None}
    if len(labels) != 1:
        yield f"call {number} has the labels {sorted(labels)}"
        return
    label, _, foot, told = next(iter(labels))
    bar = next(it for it in bars.values() if it.label is not None)
    if not (bar.left < bar.label_left and label_end(bar) <= bar.right or bar.right < bar.label_left) or not bar.top < foot < bar.top + HEIGHT:
        yield f"call {number} has its label at {bar.label_left}, {foot}, and stands at {bar.left} to {bar.right}, {bar.top}"
    missing = reached_strips(page, bar.label_left, label_end(bar)) - {at for at, it in bars.items() if it.label is not None}
    if missing:
        yield f"call {number} has no label in the strips {sorted(missing)}"
    front = f"{place} " if place else ""
    if told != str(place) or not label.startswith(f"{front}{procedure_of(call)} "):
        yield f"call {number} has the label {label!r}"
    elif not is_front(label[len(f"{front}{procedure_of(call)} "):], name_of(call), LABEL_BYTES):
        yield f"call {number} has the label {label!r} for {name_of(call)[:80]!r}"


def word_faults(number, call, bars, words):
    """Where it begins, a bar tells the lines of `show`; further on its number."""
    begun = [bar for bar in bars.values() if bar.is_begun]
    if len(begun) != 1 or begun[0] is not bars[min(bars)]:
        yield f"call {number} tells its words in {len(begun)} strips"
        return
    asked, _, answered = begun[0].words.partition("\n")
    for told, event in ((asked, call.begin), (answered, call.end)):
        line = words.get(event, b"") if event is not None else b""
        if not is_front(told, line, LINE_BYTES):
            yield f"call {number} tells {told!r} for {line[:LINE_BYTES]!r}"


def layout_faults(page: Page, sheet):
    """Events stand from left to right in their order; bars and labels of a row don't overlap."""
    columns = collections.defaultdict(set)
    for _, crashes, ticks in page.strips:
        for event, x in [*crashes.items(), *ticks.items()]:
            columns[event].add(x)
    by_number = bars_of(page)
    rows = collections.defaultdict(list)
    for number, bars in by_number.items():
        call, bar = sheet.history.calls[number - 1], next(iter(bars.values()))
        if sheet.first <= call.begin:
            columns[call.begin].add(bar.left)
        end = sheet.over_at(call)
        if end is not None and end <= sheet.last:
            columns[end].add(bar.right)
        label = next((it for it in bars.values() if it.label is not None), bar)
        rows[bar.top].append((bar.left, bar.right, number))
        if label.label is not None and not bar.left <= label.label_left < bar.right:
            rows[bar.top].append((label.label_left, label_end(label), number))
    if any(len(it) > 1 for it in columns.values()):
        yield f"events at two places: {[event for event, it in columns.items() if len(it) > 1][:5]}"
    in_order = [min(columns[event]) for event in sorted(columns)]
    if any(one >= other for one, other in zip(in_order, in_order[1:])):
        yield "events aren't in their order"
    for crash in sheet.crashes:
        if sheet.first <= crash <= sheet.last and not any(crash in crashes for _, crashes, _ in page.strips):
            yield f"no crash at event {crash}"
    for top, stretches in rows.items():
        for one, other in zip(sorted(stretches), sorted(stretches)[1:]):
            if one[1] > other[0] and one[2] != other[2]:
                yield f"calls {one[2]} and {other[2]} overlap at {top}: {one[:2]} and {other[:2]}"


def lane_faults(page: Page, sheet):
    lanes = sorted({sheet.history.calls[number - 1].lane for number in sheet.drawn()})
    if page.lanes != [f"lane {lane}" for lane in lanes]:
        yield f"the lanes {page.lanes} for {lanes}"


def faults_of(data: bytes, sheet, words: dict) -> list:
    """What is wrong with a page, or nothing."""
    try:
        page = Page(data)
        faults = [*range_faults(page, sheet)]
        if faults:
            return faults
        for part in (caption_faults, row_faults, mark_faults, lane_faults):
            faults += part(page, sheet)
        return faults or [*bar_faults(page, sheet, words), *layout_faults(page, sheet)]
    except Wrong as wrong:
        return [str(wrong)]
