"""A page of `nfsbench draw` as an XML parser reads it."""
import re
import xml.etree.ElementTree as ElementTree

STRIP = 1_104
MARKS = {"": "plain", "asked for": "asked", "at fault": "fault", "explains it": "explains"}
BEGUN = re.compile(r"\d+ call (\d+) lane ")
AGAIN = re.compile(r"call (\d+)")
CRASH = re.compile(r"crash, event (\d+)")
RANGE = re.compile(r"Events (?:(\d+) to )?(\d+) of (\d+)(?:\. A picture has at most 2,000 events: not drawn are those up to (\d+))?"
                   r"(?:\. Calls that were under way all the time, and aren't drawn: (\d+))?\.")
OUTLINE = re.compile(r"M(\d+) (\d+)H(\d+)V(\d+)H(\d+)")


class Wrong(Exception):
    """What a page has that it shouldn't."""


class Bar:
    """A call in one strip: how it looks, from where to where it stands, what it tells when it is pointed at, and its label."""

    def __init__(self, group):
        self.look, self.words = group.get("class"), group.find("title").text or ""
        self.is_begun = BEGUN.match(self.words) is not None
        found = BEGUN.match(self.words) or AGAIN.fullmatch(self.words)
        if found is None:
            raise Wrong(f"a bar that tells {self.words[:60]!r}")
        self.number, self.is_lost = int(found[1]), False
        self.kind = self.left = self.right = self.top = None
        self.label, self.label_left, self.label_foot, self.place = None, None, None, ""
        for part in list(group)[1:]:
            self.take(part)

    def take(self, part) -> None:
        if part.tag == "rect" and part.get("class") == "lost":
            self.is_lost = True
        elif part.tag == "rect":
            self.kind, self.left, self.top = part.get("class"), int(part.get("x")), int(part.get("y"))
            self.right = self.left + int(part.get("width"))
        elif part.tag == "path":
            free, top, closed, _, again = (int(it) for it in OUTLINE.fullmatch(part.get("d")).groups())
            if free != again:
                raise Wrong(f"the outline {part.get('d')}")
            self.kind, self.left, self.right, self.top = part.get("class"), min(free, closed), max(free, closed), top
        elif part.tag == "text":
            places = part.findall("tspan")
            self.place = places[0].text if places else ""
            self.label, self.label_left, self.label_foot = "".join(part.itertext()), int(part.get("x")), int(part.get("y"))
        else:
            raise Wrong(f"a {part.tag} in a bar")

    @property
    def stand(self):
        return self.look, self.kind, self.left, self.right, self.top, self.is_lost


class Row:
    """A call in the table."""

    def __init__(self, row):
        self.look = row.get("class")
        self.number, self.lane, self.events, self.procedure, self.name, self.reply, self.place, self.mark = ("".join(it.itertext()) for it in row.findall("td"))
        if MARKS.get(self.mark) != self.look:
            raise Wrong(f"call {self.number} is marked {self.mark!r} and looks {self.look}")


class Page:
    def __init__(self, data: bytes):
        root = ElementTree.fromstring(data)
        body = root.find("body")
        self.title, self.heading = root.find("head/title").text or "", body.find("h1").text or ""
        words = [RANGE.fullmatch(it.text or "") for it in body.findall("p")]
        found = [it for it in words if it]
        if len(found) != 1:
            raise Wrong("not one line of the events that are drawn")
        first, last, events, asked, left_out = found[0].groups()
        self.last, self.events = int(last), int(events)
        self.first = None if first is None else int(first)
        self.asked_last, self.left_out = None if asked is None else int(asked), int(left_out or 0)
        self.rows = [Row(it) for it in body.findall("table/tbody/tr")]
        strips = [it for it in body.findall("div/svg") if it.get("class") == "strip"]
        self.lanes = ["".join(it.itertext()) for it in body.findall("div/svg[@class='names']/g/text")]
        self.strips = [self.strip(at, it) for at, it in enumerate(strips)]

    def strip(self, at: int, strip):
        """The bars of a strip, and its crashes and numbers of events with where they stand."""
        if strip.get("viewBox").split()[0] != str(STRIP * at) or strip.get("width") != str(STRIP):
            raise Wrong(f"strip {at} begins at {strip.get('viewBox')}")
        bars, crashes, ticks = [], {}, {}
        for part in strip:
            if part.tag == "g" and part.get("class") == "crash":
                crashes[int(CRASH.fullmatch(part.find("title").text)[1])] = int(part.find("line").get("x1"))
            elif part.tag == "g":
                bars.append(Bar(part))
            elif part.tag == "text":
                ticks[int(part.text)] = int(part.get("x"))
        return bars, crashes, ticks
