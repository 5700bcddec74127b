"""Histories whose pages are large, or slow to draw: of about as many events as a picture has at most."""
from differ import layouts as nfs
from differ.histories import MESSAGE_LIMIT
from large.kinds import make

from .stories import ROOT, Story

EVENTS = 2_000
NOENT = nfs.STATUSES["NOENT"]
# What a page of a common history may take, and its time.
SECONDS, BYTES = 1.0, 2_000_000


class Shape:
    """The two files. `is_common` says that what a page may take is asked of it."""

    def __init__(self, name: str, history: bytes, certificate: bytes, is_common=False, options=()):
        self.name, self.history, self.certificate, self.is_common, self.options = name, history, certificate, is_common, list(options)


def of_story(name: str, story: Story, **more) -> Shape:
    return Shape(name, *story.files(), **more)


def common(kind: str, events: int, name: str, **more) -> Shape:
    clients = make(kind, events, "1")
    return Shape(name, clients.history(), clients.certificate().encode(), is_common=True, **more)


def ask(story: Story, name: bytes, lane: int) -> int:
    return story.call(nfs.LOOKUP, {"dir": ROOT, "name": name}, lane)


def in_turn(name: bytes, lanes: int):
    """Answered calls, each lane in turn."""
    story = Story("")
    for at in range(EVENTS // 2):
        story.absent(name, 1 + at % lanes)
    return story


def at_once(name: bytes, lanes: int, is_reversed=False):
    """All calls, then all replies."""
    story = Story("")
    waiting = [ask(story, name, 1 + at % lanes) for at in range(EVENTS // 2)]
    for number in waiting[::-1] if is_reversed else waiting:
        story.answer(number, NOENT, {"post": None})
    return story


def unanswered(name: bytes, lanes: int, answered=0, answered_lanes=1):
    """Calls that get no reply, and behind them some that are answered."""
    story = Story("")
    for at in range(EVENTS - 2 * answered):
        ask(story, name, 1 + answered_lanes + at % lanes)
    for at in range(answered):
        story.absent(name, 1 + at % answered_lanes)
    return story


def crashing(name: bytes, lanes: int):
    """As many calls without a reply as there are lanes, and a crash, over and over."""
    story = Story("")
    for era in range(EVENTS // (lanes + 1)):
        for lane in range(lanes):
            ask(story, name, 1 + era * lanes + lane)
        story.crash()
    return story


def long_named(length: int, count: int):
    story = Story("")
    for _ in range(count):
        story.absent(b"n" * length)
    return story


def common_shapes():
    yield common("mixed", EVENTS, "eight clients, calls of all kinds")
    yield common("lanes", EVENTS, "64 clients, calls of all kinds")
    yield common("dirs", EVENTS, "four clients in one directory")
    yield common("deep", EVENTS, "two clients, directories that are renamed")
    yield common("crashes", EVENTS, "four clients, a crash at every hundredth event")
    yield common("mixed", 100_000, "eight clients, 100,000 events: the first 2,000")
    yield common("mixed", 100_000, "eight clients, 100,000 events: the last 2,000", options=["--from", "98001"])
    yield common("mixed", 100_000, "eight clients, 100,000 events: around a call", options=["--call", "25000"])


def hard_shapes():
    short, long, wide = b"n", b"n" * 255, b"\xf0\x9f\x98\x80" * 8
    yield of_story("one lane, one call after the other, short names", in_turn(short, 1))
    yield of_story("one lane, one call after the other, names of 255 bytes", in_turn(long, 1))
    yield of_story("one lane, one call after the other, 1,000 byte 1 in a name", in_turn(b"\x01" * 1_000, 1))
    yield of_story("eight lanes in turn, emoji", in_turn(wide, 8))
    yield of_story("1,000 lanes, a call each, all at once", at_once(long, 1_000))
    yield of_story("1,000 lanes, a call each, one after the other", in_turn(long, 1_000))
    yield of_story("one lane, 1,000 calls at once, replies in turn", at_once(long, 1))
    yield of_story("one lane, 1,000 calls at once, replies from the last", at_once(long, 1, True))
    yield of_story("one lane, 2,000 calls without a reply", unanswered(long, 1))
    yield of_story("2,000 lanes, a call without a reply each", unanswered(long, 2_000))
    yield of_story("1,000 calls without a reply on 1,000 lanes, then 500 calls on one lane", unanswered(long, 1_000, 500))
    yield of_story("1,000 calls without a reply on one lane, then 500 calls on another", unanswered(long, 1, 500))
    yield of_story("20 calls without a reply on 20 lanes, then 990 calls on one lane", unanswered(long, 20, 990))
    yield of_story("60 calls without a reply on 60 lanes, then 970 calls on eight lanes", unanswered(long, 60, 970, 8))
    yield of_story("a crash behind each call without a reply", crashing(long, 1))
    yield of_story("a crash behind each 100 calls without a reply", crashing(long, 100))
    yield of_story("100 names of 1 MiB", long_named(2**20, 100))
    yield of_story("120 names of nearly 2 MiB", long_named(MESSAGE_LIMIT - 100, 120))
