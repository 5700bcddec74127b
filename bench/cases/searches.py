"""Searches of certificates: whole history files in hex, as they stand in `searches.txt`. What is wanted of each is said here, by the
profile:

read-back               a WRITE, and a READ by another client behind it: it has a witness
overlapping-read        a WRITE on its way while a READ shows the bytes ahead of it: it has one
stale-read              a READ that begins behind the WRITE's reply, and shows the bytes ahead of it: it has none
unstable-write-lost     a crash that took a WRITE answered UNSTABLE: it has one, which the order of the replies isn't
unanswered-remove-lost  a REMOVE without a reply ahead of a crash, and the file behind it: it has one
crashes-120-4, lanes-200-3  made with a certificate each, by clients of a model of a server. The order of the replies explains neither,
                        and eight turns are too few to search either by branches
"""
import os

from cases.calls import create, get_attributes, list_entries, look_up, make_directory
from cases.history import CRASH_EVENT, call_event, call_message, history_file, reply_event, reply_message
from cases.xdr import REG

FOUND = ("read-back", "overlapping-read", "unstable-write-lost", "unanswered-remove-lost")
SEARCHES = [
    # name, history, workers, turns, wanted
    *((f"{history}-{workers}", history, workers, 100_000, "found") for history in FOUND for workers in (1, 4)),
    ("stale-read-1", "stale-read", 1, 100_000, "not found"),
    ("stale-read-4", "stale-read", 4, 100_000, "not found"),
    ("unstable-write-lost-one-turn", "unstable-write-lost", 1, 1, "out of turns"),
    ("stale-read-one-turn", "stale-read", 1, 1, "out of turns"),
    ("crashes-120-4", "crashes-120-4", 1, 8, "found"),
    ("lanes-200-3", "lanes-200-3", 4, 8, "found"),
]


def histories():
    """The digits of each history by its name."""
    with open(os.path.join(os.path.dirname(__file__), "searches.txt")) as file:
        return dict(entry.split("\n") for entry in file.read().split("\n\n") if entry)


def exchange(lane, xid, call):
    return [call_event(lane, call_message(xid, call.procedure, call.arguments)), reply_event(lane, reply_message(xid, call.result))]


def made_here(cases):
    """A crash right behind another, which loses an era without a call; and one handle in two replies, of CREATEs that find one file."""
    file = b"\xaa"
    made, seen = create(0, "a").gives(file), get_attributes(file).gives(REG, 0)
    two_crashes = history_file([*exchange(1, 1, made), CRASH_EVENT, CRASH_EVENT, *exchange(2, 1, seen)])
    one_handle = history_file([*exchange(1, 1, made), *exchange(1, 2, made), *exchange(1, 3, seen)])
    for case, history in (("two-crashes", two_crashes), ("one-handle-twice", one_handle)):
        cases.add("search-%s-1" % case, "search-%s-1 search 1 1000 %s\n" % (case, history.hex()), "found")


def handles_beside_dots(cases):
    """Handles that only a list gives, beside `.` and `..`: nothing judges these, and the calls behind it show which directories they name."""
    own, here, above = b"\xaa", b"\xbb", b"\xcc"
    calls = [make_directory(0, "d").gives(own), list_entries(own).gives([(".", here), ("..", above)], True),
             look_up(above, "d").gives(own), create(here, "a").gives(), look_up(own, "a").gives(b"\xdd")]
    history = history_file([event for place, call in enumerate(calls, 1) for event in exchange(1, place, call)])
    for workers in (1, 4):
        whole = "search-handles-beside-dots-%d" % workers
        cases.add(whole, "%s search %d 1000 %s\n" % (whole, workers, history.hex()), "found")


def add_all(cases):
    made_here(cases)
    handles_beside_dots(cases)
    digits = histories()
    for case, history, workers, turns, answer in SEARCHES:
        cases.add("search-" + case, "search-%s search %d %d %s\n" % (case, workers, turns, digits[history]), answer)
