"""Tests of the server that is wrong on purpose: `python3 -m unittest` in bench/.

A recording is judged by `differ`, with the order in which the server did its calls. What is expected comes from docs/PROFILE.md and the RFCs.
"""
import os
import pathlib
import socket
import subprocess
import sys
import tempfile
import threading
import time
import unittest

from differ import layouts as nfs
from differ.items import Bad, Flag, Hyper, Struct, Word, read_whole
from differ.rpc import read_reply
from large.wire import call_message

from . import crash_faults
from .calls import Call, read
from .faults import NEVER, PLAIN, STRICT, all_faults
from .freedoms import FreeServer
from .host import Host
from .loop import Loop
from .peer import Peer
from .results import opaque, words
from .sample import ALL, LOSING, MIXES, NOTHING, WRITING, Mix, Recording, spelled
from .server import Server


def quiet(words: str) -> None:
    pass


class RightServer(unittest.TestCase):
    """Each recording of the right server has its own order as a witness, strict too, and over crashes."""

    def record(self, server: Server, seed: int, clients: int, depth: int, crashes: int, mix: Mix = ALL) -> Recording:
        recording = Recording(server, seed, clients, depth, mix)
        for _ in range(crashes):
            recording.run(60)
            recording.crash()
        recording.run(60)
        recording.finish()
        return recording

    def test_clients_at_once(self):
        for seed in range(20):
            recording = self.record(Server(seed), seed, clients=1 + seed % 4, depth=1 + seed % 3, crashes=0)
            self.assertEqual(recording.verdict(is_strict=True), "yes", seed)

    def test_over_crashes(self):
        lost = 0
        for seed in range(20):
            recording = self.record(Server(seed), seed, clients=1 + seed % 4, depth=1 + seed % 3, crashes=3, mix=[WRITING, LOSING][seed % 2])
            self.assertEqual(recording.verdict(is_strict=True), "yes", seed)
            lost += sum(len(recording.placed(era)) - cut for era, cut in enumerate(recording.cuts))
        self.assertGreater(lost, 20, "crashes lost something")

    def test_freedoms(self):
        for seed in range(20):
            server = FreeServer(seed, often=4)
            recording = self.record(server, seed, clients=1 + seed % 3, depth=1, crashes=seed % 3, mix=MIXES[seed % len(MIXES)])
            self.assertEqual(recording.verdict(is_strict=True), "yes", seed)


class Talk:
    """One client's calls to a server without sockets, each done and answered at once."""

    def __init__(self, server: Server):
        self.server, self.xid = server, 0
        self.root = server.root_handle

    def done(self, procedure: int, arguments: bytes) -> Call:
        """A call that has taken effect, without an answer so far."""
        self.xid += 1
        call, reply = read(None, call_message(self.xid, procedure, arguments))
        assert reply is None
        self.server.arrive(call)
        self.server.perform(call)
        return call

    def raw(self, procedure: int, arguments: bytes) -> bytes:
        """The results of a call."""
        call = self.done(procedure, arguments)
        self.server.answered(call)
        return call.results

    def ask(self, procedure: int, **arguments):
        """The status and the value of a call."""
        return nfs.read_result(procedure, self.raw(procedure, spelled(procedure, arguments)))

    def make(self, name: bytes, procedure: int = nfs.CREATE, directory=None) -> bytes:
        """The handle of a new file, directory or link."""
        more = {nfs.CREATE: {"how": (nfs.GUARDED, NOTHING)}, nfs.MKDIR: {"new": NOTHING}, nfs.SYMLINK: {"new": NOTHING, "text": b"text"}}
        status, value = self.ask(procedure, dir=directory or self.root, name=name, **more[procedure])
        assert status == 0
        return value["handle"]


class Answers(unittest.TestCase):
    """Statuses and values that RFC 1813, section 3.3, has for each procedure, where `docs/PROFILE.md` leaves a choice: this server's."""

    def setUp(self):
        self.talk = Talk(Server())
        self.file, self.directory, self.link = (self.talk.make(*words) for words in ((b"f",), (b"d", nfs.MKDIR), (b"l", nfs.SYMLINK)))
        self.inner = self.talk.make(b"inner", directory=self.directory)
        gone = self.talk.make(b"gone")
        self.talk.ask(nfs.REMOVE, dir=self.talk.root, name=b"gone")
        self.handles = {"root": self.talk.root, "f": self.file, "d": self.directory, "l": self.link, "inner": self.inner, "gone": gone, "odd": b"odd"}

    def answers(self, procedure: int, status: str, **arguments):
        """A call, and the status that it has to get. `object`, `dir` and `to_dir` are named as in `handles`."""
        for field in {"object", "dir", "to_dir"} & set(arguments):
            arguments[field] = self.handles[arguments[field]]
        got, value = self.talk.ask(procedure, **arguments)
        self.assertEqual(nfs.STATUS_NAMES[got], status, (nfs.NAMES[procedure], arguments))
        return value

    def test_handles(self):
        for name, status in ("gone", "STALE"), ("odd", "BADHANDLE"):
            self.answers(nfs.GETATTR, status, object=name)
            self.answers(nfs.LOOKUP, status, dir=name, name=b"f")
        self.answers(nfs.LOOKUP, "NOTDIR", dir="f", name=b"f")
        self.answers(nfs.RENAME, "NOTDIR", dir="root", name=b"f", to_dir="f", to_name=b"f")

    def test_looks(self):
        for name, kind in ("root", nfs.DIRECTORY), ("f", nfs.REGULAR), ("l", nfs.LINK_TYPE):
            self.assertEqual(self.answers(nfs.GETATTR, "OK", object=name)["attributes"]["type"], kind)
        for directory, name, handle in ("root", b"f", self.file), ("d", b".", self.directory), ("d", b"..", self.talk.root), ("root", b"..", self.talk.root):
            self.assertEqual(self.answers(nfs.LOOKUP, "OK", dir=directory, name=name)["handle"], handle)
        self.answers(nfs.LOOKUP, "NOENT", dir="root", name=b"gone")
        self.assertEqual(self.answers(nfs.READLINK, "OK", object="l")["text"], b"text")
        self.answers(nfs.READLINK, "INVAL", object="f")

    def test_data(self):
        write = {"object": "f", "level": nfs.UNSTABLE}
        self.assertEqual(self.answers(nfs.WRITE, "OK", offset=4, count=3, data=b"abc", **write)["count"], 3)
        for offset, count, data, is_end in (0, 100, bytes(4) + b"abc", True), (4, 2, b"ab", False), (5, 2, b"bc", True), (7, 1, b"", True), (9, 0, b"", True):
            value = self.answers(nfs.READ, "OK", object="f", offset=offset, count=count)
            self.assertEqual((value["data"], value["count"], value["eof"]), (data, len(data), is_end))
        self.answers(nfs.SETATTR, "OK", object="f", new={**NOTHING, "size": 5}, guard=None)
        self.answers(nfs.SETATTR, "OK", object="f", new={**NOTHING, "size": 6}, guard=None)
        self.assertEqual(self.answers(nfs.READ, "OK", object="f", offset=0, count=9)["data"], bytes(4) + b"a" + bytes(1))
        self.answers(nfs.WRITE, "FBIG", offset=16_777_216, count=1, data=b"x", **write)
        self.answers(nfs.WRITE, "INVAL", offset=0, count=2, data=b"x", **write)
        for name, status in ("d", "ISDIR"), ("l", "INVAL"):
            self.answers(nfs.READ, status, object=name, offset=0, count=1)
            self.answers(nfs.COMMIT, status, object=name, offset=0, count=0)

    def test_guard(self):
        ctime = self.answers(nfs.GETATTR, "OK", object="f")["attributes"]["ctime"]
        self.answers(nfs.SETATTR, "NOT_SYNC", object="f", new={**NOTHING, "size": 5}, guard={**ctime, "seconds": 1})
        self.answers(nfs.SETATTR, "OK", object="f", new={**NOTHING, "mode": 0o600}, guard=ctime)
        self.assertEqual(self.answers(nfs.GETATTR, "OK", object="f")["attributes"]["mode"], 0o600)

    def test_makes(self):
        at = {"dir": "root", "name": b"f"}
        self.answers(nfs.CREATE, "EXIST", how=(nfs.GUARDED, NOTHING), **at)
        self.answers(nfs.CREATE, "EXIST", how=(nfs.EXCLUSIVE, b"verifier"), **at)
        self.assertEqual(self.answers(nfs.CREATE, "OK", how=(nfs.UNCHECKED, {**NOTHING, "size": 7}), **at)["handle"], self.file)
        self.assertEqual(self.answers(nfs.GETATTR, "OK", object="f")["attributes"]["size"], 7)
        first = self.answers(nfs.CREATE, "OK", dir="root", name=b"x", how=(nfs.EXCLUSIVE, b"verifier"))
        self.assertEqual(self.answers(nfs.CREATE, "OK", dir="root", name=b"x", how=(nfs.EXCLUSIVE, b"verifier"))["handle"], first["handle"])
        self.answers(nfs.CREATE, "EXIST", dir="root", name=b"d", how=(nfs.UNCHECKED, NOTHING))
        self.answers(nfs.MKDIR, "EXIST", new=NOTHING, **at)
        self.answers(nfs.SYMLINK, "EXIST", new=NOTHING, text=b"t", **at)
        for name, status in (b"..", "INVAL"), (b"n" * 255, "OK"), (b"n" * 256, "NAMETOOLONG"):
            self.answers(nfs.MKDIR, status, dir="root", name=name, new=NOTHING)

    def test_takes_away(self):
        self.answers(nfs.REMOVE, "NOENT", dir="root", name=b"gone")
        self.answers(nfs.REMOVE, "ISDIR", dir="root", name=b"d")
        self.answers(nfs.RMDIR, "NOTDIR", dir="root", name=b"f")
        self.answers(nfs.RMDIR, "NOTEMPTY", dir="root", name=b"d")
        self.answers(nfs.REMOVE, "OK", dir="d", name=b"inner")
        self.answers(nfs.RMDIR, "OK", dir="root", name=b"d")
        self.answers(nfs.GETATTR, "STALE", object="d")

    def test_renames(self):
        empty = self.talk.make(b"empty", nfs.MKDIR)
        self.handles["deep"] = self.talk.make(b"deep", nfs.MKDIR, self.directory)
        cases = [("root", b"gone", "root", b"x", "NOENT"), ("root", b"d", "d", b"x", "INVAL"), ("root", b"d", "deep", b"x", "INVAL"),
                 ("root", b"d", "root", b"f", "NOTDIR"), ("root", b"f", "root", b"empty", "ISDIR"),
                 ("root", b"empty", "root", b"d", "NOTEMPTY"), ("root", b"f", "root", b"f", "OK"), ("root", b"d", "root", b"empty", "OK"),
                 ("root", b"f", "root", b"l", "OK")]
        for directory, name, to_directory, to_name, status in cases:
            self.answers(nfs.RENAME, status, dir=directory, name=name, to_dir=to_directory, to_name=to_name)
        self.assertEqual(self.answers(nfs.LOOKUP, "OK", dir="root", name=b"l")["handle"], self.file)
        self.assertEqual(self.answers(nfs.LOOKUP, "OK", dir="root", name=b"empty")["handle"], self.directory)
        self.answers(nfs.LOOKUP, "NOENT", dir="root", name=b"d")
        self.handles["empty"] = empty
        for name in "empty", "l":
            self.answers(nfs.GETATTR, "STALE", object=name)

    def test_what_is_not_judged(self):
        """The results keep to the grammar of RFC 1813, sections 3.3.4, 3.3.11, 3.3.15 and 3.3.18 to 3.3.20."""
        root = opaque(self.talk.root)
        hypers = {f"hyper{number}": Hyper() for number in range(6)}
        numbers = {f"word{number}": Word() for number in range(7)}
        shapes = {
            nfs.ACCESS: (root + words(63), Struct(post=nfs.post, access=Word())),
            nfs.FSSTAT: (root, Struct(post=nfs.post, **hypers, seconds=Word())),
            nfs.FSINFO: (root, Struct(post=nfs.post, **numbers, most=Hyper(), time=nfs.time, properties=Word())),
            nfs.PATHCONF: (root, Struct(post=nfs.post, links=Word(), name=Word(), a=Flag(), b=Flag(), c=Flag(), d=Flag())),
        }
        for procedure, (arguments, shape) in shapes.items():
            results = self.talk.raw(procedure, arguments)
            self.assertEqual(results[:4], words(0))
            self.assertEqual(read_whole(shape, results[4:])["post"]["type"], nfs.DIRECTORY)
        linked = self.talk.raw(nfs.LINK, opaque(self.file) + root + opaque(b"new"))
        self.assertEqual(linked[:4], words(10004))
        read_whole(Struct(post=nfs.post, weak=nfs.weak), linked[4:])
        made = self.talk.raw(nfs.MKNOD, root + opaque(b"new") + words(7) + words(0, 0, 0, 0, 0, 0))
        self.assertEqual(made[:4], words(10004))
        read_whole(nfs.changed, made[4:])


class Lists(unittest.TestCase):
    """A list in pages has each name that stays once, whatever comes and goes between two pages."""

    def pages(self, procedure: int, between) -> list[bytes]:
        talk = Talk(Server())
        for number in range(40):
            talk.make(b"name %d" % number)
        names, cookie, is_end = [], 0, False
        while not is_end:
            sizes = {"count": 300} if procedure == nfs.READDIR else {"dircount": 200, "maxcount": 2000}
            status, value = talk.ask(procedure, dir=talk.root, cookie=cookie, verifier=bytes(8), **sizes)
            self.assertEqual(status, 0)
            names += [entry["name"] for entry in value["entries"]]
            cookie, is_end = value["entries"][-1]["cookie"], value["eof"]
            between(talk, len(names))
        return names

    def test_each_name_once(self):
        for procedure in nfs.READDIR, nfs.READDIRPLUS:
            names = self.pages(procedure, lambda talk, count: None)
            self.assertEqual(names, [b".", b"..", *(b"name %d" % number for number in range(40))])

    def test_while_names_come_and_go(self):
        def between(talk, count):
            talk.make(b"new %d" % count)
            talk.ask(nfs.REMOVE, dir=talk.root, name=b"name %d" % (count % 7))
        names = self.pages(nfs.READDIR, between)
        self.assertEqual(len(set(names)), len(names))
        self.assertLessEqual({b"name %d" % number for number in range(7, 40)}, set(names))

    def test_room(self):
        """READDIRPLUS keeps to the room for names and to that for all (RFC 1813, section 3.3.17): each `name N` takes 28 bytes of the first."""
        talk = Talk(Server())
        for number in range(9):
            talk.make(b"name %d" % number)
        asked = {"dir": talk.root, "cookie": 2, "verifier": bytes(8)}
        whole = talk.raw(nfs.READDIRPLUS, spelled(nfs.READDIRPLUS, {**asked, "dircount": 4096, "maxcount": 4096}))
        for dircount, maxcount, count in (3 * 28, 4096, 3), (3 * 28 - 1, 4096, 2), (4096, len(whole), 9), (4096, len(whole) - 1, 8):
            _, value = talk.ask(nfs.READDIRPLUS, dircount=dircount, maxcount=maxcount, **asked)
            self.assertEqual((len(value["entries"]), value["eof"]), (count, count == 9))

    def test_no_room(self):
        talk = Talk(Server())
        talk.make(b"n")
        self.assertEqual(talk.ask(nfs.READDIR, dir=talk.root, cookie=0, verifier=bytes(8), count=100)[0], nfs.STATUSES["TOOSMALL"])


class Crashes(unittest.TestCase):
    """What outlives a crash at least, and what a crash may take."""

    def survivors(self, calls) -> set[bytes]:
        """The contents of a file, over many seeds, after these calls to it and a crash."""
        contents = set()
        for seed in range(40):
            talk = Talk(Server(seed))
            file = talk.make(b"f")
            calls(talk, file)
            talk.server.crash()
            contents.add(talk.ask(nfs.READ, object=file, offset=0, count=100)[1]["data"])
        return contents

    def write(self, talk: Talk, file: bytes, offset: int, data: bytes, level: int) -> None:
        talk.ask(nfs.WRITE, object=file, offset=offset, count=len(data), level=level, data=data)

    def test_unstable_writes(self):
        def calls(talk, file):
            for offset, data in enumerate([b"a", b"b", b"c"]):
                self.write(talk, file, offset, data, nfs.UNSTABLE)
        self.assertEqual(self.survivors(calls), {b"", b"a", b"ab", b"abc"})

    def test_synced_write(self):
        def calls(talk, file):
            self.write(talk, file, 0, b"a", nfs.UNSTABLE)
            self.write(talk, file, 1, b"b", nfs.DATA_SYNC)
            self.write(talk, file, 0, b"c", nfs.UNSTABLE)
        self.assertEqual(self.survivors(calls), {b"ab", b"cb"})

    def test_commit(self):
        def calls(talk, file):
            self.write(talk, file, 0, b"ab", nfs.UNSTABLE)
            self.write(talk, file, 2, b"cd", nfs.UNSTABLE)
            self.write(talk, file, 4, b"ef", nfs.UNSTABLE)
            talk.ask(nfs.COMMIT, object=file, offset=3, count=1)
        self.assertEqual(self.survivors(calls), {b"abcd", b"abcdef"})

    def test_commit_of_no_byte(self):
        def calls(talk, file):
            self.write(talk, file, 0, b"ab", nfs.UNSTABLE)
            self.write(talk, file, 5, b"c", nfs.UNSTABLE)
            for offset, count in (2, 3), (6, 0):
                talk.ask(nfs.COMMIT, object=file, offset=offset, count=count)
        self.assertEqual(self.survivors(calls), {b"", b"ab", b"ab\0\0\0c"})

    def test_change_without_an_answer(self):
        def calls(talk, file):
            self.write(talk, file, 0, b"abc", nfs.FILE_SYNC)
            talk.done(nfs.SETATTR, spelled(nfs.SETATTR, {"object": file, "new": {**NOTHING, "size": 1}, "guard": None}))
            talk.done(nfs.SETATTR, spelled(nfs.SETATTR, {"object": file, "new": {**NOTHING, "size": 2}, "guard": None}))
        self.assertEqual(self.survivors(calls), {b"abc", b"a", b"a\0"})

    def test_rename_without_an_answer(self):
        """All of it is there after the crash, or nothing."""
        found = set()
        for seed in range(40):
            talk = Talk(Server(seed))
            old, new = talk.make(b"old", nfs.MKDIR), talk.make(b"new", nfs.MKDIR)
            moved, replaced = talk.make(b"moved", nfs.MKDIR, old), talk.make(b"name", nfs.MKDIR, new)
            talk.done(nfs.RENAME, spelled(nfs.RENAME, {"dir": old, "name": b"moved", "to_dir": new, "to_name": b"name"}))
            talk.server.crash()
            looks = (old, b"moved"), (new, b"name"), (moved, b".."), (replaced, b"..")
            found.add(tuple(talk.ask(nfs.LOOKUP, dir=directory, name=name)[1].get("handle") for directory, name in looks))
        self.assertEqual(found, {(moved, replaced, old, new), (None, moved, new, None)})

    def test_other_changes(self):
        def calls(talk, file):
            self.write(talk, file, 0, b"ab", nfs.UNSTABLE)
            talk.ask(nfs.SETATTR, object=file, new={**NOTHING, "size": 1}, guard=None)
        self.assertEqual(self.survivors(calls), {b"a"})


class SpoiledStorage(unittest.TestCase):
    """The faults of crashes that spoil what is on stable storage: what they do to what had to survive, and that they leave the rest."""

    def after_crash(self, name: str, calls, look, seeds=range(12)) -> list:
        """What a look gives after the calls and a crash, for each seed; None where the fault didn't happen."""
        seen = []
        for seed in seeds:
            talk = Talk(all_faults()[name](seed, tell=quiet))
            known = calls(talk)
            talk.server.crash()
            seen.append(look(talk, known) if talk.server.times else None)
        return seen

    def write(self, talk: Talk, file: bytes, data: bytes, level: int = nfs.FILE_SYNC) -> None:
        talk.ask(nfs.WRITE, object=file, offset=0, count=len(data), level=level, data=data)

    def contents(self, talk: Talk, files: list) -> list:
        return [talk.ask(nfs.READ, object=file, offset=0, count=100)[1]["data"] for file in files]

    def files(self, level: int, *later):
        """Calls that make two files with bytes, of which some calls may follow."""
        def calls(talk):
            files = [talk.make(b"f"), talk.make(b"g")]
            for file, data in zip(files, [b"abc", b"de"]):
                self.write(talk, file, data, level)
            for call in later:
                call(talk, files)
            return files
        return calls

    def commit(self, talk: Talk, files: list) -> None:
        for file in files:
            talk.ask(nfs.COMMIT, object=file, offset=0, count=0)

    def leave_open(self, talk: Talk, files: list) -> None:
        """Two calls that change other things have no reply when the crash comes."""
        talk.done(nfs.MKDIR, spelled(nfs.MKDIR, {"dir": talk.root, "name": b"open", "new": NOTHING}))
        talk.done(nfs.RMDIR, spelled(nfs.RMDIR, {"dir": talk.root, "name": b"open"}))

    def test_files_swapped(self):
        for calls in self.files(nfs.FILE_SYNC), self.files(nfs.UNSTABLE, self.commit), self.files(nfs.FILE_SYNC, self.leave_open):
            self.assertEqual(self.after_crash("files_swapped", calls, self.contents), [[b"de", b"abc"]] * 12)
        self.assertEqual(self.after_crash("files_swapped", self.files(nfs.UNSTABLE), self.contents), [None] * 12)

    def test_size_lost(self):
        for calls in self.files(nfs.FILE_SYNC), self.files(nfs.UNSTABLE, self.commit), self.files(nfs.FILE_SYNC, self.leave_open):
            seen = self.after_crash("size_lost", calls, self.contents)
            self.assertEqual({tuple(contents) for contents in seen}, {(b"", b"de"), (b"abc", b"")})
        self.assertEqual(self.after_crash("size_lost", self.files(nfs.UNSTABLE), self.contents), [None] * 12)

    def test_size_that_was_asked_for(self):
        def resize(talk, files):
            talk.ask(nfs.SETATTR, object=files[0], new={**NOTHING, "size": 2}, guard=None)
            talk.ask(nfs.REMOVE, dir=talk.root, name=b"g")
        seen = self.after_crash("size_lost", self.files(nfs.FILE_SYNC, resize), lambda talk, files: self.contents(talk, files[:1]))
        self.assertEqual({contents[0] for contents in seen}, {b"", b"a"})

    def test_link_text_emptied(self):
        def answered(talk):
            return [talk.make(name, nfs.SYMLINK) for name in (b"l", b"m")]

        def unanswered(talk):
            talk.done(nfs.SYMLINK, spelled(nfs.SYMLINK, {"dir": talk.root, "name": b"l", "new": NOTHING, "text": b"text"}))

        def look(talk, links):
            return tuple(talk.ask(nfs.READLINK, object=link)[1]["text"] for link in links)
        self.assertEqual(set(self.after_crash("link_text_emptied", answered, look)), {(b"", b"text"), (b"text", b"")})
        self.assertEqual(self.after_crash("link_text_emptied", unanswered, look), [None] * 12)

    def test_rename_forgotten(self):
        def calls(talk, is_answered=True):
            directory = talk.make(b"d", nfs.MKDIR)
            made = talk.make(b"old"), talk.make(b"new", directory=directory)
            arguments = {"dir": talk.root, "name": b"old", "to_dir": directory, "to_name": b"new"}
            if is_answered:
                talk.ask(nfs.RENAME, **arguments)
            else:
                talk.done(nfs.RENAME, spelled(nfs.RENAME, arguments))
            return directory, *made

        def look(talk, known):
            directory, old, new = known
            names = [talk.ask(nfs.LOOKUP, dir=place, name=name)[1].get("handle") for place, name in ((talk.root, b"old"), (directory, b"new"))]
            return names == [old, new]
        self.assertEqual(self.after_crash("rename_forgotten", calls, look), [True] * 12)
        self.assertEqual(self.after_crash("rename_forgotten", lambda talk: calls(talk, is_answered=False), look), [None] * 12)

    def test_rename_that_cannot_be_forgotten(self):
        """The old name was given away, and a directory isn't moved below itself."""
        def given_away(talk):
            talk.make(b"old")
            talk.ask(nfs.RENAME, dir=talk.root, name=b"old", to_dir=talk.root, to_name=b"new")
            talk.make(b"old")

        def turned_over(talk):
            above, below = talk.make(b"a", nfs.MKDIR), talk.make(b"b", nfs.MKDIR)
            inner = talk.make(b"c", nfs.MKDIR, above)
            talk.ask(nfs.RENAME, dir=above, name=b"c", to_dir=below, to_name=b"c")
            talk.ask(nfs.RENAME, dir=talk.root, name=b"a", to_dir=inner, to_name=b"a")
            talk.make(b"a", nfs.MKDIR)
        for calls in given_away, turned_over:
            self.assertEqual(self.after_crash("rename_forgotten", calls, lambda talk, known: None), [None] * 12)

    def test_the_seed_chooses(self):
        for name, procedure in ("files_swapped", nfs.CREATE), ("size_lost", nfs.CREATE), ("link_text_emptied", nfs.SYMLINK):
            def told(seed):
                lines = []
                talk = Talk(all_faults()[name](seed, tell=lines.append))
                for number in range(9):
                    made = talk.make(b"n%d" % number, procedure)
                    if procedure == nfs.CREATE:
                        self.write(talk, made, b"data %d" % number)
                talk.server.crash()
                return lines
            self.assertEqual([told(seed) for seed in range(6)], [told(seed) for seed in range(6)])
            self.assertGreater(len({tuple(told(seed)) for seed in range(6)}), 1)


class EachFault(unittest.TestCase):
    """Each fault that a history can show is shown: one client's calls, one after the other, that no plan explains."""

    def is_found(self, kind, is_strict: bool) -> bool:
        has_crash = kind in crash_faults.KINDS
        for seed in range(100):
            server = kind(seed, often=3, tell=quiet)
            recording = Recording(server, seed, clients=1, depth=1, mix=MIXES[seed % len(MIXES)])
            recording.run(40 if has_crash else 80)
            recording.finish()
            if has_crash:
                recording.crash()
                recording.run(30)
                recording.finish()
            if server.times and not recording.is_explained(is_strict):
                return True
        return False

    def test_plain_faults(self):
        for name, kind in all_faults().items():
            if kind.seen == PLAIN:
                with self.subTest(name):
                    self.assertTrue(self.is_found(kind, is_strict=False))

    def test_strict_faults(self):
        for name, kind in all_faults().items():
            if kind.seen == STRICT:
                with self.subTest(name):
                    self.assertTrue(self.is_found(kind, is_strict=True))
                    self.assertFalse(self.is_found(kind, is_strict=False))

    def test_what_the_profile_allows(self):
        for name, kind in all_faults().items():
            if kind.seen == NEVER:
                with self.subTest(name):
                    self.assertFalse(self.is_found(kind, is_strict=True))


class Running:
    """A server on two free ports, its loop in a thread."""

    def __init__(self, server: Server, delay: int = 0):
        self.loop = Loop()
        self.host = Host(self.loop, server, (0, 0), b"/wrong", 1, delay)
        self.host.up()
        self.thread = threading.Thread(target=self.run, daemon=True)
        self.thread.start()

    def run(self) -> None:
        self.loop.after(0.001, self.tick)
        self.loop.run()

    def tick(self) -> None:
        self.loop.after(0.001, self.tick)

    def order(self, step):
        """Does a step between two turns of the loop; what it gives."""
        done, results = threading.Event(), []
        self.loop.after(0, lambda: (results.append(step()), done.set()))
        done.wait(10)
        return results[0]

    def peer(self) -> Peer:
        return Peer(self.host.nfs.number)

    def __enter__(self) -> "Running":
        return self

    def __exit__(self, *_) -> None:
        def end():
            self.host.crash()
            self.loop.is_ended = True
        self.order(end)
        self.thread.join(10)


def create(name: bytes, root: bytes) -> bytes:
    return spelled(nfs.CREATE, {"dir": root, "name": name, "how": (nfs.GUARDED, NOTHING)})


def write(handle: bytes, data: bytes, level: int) -> bytes:
    return spelled(nfs.WRITE, {"object": handle, "offset": 0, "count": len(data), "level": level, "data": data})


def result(procedure: int, record: bytes):
    return nfs.read_result(procedure, read_reply(record)["result"])


class OverTcp(unittest.TestCase):
    """The wire, MOUNT, and what a crash does to connections."""

    def test_mount(self):
        with Running(Server()) as running:
            peer = Peer(running.host.mount.number)

            def ask(program, version, procedure, arguments=b""):
                peer.send(words(7, 0, 2, program, version, procedure, 0, 0, 0, 0) + arguments)
                return peer.receive()
            self.assertEqual(ask(100005, 3, 0), words(7, 1, 0, 0, 0, 0))
            found = words(7, 1, 0, 0, 0, 0, 0) + opaque(running.host.server.root_handle) + words(2, 1, 0)
            self.assertEqual(ask(100005, 3, 1, opaque(b"/wrong")), found)
            self.assertEqual(ask(100005, 3, 1, opaque(b"/other")), words(7, 1, 0, 0, 0, 0, 2))
            self.assertEqual(ask(100005, 3, 3, opaque(b"/wrong")), words(7, 1, 0, 0, 0, 0))
            self.assertEqual(ask(100005, 3, 5), words(7, 1, 0, 0, 0, 0, 1) + opaque(b"/wrong") + words(0, 0))
            self.assertEqual(ask(100005, 1, 1), words(7, 1, 0, 0, 0, 2, 3, 3))
            self.assertEqual(ask(100003, 3, 1), words(7, 1, 0, 0, 0, 1))
            peer.close()

    def test_refusals_of_rpc(self):
        cases = {
            words(9, 0, 3, 100003, 3, 0, 0, 0, 0, 0): words(9, 1, 1, 0, 2, 2),                       # RPC_MISMATCH
            words(9, 0, 2, 100003, 3, 0, 6, 0, 0, 0): words(9, 1, 1, 1, 1),                          # AUTH_ERROR, AUTH_BADCRED
            words(9, 0, 2, 100001, 3, 0, 0, 0, 0, 0): words(9, 1, 0, 0, 0, 1),                       # PROG_UNAVAIL
            words(9, 0, 2, 100003, 2, 0, 0, 0, 0, 0): words(9, 1, 0, 0, 0, 2, 3, 3),                 # PROG_MISMATCH
            words(9, 0, 2, 100003, 3, 22, 0, 0, 0, 0): words(9, 1, 0, 0, 0, 3),                      # PROC_UNAVAIL
            words(9, 0, 2, 100003, 3, 1, 0, 0, 0, 0, 65): words(9, 1, 0, 0, 0, 4),                   # GARBAGE_ARGS
            words(9, 0, 2, 100003, 3, 0, 1, 4, 0, 0, 0): words(9, 1, 0, 0, 0, 0),                    # NULL by AUTH_SYS
        }
        with Running(Server()) as running:
            peer = running.peer()
            for message, reply in cases.items():
                peer.send(message)
                self.assertEqual(peer.receive(), reply, message)
            peer.close()

    def test_records(self):
        """Fragments are joined, an empty one too; a record of over 2 MiB ends its connection."""
        with Running(Server()) as running:
            peer, message = running.peer(), words(9, 0, 2, 100003, 3, 0, 0, 0, 0, 0)
            peer.sock.sendall(words(10) + message[:10] + words(0) + words(0x80000000 | 30)[:2])
            peer.sock.sendall(words(0x80000000 | 30)[2:] + message[10:])
            self.assertEqual(peer.receive(), words(9, 1, 0, 0, 0, 0))
            peer.sock.sendall(words(2_000_000) + bytes(2_000_000) + words(0x80000000 | 97_153))
            self.assertIsNone(peer.receive())
            peer.close()

    def test_crash(self):
        """Connections end and none comes; then handles are the same, synced bytes are there, and the verifier is another one."""
        with Running(Server()) as running:
            peer, root = running.peer(), running.host.server.root_handle
            handle = result(nfs.CREATE, peer.call(1, nfs.CREATE, create(b"a", root)))[1]["handle"]
            first = result(nfs.WRITE, peer.call(2, nfs.WRITE, write(handle, b"synced", nfs.FILE_SYNC)))[1]["verifier"]
            running.order(running.host.crash)
            self.assertIsNone(peer.receive())
            peer.close()
            for port in running.host.nfs, running.host.mount:
                with self.assertRaises(ConnectionRefusedError):
                    Peer(port.number)
            running.order(running.host.up)
            peer = running.peer()
            asked = spelled(nfs.READ, {"object": handle, "offset": 0, "count": 100})
            self.assertEqual(result(nfs.READ, peer.call(3, nfs.READ, asked))[1]["data"], b"synced")
            again = result(nfs.WRITE, peer.call(4, nfs.WRITE, write(handle, b"", nfs.FILE_SYNC)))[1]["verifier"]
            self.assertNotEqual(first, again)
            peer.close()

    def test_calls_on_their_way(self):
        """Some wait for their effect and some for their reply; a crash ends them."""
        with Running(Server(), delay=100_000) as running:
            peer, root = running.peer(), running.host.server.root_handle
            steps = {running.host.perform, running.host.reply}
            for number in range(50):
                peer.send(call_message(number, nfs.CREATE, create(b"%d" % number, root)))
            time.sleep(0.05)
            self.assertLessEqual(steps, running.order(lambda: {step for _, _, step, _ in running.loop.moments}))
            running.order(running.host.crash)
            names = set(running.host.server.tree.root.entries)
            time.sleep(0.15)
            self.assertEqual(set(running.host.server.tree.root.entries), names)
            peer.close()

    def test_replies_come_in_another_order(self):
        with Running(Server(), delay=5000) as running:
            peer = running.peer()
            for xid in range(100):
                peer.send(call_message(xid, nfs.NULL, b""))
            order = [int.from_bytes(peer.receive()[:4], "big") for _ in range(100)]
            self.assertEqual(sorted(order), list(range(100)))
            self.assertNotEqual(order, sorted(order))
            peer.close()


class HealthFaults(unittest.TestCase):
    """What comes in the place of the reply to a NULL call; the call after it is answered."""

    def records(self, kind) -> list:
        with Running(kind(often=1, tell=quiet)) as running:
            peer = running.peer()
            peer.sock.settimeout(0.5)
            peer.send(call_message(1, nfs.GETATTR, opaque(running.host.server.root_handle)))
            records = []
            try:
                while not records or records[-1] is not None:
                    records.append(peer.receive())
            except TimeoutError:
                records.append("silence")
            peer.close()
            return records

    def test_each(self):
        kinds = all_faults()
        right = self.records(type("Right", (Server,), {"__init__": lambda self, **_: Server.__init__(self)}))[0]
        self.assertEqual(result(nfs.GETATTR, right)[1]["attributes"]["type"], nfs.DIRECTORY)
        self.assertEqual(self.records(kinds["no_reply"]), ["silence"])
        self.assertEqual(len(self.records(kinds["second_reply"])), 3)
        self.assertEqual([record[:4] for record in self.records(kinds["other_transaction"])[:2]], [words(1 + 2**30), words(1)])
        for name in "closes", "cuts":
            self.assertEqual(self.records(kinds[name]), [None], name)
        self.assertRaises(Bad, read_reply, self.records(kinds["garbage"])[0])
        self.assertRaises(Bad, result, nfs.GETATTR, self.records(kinds["bad_result"])[0])

    def test_too_long(self):
        with Running(all_faults()["too_long"](often=1, tell=quiet)) as running:
            peer = running.peer()
            peer.send(call_message(1, nfs.NULL, b""))
            self.assertGreater(int.from_bytes(peer.coming.read(4), "big") & 0x7FFFFFFF, 2_097_152)
            peer.close()


class Orders(unittest.TestCase):
    """The command: its orders by standard input, a fifo and a file, and a server that dies."""

    def start(self, *words: str) -> subprocess.Popen:
        program = pathlib.Path(__file__).parents[1] / "wrong_server.py"
        line = [sys.executable, str(program), "--port", "0", "--mount", "0", *words]
        process = subprocess.Popen(line, stdin=subprocess.PIPE, stdout=subprocess.PIPE, stderr=subprocess.DEVNULL, text=True)
        self.addCleanup(lambda: (process.kill(), process.communicate()))
        self.assertEqual(process.stdout.readline(), "ready\n")
        return process

    def obeys(self, process: subprocess.Popen, say) -> None:
        for order, answer in ("crash", "down"), ("crash", "down"), ("what", None), ("up", "up"), ("up", "up"):
            say(order + "\n")
            if answer is not None:
                self.assertEqual(process.stdout.readline(), answer + "\n")
        say("end\n")
        self.assertEqual(process.wait(10), 0)

    def test_standard_input(self):
        process = self.start()
        self.obeys(process, lambda line: (process.stdin.write(line), process.stdin.flush()))

    def test_fifo_and_file(self):
        with tempfile.TemporaryDirectory() as folder:
            for name, make in ("fifo", os.mkfifo), ("file", lambda path: path.write_text("")), ("later", lambda path: None):
                path = pathlib.Path(folder, name)
                make(path)

                def say(line):
                    with open(path, "a") as orders:
                        orders.write(line)
                self.obeys(self.start("--orders", str(path)), say)

    def test_dies(self):
        with socket.socket() as taken:
            taken.bind(("127.0.0.1", 0))
            port = taken.getsockname()[1]
        process = self.start("--fault", "dies", "--often", "1", "--port", str(port))
        peer = Peer(port)
        self.assertIsNone(peer.call(1, nfs.NULL, b""))
        peer.close()
        self.assertEqual(process.wait(10), 1)

    def test_the_list_names_each_fault(self):
        program = pathlib.Path(__file__).parents[1] / "wrong_server.py"
        lines = subprocess.check_output([sys.executable, str(program), "--list"], text=True).splitlines()
        self.assertEqual([line.split()[0] for line in lines], list(all_faults()))
