#!/usr/bin/env python3
"""Refuses each allocation in turn of what reads, writes, judges and searches: refuse_cases.py PROGRAM

PROGRAM is `command_cases`, which makes a call once more where memory ran out, and wants that nothing stands half written then. So with
any one allocation refused a run prints the answer, or it ends with a status other than 0 and no answer: the program's own reading and
writing may fail too. The cases are made of the histories of cases/recorded.txt: each history with its certificate, both read and written
again, its messages, their arguments and results, its records as a stream, and a search by one worker. Prints a table, and ends with
status 1 where a run prints anything else, where of some kind no call was made once more, or where the search of the first case isn't
answered by its first call for a quarter of its allocations: where its worker is refused memory, the plan that follows the replies is
judged all the same. (It is for 66 of 140. For 4 it would be, if the search ended there.)
"""
import os
import struct
import subprocess
import sys
import tempfile
from multiprocessing.pool import ThreadPool

sys.dont_write_bytecode = True

from cases import recorded
from cases.messages import EXAMPLE
from refuse_memory import run

CALL, REPLY, CLOSE = 0, 1, 2
EXAMPLE_TEXT = "witness 1\nbind aa 1\nplace 1\nplace 2\nplace 3\nend\n"


def opaque_at(data, at):
    length = struct.unpack_from(">I", data, at)[0]
    return data[at + 4:at + 4 + length], at + 4 + (length + 3) // 4 * 4


def messages(file):
    """The kind, the lane and the message of each event of a call or a reply."""
    at = opaque_at(file, 8)[1]
    count = struct.unpack_from(">I", file, at)[0]
    at += 4
    for _ in range(count):
        kind = struct.unpack_from(">I", file, at)[0]
        at += 4
        if kind in (CALL, REPLY):
            lane = struct.unpack_from(">I", file, at)[0]
            message, at = opaque_at(file, at + 4)
            yield kind, lane, message
        elif kind == CLOSE:
            at += 4


def lines_of(file):
    """Kinds of cases, each with its text in hex, that the messages of a history give."""
    procedures, stream = {}, b""
    for kind, lane, message in messages(file):
        stream += struct.pack(">I", (1 << 31) + len(message)) + message
        xid = message[:4]
        if kind == CALL:
            yield "rpc-call", "rpc-call " + message.hex()
            if message[12:20] == struct.pack(">II", 100_003, 3) and len(message) >= 40:
                procedure = struct.unpack_from(">I", message, 20)[0]
                procedures[lane, xid] = procedure
                yield "call", "call %d %s" % (procedure, message[40:].hex())
        else:
            yield "rpc-reply", "rpc-reply " + message.hex()
            if (lane, xid) in procedures and message[4:24] == struct.pack(">IIIII", 1, 0, 0, 0, 0):
                yield "result", "result %d %s" % (procedures[lane, xid], message[24:].hex())
    yield "records", "records " + stream.hex()


def cases():
    """The name, the kind and the input of each case, each input once."""
    histories = [("example", "yes", EXAMPLE, EXAMPLE_TEXT), *recorded.entries()]
    seen = set()
    for name, answer, file, text in histories:
        yield name, "judged: " + answer.split(":")[0], "%s\n%s\n%s\n" % (name, file.hex(), text)
        lines = [("history", "history " + file.hex()), ("certificate", "certificate " + text.encode().hex())]
        try:
            lines += lines_of(file)
        except struct.error:
            pass
        if not answer.startswith("refused"):
            lines.append(("search", "search 1 20 " + file.hex()))
        for kind, line in lines:
            if line not in seen:
                seen.add(line)
                yield name, kind, "%s %s\n" % (name, line)


def tried(library, program, name, kind, asked):
    """How many allocations there are, how many were refused with the answer all the same, of these after a second call, and what was wrong."""
    wanted, status, sizes = run(library, program, asked.encode(), 0)
    wrong = [] if status == 0 and wanted.startswith(name + ":") else ["without a refusal: %r %d" % (wanted, status)]
    answered = twice = 0
    for refused in range(1, len(sizes) + 1):
        told, status, again = run(library, program, asked.encode(), refused)
        if (told, status) == (wanted, 0):
            answered += 1
            twice += len(again) > len(sizes)
        elif told or status == 0:
            wrong.append("allocation %d refused: %r %d" % (refused, told, status))
    if (name, kind) == ("example", "search") and 4 * (answered - twice) < len(sizes):
        wrong.append("a search whose worker was refused memory didn't go on")
    return kind, len(sizes), answered, twice, ["%s, %s: %s" % (name, kind, fault) for fault in wrong]


def main():
    program = os.path.abspath(sys.argv[1])
    here = os.path.dirname(os.path.abspath(__file__))
    rows, faults = {}, []
    with tempfile.TemporaryDirectory() as folder:
        library = folder + "/refuse.so"
        subprocess.run(["cc", "-O1", "-shared", "-fPIC", "-o", library, here + "/refuse_memory.c"], check=True)
        with ThreadPool(os.cpu_count()) as pool:
            for kind, count, answered, twice, wrong in pool.imap(lambda case: tried(library, program, *case), cases()):
                row = rows.setdefault(kind, [0, 0, 0, 0])
                for place, number in enumerate((1, count, answered, twice)):
                    row[place] += number
                faults += wrong
    print("| kind | cases | allocations | answered all the same | by a second call |\n|---|---|---|---|---|")
    for kind, row in sorted(rows.items()):
        print("| %s | %d | %d | %d | %d |" % (kind, *row))
    print("\n".join(faults), file=sys.stderr, end="\n" if faults else "")
    sys.exit(1 if faults or any(row[3] == 0 and row[1] > 0 for kind, row in rows.items()) else 0)


if __name__ == "__main__":
    main()
