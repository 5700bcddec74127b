"""Books whose commands aren't drawn. What each is answered was worked out by hand, from the calls' table, and not by the model.

A line has a command and its answer. CREATE is an UNCHECKED one of `a` in the root, WRITE an UNSTABLE one of `abc` to the first
object, REMOVE one of `zz` in the root; MADE and WROTE are the results that CREATE and WRITE have to get, the others are wrong in one number.
MADE_FULL, WROTE_FULL and ABSENT_FULL carry right attributes: of MADE_FULL and ABSENT_FULL those of the directory are the last.
"""

WORDS = {
    "CREATE": "8 8.0.0.1.1627389952.0*28",
    "WRITE": "7 8.0.1.0.0.3.0.3.1633837824",
    "NULL": "1.0.2.100003.3.0.0*16",
    "MADE": "8 0.1.8.0.1.0.0.0",
    "MADE_TWO": "8 0.1.8.0.2.0.0.0",
    "MADE_NINE": "8 0.1.8.0.9.0.0.0",
    "SERVER_FAULT": "8 10006.0.0",
    "WROTE": "7 0.0.0.3.0.0.1",
    "WROTE_TWO": "7 0.0.0.2.0.0.1",
    "WROTE_OTHER": "7 0.0.0.3.0.0.2",
    "CREATE_B": "8 8.0.0.1.1644167168.0*28",
    "READ": "6 8.0.1.0.0.10",
    "READ_ABC": "6 0.0.3.1.3.1633837824",
    "REMOVE": "12 8.0.0.2.2054815744",
    "MADE_FULL": "8 0.1.8.0.1.1.1.420.1.0*72.0.1.2.420.2.0.0.0.4096.0*56",
    "MADE_DIRECTORY": "8 0.1.8.0.1.1.2.420.1.0*72.0.1.2.420.2.0.0.0.4096.0*56",
    "MADE_LONG": "8 0.1.8.0.1.1.1.420.1.0.0.0.1.0*56.0.1.2.420.2.0.0.0.4096.0*56",
    "MADE_IN_FILE": "8 0.1.8.0.1.1.1.420.1.0*72.0.1.1.420.2.0.0.0.4096.0*56",
    "WROTE_FULL": "7 0.1.0*24.1.1.420.1.0.0.0.3.0*56.3.0.0.1",
    "WROTE_LONG": "7 0.1.0*24.1.1.420.1.0.0.0.4.0*56.3.0.0.1",
    "WROTE_DIRECTORY": "7 0.1.0*24.1.2.420.1.0.0.0.3.0*56.3.0.0.1",
    "WROTE_AHEAD": "7 0.1.0.3.0*16.1.1.420.1.0.0.0.3.0*56.3.0.0.1",
    "ABSENT_FULL": "12 2.0.1.2.420.1.0*72",
    "ABSENT_IN_FILE": "12 2.0.1.1.420.1.0*72",
    "FOLLOW": "5 8.0.1",
    "FOLLOWED_FULL": "5 22.1.1.420.1.0.0.0.3.0*56",
    "FOLLOWED_LONG": "5 22.1.1.420.1.0.0.0.4.0*56",
    "REMOVE_IN_FILE": "12 8.0.1.1.1627389952",
    "NOT_IN_FILE": "12 20.1.0.3.0*16.0",
    "NOT_IN_LONG_FILE": "12 20.1.0.4.0*16.0",
    "RENAME_INTO_FILE": "14 8.0.0.2.2054815744.8.0.1.1.1644167168",
    "NOT_INTO_FILE": "14 20.0.0.0.1.1.420.1.0.0.0.3.0*56",
    "NOT_INTO_DIRECTORY": "14 20.0.0.0.1.2.420.1.0*72",
    "NOT_INTO_LONG_FILE": "14 20.0.0.0.1.1.420.1.0.0.0.4.0*56",
    "DENIED_IN_FILE": "12 13.0.1.1.420.1.0*72",
}

BOOKS = {
    "A lane is refused ahead of a message. A NULL call is no judged one, and has the number of a call that waits.": """
        new 0 1 0                       | ok
        begin 1 1 CREATE                | ok 1
        raw 1 NULL                      | BadRecord
        close 1                         | ok
        raw 1 NULL                      | LaneClosed
        crash 0                         | ok
        journal                         | 0 0 0 3
        raw 1 NULL                      | EraOver 2
        flush                           | DeviceFault
        raw 1 NULL                      | Down
        flush                           | Down
    """,
    "A turn is refused ahead of a reply.": """
        new 0 0 0                       | ok
        begin 1 1 CREATE                | ok 1
        place 1 MADE                    | ok
        place 1 MADE                    | OutOfTurn
        place 1 MADE_NINE               | OutOfTurn
        close 1                         | ok
        place 1 MADE_NINE               | LaneClosed
        crash 1                         | ok
        journal                         | 1 1 0 3
        place 1 MADE_NINE               | EraOver 2
    """,
    "A reply is refused ahead of the device, and a book that is down comes up in a crash.": """
        new 1 0 0                       | ok
        begin 1 1 CREATE                | ok 1
        place 1 MADE_NINE               | NotLegal
        place 1 MADE_NINE               | Down
        crash 0                         | ok
        begin 2 1 CREATE                | ok 2
        place 2 MADE_TWO                | DeviceFault
    """,
    "A lane is refused ahead of what a reply promises.": """
        new 0 1 0                       | ok
        begin 1 1 CREATE                | ok 1
        place 1 MADE                    | ok
        answer 1                        | NotDurable 0
        close 1                         | ok
        answer 1                        | LaneClosed
        flush                           | DeviceFault
        answer 1                        | Down
        crash 1                         | ok
        answer 1                        | EraOver 2
    """,
    "A call that never began has no turn: a book ahead gave what names it.": """
        new 0 0 0                       | ok
        begin 1 1 CREATE                | ok 1
        new 0 0 0                       | ok
        place 1 MADE                    | OutOfTurn
        answer 1                        | OutOfTurn
    """,
    "A crash in which the device fails is the last.": """
        new 0 0 1                       | ok
        begin 1 1 CREATE                | ok 1
        place 1 MADE                    | ok
        flush                           | ok
        crash 0                         | KeepTooSmall 1
        crash 2                         | KeepTooLarge 1
        journal                         | 1 1 0 1
        crash 1                         | DeviceFault
        journal                         | 1 1 1 1
        crash 2                         | Down
        begin 2 1 CREATE                | Down
        close 1                         | ok
        close 1                         | LaneClosed
        check                           | check yes
        certificate                     | witness 1;bind 0000000000000001 1;take 1;end;
    """,
    "A lane is open until its close.": """
        new 0 0 0                       | ok
        begin 1 1 CREATE                | ok 1
        begin 1 1 CREATE                | XidInUse
        close 1                         | ok
        close 1                         | LaneClosed
        place 1 MADE                    | LaneClosed
        raw 2 NULL                      | BadRecord
    """,
    "A lane ends with its era.": """
        new 0 0 0                       | ok
        begin 1 1 CREATE                | ok 1
        close 2                         | ok
        crash 0                         | ok
        place 1 MADE                    | EraOver 2
        close 1                         | EraOver 2
        close 2                         | EraOver 2
        close 3                         | ok
    """,
    "A reply with the handle of another object isn't served.": """
        new 0 0 0                       | ok
        begin 1 1 CREATE                | ok 1
        place 1 MADE_NINE               | NotLegal
        flush                           | Down
    """,
    "A SERVERFAULT isn't served.": """
        new 0 0 0                       | ok
        begin 1 1 CREATE                | ok 1
        place 1 SERVER_FAULT            | NotLegal
        flush                           | Down
    """,
    "Fewer bytes than were asked for aren't served.": """
        new 0 0 0                       | ok
        begin 1 1 CREATE                | ok 1
        place 1 MADE                    | ok
        begin 1 2 WRITE                 | ok 2
        place 2 WROTE_TWO               | NotLegal
    """,
    "The verifier of another era isn't served.": """
        new 0 0 0                       | ok
        begin 1 1 CREATE                | ok 1
        place 1 MADE                    | ok
        begin 1 2 WRITE                 | ok 2
        place 2 WROTE_OTHER             | NotLegal
    """,
    "A call whose record is refused isn't placed: the tree has the root alone.": """
        new 1 0 0                       | ok
        begin 1 1 CREATE                | ok 1
        place 1 MADE                    | DeviceFault
        tree                            | 1.0.0.0.2
        crash 0                         | ok
    """,
    "An answer waits for the barrier, and is the reply that was placed.": """
        new 0 0 0                       | ok
        begin 1 1 CREATE                | ok 1
        answer 1                        | OutOfTurn
        place 1 MADE                    | ok
        answer 1                        | NotDurable 0
        flush                           | ok
        answer 1                        | ok 1.1.0.0.0.0.0.1.8.0.1.0.0.0
        answer 1                        | OutOfTurn
    """,
    "A crash keeps what is safe.": """
        new 0 0 0                       | ok
        begin 1 1 CREATE                | ok 1
        place 1 MADE                    | ok
        flush                           | ok
        begin 1 2 WRITE                 | ok 2
        place 2 WROTE                   | ok
        crash 0                         | KeepTooSmall 1
        crash 3                         | KeepTooLarge 2
        journal                         | 2 1 0 2
        crash 1                         | ok
        journal                         | 1 1 0 3
        begin 1 1 CREATE                | EraOver 2
    """,
    "A WRITE that a crash took is explained, and the tree is that of the records.": """
        new 0 0 0                       | ok
        begin 1 1 CREATE                | ok 1
        place 1 MADE                    | ok
        flush                           | ok
        answer 1                        | ok 1.1.0.0.0.0.0.1.8.0.1.0.0.0
        begin 1 2 WRITE                 | ok 2
        place 2 WROTE                   | ok
        answer 2                        | ok 2.1.0.0.0.0.0.0.0.3.0.0.1
        crash 1                         | ok
        check                           | check yes
        certificate                     | witness 1;bind 0000000000000001 1;place 1;place 2;cut 1;end;
        tree                            | 2.0.0.0.2.1.1.1627389952.0.1.1.0.0
        rebuild                         | rebuild yes
    """,
    "A failed barrier brings a book down, and what a crash then takes is explained.": """
        new 0 1 0                       | ok
        begin 1 1 CREATE                | ok 1
        place 1 MADE                    | ok
        flush                           | DeviceFault
        begin 2 1 CREATE                | Down
        close 1                         | ok
        crash 0                         | ok
        check                           | check yes
        certificate                     | witness 1;bind 0000000000000001 1;take 1;cut 0;end;
    """,
    "A book from a start: its object has the first number, and the first call's object the second.": """
        new 0 0 0 plain 0/1/x61/x616263 | ok
        begin 1 1 CREATE_B              | ok 1
        place 1 MADE_TWO                | ok
        certificate                     | witness 1;bind 0000000000000001 1;bind 0000000000000002 2;take 1;end;
        tree                            | 3.0.0.0.2.1.1.1627389952.0.1.1.3.1633837824.0.1.1.1644167168.0.2.1.0.0
        rebuild                         | rebuild yes
        begin 1 2 READ                  | ok 2
        place 2 READ_ABC                | ok
        answer 2                        | ok 2.1.0.0.0.0.0.0.3.1.3.1633837824
        check                           | check yes
        crash 0                         | ok
        tree                            | 2.0.0.0.2.1.1.1627389952.0.1.1.3.1633837824.0
        rebuild                         | rebuild yes
        check                           | check yes
        certificate                     | witness 1;bind 0000000000000001 1;bind 0000000000000002 2;take 1;place 2;cut 0;end;
        new 0 0 0 plain 0/1/x61/x616263 | ok
        begin 1 1 CREATE_B              | ok 1
        place 1 MADE                    | NotLegal
        flush                           | Down
    """,
    "A strict book takes the attributes of the objects, of a directory with any size.": """
        new 0 0 0 strict                | ok
        begin 1 1 CREATE                | ok 1
        place 1 MADE_FULL               | ok
        begin 1 2 WRITE                 | ok 2
        place 2 WROTE_FULL              | ok
        begin 1 3 REMOVE                | ok 3
        place 3 ABSENT_FULL             | ok
        flush                           | ok
        answer 2                        | ok 2.1.0.0.0.0.0.1.0.0.0.0.0.0.1.1.420.1.0.0.0.3.0.0.0.0.0.0.0.0.0.0.0.0.0.0.3.0.0.1
        check                           | check yes
        rebuild                         | rebuild yes
        certificate                     | witness 1;bind 0000000000000001 1;take 1;place 2;end;
    """,
    "A strict book refuses another type or size of what is made.": """
        new 0 0 0 strict                | ok
        begin 1 1 CREATE                | ok 1
        place 1 MADE_DIRECTORY          | NotLegal
        place 1 MADE_FULL               | Down
        new 0 0 0 strict                | ok
        begin 1 1 CREATE                | ok 1
        place 1 MADE_LONG               | NotLegal
        new 0 0 0 strict                | ok
        begin 1 1 CREATE                | ok 1
        place 1 MADE_IN_FILE            | NotLegal
    """,
    "A strict book refuses another type or size of what is written, and another size ahead.": """
        new 0 0 0 strict                | ok
        begin 1 1 CREATE                | ok 1
        place 1 MADE                    | ok
        begin 1 2 WRITE                 | ok 2
        place 2 WROTE_LONG              | NotLegal
        new 0 0 0 strict                | ok
        begin 1 1 CREATE                | ok 1
        place 1 MADE                    | ok
        begin 1 2 WRITE                 | ok 2
        place 2 WROTE_DIRECTORY         | NotLegal
        new 0 0 0 strict 0/1/x61        | ok
        begin 1 2 WRITE                 | ok 1
        place 1 WROTE_AHEAD             | NotLegal
        new 0 0 0 strict 0/1/x61        | ok
        begin 1 2 WRITE                 | ok 1
        place 1 WROTE_FULL              | ok
    """,
    "A strict book refuses another type in a failure.": """
        new 0 0 0 strict                | ok
        begin 1 1 REMOVE                | ok 1
        place 1 ABSENT_IN_FILE          | NotLegal
        new 0 0 0 strict                | ok
        begin 1 1 REMOVE                | ok 1
        place 1 DENIED_IN_FILE          | NotLegal
    """,
    "A strict book refuses another size in a failure, another size ahead of it, and another type or size of a RENAME's second object.": """
        new 0 0 0 strict 0/1/x61/x616263 | ok
        begin 1 1 FOLLOW                | ok 1
        place 1 FOLLOWED_LONG           | NotLegal
        new 0 0 0 strict 0/1/x61/x616263 | ok
        begin 1 1 FOLLOW                | ok 1
        place 1 FOLLOWED_FULL           | ok
        new 0 0 0 strict 0/1/x61/x616263 | ok
        begin 1 1 REMOVE_IN_FILE        | ok 1
        place 1 NOT_IN_LONG_FILE        | NotLegal
        new 0 0 0 strict 0/1/x61/x616263 | ok
        begin 1 1 REMOVE_IN_FILE        | ok 1
        place 1 NOT_IN_FILE             | ok
        new 0 0 0 strict 0/1/x61/x616263 | ok
        begin 1 1 RENAME_INTO_FILE      | ok 1
        place 1 NOT_INTO_DIRECTORY      | NotLegal
        new 0 0 0 strict 0/1/x61/x616263 | ok
        begin 1 1 RENAME_INTO_FILE      | ok 1
        place 1 NOT_INTO_LONG_FILE      | NotLegal
        new 0 0 0 strict 0/1/x61/x616263 | ok
        begin 1 1 RENAME_INTO_FILE      | ok 1
        place 1 NOT_INTO_FILE           | ok
    """,
    "A plain book takes any attributes.": """
        new 0 0 0 plain                 | ok
        begin 1 1 CREATE                | ok 1
        place 1 MADE_DIRECTORY          | ok
        begin 1 2 WRITE                 | ok 2
        place 2 WROTE_AHEAD             | ok
        begin 1 3 REMOVE                | ok 3
        place 3 ABSENT_IN_FILE          | ok
        begin 1 4 REMOVE                | ok 4
        place 4 DENIED_IN_FILE          | ok
        check                           | check yes
        rebuild                         | rebuild yes
    """,
}

# Books that begin with OPENING: the directory `d`, or nothing. The first call's object is OBJECT, the directory has the handle that HELD binds.
OPENED_BOOKS = """
    new 0 0 0 OPENING               | ok
    begin 1 1 CREATE                | ok 1
    answer 1                        | OutOfTurn
    place 1 MADE                    | ok
    answer 1                        | NotDurable 0
    flush                           | ok
    answer 1                        | ok 1.1.0.0.0.0.0.1.8.0.OBJECT.0.0.0
    begin 1 2 WRITE                 | ok 2
    place 2 WROTE                   | ok
    answer 2                        | ok 2.1.0.0.0.0.0.0.0.3.0.0.1
    crash 0                         | KeepTooSmall 1
    crash 3                         | KeepTooLarge 2
    crash 1                         | ok
    begin 1 1 CREATE                | EraOver 2
    check                           | check yes
    certificate                     | witness 1;HELDbind 000000000000000OBJECT OBJECT;place 1;place 2;cut 1;end;
    tree                            | TREE
    rebuild                         | rebuild yes
    new 0 1 0 OPENING               | ok
    begin 1 1 CREATE                | ok 1
    place 1 MADE                    | ok
    flush                           | DeviceFault
    begin 2 1 CREATE                | Down
    close 1                         | ok
    crash 0                         | ok
    check                           | check yes
    certificate                     | witness 1;HELDbind 000000000000000OBJECT OBJECT;take 1;cut 0;end;
"""
ALONE = {"OBJECT": "1", "HELD": "", "TREE": "2.0.0.0.2.1.1.1627389952.0.1.1.0.0"}
BESIDE = {"OBJECT": "2", "HELD": "bind 0000000000000001 1;",
          "TREE": "3.0.0.0.2.1.1.1627389952.0.2.1.0.0.1.1.1677721600.0.1.2"}
OPENINGS = ({"OPENING": "strict", **ALONE}, {"OPENING": "plain 0/2/x64", **BESIDE}, {"OPENING": "strict 0/2/x64", **BESIDE})

# A CREATE and an UNSTABLE WRITE from begin to answer. Behind each command stand the records on stable storage, and all records, by then.
SCRIPT = """
    begin 1 1 CREATE                | ok 1 | 0 0
    place 1 MADE                    | ok | 0 1
    flush                           | ok | 1 1
    answer 1                        | ok 1.1.0.0.0.0.0.1.8.0.1.0.0.0 | 1 1
    begin 1 2 WRITE                 | ok 2 | 1 1
    place 2 WROTE                   | ok | 1 2
    answer 2                        | ok 2.1.0.0.0.0.0.0.0.3.0.0.1 | 1 2
"""


def crashed_books(opening: str = "") -> list[list[str]]:
    """A crash behind each command of the script, with each number of records that it may keep: it is explained, and the records give the tree."""
    books, begun = [], [f"new 0 0 0 {opening} | ok"]
    for line in SCRIPT.strip().split("\n"):
        command, answer, records = line.split("|")
        begun = [*begun, f"{command} | {answer}"]
        mark, length = map(int, records.split())
        for keep in range(mark, length + 1):
            books.append([*begun, f"crash {keep} | ok", "check | check yes", "rebuild | rebuild yes"])
    return books


def pairs_of(lines: list[str], words: dict) -> list[tuple[str, str]]:
    """The commands of these lines with their answers."""
    pairs = [line.split("|") for line in lines]
    return [(" ".join(words.get(word, word) for word in command.split()), answer.strip()) for command, answer in pairs]


def opened_lines(opening: dict) -> list[tuple[str, str]]:
    """The commands of books that begin so, with their answers."""
    number = opening["OBJECT"]
    words = WORDS | {"MADE": f"8 0.1.8.0.{number}.0.0.0", "WRITE": f"7 8.0.{number}.0.0.3.0.3.1633837824"}
    lines = OPENED_BOOKS.strip().split("\n") + [line for book in crashed_books("OPENING") for line in book]
    texts = []
    for line in lines:
        for word, meant in opening.items():
            line = line.replace(word, meant)
        texts.append(line.replace("0.1.8.0.1.0.0.0", f"0.1.8.0.{number}.0.0.0"))
    return pairs_of(texts, words)


def named_lines() -> list[tuple[str, str]]:
    """The commands of all these books with their answers."""
    plain = [line for text in BOOKS.values() for line in text.strip().split("\n")]
    plain += [line for book in crashed_books() for line in book]
    return pairs_of(plain, WORDS) + [pair for opening in OPENINGS for pair in opened_lines(opening)]
