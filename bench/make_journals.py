#!/usr/bin/env python3
"""Writes what crates/server_cases is run on, and what it has to answer: make_journals.py FOLDER [BOOKS [SERVERS [SEED]]].

First come the commands of books, then those of servers: make_books.py and make_servers.py say of what kinds. BOOKS and SERVERS are
about how many are drawn of each, 3,800 and 6,300 if they are left out. At the end come four servers that threads call at random, of
soak.py. The status is 1 where an answer was never reached.
"""
import pathlib
import sys

import make_books
import make_servers
import soak

# How many servers threads call.
SOAKED = 4


def main() -> int:
    folder = pathlib.Path(sys.argv[1])
    numbers = [int(word) for word in sys.argv[2:]]
    books, servers, seed = numbers + [3_800, 6_300, 1][len(numbers):]
    of_books, of_servers = make_books.make(books, seed), make_servers.make(servers, seed)
    soaked = [soak.soak_command(number) for number in range(SOAKED)]
    blocks = ["\n".join(of_books.given), of_servers.stdin().rstrip("\n"), *soaked]
    (folder / "stdin").write_text("\n\n".join(blocks) + "\n")
    (folder / "stdout").write_text("\n".join(of_books.wanted) + "\n" + of_servers.stdout() + "ok\n" * SOAKED)
    return max(make_books.print_report(of_books), make_servers.print_report(of_servers))


if __name__ == "__main__":
    sys.exit(main())
