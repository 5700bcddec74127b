"""The kinds of large histories: what their clients ask for, how many of them there are, and whether the server held something at first."""
from . import calls
from .clients import Clients
from .server import DIRECTORY, LINK, REGULAR


class Pool:
    """The objects that clients know of, by their kinds. An object that is gone is asked for now and then."""

    def __init__(self, clients: Clients, room: int):
        self.clients, self.dice, self.room, self.seen = clients, clients.dice, room, 0
        self.known = {REGULAR: [], DIRECTORY: [0], LINK: []}

    def refresh(self) -> None:
        made = self.clients.made
        while self.seen < len(made):
            found = self.clients.server.live(made[self.seen])
            if found is not None:
                self.known[found.kind].append(made[self.seen])
            self.seen += 1

    def pick(self, kind: int) -> int:
        known = self.known[kind]
        while known:
            at = self.dice.randrange(len(known))
            if self.clients.server.live(known[at]) is not None or self.one_in(20):
                return known[at]
            known[at] = known[-1]
            known.pop()
        return 0

    def place_of(self, number: int):
        """Where the object stands, or stood."""
        found = self.clients.server.objects.get(number)
        return (0, b"nothing") if found is None or number == 0 else (found.parent, found.name)

    def name(self, spread: int) -> bytes:
        return b"n%04d" % self.dice.randrange(spread)

    def one_in(self, number: int) -> bool:
        return self.dice.randrange(number) == 0

    def below(self, number: int) -> int:
        return self.dice.randrange(number)

    def some_bytes(self, least: int, most: int) -> bytes:
        return self.dice.randbytes(self.dice.randint(least, most))


def mixed(pool: Pool, is_tight: bool):
    long = 16 if is_tight else 200
    directory, file, roll = pool.pick(DIRECTORY), pool.pick(REGULAR), pool.below(100)
    if roll < 12:
        return calls.Lookup(directory, pool.name(2000)) if pool.one_in(4) else calls.Lookup(*pool.place_of(file))
    if roll < 13:
        return calls.Lookup(directory, b"." if pool.one_in(2) else b"..")
    if roll < 23:
        return calls.GetAttr(directory if pool.one_in(4) else file)
    if roll < 38:
        return calls.Read(file, pool.below(2000), 1 + pool.below(long))
    if roll < 58:
        return calls.Write(file, pool.below(2000), pool.some_bytes(0, long), pool.below(3))
    if roll < 62:
        return calls.Commit(file)
    return making(pool, directory, roll) if roll < 78 else changing(pool, directory, file, roll, is_tight)


def making(pool: Pool, directory: int, roll: int):
    name = pool.name(2000)
    if roll < 71:
        return calls.Create(directory, name)
    if roll < 73:
        return calls.CreateExclusive(directory, name, pool.below(9))
    return calls.MkDir(directory, name) if roll < 76 else calls.SymLink(directory, name, b"to/where")


def changing(pool: Pool, directory: int, file: int, roll: int, is_tight: bool):
    if roll < 80:
        return calls.ReadLink(pool.pick(LINK))
    if roll < 86:
        return calls.Remove(*pool.place_of(file))
    if roll < 88:
        return calls.RmDir(*pool.place_of(directory))
    if roll < 93:
        moved = directory if pool.one_in(3) else file
        return calls.Rename(*pool.place_of(moved), pool.pick(DIRECTORY), pool.name(2000))
    if roll < 95 and not is_tight:
        return pool.dice.choice([calls.ReadDir, calls.ReadDirPlus])(directory, 0, 40)
    rest = {95: (calls.SetAttr, file, pool.below(1000)), 96: (calls.SetAttr, directory, None), 97: (calls.Access, file), 98: (calls.Garbage, file)}
    kind, *words = rest.get(roll, (calls.GetAttr, file))
    return kind(*words)


def writes(pool: Pool, is_tight: bool):
    files = pool.known[REGULAR]
    if len(files) < 8:
        return calls.Create(0, pool.name(64))
    long = 16 if is_tight else 256
    file, offset, roll = files[pool.below(8)], pool.below(4_000_000), pool.below(100)
    if roll < 80:
        return calls.Write(file, offset, pool.some_bytes(1, long), 2 if pool.one_in(20) else 0)
    if roll < 90:
        return calls.Read(file, offset, 1 + pool.below(long))
    return calls.SetAttr(file, pool.below(4_000_000)) if roll == 90 else calls.Commit(file)


def dirs(pool: Pool, is_tight: bool):
    count, file = len(pool.known[REGULAR]), pool.pick(REGULAR)
    fresh, (_, name) = b"file-%08d.dat" % pool.below(100_000_000), pool.place_of(file)
    if count < pool.room and not pool.one_in(5):
        return calls.Create(0, fresh)
    roll = pool.below(100)
    if roll < 50:
        return calls.Lookup(0, fresh if pool.one_in(8) else name)
    if roll < 60:
        return calls.GetAttr(file)
    if roll < 75:
        return calls.Create(0, fresh)
    if roll < 89:
        return calls.Remove(0, name)
    if roll == 89 and count and not is_tight:
        return (calls.ReadDirPlus if pool.one_in(4) else calls.ReadDir)(0, pool.below(count), 64)
    return calls.Rename(0, name, 0, fresh)


def deep(pool: Pool, is_tight: bool):
    known = pool.known[DIRECTORY]
    low = known[-1 - pool.below(min(len(known), 40))]
    if pool.clients.server.live(low) is None:
        low = pool.pick(DIRECTORY)
    some, roll = pool.pick(DIRECTORY), pool.below(100)
    if roll < 25:
        return calls.MkDir(low, pool.name(50))
    if roll < 35:
        return calls.Create(low, pool.name(50))
    if roll < 50:
        return calls.Lookup(some, b"..")
    if roll < 60:
        return calls.Lookup(*pool.place_of(some))
    if roll < 70:
        return calls.RmDir(*pool.place_of(some))
    if roll < 85:
        return calls.Rename(*pool.place_of(some), low, pool.name(50))
    if roll < 93:
        return calls.Rename(*pool.place_of(low), some, pool.name(50))
    return calls.GetAttr(some)


def crashes(pool: Pool, is_tight: bool):
    long, file = 16 if is_tight else 120, pool.pick(REGULAR)
    if len(pool.known[REGULAR]) < 200 and pool.one_in(2):
        return calls.Create(0, pool.name(400))
    roll = pool.below(100)
    if roll < 60:
        return calls.Write(file, pool.below(1000), pool.some_bytes(1, long), 1 if pool.one_in(50) else 0)
    if roll < 85:
        return calls.Read(file, pool.below(1000), 1 + pool.below(long))
    if roll < 87:
        return calls.Commit(file)
    if roll == 87:
        return calls.Create(0, pool.name(400))
    if roll == 88:
        return calls.Remove(*pool.place_of(file))
    if roll == 89:
        return calls.Rename(*pool.place_of(file), 0, pool.name(400))
    return calls.SetAttr(file, pool.below(1000)) if roll == 90 else calls.GetAttr(file)


# For each kind what its clients ask for, and how many there are at once.
KINDS = {"mixed": (mixed, 8), "writes": (writes, 4), "dirs": (dirs, 4), "deep": (deep, 2), "crashes": (crashes, 4), "lanes": (mixed, 64),
         "both": (mixed, 8), "starts": (mixed, 8)}
# Of these the server held as many objects as are asked for; `starts` has no events.
WITH_START = ("both", "starts")


def make(kind: str, events: int, seed: str) -> Clients:
    """Clients of a kind, with so many events behind them."""
    ask, width = KINDS[kind]
    clients = Clients(width, seed, kind == "crashes", events if kind in WITH_START else 0)
    if kind == "starts":
        return clients
    pool = Pool(clients, max(16, min(events // 8, 60_000)))
    while True:
        lane = pool.below(width)
        if clients.flights[lane] is not None:
            clients.advance(lane)
        elif clients.events + clients.open + 2 > events:
            break
        elif kind == "crashes" and pool.one_in(50):
            clients.crash()
        elif kind != "mixed" or clients.open == 0 or pool.one_in(3):
            pool.refresh()
            # Files have at most 200 bytes an event, so that a million events stay within the limit of a history's file.
            clients.begin(lane, ask(pool, clients.size > 200 * clients.events + 65_536))
    clients.settle()
    if clients.events < events:
        clients.close(4_000_000_000)
    return clients
