"""A server with several clients at once, which makes a run and its certificate.

A call takes effect at one moment between its call and its reply; the certificate has the order of these moments. At a crash the server loses a
suffix of what took effect in that era, but nothing stable, and changes its write verifier where it has to.
"""
from . import carried, lies, rare, replies
from . import layouts as nfs
from . import rpc
from .clients import ALL, NAME_POOLS, STARTS, THEMES, World, draw_call
from .draws import Dice
from .openings import draw_start, tree_of
from .plans import is_stable
from .runs import CallEvent, CloseEvent, CrashEvent, PlanEra, PlanPlace, ReplyEvent, Run

# What becomes of a call: it takes effect and is answered, takes effect without a reply, gets an RPC failure, or nothing at all.
ANSWERED, PLACED, REFUSED, LOST = "answered", "placed", "refused", "lost"


class Served:
    """A call at the server: what it asks, its reply, the tree behind it. The names are those of a call of a history, so that one rule serves both."""

    def __init__(self, number: int, event: CallEvent, fate: str):
        self.number, self.event, self.fate = number, event, fate
        self.procedure, self.arguments = event.procedure, event.arguments
        self.result = self.tree = None
        self.is_answered = False

    @property
    def is_modifying(self) -> bool:
        return self.procedure in nfs.MODIFYING

    @property
    def has_success(self) -> bool:
        return self.result is not None and self.result[0] == 0


# How many runs have starting objects, of which half are strict.
START_SHARE = 0.45
# How many strict runs have at their end one more reply, with a wrong detail in its attributes.
WRONG_AT_END_SHARE = 0.3

# A server that keeps to the rules; one that once gives a reply that it may not give; one that loses what is stable, and shows any write verifier.
KINDS = {
    "right": {"mixed": 3, "data": 3, "commits": 1, "dirs": 3, "made": 2},
    "lying": {"mixed": 3, "dirs": 2, "made": 2},
    "careless": {"data": 3, "commits": 5, "mixed": 1},
}


class Habits:
    """How one run goes."""

    def __init__(self, dice: Dice):
        kind = dice.weighted({"right": 40, "lying": 35, "careless": 25})
        self.lies_at = dice.randrange(5, 20) if kind == "lying" else None
        self.is_careless = kind == "careless"
        theme = dice.weighted(KINDS[kind])
        self.weights, (starts, self.start_weights) = THEMES[theme], STARTS[theme]
        self.start_calls = dice.randrange(4, 12) if kind == "lying" else dice.choice(starts)
        self.events = dice.choice([0, 3, 6, 10, 14, 20, 24, 30, 40])
        if dice.chance(0.03):
            self.events = dice.randrange(60, 200) if dice.chance(0.9) else dice.randrange(300, 1500)
        if theme == "commits":
            self.events += 15
        self.lanes, self.most_open = dice.randrange(1, 5), dice.choice([1, 2, 2, 3, 5])
        self.crash_share = dice.choice([0.06, 0.1, 0.15] if self.is_careless else [0, 0.06, 0.1, 0.15, 0.25])
        self.close_share = dice.choice([0, 0, 0.03])
        self.unanswered_share = dice.choice([0, 0.05, 0.1, 0.25])
        self.success_share = dice.choice([0.6, 0.85, 0.97])
        self.odd_share = dice.choice([0, 0.05, 0.1])
        self.given_share, self.wrong_share = dice.choice([0.3, 0.7, 1]), 0.3
        self.back_share = 0
        self.small_xids = dice.chance(0.4)
        self.odd_lanes = dice.chance(0.2)


class Server:
    """`wishes` are kinds of `rare` of which there are more than else."""

    def __init__(self, dice: Dice, wishes=()):
        self.dice, self.habits = dice, Habits(dice)
        root = dice.choice([b"\0", b"\0", b"", b"\xff" * 64, dice.randbytes(8), dice.randbytes(32)])
        names = dice.choice(NAME_POOLS)
        start = draw_start(dice, names) if dice.chance(START_SHARE) else None
        self.base = tree_of(start)
        self.world, self.run = World(dice, root, self.base, names), Run(root, start=start)
        self.know_some()
        self.wish(wishes)
        self.world.verifier = dice.choice([bytes(7) + b"\1", bytes(8), dice.randbytes(8)])
        self.calls = self.next_xid = 0
        self.lanes, self.used, self.closed, self.waiting = [], set(), set(), set()
        self.open, self.placed, self.verifiers, self.spent = [], [], [], set()

    def know_some(self) -> None:
        """Clients know some starting objects by handles that nobody gave; others they meet by replies."""
        share = self.dice.choice([0, 0.4, 0.8, 1])
        for number in range(1, self.run.first + 1):
            if self.dice.chance(share):
                self.world.handle_for(self.dice, number)

    def wish(self, wishes) -> None:
        if rare.LONG_WRITES in wishes:
            self.world.long_left, self.world.part_share = 2, 0.5
        if rare.UNKNOWN_HANDLES in wishes:
            self.world.shown_share, self.world.is_silent = 0.3, True
        if rare.OBJECTS_BACK in wishes:
            self.habits.back_share = 0.15

    # Lanes and transaction numbers

    def new_lane(self) -> int:
        while True:
            lane = self.dice.choice([0, 2**32 - 1, self.dice.getrandbits(32)]) if self.habits.odd_lanes else self.dice.randrange(1, 30 + len(self.closed))
            if lane not in self.closed and lane not in self.lanes:
                return lane

    def lane(self) -> int:
        while len(self.lanes) < self.habits.lanes:
            self.lanes.append(self.new_lane())
        return self.dice.choice(self.lanes)

    def xid(self, lane: int) -> int:
        self.next_xid += 1
        choices = [xid for xid in (0, 1, 2, 2**32 - 1) if (lane, xid) not in self.waiting]
        if self.habits.small_xids and choices:
            return self.dice.choice(choices)
        while (lane, self.next_xid) in self.waiting:
            self.next_xid += 1
        return self.next_xid

    # Events

    def begin(self, procedure: int, arguments: dict, odd_share: float) -> Served:
        lane, dice = self.lane(), self.dice
        event = CallEvent(lane, self.xid(lane), procedure, arguments)
        if dice.chance(0.1):
            event.flavor, event.credential = dice.choice([1, 5, 7, 2**32 - 1]), dice.randbytes(dice.choice([0, 5, 24, 400]))
        if dice.chance(0.05):
            event.check_flavor, event.check = dice.choice([0, 6]), dice.randbytes(dice.choice([0, 1, 400]))
        if dice.chance(odd_share):
            make_unjudged(dice, event)
        self.used.add(lane)
        self.waiting.add((lane, event.xid))
        self.calls += 1
        self.run.events.append(event)
        served = Served(self.calls, event, self.fate(event))
        self.open.append(served)
        return served

    def fate(self, event: CallEvent) -> str:
        if self.world.part_share > 0.15 and rare.is_long(event) and self.dice.chance(0.85):
            return self.dice.choice([PLACED, PLACED, LOST])
        if not is_linking(event) and self.dice.chance(self.habits.unanswered_share):
            return self.dice.choice([PLACED, PLACED, LOST])
        if self.dice.chance(self.habits.odd_share / 3):
            event.flavor = self.dice.choice([event.flavor, rpc.RPCSEC_GSS])
            return REFUSED
        return ANSWERED

    def place(self, served: Served, success_share: float) -> None:
        before, made = self.world.tree, self.run.first + served.number
        status, value, tree = replies.reply_to(self.dice, self.world, made, served.procedure, served.arguments, success_share)
        served.result, served.tree = (status, value), tree
        self.world.tree = tree
        self.carry(served, before)
        if served.procedure == nfs.WRITE and status == 0:
            self.world.writes.append((served.arguments["object"], served.arguments["offset"], served.arguments["offset"] + value["count"]))
        self.placed.append(served)

    def carry(self, served: Served, before: dict) -> None:
        """Attributes of a reply: in a strict run they agree, in a plain one some don't."""
        if self.run.start is not None:
            trees = replies.binds_of(self.world), before, served.tree
            carried.fill(self.dice, *trees, served, self.habits.given_share)
            if not self.run.is_strict:
                carried.spoil_some(self.dice, *trees, served, self.habits.wrong_share)

    def carry_wrong(self) -> None:
        """A call whose reply carries attributes of which a detail is wrong. Some have a file's handle where a directory's is wanted, some are of a dot."""
        dice, before = self.dice, self.world.tree
        procedure, arguments = draw_call(dice, self.world, ALL)
        fields = [field for field in ("dir", "to_dir") if field in arguments]
        files = self.world.live({nfs.REGULAR})
        if procedure == nfs.LOOKUP and dice.chance(0.4):
            arguments = {"dir": dice.choice(self.world.live({nfs.DIRECTORY})), "name": dice.choice([b".", b".."])}
        elif fields and files and dice.chance(0.35):
            arguments[dice.choice(fields)] = dice.choice(files)
        served = self.begin(procedure, arguments, odd_share=0)
        served.fate, served.event.flavor = ANSWERED, rpc.AUTH_NONE
        self.place(served, 0.7)
        carried.spoil_one(dice, replies.binds_of(self.world), before, served.tree, served)

    def lie(self) -> None:
        """A call that is answered as it mostly may not be."""
        self.habits.lies_at = None
        if self.run.is_strict and self.dice.chance(0.6):
            self.carry_wrong()
            return
        served = self.begin(*lies.draw_lying_call(self.dice, self.world), odd_share=0)
        served.fate, served.tree = ANSWERED, self.world.tree
        served.event.flavor = rpc.AUTH_NONE
        served.result = lies.lie(self.dice, self.world, self.run.first + served.number, served.event)
        self.carry(served, served.tree)
        self.placed.append(served)

    def answer(self, served: Served) -> None:
        event, dice = served.event, self.dice
        reply = ReplyEvent(event.lane, event.xid, event.procedure)
        if served.result is not None:
            reply.status, reply.value = served.result
            served.is_answered = True
        elif served.fate == ANSWERED and is_linking(event):
            reply.raw = dice.choice([nfs.STATUSES["NOTSUPP"], 1, 77, 2**32 - 1]).to_bytes(4, "big") + dice.randbytes(dice.choice([0, 4, 5]))
        elif served.fate == ANSWERED and dice.chance(0.6):
            reply.raw = dice.randbytes(dice.choice([0, 4, 8, 9]))
        else:
            reply.words = replies.refusal(dice)
        if dice.chance(0.05):
            reply.check_flavor, reply.check = dice.word(), dice.randbytes(dice.choice([1, 400]))
        self.waiting.discard((event.lane, event.xid))
        self.run.events.append(reply)

    def go_on(self, served: Served) -> None:
        """The next step of an open call: it takes effect, then it is answered, as its fate says."""
        takes_effect = served.event.arguments is not None and served.fate in (ANSWERED, PLACED)
        if takes_effect and served.result is None:
            self.place(served, self.habits.success_share)
            if served.fate == ANSWERED:
                return
        self.open.remove(served)
        if served.fate in (ANSWERED, REFUSED):
            self.answer(served)

    def close(self) -> None:
        lane = self.lane()
        self.run.events.append(CloseEvent(lane))
        self.lanes.remove(lane)
        self.closed.add(lane)
        self.open = [served for served in self.open if served.event.lane != lane]

    def crash(self) -> None:
        self.end_era(has_cut=True)
        self.run.events.append(CrashEvent())
        self.closed |= self.used
        self.used, self.open, self.placed, self.world.writes = set(), [], [], []
        self.lanes = [lane for lane in self.lanes if lane not in self.closed]

    def done(self, procedure: int, arguments: dict, fate: str) -> None:
        """A call that comes to its end at once."""
        served = self.begin(procedure, arguments, odd_share=0)
        served.fate, served.event.flavor = fate, rpc.AUTH_NONE
        while served in self.open:
            self.go_on(served)

    def take_away_and_crash(self) -> None:
        """An object is taken away without a reply, and clients look for it; after the crash, which may bring it back, they look again."""
        world, dice = self.world, self.dice
        places = [path for path in world.tree if path and world.handles.get(world.tree[path].object) and world.handles.get(world.tree[path[:-1]].object)]
        if not places:
            return
        path = dice.choice(places)
        node, place = world.tree[path], {"dir": dice.choice(world.handles[world.tree[path[:-1]].object]), "name": path[-1]}
        looks = [(nfs.GETATTR, {"object": dice.choice(world.handles[node.object])}), (nfs.LOOKUP, place)]
        self.done(nfs.RMDIR if node.is_directory else nfs.REMOVE, place, PLACED)
        self.done(*dice.choice(looks), ANSWERED)
        self.crash()
        self.done(*looks[0], ANSWERED)

    # Eras

    def end_era(self, has_cut: bool) -> None:
        dice = self.dice
        listed = [served for served in self.placed if served.is_answered or (served.is_modifying and served.has_success)]
        answered = [served if served.is_answered else None for served in listed]
        era = PlanEra([plan_place(served) for served in listed])
        self.run.eras.append(era)
        if not has_cut:
            return
        binds = replies.binds_of(self.world)
        needed = max((at + 1 for at in range(len(listed)) if is_stable(binds, answered, at)), default=0)
        era.cut = dice.choice([needed, needed, len(listed), dice.randrange(needed, len(listed) + 1)])
        if self.habits.is_careless:
            era.cut = dice.choice([needed, needed, dice.randrange(needed, len(listed) + 1), max(0, needed - 1), dice.randrange(len(listed) + 1)])
        self.world.tree = self.base = listed[era.cut - 1].tree if era.cut else self.base
        self.next_verifier(answered, answered[era.cut:])

    def next_verifier(self, answered: list, lost: list) -> None:
        """A verifier that no era showed which lost bytes of an answered WRITE. It may stay, or come back, where nothing was lost."""
        shown = [one for one in answered if one and one.has_success and one.procedure in (nfs.WRITE, nfs.COMMIT)]
        self.verifiers.append(self.world.verifier)
        if shown and any(one and one.procedure == nfs.WRITE and one.has_success and one.result[1]["count"] > 0 for one in lost):
            self.spent.add(self.world.verifier)
        kept = [one for one in self.verifiers if one not in self.spent or self.habits.is_careless]
        self.world.verifier = self.dice.choice(kept) if kept and self.dice.chance(0.4) else self.dice.randbytes(8)

    def make(self) -> Run:
        dice = self.dice
        for _ in range(self.habits.start_calls if self.habits.events else 0):
            served = self.begin(*draw_call(dice, self.world, self.habits.start_weights), self.habits.odd_share)
            served.fate = ANSWERED if served.fate == PLACED else served.fate
            while served in self.open:
                self.go_on(served)
            if dice.chance(self.habits.crash_share / 3):
                self.crash()
        while len(self.run.events) < self.habits.events:
            if self.habits.lies_at is not None and self.calls >= self.habits.lies_at:
                self.lie()
            elif dice.chance(self.habits.crash_share):
                self.crash()
            elif self.habits.back_share and dice.chance(self.habits.back_share):
                self.take_away_and_crash()
            elif dice.chance(self.habits.close_share):
                self.close()
            elif self.open and (len(self.open) >= self.habits.most_open or dice.chance(0.5)):
                self.go_on(dice.choice(self.open))
            else:
                self.begin(*draw_call(dice, self.world, self.habits.weights), self.habits.odd_share)
        if self.habits.lies_at is not None:
            self.lie()
        if self.run.is_strict and dice.chance(WRONG_AT_END_SHARE):
            self.carry_wrong()
        for served in dice.sample(self.open, len(self.open)):
            while served in self.open and dice.chance(0.9):
                self.go_on(served)
        self.end_era(has_cut=False)
        numbers = {handle: number for number, handles in self.world.handles.items() for handle in handles if handle and number}
        self.run.binds = sorted(numbers.items())
        return self.run


def plan_place(served: Served) -> PlanPlace:
    if served.is_answered:
        return PlanPlace(served.number)
    return PlanPlace(served.number, True, served.result[1]["count"] if served.procedure == nfs.WRITE else None)


def make_unjudged(dice: Dice, event: CallEvent) -> None:
    """Another procedure, program or version; its arguments may be any bytes."""
    kind = dice.randrange(4)
    event.arguments, event.raw = None, dice.randbytes(dice.choice([0, 4, 12, 13]))
    if kind < 2:
        event.procedure = dice.choice(sorted(nfs.UNJUDGED))
    elif kind == 2:
        event.procedure = dice.choice([22, 23, 2**32 - 1])
    else:
        event.program, event.version = dice.choice([(100005, 3), (100003, 2), (100003, 4), (100000, 2), (0, 0)])
        event.flavor = dice.choice([0, 6])


def is_linking(event: CallEvent) -> bool:
    return (event.program, event.version) == (nfs.PROGRAM, nfs.VERSION) and event.procedure in (nfs.LINK, nfs.MKNOD)


def make_run(dice: Dice, wishes=()) -> Run:
    return Server(dice, wishes).make()
