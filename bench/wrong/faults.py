"""What all faults share, and their list. Each fault is a class over the right server; the first line of its text is what `--list` prints."""
import random
import re
import sys

from .calls import Call
from .server import Server

# Where a fault shows: in any history; in the attributes that the strict profile judges alone; to a client, in how it is answered; in no history.
PLAIN, STRICT, HEALTH, NEVER = "plain", "strict", "health", "never"
OFTEN = 200


class Faulty(Server):
    """A server that is wrong about once in `often` calls that its fault fits."""
    seen = PLAIN

    def __init__(self, seed: int = 1, often: int = OFTEN, tell=lambda words: print(words, file=sys.stderr, flush=True)):
        super().__init__(seed)
        self.dice, self.often, self.tell, self.times = random.Random(f"{seed} {self.name()}"), often, tell, 0

    @classmethod
    def name(cls) -> str:
        return re.sub("(?<!^)(?=[A-Z])", "_", cls.__name__).lower()

    @classmethod
    def line(cls) -> str:
        return cls.__doc__.split("\n")[0]

    def is_time(self, call: Call) -> bool:
        """Whether the fault happens at this call, which it fits."""
        if self.dice.randrange(self.often):
            return False
        self.happens(f"{call.name} of xid {call.xid:#x}")
        return True

    def happens(self, where: str) -> None:
        self.times += 1
        self.tell(f"fault {self.name()} {self.times}: {where}")


def all_faults() -> dict[str, type[Faulty]]:
    from . import crash_faults, data_faults, health_faults, name_faults
    kinds = [*data_faults.KINDS, *name_faults.KINDS, *crash_faults.KINDS, *health_faults.KINDS]
    return {kind.name(): kind for kind in kinds}
