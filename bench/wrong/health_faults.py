"""Faults of health: how replies come, whatever they say."""
import os

from differ.rpc import SUCCESS

from .calls import Call, accepted
from .faults import HEALTH, Faulty
from .results import framed, reply_message, word

RECORD_LIMIT = 2_097_152
OTHER_NUMBER = 1 << 30


class HealthFault(Faulty):
    """A reply goes out as it should not."""
    seen = HEALTH

    def outgoing(self, call: Call) -> tuple[bytes, bool]:
        return self.wrong(call) if self.is_time(call) else super().outgoing(call)

    def wrong(self, call: Call) -> tuple[bytes, bool]:
        """What is sent in the reply's place, and whether the connection ends then."""
        raise NotImplementedError


class NoReply(HealthFault):
    """A call is done and never answered."""

    def wrong(self, call: Call) -> tuple[bytes, bool]:
        return b"", False


class SecondReply(HealthFault):
    """A call is answered twice."""

    def wrong(self, call: Call) -> tuple[bytes, bool]:
        return framed(accepted(call)) * 2, False


class OtherTransaction(HealthFault):
    """A reply to a number that nobody sent comes ahead of the right one."""

    def wrong(self, call: Call) -> tuple[bytes, bool]:
        stray = reply_message((call.xid + OTHER_NUMBER) % 2**32, SUCCESS, call.results)
        return framed(stray) + framed(accepted(call)), False


class Closes(HealthFault):
    """A connection ends in place of a reply."""

    def wrong(self, call: Call) -> tuple[bytes, bool]:
        return b"", True


class Cuts(HealthFault):
    """A connection ends in the middle of a reply."""

    def wrong(self, call: Call) -> tuple[bytes, bool]:
        record = framed(accepted(call))
        return record[:len(record) // 2], True


class Garbage(HealthFault):
    """A record that is no reply comes in place of one."""

    def wrong(self, call: Call) -> tuple[bytes, bool]:
        return framed(b"\xff" + self.dice.randbytes(self.dice.randrange(4, 200))), False


class BadResult(HealthFault):
    """A reply ends a word too early."""

    def wrong(self, call: Call) -> tuple[bytes, bool]:
        return framed(accepted(call)[:-4]), False


class TooLong(HealthFault):
    """A record comes whose header says that it has more than 2 MiB."""

    def wrong(self, call: Call) -> tuple[bytes, bool]:
        return word(0x80000000 | RECORD_LIMIT + 4) + accepted(call), False


class Dies(HealthFault):
    """The server ends, as by kill -9."""

    def wrong(self, call: Call) -> tuple[bytes, bool]:
        self.end()
        return b"", True

    def end(self) -> None:
        os._exit(1)


KINDS = [NoReply, SecondReply, OtherTransaction, Closes, Cuts, Garbage, BadResult, TooLong, Dies]
