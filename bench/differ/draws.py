"""Random values: dice with a few habits, handles, names, attributes."""
import random

ODD_NAMES = [b"", b".", b"..", b"a/b", b"n\0", b"\xc3\xa9", b"\x7f", b"...", b" ", b"n" * 255, b"n" * 300, b"A"]
FAR = 16_777_216


class Dice(random.Random):
    def chance(self, share: float) -> bool:
        return self.random() < share

    def weighted(self, weights: dict):
        return self.choices(list(weights), list(weights.values()))[0]

    def word(self) -> int:
        return self.choice([0, 1, 2, 3, 420, 2**31, 2**32 - 1, self.getrandbits(32)])

    def hyper(self) -> int:
        return self.choice([0, 1, 4096, 2**32, 2**63, 2**64 - 1, self.getrandbits(64)])

    def some(self, most: int) -> bytes:
        return bytes(self.choices(b"abcxyz", k=self.randrange(most + 1)))


def fresh_handle(dice: Dice, known) -> bytes:
    """A handle that isn't known. Some are the beginning of a known one or go on behind it, some a small number in eight bytes."""
    while True:
        size = dice.choice([1, 1, 2, 3, 4, 4, 8, 16, 32, 63, 64])
        handle = dice.randrange(100).to_bytes(8, "big") if dice.chance(0.15) else dice.randbytes(size)
        if known and dice.chance(0.2):
            handle = dice.choice(sorted(known))[:size - 1] + handle[:1]
        if handle not in known:
            return handle


def time(dice: Dice) -> dict:
    return {"seconds": dice.word(), "nanoseconds": dice.word()}


def attributes(dice: Dice, kind=None, size=None) -> dict:
    words = {field: dice.word() for field in ("mode", "nlink", "uid", "gid", "rdev_major", "rdev_minor")}
    hypers = {field: dice.hyper() for field in ("used", "fsid", "fileid")}
    times = {field: time(dice) for field in ("atime", "mtime", "ctime")}
    return {"type": dice.randrange(1, 8) if kind is None else kind, "size": dice.hyper() if size is None else size, **words, **hypers, **times}


def post(dice: Dice):
    return attributes(dice) if dice.chance(0.12) else None


def weak(dice: Dice) -> dict:
    before = {"size": dice.hyper(), "mtime": time(dice), "ctime": time(dice)} if dice.chance(0.12) else None
    return {"before": before, "after": post(dice)}


def when(dice: Dice):
    word = dice.weighted({0: 8, 1: 1, 2: 1})
    return word, time(dice) if word == 2 else None


def wanted(dice: Dice, size) -> dict:
    numbers = {field: dice.word() if dice.chance(0.15) else None for field in ("mode", "uid", "gid")}
    return {**numbers, "size": size, "atime": when(dice), "mtime": when(dice)}


def size(dice: Dice) -> int:
    return FAR if dice.chance(0.004) else dice.choice([0, 0, 1, 2, 3, 5, 8, 12, 20, 33])
