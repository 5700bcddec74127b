"""How a file is refused, and items whose lengths have limits."""
from .items import Source


class Refused(Exception):
    """The name of a fault and its values."""

    def __init__(self, *words):
        super().__init__(" ".join(str(word) for word in words))


def take_limited(source: Source, limit: int) -> int:
    """A length or count. Over its limit it is at fault ahead of what is missing behind it."""
    value = source.word()
    if value > limit:
        raise Refused("TooLarge")
    return value


def take_bytes(source: Source, limit: int) -> bytes:
    length = take_limited(source, limit)
    value = source.take(length)
    source.take(-length % 4)
    return value
