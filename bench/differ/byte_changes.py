"""Changes of the bytes of both files."""
from .draws import Dice

WORDS = [0, 1, 2, 3, 4, 6, 9, 64, 65, 400, 401, 1_000_000, 1_000_001, 2_097_152, 2_097_153, 2**31, 2**32 - 1]


def flip(dice: Dice, data: bytes) -> bytes:
    if not data:
        return b"\0"
    at = dice.randrange(len(data))
    return data[:at] + bytes([data[at] ^ (1 << dice.randrange(8))]) + data[at + 1:]


def replace_word(dice: Dice, data: bytes) -> bytes:
    at = 4 * dice.randrange(max(1, len(data) // 4))
    return data[:at] + dice.choice(WORDS).to_bytes(4, "big") + data[at + 4:]


def replace_front(dice: Dice, data: bytes) -> bytes:
    """A word of the magic, the root handle, the number of events, the first event, or the profile and the first starting object."""
    at = 8 + 4 * dice.randrange(8)
    return data[:at] + dice.choice(WORDS).to_bytes(4, "big") + data[at + 4:]


def cut_short(dice: Dice, data: bytes) -> bytes:
    return data[:dice.choice([len(data) - 1, len(data) - 4, dice.randrange(len(data) + 1), dice.randrange(13)])]


def go_on(dice: Dice, data: bytes) -> bytes:
    return data + dice.choice([b"\0", bytes(4), b"\0\0\0\3", data[-8:]])


def change_magic(dice: Dice, data: bytes) -> bytes:
    return dice.choice([b"NFSHIST0", b"nfshist1", b"NFSHIST", b"", b"NFSHIST1NFSHIST1", b"NFSHIST3", b"NFSHIST2", b"NFSHIST1"]) + data[8:]


HISTORY_CHANGES = {flip: 3, replace_word: 4, replace_front: 3, cut_short: 2, go_on: 1, change_magic: 1}


def lines_of(text: bytes) -> list:
    return text.split(b"\n")[:-1]


def some_line(dice: Dice, lines: list) -> int:
    return dice.choice([0, len(lines) - 1, dice.randrange(len(lines)), dice.randrange(len(lines)), dice.randrange(len(lines))])


def change_number(dice: Dice, lines: list, at: int) -> None:
    """Another spelling of a line's last number, or a number at a limit."""
    words = lines[at].split(b" ")
    last = words[-1]
    words[-1] = dice.choice([b"0" + last, b"+" + last, b"-1", last + b"0", b"", b"x", b"18446744073709551615", b"18446744073709551616", b"4294967295",
                             b"4294967296", b"9" * 40, b"00", b"1e1", last + b".", b"\xd9\xa1"])
    lines[at] = b" ".join(words)


def change_spaces(dice: Dice, lines: list, at: int) -> None:
    lines[at] = dice.choice([lines[at] + b" ", b" " + lines[at], lines[at].replace(b" ", b"  ", 1), lines[at].replace(b" ", b"\t", 1),
                             lines[at].replace(b" ", b"", 1), lines[at] + b"\r", lines[at] + b"\0", lines[at] + b" 1"])


def change_letters(dice: Dice, lines: list, at: int) -> None:
    lines[at] = dice.choice([lines[at].upper(), lines[at].capitalize(), lines[at][:-1], lines[at].replace(b"a", b"g"), lines[at][:7] + lines[at][8:]])


def change_lines(dice: Dice, lines: list, at: int) -> None:
    """A line is gone, doubled, moved, empty, or one more of another kind."""
    kind = dice.randrange(5)
    if kind == 0:
        del lines[at]
    elif kind == 1:
        lines.insert(at, lines[at])
    elif kind == 2:
        lines.insert(dice.randrange(len(lines)), lines.pop(at))
    elif kind == 3:
        lines.insert(at, b"")
    else:
        lines.insert(at, dice.choice([b"end", b"cut 0", b"place 1", b"take 1", b"take 1 1", b"place 1 1", b"cut 1 1", b"cut", b"bind aa 1", b"bind  1",
                                      b"bind " + b"ff" * 64 + b" 1", b"bind " + b"ff" * 65 + b" 1", b"bind abc 1", b"witness 1", b"witness 2", b"# x"]))


def change_end(dice: Dice, lines: list, at: int) -> None:
    """What stands in place of `end`."""
    lines[-1] = dice.choice([b"cut 1", b"end ", b"end\nend", b"place 1", b"end\n", b"End"])


def change_text(dice: Dice, text: bytes) -> bytes:
    if dice.chance(0.15):
        return dice.choice([text[:-1], b"", text + b"x", text[:dice.randrange(len(text) + 1)], flip(dice, text), text.replace(b"\n", b"\r\n")])
    lines = lines_of(text)
    if not lines:
        return text + b"witness 1\n"
    one = dice.weighted({change_number: 4, change_spaces: 2, change_letters: 2, change_lines: 3, change_end: 1})
    one(dice, lines, some_line(dice, lines))
    return b"".join(line + b"\n" for line in lines)


def change_files(dice: Dice, history: bytes, text: bytes):
    if dice.chance(0.4):
        return dice.weighted(HISTORY_CHANGES)(dice, history), text
    return history, change_text(dice, text)
