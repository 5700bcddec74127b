"""Changes of whole items for afl-fuzz, which loads this by AFL_PYTHON_MODULE: FUZZ_KIND is a kind of shapes.py.

afl-fuzz's own changes of bytes rarely keep the lengths and counts of a file right. These move, repeat, drop, cross and change items, and put the counts
right again.
"""
import os
import random
import re
import struct

import shapes

NUMBERS = [0, 1, 2, 3, 4, 5, 6, 7, 8, 9, 10, 12, 13, 14, 16, 17, 18, 20, 21, 22, 27, 28, 31, 63, 64, 65, 66, 69, 70, 400, 401, 4096, 10001, 10002, 10003,
           10004, 10005, 10006, 10007, 10008, 100003, 100005, 1048576, 1048577, 2097152, 2097153, 16777215, 16777216, 16777217, 1 << 31, (1 << 31) - 1,
           (1 << 32) - 1]
# How many bytes of an event stand ahead of its message, and of those how many ahead of its length.
AHEAD, SIZE_AT = 12, 8


def init(seed: int) -> None:
    global dice, kind
    dice, kind = random.Random(seed), os.environ["FUZZ_KIND"]


def changed_word(data: bytes) -> bytes:
    """One word of four bytes is another one, comes twice, or is gone."""
    if len(data) < 4:
        return data + bytes([dice.randrange(256)])
    at = dice.randrange(len(data) // 4) * 4
    old, choice = data[at:at + 4], dice.randrange(8)
    if choice == 0:
        new = b""
    elif choice == 1:
        new = old + old
    elif choice in (2, 3):
        new = struct.pack(">I", (int.from_bytes(old, "big") + dice.choice([-2, -1, 1, 2, 4, 8])) & 0xFFFFFFFF)
    elif choice == 4:
        other = dice.randrange(len(data) // 4) * 4
        new = data[other:other + 4]
    elif choice == 5:
        new = old + struct.pack(">I", dice.choice(NUMBERS))
    else:
        new = struct.pack(">I", dice.choice(NUMBERS))
    return data[:at] + new + data[at + 4:]


def changed_number(line: bytes) -> bytes:
    """One number of a line is another one."""
    found = list(re.finditer(rb"[0-9]+", line))
    if not found:
        return line.replace(b"place", b"take") if dice.random() < 0.5 else line * 2
    spot = dice.choice(found)
    number = dice.choice([int(spot[0]) + dice.choice([-1, 1, 2]), dice.choice(NUMBERS), dice.choice([1 << 64, (1 << 64) - 1])])
    return line[:spot.start()] + str(max(number, 0)).encode() + line[spot.end():]


def event_of(lane: bytes, message: bytes, event: int) -> bytes:
    return struct.pack(">I", event) + lane + shapes.opaque(message)


def changed_event(event: bytes, others: list) -> bytes:
    """An event with another lane, kind or message: changed in a word, or that of another event with the own transaction number."""
    number = int.from_bytes(event[:4], "big")
    if number not in (shapes.CALL, shapes.REPLY) or len(event) < AHEAD:
        return changed_word(event)
    lane, message = event[4:8], event[AHEAD:AHEAD + int.from_bytes(event[SIZE_AT:AHEAD], "big")]
    choice, other = dice.randrange(10), dice.choice(others)
    if choice == 0:
        lane = struct.pack(">I", dice.choice([1, 2, 3, 4]))
    elif choice == 1:
        number = 1 - number
    elif choice == 2:
        lane, message = other[4:8] or lane, other[AHEAD:AHEAD + 4] + message[4:]
    elif choice in (3, 4):
        message = message[:4] + other[AHEAD + 4:]
    elif choice == 5 and len(message) >= 44:
        message = message[:20] + struct.pack(">I", dice.randrange(23)) + message[24:]
    else:
        message = changed_word(message)
    return event_of(lane, message, number)


def changed_packet(packet: bytes) -> bytes:
    """A packet with a byte changed in its headers, or its payload longer or shorter with its lengths put right."""
    packet = bytearray(packet)
    at = dice.randrange(min(len(packet), 100)) if packet else 0
    if packet:
        packet[at] = dice.choice([packet[at] ^ 1 << dice.randrange(8), dice.randrange(256), packet[at] + 1 & 255, packet[at] - 1 & 255])
    return bytes(packet)


def changed_item(item: bytes, others: list, is_line: bool) -> bytes:
    if is_line:
        return changed_number(item)
    if kind in ("pair", "history"):
        return changed_event(item, others)
    if kind == "capture":
        return changed_packet(item)
    return changed_word(item)


def change(parts: shapes.Parts, other: shapes.Parts) -> None:
    items = dice.choice(parts.lists())
    is_line = items is parts.lines or parts.kind in ("certificate", "plan")
    theirs = (other.lines if items is parts.lines else other.starts if items is parts.starts else other.items) or items
    at, to = dice.randrange(len(items)), dice.randrange(len(items) + 1)
    choice = dice.randrange(10)
    if choice == 0:
        del items[at:at + dice.choice([1, 1, 1, 2, 4])]
    elif choice == 1:
        items[to:to] = items[at:at + dice.choice([1, 1, 2, 4])]
    elif choice == 2:
        items.insert(min(to, len(items) - 1), items.pop(at))
    elif choice == 3:
        begin = dice.randrange(len(theirs))
        items[to:to] = theirs[begin:begin + dice.choice([1, 1, 2, 4, 8])]
    elif choice == 4:
        items[at] = dice.choice(theirs)
    else:
        items[at] = changed_item(items[at], theirs, is_line)


def fuzz(buf: bytearray, add_buf, max_size: int) -> bytearray:
    parts = shapes.SPLITS[kind](bytes(buf))
    other = shapes.SPLITS[kind](bytes(add_buf or buf))
    for _ in range(dice.choice([1, 1, 2, 3, 6])):
        if parts.lists():
            change(parts, other)
    if parts.middle and dice.random() < 0.05:
        parts.head = parts.head[:-1] + bytes([parts.head[-1] ^ 1])
    # afl-fuzz takes no empty input.
    return bytearray(shapes.JOINS[kind](parts)[:max_size] or b"\0")


def deinit() -> None:
    """afl-fuzz wants one."""
