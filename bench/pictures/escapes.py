"""Bytes that clients and servers sent, as text of a page.

What is no UTF-8 is `\\xff` byte by byte; what can't be seen is `\\x1b`, `\\u202e` or `\\U0001fffe`.
"""

# Controls (Unicode Standard, section 23.1), characters that join or part what stands beside them, marks that turn a text's direction (UAX 9), those
# that begin a line, and what else is never shown (Default_Ignorable_Code_Point of DerivedCoreProperties.txt; interlinear annotation, section 23.8).
CONTROLS = [*range(0x20), *range(0x7F, 0xA0)]
JOINING = [*range(0x200B, 0x200E), *range(0x2060, 0x2066), *range(0x206A, 0x2070), 0xFEFF]
TURNING = [0x61C, 0x200E, 0x200F, *range(0x202A, 0x202F), *range(0x2066, 0x206A)]
PARTING = [0x2028, 0x2029]
SHAPELESS = [0xAD, 0x34F, 0x115F, 0x1160, 0x17B4, 0x17B5, *range(0x180B, 0x1810), 0x3164, *range(0xFE00, 0xFE10), 0xFFA0, *range(0xFFF0, 0xFFFC),
             *range(0x1BCA0, 0x1BCA4), *range(0x1D173, 0x1D17B), *range(0xE0000, 0xE1000)]
HIDDEN = {*CONTROLS, *JOINING, *TURNING, *PARTING, *SHAPELESS}
MARKUP = {"&": "&amp;", "<": "&lt;", ">": "&gt;", '"': "&quot;", "'": "&#39;"}


def is_hidden(code: int) -> bool:
    return code in HIDDEN or 0xFDD0 <= code <= 0xFDEF or code % 0x10000 >= 0xFFFE


def first_char(data: bytes, at: int):
    """The character that begins there and how many bytes it has, or None and 1."""
    for size in range(1, 5):
        try:
            return data[at:at + size].decode("utf-8"), size
        except UnicodeDecodeError:
            pass
    return None, 1


def shown_char(character: str) -> str:
    code = ord(character)
    if not is_hidden(code):
        return character
    return f"\\x{code:02x}" if code < 0x80 else f"\\u{code:04x}" if code < 0x10000 else f"\\U{code:08x}"


def pieces(data: bytes):
    """For each character, or byte that is of none: the end of its bytes, and what a reader sees."""
    at = 0
    while at < len(data):
        character, size = first_char(data, at)
        at += size
        yield at, shown_char(character) if character is not None else f"\\x{data[at - 1]:02x}"


def escaped(data: bytes) -> str:
    return "".join(shown for _, shown in pieces(data))


def page_bytes(text: str) -> int:
    """How many bytes of a page stand for some text."""
    return sum(len(MARKUP[it]) if it in MARKUP else len(it.encode()) for it in text)


def is_front(shown: str, data: bytes, most: int) -> bool:
    """Whether the text stands for these bytes: for all of them, or where they take more of a page than so many bytes, for a front of them, with two dots."""
    whole = escaped(data[:8 * most])
    if len(data) <= 8 * most and page_bytes(whole) <= most:
        return shown == whole
    if not shown.endswith(".."):
        return False
    front = shown[:-2]
    return whole.startswith(front) and page_bytes(front) <= most and front != "" and (len(data) > 8 * most or front != whole)
