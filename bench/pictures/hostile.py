"""Histories of names, texts and data that are hard on a page. Each has a certificate that is a witness of it, unless its story says a line."""
import unicodedata

from differ import layouts as nfs
from differ.histories import MESSAGE_LIMIT
from differ.runs import PlanPlace, Start, StartObject
from differ.spelling import spell_message
from differ.starts import STRICT

from .stories import NO_WCC, NOTHING_SET, ROOT, Story, handle_of

MARKUP = [
    b"</svg>", b"</title></svg><script>alert(1)</script>", b"<script>alert(1)</script>", b"<img src=x onerror=alert(1)>", b"&amp;", b"&lt;b&gt;",
    b"&#60;&#x3c;", b"\"", b"'", b"\" onload=\"alert(1)", b"' x='", b"`", b"]]>", b"<![CDATA[x]]>", b"<!--", b"-->", b"--!><b>", b"<?xml version='1.0'?>",
    b"<!DOCTYPE x>", b"</style><style>*{display:none}</style>", b"url(http://127.0.0.1/x)", b"@import 'x'", b"</text></g></svg><a href='javascript:alert(1)'>",
    b"<", b">", b"&", b"<<<<", b"\\", b"\\x41", b"\\\\", b"%s%n", b"..", b".", b"", b" ", b"  two  ", b"/", b"a/b", b"<plaintext>", b"<textarea>",
    b"<noscript>", b"<use href='#names'/>",
]
BROKEN = [
    b"\xff", b"\xfe\xff", b"\x80", b"\xbf", b"\xc0\xaf", b"\xc1\xbf", b"\xe0\x80\xaf", b"\xf0\x80\x80\xaf", b"\xed\xa0\x80", b"\xed\xbf\xbf",
    b"\xf4\x90\x80\x80", b"\xf5\x80\x80\x80", b"\xf8\x88\x80\x80\x80", b"\xc3", b"\xe2\x82", b"\xf0\x9f\x98", b"a\xc3", b"\xc3a", b"\xe2\x82<",
    b"\xf0\x9f\x98&", b"\xe2<script>", b"\x80" * 64, b"\xff" * 500, b"a\xff" * 200, b"\xc3\xa9\xc3", b"caf\xe9", b"\xed\xa0\xbd\xed\xb8\x80",
]


def utf8(*codes) -> bytes:
    return "".join(map(chr, codes)).encode()


LETTERS = [
    utf8(0x202E) + b"gpj.exe", utf8(0x202A, 0x202B, 0x202C, 0x202D, 0x202E), utf8(0x2066, 0x2067, 0x2068, 0x2069), utf8(0x61C, 0x200E, 0x200F),
    utf8(0x5D0, 0x5D1) + b" abc " + utf8(0x627), utf8(0x200B, 0x200C, 0x200D, 0x2060, 0xFEFF), utf8(0x2028) + b"x" + utf8(0x2029),
    utf8(0x85, 0x9B) + b"31m", b"\x1b[2J\x07\b\x7f", b"\r\n", b"\t", b"\0", b"a\0b", utf8(0xFFFE, 0xFFFF), utf8(0xFDD0, 0xFDEF), utf8(0x1FFFE, 0x10FFFF),
    utf8(0x10FFFD), utf8(0xE000), utf8(0xFFFD), b"z" + utf8(*range(0x300, 0x340)) * 3, utf8(0x1F468, 0x200D, 0x1F469), utf8(0x1F600) * 40,
    utf8(0x4E2D, 0x6587) * 30, utf8(0xE9) * 79 + b"x" * 3, b"x" + utf8(0xE9) * 80, utf8(0x20AC) * 54, b"xy" + utf8(0x20AC) * 54, utf8(0xAD), utf8(0x180E),
    utf8(0xFFF9, 0xFFFA, 0xFFFB), utf8(0xE0041, 0xE0042, 0xE007F), utf8(0x3164, 0x115F, 0x1160, 0xFFA0), utf8(0x2800), utf8(0xFE0F, 0xE0100), utf8(0x34F),
    utf8(0x1D173), utf8(0xA0, 0x2003, 0x3000),
]
# Lengths at and about which a label, a cell and a line are cut.
LENGTHS = [*range(1, 8), *range(24, 40), *range(154, 168), *range(390, 410), 4_096, 65_536]
# Bytes that begin a character, and what may stand behind them.
HEADS = [0x41, 0x80, 0xC2, 0xE0, 0xE2, 0xED, 0xEF, 0xF0, 0xF4, 0xFF]
TAILS = [b"", b"<", b"\x80", b"\x9f\x80", b"\xa0\x80", b"\xbf\xbf", b"\x90\x80\x80", b"\x8f\xbf\xbf", b"\xbf\xbf\xbf\xbf"]
# Other programs, versions and procedures.
ELSEWHERE = [(0, 0, 0), (2**32 - 1, 2**32 - 1, 2**32 - 1), (nfs.PROGRAM, nfs.VERSION, 22), (nfs.PROGRAM, nfs.VERSION, nfs.NULL), (nfs.PROGRAM, 4, 1)]


def named(story: Story, name: bytes) -> None:
    """The name in a LOOKUP, a MKDIR and both halves of a RENAME."""
    story.absent(name)
    story.full(name, 2)
    story.moved(name, b"x", 3)
    story.moved(b"x", name, 3)


def of_names(name: str, names: list):
    story = Story(name)
    for one in names:
        named(story, one)
    return story


def every_byte():
    story = of_names("a name of each byte, and one of all", [bytes(range(256)), bytes(reversed(range(256)))])
    for byte in range(256):
        story.absent(bytes([byte]), byte % 4)
        story.absent(b"<" + bytes([byte]) + b"&" + bytes([byte]), byte % 4)
    return story


def pairs_of_bytes():
    return of_names("heads of characters before all kinds of bytes", [bytes([head]) + tail for head in HEADS for tail in TAILS])


def control_letters():
    """Each character that the Unicode Standard calls a control, a format character, a separator, one for private use or none, 16 to a name."""
    codes = [code for code in range(0x110000) if not 0xD800 <= code < 0xE000 and unicodedata.category(chr(code)) in ("Cc", "Cf", "Zl", "Zp", "Zs")]
    codes += [0xE000, 0xF8FF, 0xF0000, 0x10FFFD, *range(0xFDD0, 0xFDF0), *(0x10000 * plane + low for plane in range(17) for low in (0xFFFE, 0xFFFF))]
    return of_names("letters that aren't seen", [utf8(*codes[at:at + 16]) for at in range(0, len(codes), 16)])


def lengths():
    story = Story("names at which a label, a cell or a line is cut")
    for length in LENGTHS:
        for piece in (b"n", b"&", b"\x01", utf8(0xE9), utf8(0x202E), utf8(0x1F600)):
            story.absent((piece * length)[:length], 1 + length % 5)
    return story


def long_names():
    story = Story("names of 1 MiB and of nearly 2 MiB")
    named(story, b"n" * 2**20)
    named(story, b"<b>" * (2**20 // 3))
    story.absent(bytes(2**20))
    story.absent(utf8(0x202E) * (2**20 // 3))
    empty = story.call(nfs.LOOKUP, {"dir": ROOT, "name": b""})
    room = MESSAGE_LIMIT - len(spell_message(story.waiting[empty]))
    story.answer(empty, nfs.STATUSES["NOENT"], {"post": None})
    story.absent(b"n" * room)
    return story


def long_texts():
    """Data of nearly 2 MiB, links of 1 MiB, a list of 30,000 names."""
    story = Story("data of nearly 2 MiB, a link's text of 1 MiB, a list of many names")
    file = story.create(b"f")
    data = b"</svg>" * 349_000
    story.write(file, data)
    story.read(file, data)
    text = b"<script>" * (2**17)
    link = story.symlink(b"l", text)
    story.answered(nfs.READLINK, {"object": link}, 0, {"post": None, "text": text})
    names = [b"</td>%05d" % at for at in range(30_000)]
    story.run.start = Start(STRICT, [StartObject(0, name, nfs.REGULAR) for name in names])
    story.run.binds = [(handle, number + len(names)) for handle, number in story.run.binds]
    story.listed([b"f", b"l", *names])
    return story


def hostile_replies():
    """Texts of links, names in lists, and handles."""
    story, names = Story("replies and handles of markup"), [name for name in {*MARKUP, *BROKEN, *LETTERS} if name not in (b"", b".", b"..")]
    for at, text in enumerate(MARKUP + BROKEN + LETTERS):
        link = story.symlink(b"l%d" % at, text)
        story.answered(nfs.READLINK, {"object": link}, 0, {"post": None, "text": text})
    for at, name in enumerate(sorted(names)):
        story.create(name, 1 + at % 3)
    story.listed([*(b"l%d" % at for at in range(len(MARKUP + BROKEN + LETTERS))), *sorted(names)])
    for handle in (b"", b"<script>", b"\xff" * 64, b"</svg>&\"'"):
        story.answered(nfs.GETATTR, {"object": handle}, nfs.STATUSES["BADHANDLE"], {})
    return story


def hostile_heads():
    """Credentials of 400 bytes, other programs, procedures that there aren't, lanes and transaction numbers at their limits."""
    story = Story("credentials, programs and lanes at their limits")
    for at, lane in enumerate((0, 1, 2**31, 2**32 - 1)):
        name = {"dir": ROOT, "name": b"<x>"}
        story.answered(nfs.LOOKUP, name, nfs.STATUSES["NOENT"], {"post": None}, lane, flavor=2**32 - 1, credential=b"<script>" * 50, check=b"&" * 400)
        for program, version, procedure in ELSEWHERE:
            story.call(procedure, None, lane, raw=b"</svg>", program=program, version=version)
        story.close(lane) if at % 2 else story.absent(b"%d" % at, lane)
    return story


def many_lanes():
    story = Story("1,000 lanes")
    waiting = [story.call(nfs.LOOKUP, {"dir": ROOT, "name": b"n%d" % lane}, lane * 4_294_967) for lane in range(1_000)]
    for number in waiting:
        story.answer(number, nfs.STATUSES["NOENT"], {"post": None})
    return story


def many_crashes():
    story = Story("600 crashes, with a call that gets no reply ahead of each")
    for lane in range(600):
        story.absent(b"a", lane)
        story.call(nfs.LOOKUP, {"dir": ROOT, "name": b"lost"}, lane)
        story.crash()
    return story


def no_events():
    return Story("no events")


def only_crashes():
    story = Story("crashes alone")
    for _ in range(50):
        story.crash()
    return story


def other_certificate():
    story = Story("a certificate of another history")
    story.absent(b"a")
    story.run.eras[-1].places.append(PlanPlace(7))
    story.line = "no: Unknown 7"
    return story


def missing_place():
    story = Story("a certificate of another history, of fewer calls")
    story.absent(b"a")
    story.absent(b"b")
    story.run.eras[-1].places.pop()
    story.line = "no: Missing 2"
    return story


def no_call():
    story = Story("a call that there isn't")
    story.absent(b"a")
    story.options, story.line = ["--call", "2"], "refused: no call 2"
    return story


def faulty():
    """A fault of each kind that is drawn, with names of markup."""
    for name, change in (("early", put_early), ("illegal", put_illegal), ("short cut", put_short_cut), ("verifiers", put_verifiers)):
        story = Story(f"a fault of the certificate: {name}")
        for lane in (1, 2, 3):
            story.absent(b"<b>&" * lane, lane)
        change(story)
        yield story


def put_early(story: Story) -> None:
    places = story.run.eras[-1].places
    places[0], places[2] = places[2], places[0]


def put_illegal(story: Story) -> None:
    story.answered(nfs.LOOKUP, {"dir": ROOT, "name": b"</svg>"}, 0, {"handle": handle_of(1), "post": None, "dir_post": None})


def put_short_cut(story: Story) -> None:
    story.create(b"</svg>")
    story.crash()
    story.run.eras[0].cut = 0


def put_verifiers(story: Story) -> None:
    file = story.create(b"</svg>")
    story.write(file, b"<x>")
    story.answered(nfs.COMMIT, {"object": file, "offset": 0, "count": 0}, 0, {"weak": NO_WCC, "verifier": b"</title>"})


def all_stories():
    yield of_names("names of markup", MARKUP)
    yield of_names("names that are no UTF-8", BROKEN)
    yield of_names("letters of all scripts, marks that turn a text", LETTERS)
    for make in (every_byte, pairs_of_bytes, control_letters, lengths, long_names, long_texts, hostile_replies, hostile_heads):
        yield make()
    for make in (many_lanes, many_crashes, no_events, only_crashes, other_certificate, missing_place, no_call):
        yield make()
    yield from faulty()
