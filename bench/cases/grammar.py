"""RFC 1813's arguments and results of fifteen procedures as grammars, and what is at fault in bytes that are none of them.

A grammar is a function that takes a reader over its item, and raises a fault where the item isn't there."""
from cases.xdr import OK

SHORT, NO_FLAG, TOO_LONG = "bytes are missing", "a flag is neither 0 nor 1", "a length is over its limit"
TRAILING, NO_WORD, NOT_JUDGED = "bytes stand behind the last item", "a word is outside its list", "the procedure is not judged"


class Fault(Exception):
    """What is wrong with the item that begins at this byte."""

    def __init__(self, at, words):
        super().__init__("at byte %d: %s" % (at, words))


class Reader:
    def __init__(self, data):
        # `spelled` are the bytes read so far, with zeros as padding.
        self.data, self.at, self.spelled = data, 0, b""

    def take(self, count, begin):
        """So many bytes of the item that began there."""
        if len(self.data) - self.at < count:
            raise Fault(begin, SHORT)
        self.at += count
        taken = self.data[self.at - count:self.at]
        self.spelled += taken
        return taken

    def number(self):
        return int.from_bytes(self.take(4, self.at), "big")


def fixed(count):
    return lambda reader: reader.take(count, reader.at)


def one_of(*words):
    def read(reader):
        begin = reader.at
        number = reader.number()
        if number not in words:
            raise Fault(begin, NO_WORD)
        return number

    return read


def flag(reader):
    begin = reader.at
    number = reader.number()
    if number > 1:
        raise Fault(begin, NO_FLAG)
    return number == 1


def opaque(limit=None):
    def read(reader):
        begin = reader.at
        length = reader.number()
        if limit is not None and length > limit:
            raise Fault(begin, TOO_LONG)
        reader.take(length, begin)
        padding = -length % 4
        reader.take(padding, begin)
        reader.spelled = reader.spelled[:len(reader.spelled) - padding] + bytes(padding)

    return read


def all_of(*items):
    def read(reader):
        for item in items:
            item(reader)

    return read


def optional(item):
    return lambda reader: item(reader) if flag(reader) else None


def list_of(entry):
    def read(reader):
        while flag(reader):
            entry(reader)

    return read


def choice(word, arms):
    """What stands behind a word depends on it: nothing, if no arm is given."""

    def read(reader):
        chosen = word(reader)
        if chosen in arms:
            arms[chosen](reader)

    return read


WORD, DOUBLE, HANDLE, NAME, DATA, TIME = fixed(4), fixed(8), opaque(64), opaque(), opaque(), all_of(fixed(4), fixed(4))
STATUSES = [OK, 1, 2, 5, 6, 13, 17, 18, 19, 20, 21, 22, 27, 28, 30, 31, 63, 66, 69, 70, 71, *range(10001, 10009)]

# Section 2.6: fattr3, post_op_attr, wcc_attr, wcc_data, post_op_fh3, sattr3 and diropargs3.
FATTR = all_of(one_of(1, 2, 3, 4, 5, 6, 7), WORD, WORD, WORD, WORD, DOUBLE, DOUBLE, WORD, WORD, DOUBLE, DOUBLE, TIME, TIME, TIME)
POST_OP_ATTR = optional(FATTR)
WCC_DATA = all_of(optional(all_of(DOUBLE, TIME, TIME)), POST_OP_ATTR)
POST_OP_HANDLE = optional(HANDLE)
SET_TIME = choice(one_of(0, 1, 2), {2: TIME})
SATTR = all_of(optional(WORD), optional(WORD), optional(WORD), optional(DOUBLE), SET_TIME, SET_TIME)
PLACE = all_of(HANDLE, NAME)
LEVEL = one_of(0, 1, 2)
MADE = all_of(POST_OP_HANDLE, POST_OP_ATTR, WCC_DATA)
ENTRY = all_of(DOUBLE, NAME, DOUBLE)
ENTRY_PLUS = all_of(DOUBLE, NAME, DOUBLE, POST_OP_ATTR, POST_OP_HANDLE)

# Section 3.3: of each procedure the arguments, a success, and what stands behind any other status.
PROCEDURES = {
    1: (HANDLE, FATTR, all_of()),
    2: (all_of(HANDLE, SATTR, optional(TIME)), WCC_DATA, WCC_DATA),
    3: (PLACE, all_of(HANDLE, POST_OP_ATTR, POST_OP_ATTR), POST_OP_ATTR),
    5: (HANDLE, all_of(POST_OP_ATTR, NAME), POST_OP_ATTR),
    6: (all_of(HANDLE, DOUBLE, WORD), all_of(POST_OP_ATTR, WORD, flag, DATA), POST_OP_ATTR),
    7: (all_of(HANDLE, DOUBLE, WORD, LEVEL, DATA), all_of(WCC_DATA, WORD, LEVEL, DOUBLE), WCC_DATA),
    8: (all_of(PLACE, choice(one_of(0, 1, 2), {0: SATTR, 1: SATTR, 2: DOUBLE})), MADE, WCC_DATA),
    9: (all_of(PLACE, SATTR), MADE, WCC_DATA),
    10: (all_of(PLACE, SATTR, NAME), MADE, WCC_DATA),
    12: (PLACE, WCC_DATA, WCC_DATA),
    13: (PLACE, WCC_DATA, WCC_DATA),
    14: (all_of(PLACE, PLACE), all_of(WCC_DATA, WCC_DATA), all_of(WCC_DATA, WCC_DATA)),
    16: (all_of(HANDLE, DOUBLE, DOUBLE, WORD), all_of(POST_OP_ATTR, DOUBLE, list_of(ENTRY), flag), POST_OP_ATTR),
    17: (all_of(HANDLE, DOUBLE, DOUBLE, WORD, WORD), all_of(POST_OP_ATTR, DOUBLE, list_of(ENTRY_PLUS), flag), POST_OP_ATTR),
    21: (all_of(HANDLE, DOUBLE, WORD), all_of(WCC_DATA, DOUBLE), WCC_DATA),
}


def result_of(success, failure):
    arms = dict.fromkeys(STATUSES, failure)
    arms[OK] = success
    return choice(one_of(*STATUSES), arms)


def answer(kind, procedure, data):
    """What has to be said of bytes that are read as the arguments (`call`) or the result of a procedure."""
    if procedure not in PROCEDURES:
        return "at byte 0: " + NOT_JUDGED
    arguments, success, failure = PROCEDURES[procedure]
    reader = Reader(data)
    try:
        (arguments if kind == "call" else result_of(success, failure))(reader)
        if reader.at < len(data):
            raise Fault(reader.at, TRAILING)
    except Fault as fault:
        return str(fault)
    return "ok" if reader.spelled == data else "respelled"
