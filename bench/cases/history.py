"""History files and certificates (docs/FORMATS.md), and the cases that are made of them."""
import pathlib

from cases.xdr import DIR, LNK, REG, double, name, opaque, word

PROGRAM, VERSION = 100003, 3

# Flavors of credentials (RFC 5531, section 8.2): none, and that of RPCSEC_GSS, which hides the arguments.
NO_FLAVOR, SEALED = 0, 6

# The states of an accepted reply (RFC 5531, section 9).
SUCCESS, GARBAGE_ARGS = 0, 4


def call_message(xid, procedure, arguments, program=PROGRAM, version=VERSION, flavor=NO_FLAVOR):
    head = word(xid) + word(0) + word(2) + word(program) + word(version) + word(procedure)
    return head + word(flavor) + word(0) + word(0) + word(0) + arguments


def reply_message(xid, result, state=SUCCESS):
    return word(xid) + word(1) + word(0) + word(0) + word(0) + word(state) + result


def call_event(lane, message):
    return word(0) + word(lane) + opaque(message)


def reply_event(lane, message):
    return word(1) + word(lane) + opaque(message)


def close_event(lane):
    return word(2) + word(lane)


CRASH_EVENT = word(3)

ROOT = b"\0"


def history_file(events, root=ROOT):
    return b"NFSHIST1" + opaque(root) + word(len(events)) + b"".join(events)


# How strictly replies are judged, in a history of version 2.
PLAIN, STRICT = 0, 1


def start_object(parent, entry, kind, behind=b""):
    """An object that stands before the first event."""
    return double(parent) + name(entry) + word(kind) + behind


def start_file(parent, entry, data=b""):
    return start_object(parent, entry, REG, opaque(data))


def start_directory(parent, entry):
    return start_object(parent, entry, DIR)


def start_link(parent, entry, text):
    return start_object(parent, entry, LNK, opaque(text))


def started_file(events, objects, profile=PLAIN, root=ROOT, count=None):
    """A history file of version 2. The count is that of the objects, if no other is given."""
    told = len(objects) if count is None else count
    return b"NFSHIST2" + opaque(root) + word(profile) + word(told) + b"".join(objects) + word(len(events)) + b"".join(events)


def certificate(lines, binds=()):
    """Binds are pairs of a handle and an object."""
    bound = ["bind %s %d" % (handle.hex(), object_number) for handle, object_number in sorted(binds)]
    return "".join(line + "\n" for line in ["witness 1", *bound, *lines, "end"])


class Cases:
    """What is asked, and what has to be answered, a line each."""

    def __init__(self):
        self.asked, self.answered, self.names = [], [], set()

    def add(self, case, asked, answer):
        self.add_text(case, asked, "%s: %s\n" % (case, answer))

    def add_text(self, case, asked, answer):
        """The same where the answer is the whole text."""
        assert case not in self.names and " " not in case, case
        self.names.add(case)
        self.asked.append(asked)
        self.answered.append(answer)

    def judge(self, case, answer, history, text):
        """The answer that a history file and a certificate's text get."""
        self.judge_line(case, answer, history.hex(), text)

    def judge_line(self, case, answer, line, text):
        """The same where the bundle's first line is given."""
        assert text == "" or text.endswith("\n") and "\n\n" not in text, case
        self.add(case, "%s\n%s\n%s\n" % (case, line, text), answer)

    def write(self, folder):
        """Writes the cases in place of those in the two files of a folder. The command lines after them stay."""
        for file, first, lines in (("stdin", "nfsbench", self.asked), ("stdout", "$ nfsbench", self.answered)):
            path = pathlib.Path(folder, file)
            old = path.read_bytes().decode() if path.exists() else ""
            at = ("\n" + old).find("\n" + first)
            # By bytes: a line of stdin ends with a carriage return, which a text's reader takes away.
            path.write_bytes(("".join(lines) + (old[at:] if at >= 0 else "")).encode())
