"""Files that break off: each front of the example, of its certificate, and of its first call's message (docs/FORMATS.md)."""
from cases.faults import ALL_PLACES, CREATE, EXAMPLE
from cases.history import call_event, call_message, history_file

# The magic of a history has eight bytes, and every later item is missing bytes. Of a call's 84 bytes the first 40 are what RPC says of it.
MAGIC, RPC_HEAD = 8, 40


def add_all(cases):
    for length in range(len(EXAMPLE)):
        answer = "refused: BadMagic" if length < MAGIC else "refused: Truncated"
        cases.judge("the-example-up-to-byte-%d" % length, answer, EXAMPLE[:length], ALL_PLACES)
    message = call_message(1, CREATE.procedure, CREATE.arguments)
    for length in range(len(message)):
        answer = "refused: BadRpc 1" if length < RPC_HEAD else "refused: BadArgs 1"
        cases.judge("a-call-up-to-byte-%d" % length, answer, history_file([call_event(1, message[:length])]), ALL_PLACES)
    for length in range(len(ALL_PLACES)):
        # At fault is the line in which the text breaks off.
        front, case = ALL_PLACES[:length], "a-certificate-up-to-byte-%d" % length
        cases.add(case, "%s certificate %s\n" % (case, front.encode().hex()), "BadLine %d" % (front.count("\n") + 1))
