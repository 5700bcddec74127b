"""Changes of calls: what they ask for, how they are sent. A change gives False where the run has nothing for it."""
from . import draws
from . import layouts as nfs
from . import rpc
from .clients import CREATE_VERIFIERS, range_beside
from .draws import FAR, ODD_NAMES, Dice
from .histories import MESSAGE_LIMIT
from .runs import Run
from .spelling import spell_arguments, spell_message

ARGUMENT_WORDS = [0, 1, 2, 3, 65, 2**31, 2**32 - 1]


def some_call(dice: Dice, run: Run, *procedures):
    calls = [call for call in run.calls() if call.arguments is not None and (not procedures or call.procedure in procedures)]
    return dice.choice(calls) if calls else None


def known_handles(run: Run) -> list:
    return [run.root, *(handle for handle, _ in run.binds)]


def known_names(run: Run) -> list:
    return [value for call in run.calls() if call.arguments for field, value in call.arguments.items() if field in ("name", "to_name")]


def aim_commit(dice, run):
    """The range of a COMMIT ends or begins at an edge of a WRITE's bytes, or one byte beside it."""
    commits = [(at, call) for at, call in enumerate(run.calls()) if call.arguments and call.procedure == nfs.COMMIT]
    eras = run.era_numbers()
    pairs = [(commit, call) for at, commit in commits for other, call in enumerate(run.calls())
             if call.arguments and call.procedure == nfs.WRITE and eras[at] == eras[other] and call.arguments["data"]]
    if not pairs:
        return False
    commit, write = dice.choice(pairs)
    first, last = write.arguments["offset"], write.arguments["offset"] + len(write.arguments["data"])
    if dice.chance(0.3):
        commit.arguments["object"] = write.arguments["object"]
    commit.arguments.update(range_beside(dice, first, last))
    return True


def shift_number(dice, run):
    """An offset, a count, a size: one less or one more."""
    call = some_call(dice, run, nfs.READ, nfs.WRITE, nfs.COMMIT, nfs.READDIR, nfs.READDIRPLUS)
    if call is None:
        return False
    field = dice.choice([field for field in ("offset", "count", "cookie") if field in call.arguments and (field, call.procedure) != ("count", nfs.WRITE)])
    call.arguments[field] = max(0, call.arguments[field] + dice.choice([-1, 1])) if dice.chance(0.8) else dice.choice([0, 1, 2**32 - 1])
    return True


def change_name(dice, run):
    call = some_call(dice, run, *(nfs.JUDGED - {nfs.GETATTR, nfs.SETATTR, nfs.READLINK, nfs.READ, nfs.WRITE, nfs.COMMIT, nfs.READDIR, nfs.READDIRPLUS}))
    if call is None:
        return False
    field = dice.choice([field for field in ("name", "to_name") if field in call.arguments])
    call.arguments[field] = dice.choice(ODD_NAMES + known_names(run) * 2)
    return True


def change_handle(dice, run):
    call = some_call(dice, run)
    if call is None:
        return False
    field = dice.choice([field for field in ("dir", "to_dir", "object") if field in call.arguments])
    handles = known_handles(run)
    call.arguments[field] = dice.choice(handles * 3 + [b"", draws.fresh_handle(dice, set(handles))])
    return True


def change_write(dice, run):
    call = some_call(dice, run, nfs.WRITE)
    if call is None:
        return False
    kind = dice.randrange(3)
    if kind == 0:
        call.arguments["level"] = dice.choice([0, 1, 2, 3])
    elif kind == 1:
        call.arguments["data"] = dice.some(12)
        call.arguments["count"] = len(call.arguments["data"])
    else:
        call.arguments["count"] = max(0, call.arguments["count"] + dice.choice([-1, 1]))
    return True


def change_create(dice, run):
    call = some_call(dice, run, nfs.CREATE)
    if call is None:
        return False
    mode = dice.randrange(3)
    call.arguments["how"] = (mode, dice.choice(CREATE_VERIFIERS) if mode == nfs.EXCLUSIVE else draws.wanted(dice, dice.choice([None, 0, 2, 9])))
    return True


def change_setattr(dice, run):
    call = some_call(dice, run, nfs.SETATTR)
    if call is None:
        return False
    if dice.chance(0.5):
        call.arguments["guard"] = None if call.arguments["guard"] else draws.time(dice)
    else:
        call.arguments["new"]["size"] = dice.choice([None, 0, 1, (call.arguments["new"]["size"] or 0) + 1])
    return True


def go_far(dice, run):
    """A file that ends just at the limit, or one byte behind it."""
    call = some_call(dice, run, nfs.WRITE, nfs.SETATTR, nfs.CREATE)
    if call is None:
        return False
    more = dice.choice([0, 1, 1, 2**40])
    if call.procedure == nfs.WRITE:
        call.arguments["offset"] = FAR - call.arguments["count"] + more
    elif call.procedure == nfs.SETATTR:
        call.arguments["new"]["size"] = FAR + more
    elif call.arguments["how"][0] != nfs.EXCLUSIVE:
        call.arguments["how"][1]["size"] = FAR + more
    return True


def make_large(dice, run):
    """A message just as long as a message may be, or longer."""
    call = some_call(dice, run, nfs.WRITE, nfs.SYMLINK, nfs.LOOKUP)
    if call is None:
        return False
    field = {nfs.WRITE: "data", nfs.SYMLINK: "text", nfs.LOOKUP: "name"}[call.procedure]
    call.arguments[field] = b""
    call.arguments[field] = bytes(MESSAGE_LIMIT - len(spell_message(call)) + dice.choice([-1, 0, 0, 4]))
    if call.procedure == nfs.WRITE:
        call.arguments["count"] = len(call.arguments["data"])
    return True


def seal(dice, run):
    """The credential of RPCSEC_GSS, of any kind of call."""
    calls = run.calls()
    if not calls:
        return False
    call = dice.choice(calls)
    if dice.chance(0.2):
        call.check_flavor = rpc.RPCSEC_GSS
    else:
        call.flavor = rpc.RPCSEC_GSS
    return True


def make_linking(dice, run):
    """LINK or MKNOD in place of a call, answered OK, with another status, without one, or as it was."""
    rows = [(call, reply) for call, reply in zip(run.calls(), run.replies()) if call.program == nfs.PROGRAM and call.version == nfs.VERSION]
    if not rows:
        return False
    call, reply = dice.choice(rows)
    call.procedure, call.arguments, call.raw = dice.choice([nfs.LINK, nfs.MKNOD]), None, dice.randbytes(dice.choice([0, 7, 40]))
    if reply and dice.chance(0.85):
        status = dice.choice([bytes(4), bytes(4), b"", b"\0\0\0", b"\0\0\0\1", b"\0\0\x27\x14", b"\xff\xff\xff\xff"])
        reply.value, reply.words, reply.raw = None, None, status + dice.randbytes(dice.choice([0, 0, 8]) if len(status) == 4 else 0)
    return True


def spoil_arguments(dice, run):
    """Arguments that are cut, longer, of another procedure, or have a word replaced."""
    call = some_call(dice, run)
    if call is None:
        return False
    call.raw = spell_arguments(call.procedure, call.arguments)
    call.arguments = None
    kind = dice.randrange(4)
    if kind == 0:
        call.raw = call.raw[:dice.randrange(len(call.raw))]
    elif kind == 1:
        call.raw += dice.randbytes(dice.choice([1, 4]))
    elif kind == 2:
        call.procedure = dice.choice(sorted(nfs.JUDGED))
    else:
        at = 4 * dice.randrange(len(call.raw) // 4)
        call.raw = call.raw[:at] + dice.choice(ARGUMENT_WORDS).to_bytes(4, "big") + call.raw[at + 4:]
    return True


def address_elsewhere(dice, run):
    """Another program, version or procedure that isn't judged."""
    call = some_call(dice, run)
    if call is None:
        return False
    call.raw, call.arguments = spell_arguments(call.procedure, call.arguments), None
    call.program, call.version, call.procedure = dice.choice([
        (nfs.PROGRAM, 2, call.procedure), (nfs.PROGRAM, 4, call.procedure), (100005, nfs.VERSION, call.procedure), (nfs.PROGRAM, nfs.VERSION, nfs.ACCESS),
        (nfs.PROGRAM, nfs.VERSION, 22), (nfs.PROGRAM, nfs.VERSION, nfs.NULL), (nfs.PROGRAM, nfs.VERSION, 2**32 - 1)])
    return True


def spoil_head(dice, run):
    """No call of RPC version 2."""
    calls = run.calls()
    if not calls:
        return False
    call, kind = dice.choice(calls), dice.randrange(4)
    if kind == 0:
        call.rpc_version = dice.choice([1, 3, 0])
    elif kind == 1:
        call.type_word = dice.choice([1, 2, 2**32 - 1])
    elif kind == 2:
        call.credential = dice.randbytes(dice.choice([400, 401, 404]))
    else:
        call.check = dice.randbytes(dice.choice([400, 401]))
    return True


CHANGES = {aim_commit: 6, shift_number: 4, change_name: 4, change_handle: 4, change_write: 4, change_create: 3, change_setattr: 2, go_far: 2,
           make_large: 0.3, address_elsewhere: 1}
GRAMMAR_CHANGES = {seal: 1, make_linking: 2, spoil_arguments: 4, spoil_head: 2}
