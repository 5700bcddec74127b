"""Changes of replies: statuses, what a success shows, bytes that aren't in the grammar. A change gives False where the run has nothing for it."""
from . import draws, replies
from . import layouts as nfs
from .call_changes import ARGUMENT_WORDS, known_handles, known_names
from .draws import Dice
from .failure import JUDGED_STATUSES
from .runs import Run
from .spelling import spell_result


def some_pair(dice: Dice, run: Run, *procedures, is_success=True):
    """A call and its reply, a success or whatever it is."""
    pairs = [(call, reply) for call, reply in run.pairs()
             if (not procedures or call.procedure in procedures) and (not is_success or reply.status == 0)]
    return dice.choice(pairs) if pairs else (None, None)


def verifiers(run: Run) -> list:
    return [reply.value["verifier"] for call, reply in run.pairs() if call.procedure in (nfs.WRITE, nfs.COMMIT) and reply.status == 0]


def change_status(dice, run):
    """Another failure, of those that are judged mostly."""
    call, reply = some_pair(dice, run, is_success=False)
    if reply is None:
        return False
    statuses = sorted(JUDGED_STATUSES) if dice.chance(0.8) else sorted(set(nfs.STATUS_NAMES) - {0})
    reply.status, reply.value = dice.choice(statuses), replies.failure_value(dice, call.procedure)
    return True


def loose_success(dice: Dice, run: Run, call) -> dict:
    """A success of a call, which may fit or not."""
    handles = known_handles(run)
    weak, post = draws.weak(dice), draws.post(dice)
    procedure, arguments = call.procedure, call.arguments
    if procedure == nfs.GETATTR:
        return {"attributes": draws.attributes(dice, dice.choice([1, 2, 5]), dice.choice([0, 1, 3]))}
    if procedure == nfs.LOOKUP:
        return {"handle": dice.choice(handles), "post": post, "dir_post": None}
    if procedure == nfs.READLINK:
        return {"post": post, "text": dice.some(3)}
    if procedure == nfs.READ:
        return {"post": post, "count": 0, "eof": True, "data": b""}
    if procedure == nfs.WRITE:
        return {"weak": weak, "count": arguments["count"], "level": arguments["level"], "verifier": dice.choice(verifiers(run) or [bytes(8)])}
    if procedure in (nfs.CREATE, nfs.MKDIR, nfs.SYMLINK):
        return {"handle": dice.choice([*handles, None, None]), "post": post, "weak": weak}
    if procedure == nfs.RENAME:
        return {"weak": weak, "to_weak": draws.weak(dice)}
    if procedure in (nfs.READDIR, nfs.READDIRPLUS):
        return {"post": post, "verifier": bytes(8), "entries": [], "eof": dice.chance(0.5)}
    return {"weak": weak, **({"verifier": dice.choice(verifiers(run) or [bytes(8)])} if procedure == nfs.COMMIT else {})}


def make_success(dice, run):
    pairs = [(call, reply) for call, reply in run.pairs() if reply.status != 0]
    if not pairs:
        return False
    call, reply = dice.choice(pairs)
    reply.status, reply.value = 0, loose_success(dice, run, call)
    return True


def change_verifier(dice, run):
    _, reply = some_pair(dice, run, nfs.WRITE, nfs.COMMIT)
    if reply is None:
        return False
    old = reply.value["verifier"]
    reply.value["verifier"] = dice.choice([*verifiers(run) * 2, dice.randbytes(8), old[:7] + bytes([old[7] ^ 1])])
    return True


def share_verifier(dice, run):
    """Two eras, or all, have one verifier."""
    shown = sorted(set(verifiers(run)))
    if len(shown) < 2:
        return False
    old, new = dice.sample(shown, 2)
    for call, reply in run.pairs():
        if call.procedure in (nfs.WRITE, nfs.COMMIT) and reply.status == 0 and reply.value["verifier"] == old:
            reply.value["verifier"] = new
    return True


def change_written(dice, run):
    call, reply = some_pair(dice, run, nfs.WRITE)
    if reply is None:
        return False
    if dice.chance(0.4):
        reply.value["level"] = dice.choice([0, 0, 1, 1, 2, 2, 3])
    else:
        count = reply.value["count"]
        reply.value["count"] = dice.choice([0, 0, max(0, count - 1), count + 1, call.arguments["count"]])
    return True


def change_read(dice, run):
    call, reply = some_pair(dice, run, nfs.READ)
    if reply is None:
        return False
    kind, value = dice.randrange(6), reply.value
    if kind == 0:
        value["eof"] = 2 if dice.chance(0.1) else not value["eof"]
    elif kind == 1:
        value["count"] = max(0, value["count"] + dice.choice([-1, 1]))
    elif kind == 2 and value["data"]:
        at = dice.randrange(len(value["data"]))
        value["data"] = value["data"][:at] + bytes([value["data"][at] ^ 1]) + value["data"][at + 1:]
    elif kind == 3:
        value["data"] = value["data"][:-1]
        value.update(count=len(value["data"]), eof=value["eof"] and dice.chance(0.5))
    elif kind == 4:
        value["data"] += dice.choice([b"\0", b"a"])
        value["count"] = len(value["data"])
    else:
        call.arguments["count"] = max(0, value["count"] - dice.choice([0, 1]))
    return True


def new_entry(dice: Dice, run: Run, procedure: int) -> dict:
    entry = {"fileid": dice.hyper(), "name": dice.choice([b".", b"..", b"", *known_names(run)]), "cookie": dice.hyper()}
    if procedure == nfs.READDIRPLUS:
        entry.update(post=draws.post(dice), handle=dice.choice([None, *known_handles(run)]))
    return entry


def change_listing(dice, run):
    call, reply = some_pair(dice, run, nfs.READDIR, nfs.READDIRPLUS)
    if reply is None:
        return False
    kind, entries = dice.randrange(8), reply.value["entries"]
    if kind == 0 or (not entries and kind > 2):
        reply.value["eof"] = not reply.value["eof"]
    elif kind == 1 or not entries:
        entries.insert(dice.randrange(len(entries) + 1), new_entry(dice, run, call.procedure))
    elif kind == 2:
        entries.insert(dice.randrange(len(entries) + 1), dict(dice.choice(entries)))
    elif kind == 3:
        del entries[dice.randrange(len(entries))]
    elif kind == 4:
        entries[0]["cookie"], entries[-1]["cookie"] = entries[-1]["cookie"], entries[0]["cookie"]
    elif kind == 5:
        dice.shuffle(entries)
    elif kind == 6:
        dice.choice(entries)["name"] = dice.choice([b".", b"..", b"zz", *known_names(run)])
    else:
        call.arguments["cookie"] = 0 if call.arguments["cookie"] else 1
    return True


def change_shown(dice, run):
    """The type or size of GETATTR, the text of READLINK."""
    call, reply = some_pair(dice, run, nfs.GETATTR, nfs.READLINK)
    if reply is None:
        return False
    if call.procedure == nfs.READLINK:
        reply.value["text"] = dice.choice([reply.value["text"] + b"x", reply.value["text"][:-1], b""])
    elif dice.chance(0.5):
        reply.value["attributes"]["type"] = dice.randrange(9)
    else:
        reply.value["attributes"]["size"] = max(0, reply.value["attributes"]["size"] + dice.choice([-1, 1, 2**32]))
    return True


def change_shown_handle(dice, run):
    call, reply = some_pair(dice, run, nfs.LOOKUP, nfs.CREATE, nfs.MKDIR, nfs.SYMLINK, nfs.READDIRPLUS)
    if reply is None:
        return False
    handles = known_handles(run)
    new = dice.choice(handles * 3 + [b"", draws.fresh_handle(dice, set(handles))] + ([None] if call.procedure != nfs.LOOKUP else []))
    if call.procedure != nfs.READDIRPLUS:
        reply.value["handle"] = new
    elif reply.value["entries"]:
        dice.choice(reply.value["entries"])["handle"] = new
    return True


def places_for_attributes(value: dict) -> dict:
    """Whose, and before or after, with the dicts that hold them there."""
    places = {(field, field): [value] for field in ("post", "dir_post") if field in value}
    for whose in ("weak", "to_weak"):
        if whose in value:
            places.update({(whose, field): [value[whose]] for field in ("before", "after")})
    entries = [entry for entry in value.get("entries", []) if "post" in entry]
    return {**places, **({("entries", "post"): entries} if entries else {})}


def change_carried(dice, run):
    """One detail of attributes that a strict history's reply carries, or attributes where there were none, or none where there were some."""
    _, reply = some_pair(dice, run, is_success=False)
    places = places_for_attributes(reply.value) if reply and run.is_strict else {}
    if not places:
        return False
    where = dice.choice(sorted(places))
    holder, field = dice.choice(places[where]), where[1]
    carried, size = holder[field], dice.choice([0, 1, 3, 8])
    if carried is None and field == "before":
        holder[field] = {"size": size, "mtime": draws.time(dice), "ctime": draws.time(dice)}
    elif carried is None:
        holder[field] = draws.attributes(dice, dice.choice([1, 2, 5]), size)
    elif dice.chance(0.1):
        holder[field] = None
    elif "type" in carried and dice.chance(0.5):
        carried["type"] = dice.choice([1, 2, 5, 5, 3, 7])
    else:
        carried["size"] = max(0, carried["size"] + dice.choice([-1, 1, 2**32]))
    return True


def change_attributes(dice, run):
    """All attributes become any, which a strict history alone may not have."""
    _, reply = some_pair(dice, run, is_success=False)
    if reply is None:
        return False
    for field in ("post", "dir_post"):
        if field in reply.value:
            reply.value[field] = draws.attributes(dice)
    for field in ("weak", "to_weak"):
        if field in reply.value:
            reply.value[field] = {"before": {"size": dice.hyper(), "mtime": draws.time(dice), "ctime": draws.time(dice)}, "after": draws.attributes(dice)}
    return True


def spoil_result(dice, run):
    """A result that is cut, longer, of another status, or has a word replaced."""
    call, reply = some_pair(dice, run, is_success=False)
    if reply is None:
        return False
    raw, reply.value = spell_result(call.procedure, reply.status, reply.value), None
    kind = dice.randrange(4)
    if kind == 0:
        raw = raw[:dice.randrange(len(raw))]
    elif kind == 1:
        raw += dice.randbytes(dice.choice([1, 4]))
    elif kind == 2:
        raw = dice.choice([0, 3, 4, 10009, 10000, 2]).to_bytes(4, "big") + raw[4:]
    else:
        at = 4 * dice.randrange(len(raw) // 4)
        raw = raw[:at] + dice.choice([*ARGUMENT_WORDS, 8]).to_bytes(4, "big") + raw[at + 4:]
    reply.raw = raw
    return True


def refuse_call(dice, run):
    """An RPC failure in place of the result. Half of the time the call's place goes too."""
    rows = [(number, reply) for number, reply in enumerate(run.replies(), 1) if reply is not None]
    if not rows:
        return False
    number, reply = dice.choice(rows)
    reply.words = replies.refusal(dice)
    if dice.chance(0.5):
        for era in run.eras:
            era.places = [place for place in era.places if place.number != number]
    return True


def spoil_reply(dice, run):
    """No reply of RPC: another type, a status of RPC that isn't there, something behind an RPC failure, words missing."""
    answered = [reply for reply in run.replies() if reply is not None]
    if not answered:
        return False
    reply, kind = dice.choice(answered), dice.randrange(4)
    if kind == 0:
        reply.type_word = dice.choice([0, 2, 2**32 - 1])
    elif kind == 1:
        reply.words = dice.choice([[2], [0, 0, 0, 6], [1, 2], [0, 0, 0], [], [0, 0, 0, 2, 1], [1, 1], [1, 0, 2], [0, 0, 401], [0, 0, 4, 9, 3]])
    elif kind == 2:
        reply.words, reply.extra = replies.refusal(dice), dice.randbytes(dice.choice([1, 4]))
    else:
        reply.check = dice.randbytes(dice.choice([400, 401]))
    return True


CHANGES = {change_status: 6, make_success: 5, change_verifier: 4, share_verifier: 3, change_written: 4, change_read: 8, change_listing: 6,
           change_shown: 4, change_shown_handle: 4, change_attributes: 1, change_carried: 10, refuse_call: 1}
GRAMMAR_CHANGES = {spoil_result: 4, spoil_reply: 3}
