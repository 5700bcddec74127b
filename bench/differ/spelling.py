"""The bytes of a run: the history file and the certificate text."""
from . import layouts as nfs
from . import rpc
from .histories import CALL, CLOSE, CRASH, MAGIC, MAGIC_OF_STARTS, REPLY
from .items import Hyper, Opaque, Sink
from .runs import CallEvent, CloseEvent, Run, StartObject


def spell_arguments(procedure: int, arguments: dict, pad=bytes) -> bytes:
    sink = Sink(pad)
    nfs.ARGUMENTS[procedure].write(sink, arguments)
    return sink.data()


def spell_result(procedure: int, status: int, value: dict, pad=bytes) -> bytes:
    sink = Sink(pad)
    sink.word(status)
    nfs.result_kind(procedure, status).write(sink, value)
    return sink.data()


def put_call(sink: Sink, call) -> None:
    for word in (call.xid, call.type_word, call.rpc_version, call.program, call.version, call.procedure, call.flavor):
        sink.word(word)
    Opaque().write(sink, call.credential)
    sink.word(call.check_flavor)
    Opaque().write(sink, call.check)
    sink.put(call.raw if call.arguments is None else spell_arguments(call.procedure, call.arguments, sink.pad))


def put_reply(sink: Sink, reply) -> None:
    sink.word(reply.xid)
    sink.word(reply.type_word)
    if reply.words is not None:
        for word in reply.words:
            sink.word(word)
        return
    sink.word(rpc.ACCEPTED)
    sink.word(reply.check_flavor)
    Opaque().write(sink, reply.check)
    sink.word(rpc.SUCCESS)
    sink.put(reply.raw if reply.value is None else spell_result(reply.procedure, reply.status, reply.value, sink.pad))


def spell_message(event, pad=bytes) -> bytes:
    sink = Sink(pad)
    (put_call if isinstance(event, CallEvent) else put_reply)(sink, event)
    sink.put(event.extra)
    return sink.data()


def put_with_length(sink: Sink, data: bytes, length) -> None:
    """The bytes, with another length in front of them if it isn't None."""
    sink.word(len(data) if length is None else length)
    sink.put(data)
    sink.put(sink.pad(-len(data) % 4))


def put_object(sink: Sink, one: StartObject) -> None:
    Hyper().write(sink, one.parent)
    put_with_length(sink, one.name, one.name_length)
    sink.word(one.kind)
    if one.kind in (nfs.REGULAR, nfs.LINK_TYPE):
        put_with_length(sink, one.data, one.data_length)


def put_head(sink: Sink, run: Run) -> None:
    """What stands in front of the number of events."""
    sink.put(MAGIC if run.start is None else MAGIC_OF_STARTS)
    Opaque().write(sink, run.root)
    if run.start is not None:
        sink.word(run.start.profile)
        sink.word(len(run.start.objects) if run.start.count is None else run.start.count)
        for one in run.start.objects:
            put_object(sink, one)


def spell_history(run: Run, pad=bytes) -> bytes:
    sink = Sink(pad)
    put_head(sink, run)
    sink.word(len(run.events))
    for event in run.events:
        if not hasattr(event, "lane"):
            sink.word(CRASH)
        elif isinstance(event, CloseEvent):
            sink.word(CLOSE)
            sink.word(event.lane)
        else:
            sink.word(CALL if isinstance(event, CallEvent) else REPLY)
            sink.word(event.lane)
            Opaque().write(sink, spell_message(event, pad))
    return sink.data()


def spell_place(place) -> str:
    word = "take" if place.is_taken else "place"
    return f"{word} {place.number}" + ("" if place.count is None else f" {place.count}")


def spell_certificate(run: Run) -> bytes:
    lines = ["witness 1", *(f"bind {handle.hex()} {number}" for handle, number in run.binds)]
    for era in run.eras:
        lines += [spell_place(place) for place in era.places] + ([] if era.cut is None else [f"cut {era.cut}"])
    return "".join(line + "\n" for line in [*lines, "end"]).encode()
