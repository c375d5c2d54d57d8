"""Primitives on undo."""
from arguments import check
from changes import Undoing
from faults import Fault, require
from primitives.table import primitive
from primitives.text import require_writable
from undo_list import MOST_RECORDS
from values import NIL, T, list_of
from work import Deferred


@primitive
def undo_boundary(machine):
    machine.current_buffer().undo.end_group()
    return NIL


@primitive
def undo_start(machine):
    machine.current_buffer().undo.start()
    return NIL


@primitive
def undo_more(machine, groups):
    """A change, unless the groups hold no records: then nothing changes and no hook runs."""
    check(groups, int)
    require(1 <= groups <= MOST_RECORDS, Fault.ARGS_OUT_OF_RANGE)
    buffer = machine.current_buffer()
    require_writable(machine, buffer)
    records, last_serial = buffer.undo.plan(groups, buffer.start, buffer.end)
    if not records:
        buffer.undo.pending_below = last_serial
        return NIL
    return Deferred(NIL, [Undoing(machine.current, buffer.start, buffer.end, groups)])


@primitive
def buffer_undo_list(machine):
    undo = machine.current_buffer().undo
    if not undo.recording:
        return T
    return list_of(entry.record.listed() for entry in reversed(undo.entries))


@primitive
def buffer_disable_undo(machine):
    machine.current_buffer().undo.disable()
    return NIL


@primitive
def buffer_enable_undo(machine):
    machine.current_buffer().undo.recording = True
    return NIL
