"""Primitives on markers."""
from arguments import check, check_optional_buffer, check_optional_positions, buffer_index, marker_of, number
from faults import Fault, require
from primitives.table import primitive
from state import Marker
from values import NIL, BufferHandle, MarkerHandle, truth

MOST_MARKERS = 65_536


def add_marker(machine, buffer, place, advances=False):
    require(len(machine.markers) < MOST_MARKERS, Fault.TOO_MANY)
    machine.markers.append(Marker(buffer, place, advances))
    return MarkerHandle(len(machine.markers) - 1)


@primitive
def make_marker(machine):
    return add_marker(machine, None, 0)


@primitive
def point_marker(machine):
    return add_marker(machine, machine.current, machine.current_buffer().point)


@primitive
def copy_marker(machine, position=NIL, advances=NIL):
    check_optional_positions(position)
    buffer, place = None, 0
    if isinstance(position, int):
        buffer, place = machine.current, machine.current_buffer().clamp_in_text(position - 1)
    elif position is not NIL:
        original = machine.markers[position.index]
        buffer, place = original.buffer, original.place
    return add_marker(machine, buffer, place, advances is not NIL)


@primitive
def set_marker(machine, marker, position, buffer=NIL):
    check(marker, MarkerHandle)
    check_optional_positions(position)
    check_optional_buffer(buffer)
    index = buffer_index(machine, buffer)
    moved = machine.markers[marker.index]
    nowhere = isinstance(position, MarkerHandle) and machine.markers[position.index].buffer is None
    if position is NIL or nowhere:
        moved.buffer = None
    else:
        moved.place = machine.buffers[index].clamp_in_text(number(machine, position) - 1)
        moved.buffer = index
    return marker


@primitive
def marker_position(machine, marker):
    found = marker_of(machine, marker)
    return NIL if found.buffer is None else found.place + 1


@primitive
def marker_buffer(machine, marker):
    found = marker_of(machine, marker)
    return NIL if found.buffer is None else BufferHandle(found.buffer)


@primitive
def marker_insertion_type(machine, marker):
    return truth(marker_of(machine, marker).advances)


@primitive
def set_marker_insertion_type(machine, marker, flag):
    marker_of(machine, marker).advances = flag is not NIL
    return truth(flag is not NIL)
