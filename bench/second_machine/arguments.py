"""The kinds of arguments: first the types of all are checked, and then each is looked up."""
from faults import Fault, require
from values import NIL, BufferHandle, MarkerHandle, OverlayHandle, ProcessHandle, Symbol, Text


def check(value, *types):
    require(isinstance(value, types), Fault.WRONG_TYPE_ARGUMENT)


def check_optional(value, *types):
    require(value is NIL or isinstance(value, types), Fault.WRONG_TYPE_ARGUMENT)


def check_positions(*values):
    for value in values:
        check(value, int, MarkerHandle)


def check_optional_positions(*values):
    for value in values:
        check_optional(value, int, MarkerHandle)


def check_buffer(value):
    check(value, BufferHandle, Text)


def check_optional_buffer(value):
    check_optional(value, BufferHandle, Text)


def check_process(value):
    check(value, ProcessHandle, Text)


def check_name(value):
    check(value, Text)
    require(value.characters, Fault.WRONG_TYPE_ARGUMENT)


def number(machine, value):
    """The position an integer or a marker tells; a marker in no buffer tells none."""
    if isinstance(value, int):
        return value
    marker = machine.markers[value.index]
    require(marker.buffer is not None, Fault.ARGS_OUT_OF_RANGE)
    return marker.place + 1


def accessible_place(machine, value):
    buffer = machine.current_buffer()
    position = number(machine, value)
    require(buffer.start < position <= buffer.end + 1, Fault.ARGS_OUT_OF_RANGE)
    return position - 1


def ordered_numbers(machine, start, end):
    return sorted((number(machine, start), number(machine, end)))


def region(machine, start, end, buffer=None):
    """The places of two accessible positions, the lesser first."""
    buffer = buffer or machine.current_buffer()
    start, end = ordered_numbers(machine, start, end)
    require(buffer.start < start and end <= buffer.end + 1, Fault.ARGS_OUT_OF_RANGE)
    return start - 1, end - 1


def named_buffer(machine, name):
    """The index of the live buffer of that name, or None."""
    return next((index for index in machine.live_buffers() if machine.buffers[index].name == name), None)


def buffer_index(machine, value):
    """The index of a live buffer, by its handle or name; nil is the current one."""
    if value is NIL:
        return machine.current
    if isinstance(value, BufferHandle):
        require(machine.buffers[value.index] is not None, Fault.BUFFER_KILLED)
        return value.index
    index = named_buffer(machine, value.characters)
    require(index is not None, Fault.NO_SUCH_BUFFER)
    return index


def optional_buffer(machine, value):
    check_optional_buffer(value)
    return machine.buffers[buffer_index(machine, value)]


def process_index(machine, value):
    """The index of a process, by its handle or, while it is listed, by its name."""
    if isinstance(value, ProcessHandle):
        return value.index
    for index, process in enumerate(machine.processes):
        if process.listed and process.name == value.characters:
            return index
    return require(False, Fault.NO_SUCH_PROCESS)


def process_of(machine, value):
    check_process(value)
    return machine.processes[process_index(machine, value)]


def marker_of(machine, value):
    check(value, MarkerHandle)
    return machine.markers[value.index]


def overlay_of(machine, value):
    check(value, OverlayHandle)
    return machine.overlays[value.index]


def check_handler(machine, value):
    """A symbol that names no handler is void, whatever the other arguments are."""
    require(not isinstance(value, Symbol) or machine.is_handler(value.name), Fault.VOID_VARIABLE)
