"""Primitives on buffers."""
import itertools

from arguments import buffer_index, check_buffer, check_name, check_optional, check_optional_buffer, named_buffer, \
    optional_buffer
from faults import Fault, require
from primitives.table import primitive
from state import Buffer
from values import NIL, BufferHandle, codes, list_of, text_of, truth
from waiting import MOST_BUFFERS, DeleteProcess, KillBuffer, require_successor
from work import Deferred

LONGEST_NAME = 256
DEEPEST_HANDLER = 16


def add_buffer(machine, name):
    machine.buffers.append(Buffer(name))
    return len(machine.buffers) - 1


def require_new_buffer(machine, name):
    require(len(name) <= LONGEST_NAME and len(machine.buffers) < MOST_BUFFERS, Fault.TOO_MANY)


def free_name(name, used, first):
    """The name itself, or with the least number from the first on that makes it free."""
    if name not in used:
        return name
    numbered = (name + codes(f"<{number}>") for number in itertools.count(first))
    return next(candidate for candidate in numbered if candidate not in used)


def names_but(machine, exception=None):
    return {machine.buffers[index].name for index in machine.live_buffers() if index != exception}


@primitive
def current_buffer(machine):
    return BufferHandle(machine.current)


@primitive
def set_buffer(machine, buffer):
    check_buffer(buffer)
    machine.current = buffer_index(machine, buffer)
    return BufferHandle(machine.current)


@primitive
def get_buffer(machine, buffer):
    check_buffer(buffer)
    if isinstance(buffer, BufferHandle):
        return buffer
    index = named_buffer(machine, buffer.characters)
    return NIL if index is None else BufferHandle(index)


@primitive
def get_buffer_create(machine, buffer):
    check_buffer(buffer)
    if isinstance(buffer, BufferHandle):
        return buffer
    check_name(buffer)
    index = named_buffer(machine, buffer.characters)
    if index is None:
        require_new_buffer(machine, buffer.characters)
        index = add_buffer(machine, buffer.characters)
    return BufferHandle(index)


@primitive
def generate_new_buffer(machine, name):
    check_name(name)
    require_new_buffer(machine, name.characters)
    return BufferHandle(add_buffer(machine, free_name(name.characters, names_but(machine), 2)))


@primitive
def rename_buffer(machine, name):
    check_name(name)
    require(len(name.characters) <= LONGEST_NAME, Fault.TOO_MANY)
    new_name = free_name(name.characters, names_but(machine, machine.current), 2)
    machine.current_buffer().name = new_name
    return text_of(new_name)


@primitive
def kill_buffer(machine, buffer=NIL):
    """Deletes the processes of the buffer first, whose sentinels must not nest too deep."""
    check_optional_buffer(buffer)
    index = buffer_index(machine, buffer)
    require_successor(machine, index)
    owned = [number for number, process in enumerate(machine.processes)
             if process.buffer == index and process.running()]
    require(not owned or machine.depth < DEEPEST_HANDLER, Fault.NESTING)
    return Deferred(NIL, [KillBuffer(index)] + [DeleteProcess(number) for number in reversed(owned)])


@primitive
def buffer_live_p(machine, value):
    return truth(isinstance(value, BufferHandle) and machine.buffers[value.index] is not None)


@primitive
def buffer_name(machine, buffer=NIL):
    check_optional(buffer, BufferHandle)
    found = machine.current_buffer() if buffer is NIL else machine.buffers[buffer.index]
    return NIL if found is None else text_of(found.name)


@primitive
def buffer_list(machine):
    return list_of(map(BufferHandle, machine.live_buffers()))


@primitive
def buffer_modified_p(machine, buffer=NIL):
    return truth(optional_buffer(machine, buffer).modified)


@primitive
def set_buffer_modified_p(machine, flag):
    machine.current_buffer().modified = flag is not NIL
    return truth(flag is not NIL)


@primitive
def set_buffer_read_only(machine, flag):
    machine.current_buffer().read_only = flag is not NIL
    return truth(flag is not NIL)


@primitive
def buffer_read_only_p(machine, buffer=NIL):
    return truth(optional_buffer(machine, buffer).read_only)
