"""Primitives on processes."""
from arguments import buffer_index, check, check_buffer, check_handler, check_name, check_optional, \
    check_optional_buffer, check_process, named_buffer, process_index, process_of
from characters import FIRST_RAW, encode
from faults import Fault, Refused, require
from primitives.buffers import DEEPEST_HANDLER, LONGEST_NAME, add_buffer, free_name, require_new_buffer
from primitives.markers import MOST_MARKERS, add_marker
from primitives.table import primitive
from state import Process
from values import NIL, T, BufferHandle, MarkerHandle, ProcessHandle, Symbol, Text, list_of, text_of, truth
from waiting import DeleteProcess, Wait
from work import Deferred

MOST_PROCESSES = 256
MOST_ROUNDS = 1_000
MOST_SENT = 16_777_216
CODINGS = (Symbol("utf-8-unix"), Symbol("utf-8-dos"), Symbol("latin-1-unix"))


def check_start(name, buffer, program, arguments):
    """What is passed to a child holds neither raw characters nor the character zero."""
    check_name(name)
    if buffer is not NIL:
        check_buffer(buffer)
    if isinstance(buffer, Text):
        check_name(buffer)
    check_words(program)
    require(program.characters, Fault.WRONG_TYPE_ARGUMENT)
    check_words(*arguments)


def check_words(*words):
    for word in words:
        check(word, Text)
        passable = all(0 < character < FIRST_RAW for character in word.characters)
        require(passable, Fault.WRONG_TYPE_ARGUMENT)


@primitive
def start_process(machine, name, buffer, program, *arguments):
    check_start(name, buffer, program, arguments)
    by_name = isinstance(buffer, Text)
    index = buffer_index(machine, buffer) if isinstance(buffer, BufferHandle) else None
    if by_name:
        index = named_buffer(machine, buffer.characters)
    is_new = by_name and index is None
    require(len(name.characters) <= LONGEST_NAME, Fault.TOO_MANY)
    if is_new:
        require_new_buffer(machine, buffer.characters)
    has_room = len(machine.processes) < MOST_PROCESSES and len(machine.markers) < MOST_MARKERS
    require(has_room, Fault.TOO_MANY)
    words = tuple(encode(word.characters) for word in arguments)
    kind, *child = machine.ask("spawn", encode(program.characters), words)
    require(kind == "started", Fault.SPAWN_FAILED)
    if is_new:
        index = add_buffer(machine, buffer.characters)
    return add_process(machine, name.characters, child[0], index)


def add_process(machine, name, child, buffer):
    """Its mark is at the end of the accessible part of its buffer."""
    mark = add_marker(machine, buffer, 0 if buffer is None else machine.buffers[buffer].end)
    used = {process.name for process in machine.processes if process.listed}
    machine.processes.append(Process(free_name(name, used, 1), child, buffer, mark.index))
    return ProcessHandle(len(machine.processes) - 1)


@primitive
def process_list(machine):
    return list_of(ProcessHandle(index) for index, process in enumerate(machine.processes) if process.listed)


@primitive
def get_process(machine, process):
    check_process(process)
    try:
        return ProcessHandle(process_index(machine, process))
    except Refused:
        return NIL


@primitive
def process_name(machine, process):
    return text_of(process_of(machine, process).name)


@primitive
def process_status(machine, process):
    return Symbol(process_of(machine, process).status)


@primitive
def process_buffer(machine, process):
    index = process_of(machine, process).buffer
    return NIL if index is None else BufferHandle(index)


@primitive
def process_mark(machine, process):
    return MarkerHandle(process_of(machine, process).mark)


@primitive
def process_live_p(machine, process):
    return truth(process_of(machine, process).running())


@primitive
def process_exit_status(machine, process):
    return process_of(machine, process).exit_status()


@primitive
def process_filter(machine, process):
    return process_of(machine, process).filter


@primitive
def process_sentinel(machine, process):
    return process_of(machine, process).sentinel


@primitive
def set_process_filter(machine, process, function):
    check_handler(machine, function)
    check_process(process)
    require(function in (NIL, T) or isinstance(function, Symbol), Fault.WRONG_TYPE_ARGUMENT)
    process_of(machine, process).filter = function
    return function


@primitive
def set_process_sentinel(machine, process, function):
    check_handler(machine, function)
    check_process(process)
    check_optional(function, Symbol)
    process_of(machine, process).sentinel = function
    return function


@primitive
def set_process_buffer(machine, process, buffer):
    check_process(process)
    check_optional_buffer(buffer)
    changed = process_of(machine, process)
    changed.buffer = None if buffer is NIL else buffer_index(machine, buffer)
    return buffer


@primitive
def process_send_string(machine, process, string):
    check_process(process)
    check(string, Text)
    receiver = process_of(machine, process)
    if not string.characters:
        return NIL
    require(receiver.running() and not receiver.closed, Fault.PROCESS_ENDED)
    data = encode(string.characters)
    require(machine.bytes_sent + len(data) <= MOST_SENT, Fault.TOO_MANY)
    kind, = machine.ask("send", receiver.child, data)
    machine.bytes_sent += len(data)
    require(kind == "sent", Fault.BROKEN_PIPE)
    return NIL


@primitive
def process_send_eof(machine, process):
    receiver = process_of(machine, process)
    require(receiver.running(), Fault.PROCESS_ENDED)
    if not receiver.closed:
        machine.ask("close", receiver.child)
        receiver.closed = True
    return ProcessHandle(process_index(machine, process))


@primitive
def delete_process(machine, process):
    if not process_of(machine, process).running():
        return NIL
    require(machine.depth < DEEPEST_HANDLER, Fault.NESTING)
    return Deferred(NIL, [DeleteProcess(process_index(machine, process))])


@primitive
def accept_process_output(machine, process=NIL, rounds=NIL, only=NIL):
    check_optional(process, ProcessHandle, Text)
    check_optional(rounds, int)
    target = None if process is NIL else process_index(machine, process)
    rounds = MOST_ROUNDS if rounds is NIL else rounds
    require(1 <= rounds <= MOST_ROUNDS, Fault.ARGS_OUT_OF_RANGE)
    require(machine.depth < DEEPEST_HANDLER, Fault.NESTING)
    return Deferred(NIL, [Wait(target, only is not NIL and target is not None, rounds)])


@primitive
def set_process_coding_system(machine, process, coding):
    check_process(process)
    require(coding in CODINGS, Fault.WRONG_TYPE_ARGUMENT)
    changed = process_of(machine, process)
    require(not changed.fed, Fault.CODING_FIXED)
    changed.coding = coding.name
    return coding


@primitive
def process_coding_system(machine, process):
    return Symbol(process_of(machine, process).coding)
