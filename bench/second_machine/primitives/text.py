"""Primitives on text, point and narrowing."""
from arguments import buffer_index, check, check_buffer, check_optional_positions, \
    check_positions, number, optional_buffer, ordered_numbers, region
from changes import Deletion, Insertion
from editing import require_room
from faults import Fault, require
from primitives.table import primitive
from values import NIL, Text, property_in, text_of, truth
from work import Deferred

LONGEST_TEXT = 1_048_576


def require_short(start, end):
    require(end - start <= LONGEST_TEXT, Fault.TOO_MANY)


def require_writable(machine, buffer):
    require(machine.read_only_lifted or not buffer.read_only, Fault.BUFFER_READ_ONLY)


def require_insertable(machine, buffer, place):
    require_writable(machine, buffer)
    inherited = machine.order.at_insertion(buffer, place)
    require(machine.read_only_lifted or property_in(inherited, "read-only") is None, Fault.TEXT_READ_ONLY)


def require_writable_region(machine, buffer, start, end):
    require_writable(machine, buffer)
    fixed = any(property_in(properties, "read-only") is not None for properties in set(buffer.properties[start:end]))
    require(machine.read_only_lifted or not fixed, Fault.TEXT_READ_ONLY)


@primitive
def point(machine):
    return machine.current_buffer().point + 1


@primitive
def point_min(machine):
    return machine.current_buffer().start + 1


@primitive
def point_max(machine):
    return machine.current_buffer().end + 1


@primitive
def buffer_size(machine, buffer=NIL):
    return len(optional_buffer(machine, buffer).text)


@primitive
def buffer_narrowed_p(machine):
    return truth(machine.current_buffer().narrowed())


@primitive
def goto_char(machine, position):
    check_positions(position)
    buffer = machine.current_buffer()
    buffer.point = buffer.clamp(number(machine, position) - 1)
    return position


@primitive
def char_after(machine, position=NIL):
    check_optional_positions(position)
    buffer = machine.current_buffer()
    place = buffer.point if position is NIL else number(machine, position) - 1
    return buffer.text[place] if buffer.start <= place < buffer.end else NIL


def part(buffer, start, end, with_properties=True):
    require_short(start, end)
    return text_of(buffer.text[start:end], buffer.properties[start:end] if with_properties else None)


@primitive
def buffer_string(machine):
    buffer = machine.current_buffer()
    return part(buffer, buffer.start, buffer.end)


@primitive
def buffer_substring(machine, start, end):
    check_positions(start, end)
    return part(machine.current_buffer(), *region(machine, start, end))


@primitive
def buffer_substring_no_properties(machine, start, end):
    check_positions(start, end)
    return part(machine.current_buffer(), *region(machine, start, end), with_properties=False)


def insert_strings(machine, strings, inherit=False, past_all=False):
    for string in strings:
        check(string, Text)
    characters = tuple(character for string in strings for character in string.characters)
    if not characters:
        return NIL
    properties = tuple(own for string in strings for own in string.properties or ((),) * len(string.characters))
    buffer = machine.current_buffer()
    require_insertable(machine, buffer, buffer.point)
    require_room(machine, buffer, len(characters))
    if inherit:
        inherited = dict(machine.order.at_insertion(buffer, buffer.point))
        properties = tuple(machine.order.arrange({**inherited, **dict(own)}) for own in properties)
    change = Insertion(machine.current, buffer.point, buffer.point, characters, properties, past_all)
    return Deferred(NIL, [change])


@primitive
def insert(machine, string, *strings):
    return insert_strings(machine, (string, *strings))


@primitive
def insert_and_inherit(machine, string, *strings):
    return insert_strings(machine, (string, *strings), inherit=True)


@primitive
def insert_before_markers(machine, string, *strings):
    return insert_strings(machine, (string, *strings), past_all=True)


@primitive
def insert_before_markers_and_inherit(machine, string, *strings):
    return insert_strings(machine, (string, *strings), inherit=True, past_all=True)


@primitive
def insert_buffer_substring(machine, source, start=NIL, end=NIL):
    check_buffer(source)
    check_optional_positions(start, end)
    source = machine.buffers[buffer_index(machine, source)]
    start = source.start + 1 if start is NIL else start
    end = source.end + 1 if end is NIL else end
    start, end = region(machine, start, end, source)
    if start == end:
        return NIL
    buffer = machine.current_buffer()
    require_insertable(machine, buffer, buffer.point)
    require_short(start, end)
    require_room(machine, buffer, end - start)
    characters, properties = tuple(source.text[start:end]), tuple(source.properties[start:end])
    return Deferred(NIL, [Insertion(machine.current, buffer.point, buffer.point, characters, properties)])


@primitive
def delete_region(machine, start, end):
    check_positions(start, end)
    start, end = region(machine, start, end)
    if start == end:
        return NIL
    require_writable_region(machine, machine.current_buffer(), start, end)
    return Deferred(NIL, [Deletion(machine.current, start, end)])


@primitive
def delete_and_extract_region(machine, start, end):
    check_positions(start, end)
    start, end = region(machine, start, end)
    if start == end:
        return text_of(())
    buffer = machine.current_buffer()
    require_writable_region(machine, buffer, start, end)
    return Deferred(part(buffer, start, end), [Deletion(machine.current, start, end)])


@primitive
def erase_buffer(machine):
    buffer = machine.current_buffer()
    if not buffer.text:
        return NIL
    require_writable_region(machine, buffer, 0, len(buffer.text))
    return Deferred(NIL, [Deletion(machine.current, 0, len(buffer.text), widen=True)])


@primitive
def narrow_to_region(machine, start, end):
    check_positions(start, end)
    start, end = ordered_numbers(machine, start, end)
    buffer = machine.current_buffer()
    require(1 <= start and end <= len(buffer.text) + 1, Fault.ARGS_OUT_OF_RANGE)
    buffer.start, buffer.end = start - 1, end - 1
    buffer.point = buffer.clamp(buffer.point)
    return NIL


@primitive
def widen(machine):
    machine.current_buffer().widen()
    return NIL
