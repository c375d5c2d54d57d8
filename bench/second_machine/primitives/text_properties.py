"""Primitives on text properties."""
from arguments import accessible_place, check, check_optional_positions, check_positions, number, region
from changes import PropertyChange
from editing import would_change
from primitives.table import primitive
from primitives.text import require_writable_region
from property_sets import AddProperties, RemoveProperties, ReplaceProperties
from values import NIL, T, ListValue, Symbol, property_in, property_list, property_pairs, property_value
from work import Deferred


def pairs_of(value):
    if value is NIL:
        return ()
    check(value, ListValue)
    return property_pairs(value.items)


def shown_value(value):
    return NIL if value is None else value


@primitive
def get_text_property(machine, position, name):
    check_positions(position)
    check(name, Symbol)
    place = accessible_place(machine, position)
    buffer = machine.current_buffer()
    return NIL if place == buffer.end else shown_value(property_in(buffer.properties[place], name.name))


@primitive
def text_properties_at(machine, position):
    check_positions(position)
    place = accessible_place(machine, position)
    buffer = machine.current_buffer()
    return NIL if place == buffer.end else property_list(buffer.properties[place])


def edit_region(machine, start, end, edit, answer=T):
    """A change of properties, or nil where nothing would change."""
    start, end = region(machine, start, end)
    buffer = machine.current_buffer()
    if not would_change(machine, buffer, start, end, edit):
        return NIL
    require_writable_region(machine, buffer, start, end)
    return Deferred(answer, [PropertyChange(machine.current, start, end, edit)])


@primitive
def put_text_property(machine, start, end, name, value):
    check_positions(start, end)
    check(name, Symbol)
    pair = name.name, property_value(value)
    return edit_region(machine, start, end, AddProperties((pair,)), NIL)


@primitive
def add_text_properties(machine, start, end, properties):
    check_positions(start, end)
    return edit_region(machine, start, end, AddProperties(pairs_of(properties)))


@primitive
def remove_text_properties(machine, start, end, properties):
    check_positions(start, end)
    names = frozenset(name for name, _ in pairs_of(properties))
    return edit_region(machine, start, end, RemoveProperties(names))


@primitive
def set_text_properties(machine, start, end, properties):
    check_positions(start, end)
    edit = ReplaceProperties(machine.order.arrange(dict(pairs_of(properties))))
    return edit_region(machine, start, end, edit)


def differ(buffer, place, name):
    """Whether the character there and the one before it differ in the property, or in any."""
    before, after = buffer.properties[place - 1], buffer.properties[place]
    if name is None:
        return before != after
    return property_in(before, name.name) != property_in(after, name.name)


def check_search(position, name, limit):
    check_positions(position)
    if name is not None:
        check(name, Symbol)
    check_optional_positions(limit)


def next_change(machine, position, name, limit):
    check_search(position, name, limit)
    place = accessible_place(machine, position)
    limit = None if limit is NIL else number(machine, limit)
    buffer = machine.current_buffer()
    found = next((at + 1 for at in range(place + 1, buffer.end) if differ(buffer, at, name)), None)
    return nearest(found, limit, min)


def previous_change(machine, position, name, limit):
    check_search(position, name, limit)
    place = accessible_place(machine, position)
    limit = None if limit is NIL else number(machine, limit)
    buffer = machine.current_buffer()
    found = next((at + 1 for at in range(place - 1, buffer.start, -1) if differ(buffer, at, name)), None)
    return nearest(found, limit, max)


def nearest(found, limit, choose):
    known = [position for position in (found, limit) if position is not None]
    return choose(known) if known else NIL


@primitive
def next_property_change(machine, position, limit=NIL):
    return next_change(machine, position, None, limit)


@primitive
def next_single_property_change(machine, position, name, limit=NIL):
    return next_change(machine, position, name, limit)


@primitive
def previous_property_change(machine, position, limit=NIL):
    return previous_change(machine, position, None, limit)


@primitive
def previous_single_property_change(machine, position, name, limit=NIL):
    return previous_change(machine, position, name, limit)


def first_place(machine, start, end, name, value, wanted):
    check_positions(start, end)
    check(name, Symbol)
    value = property_value(value)
    start, end = region(machine, start, end)
    properties = machine.current_buffer().properties
    found = (at + 1 for at in range(start, end) if (property_in(properties[at], name.name) == value) is wanted)
    return next(found, NIL)


@primitive
def text_property_any(machine, start, end, name, value):
    return first_place(machine, start, end, name, value, True)


@primitive
def text_property_not_all(machine, start, end, name, value):
    return first_place(machine, start, end, name, value, False)
