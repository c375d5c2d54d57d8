"""Primitives on overlays."""
from arguments import accessible_place, buffer_index, check, check_optional_buffer, check_positions, number, \
    ordered_numbers, overlay_of
from editing import evaporate
from faults import Fault, require
from primitives.table import primitive
from primitives.text_properties import shown_value
from state import Overlay
from values import NIL, BufferHandle, OverlayHandle, Symbol, list_of, property_in, property_list, property_value

MOST_OVERLAYS = 65_536


def span(machine, index, start, end):
    """Two positions as places in the text of a buffer, the lesser first."""
    buffer = machine.buffers[index]
    return tuple(buffer.clamp_in_text(position - 1) for position in ordered_numbers(machine, start, end))


def handles(machine, condition):
    """The overlays of the current buffer of which the condition holds, oldest first."""
    return list_of(OverlayHandle(index) for index, overlay in enumerate(machine.overlays)
                   if overlay.buffer == machine.current and condition(overlay))


@primitive
def make_overlay(machine, start, end, buffer=NIL, start_advances=NIL, end_advances=NIL):
    check_positions(start, end)
    check_optional_buffer(buffer)
    index = buffer_index(machine, buffer)
    places = span(machine, index, start, end)
    require(len(machine.overlays) < MOST_OVERLAYS, Fault.TOO_MANY)
    machine.overlays.append(Overlay(index, *places, start_advances is not NIL, end_advances is not NIL))
    return OverlayHandle(len(machine.overlays) - 1)


@primitive
def overlay_start(machine, overlay):
    found = overlay_of(machine, overlay)
    return NIL if found.buffer is None else found.start + 1


@primitive
def overlay_end(machine, overlay):
    found = overlay_of(machine, overlay)
    return NIL if found.buffer is None else found.end + 1


@primitive
def overlay_buffer(machine, overlay):
    found = overlay_of(machine, overlay)
    return NIL if found.buffer is None else BufferHandle(found.buffer)


@primitive
def overlay_put(machine, overlay, name, value):
    found = overlay_of(machine, overlay)
    check(name, Symbol)
    kept = property_value(value)
    found.properties = machine.order.arrange({**dict(found.properties), name.name: kept})
    evaporate(found)
    return value


@primitive
def overlay_get(machine, overlay, name):
    found = overlay_of(machine, overlay)
    check(name, Symbol)
    return shown_value(property_in(found.properties, name.name))


@primitive
def overlay_properties(machine, overlay):
    return property_list(overlay_of(machine, overlay).properties)


@primitive
def move_overlay(machine, overlay, start, end, buffer=NIL):
    """Stays in its own buffer unless another is named; one in no buffer goes to the current one."""
    found = overlay_of(machine, overlay)
    check_positions(start, end)
    check_optional_buffer(buffer)
    stays = buffer is NIL and found.buffer is not None
    index = found.buffer if stays else buffer_index(machine, buffer)
    found.start, found.end = span(machine, index, start, end)
    found.buffer = index
    evaporate(found)
    return overlay


@primitive
def delete_overlay(machine, overlay):
    overlay_of(machine, overlay).buffer = None
    return NIL


@primitive
def overlays_at(machine, position):
    check_positions(position)
    place = number(machine, position) - 1
    return handles(machine, lambda overlay: overlay.covers(place))


@primitive
def overlays_in(machine, start, end):
    """An empty overlay counts at the start, strictly inside, and at the end where that ends the accessible part."""
    check_positions(start, end)
    start, end = (position - 1 for position in ordered_numbers(machine, start, end))
    last = machine.current_buffer().end

    def touches(overlay):
        if overlay.empty():
            place = overlay.start
            return place == start or start < place < end or place == end == last
        return overlay.covers(start) if start == end else overlay.start < end and overlay.end > start

    return handles(machine, touches)


def strength(numbered_overlay):
    """Of two overlays, the stronger has the higher priority, begins later, ends sooner, or is newer."""
    index, overlay = numbered_overlay
    priority = property_in(overlay.properties, "priority")
    return priority if isinstance(priority, int) else 0, overlay.start, -overlay.end, index


@primitive
def get_char_property(machine, position, name):
    """The property of the strongest overlay there that has it, or else that of the text."""
    check_positions(position)
    check(name, Symbol)
    place = accessible_place(machine, position)
    having = [(index, overlay) for index, overlay in enumerate(machine.overlays)
              if overlay.buffer == machine.current and overlay.covers(place)
              and property_in(overlay.properties, name.name) is not None]
    if having:
        return property_in(max(having, key=strength)[1].properties, name.name)
    buffer = machine.current_buffer()
    return NIL if place == buffer.end else shown_value(property_in(buffer.properties[place], name.name))


def boundaries(machine):
    return [place for overlay in machine.overlays_in(machine.current) for place in (overlay.start, overlay.end)]


@primitive
def next_overlay_change(machine, position):
    check_positions(position)
    place = number(machine, position) - 1
    last = machine.current_buffer().end
    return min((at for at in boundaries(machine) if place < at < last), default=last) + 1


@primitive
def previous_overlay_change(machine, position):
    check_positions(position)
    place = number(machine, position) - 1
    first = machine.current_buffer().start
    return max((at for at in boundaries(machine) if first < at < place), default=first) + 1
