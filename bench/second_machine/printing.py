"""How values and the final state are printed."""
import itertools

from characters import escaped
from values import (NIL, BufferHandle, Constant, DottedList, ListValue, MarkerHandle, OverlayHandle, ProcessHandle,
                    Symbol, Text, text_of)


def show(machine, value):
    if isinstance(value, Constant):
        return value.value
    if isinstance(value, int):
        return str(value)
    if isinstance(value, Symbol):
        return value.name
    if isinstance(value, Text):
        return show_text(machine, value)
    if isinstance(value, ListValue):
        return f"({show_items(machine, value.items)})"
    if isinstance(value, DottedList):
        return f"({show_items(machine, value.items)} . {show(machine, value.last)})"
    return SHOW_HANDLE[type(value)](machine, value.index)


def show_items(machine, items):
    return " ".join(show(machine, item) for item in items)


def show_properties(machine, properties):
    return " ".join(f"{name} {show(machine, value)}" for name, value in properties)


def show_text(machine, text):
    """A string, and after it the runs of characters that have equal properties."""
    quoted = f'"{escaped(text.characters)}"'
    if text.properties is None:
        return quoted
    runs = []
    start = 0
    for properties, run in itertools.groupby(text.properties):
        end = start + len(list(run))
        if properties:
            runs.append(f"{start} {end} ({show_properties(machine, properties)})")
        start = end
    return f"#({' '.join([quoted] + runs)})"


def show_buffer(machine, index):
    buffer = machine.buffers[index]
    return "#<killed buffer>" if buffer is None else f"#<buffer {escaped(buffer.name)}>"


def show_marker(machine, index):
    marker = machine.markers[index]
    kind = "(moves after insertion) " if marker.advances else ""
    if marker.buffer is None:
        return f"#<marker {kind}in no buffer>"
    return f"#<marker {kind}at {marker.place + 1} in {escaped(machine.buffers[marker.buffer].name)}>"


def show_overlay(machine, index):
    overlay = machine.overlays[index]
    if overlay.buffer is None:
        return "#<overlay in no buffer>"
    name = escaped(machine.buffers[overlay.buffer].name)
    return f"#<overlay from {overlay.start + 1} to {overlay.end + 1} in {name}>"


def show_process(machine, index):
    return f"#<process {escaped(machine.processes[index].name)}>"


SHOW_HANDLE = {BufferHandle: show_buffer, MarkerHandle: show_marker, OverlayHandle: show_overlay,
               ProcessHandle: show_process}


def final_state(machine):
    """The lines that tell the buffers, markers, overlays and processes at the end."""
    for index, buffer in enumerate(machine.buffers):
        if buffer is not None:
            yield buffer_line(buffer, index == machine.current)
            yield f"text {show(machine, text_of(buffer.text, buffer.properties))}"
    for index in range(len(machine.markers)):
        yield f"marker {index} {show_marker(machine, index)}"
    for index, overlay in enumerate(machine.overlays):
        properties = f"({show_properties(machine, overlay.properties)})" if overlay.properties else NIL.value
        yield f"overlay {index} {show_overlay(machine, index)} {properties}"
    for index, process in enumerate(machine.processes):
        status = f"{process.status} {show(machine, process.exit_status())}"
        yield f"process {index} {show_process(machine, index)} {status}"


def buffer_line(buffer, current):
    modified = "t" if buffer.modified else "nil"
    flags = (" read-only" if buffer.read_only else "") + (" current" if current else "")
    bounds = f"point {buffer.point + 1} min {buffer.start + 1} max {buffer.end + 1}"
    return f"buffer {escaped(buffer.name)} {bounds} modified {modified}{flags}"
