"""Changes of a buffer's text and properties, as the undo list records them and as every kept place follows them."""
import collections

from faults import Fault, require
from property_sets import AddProperties
from undo_list import Deleted, FirstChange, Inserted, MarkerMoved, PointWas, PropertyWas
from values import property_in

MOST_IN_BUFFER = 4_194_304
MOST_IN_ALL = 16_777_216


def require_room(machine, buffer, size):
    total = sum(len(other.text) for other in machine.buffers if other is not None)
    require(len(buffer.text) + size <= MOST_IN_BUFFER and total + size <= MOST_IN_ALL, Fault.BUFFER_FULL)


def note_first_change(buffer):
    if not buffer.modified:
        buffer.undo.push(FirstChange())
        buffer.modified = True


def insert(machine, index, place, characters, properties, past_all=False, point_advances=True):
    buffer = machine.buffers[index]
    note_first_change(buffer)
    buffer.text[place:place] = characters
    buffer.properties[place:place] = properties
    move_for_insertion(machine, index, place, len(characters), past_all, point_advances)
    buffer.undo.push(Inserted(place, place + len(characters)))


def move_for_insertion(machine, index, place, size, past_all, point_advances):
    """Places after the insertion move; those right at it move as their kind says."""
    def moved(own_place, advances):
        return own_place + size if own_place > place or own_place == place and advances else own_place

    for marker in machine.markers_in(index):
        marker.place = moved(marker.place, marker.advances or past_all)
    for overlay in machine.overlays_in(index):
        start_advances = overlay.start_advances and (overlay.end_advances or not overlay.empty())
        overlay.start = moved(overlay.start, start_advances or past_all)
        overlay.end = moved(overlay.end, overlay.end_advances or past_all)
    buffer = machine.buffers[index]
    buffer.start = moved(buffer.start, False)
    buffer.end = moved(buffer.end, True)
    buffer.point = moved(buffer.point, point_advances)
    for span in machine.kept_in(index):
        span.start = moved(span.start, False)
        span.end = moved(span.end, span.end_advances)


def delete(machine, index, start, end):
    buffer = machine.buffers[index]
    starts_group = buffer.undo.starts_group()
    note_first_change(buffer)
    if starts_group and buffer.point != start:
        buffer.undo.push(PointWas(buffer.point))
    record_markers(machine, index, start, end)
    buffer.undo.push(Deleted(tuple(buffer.text[start:end]), tuple(buffer.properties[start:end]), start))
    del buffer.text[start:end]
    del buffer.properties[start:end]
    move_for_deletion(machine, index, start, end)


def record_markers(machine, index, start, end):
    for number, marker in enumerate(machine.markers):
        if marker.buffer == index and start <= marker.place <= end:
            adjustment = (end if marker.advances else start) - marker.place
            if adjustment != 0:
                machine.buffers[index].undo.push(MarkerMoved(number, adjustment))


def move_for_deletion(machine, index, start, end):
    def moved(place):
        return place - (end - start) if place >= end else min(place, start)

    for marker in machine.markers_in(index):
        marker.place = moved(marker.place)
    for spanning in (*machine.overlays_in(index), *machine.kept_in(index), machine.buffers[index]):
        spanning.start = moved(spanning.start)
        spanning.end = moved(spanning.end)
    buffer = machine.buffers[index]
    buffer.point = moved(buffer.point)
    for overlay in list(machine.overlays_in(index)):
        evaporate(overlay)


def evaporate(overlay):
    """An empty overlay that is to evaporate leaves its buffer."""
    if overlay.empty() and property_in(overlay.properties, "evaporate") is not None:
        overlay.buffer = None


def would_change(machine, buffer, start, end, edit):
    return any(edit.result(properties, machine.order) != properties
               for properties in set(buffer.properties[start:end]))


def change_properties(machine, index, start, end, edit):
    buffer = machine.buffers[index]
    if not would_change(machine, buffer, start, end, edit):
        return
    note_first_change(buffer)
    old = buffer.properties[start:end]
    results = {properties: edit.result(properties, machine.order) for properties in set(old)}
    new = [results[properties] for properties in old]
    changed = {name for before, after in results.items() for name, _ in set(before) ^ set(after)}
    for name in machine.order.sorted_names(changed):
        for record in changed_runs(name, start, old, new):
            buffer.undo.push(record)
    buffer.properties[start:end] = new


def changed_runs(name, start, old, new):
    """For each run of one old value that begins where the value changes: that value and where it was."""
    place = 0
    while place < len(old):
        value = property_in(old[place], name)
        run_start = place
        place += 1
        if value != property_in(new[run_start], name):
            while place < len(old) and property_in(old[place], name) == value:
                place += 1
            yield PropertyWas(name, value, start + run_start, start + place)


def undo(machine, index, records, last_serial):
    """Undoes the records, newest first; doing so records as any change does."""
    records = collections.deque(records)
    while records:
        record = records.popleft()
        if isinstance(record, Deleted):
            undo_deletion(machine, index, record, take_adjustments(machine, index, record, records))
        else:
            undo_record(machine, index, record)
    machine.buffers[index].undo.pending_below = last_serial


def undo_record(machine, index, record):
    buffer = machine.buffers[index]
    if isinstance(record, Inserted):
        buffer.point = record.start
        delete(machine, index, record.start, record.end)
    elif isinstance(record, PropertyWas):
        change_properties(machine, index, record.start, record.end, AddProperties(((record.name, record.value),)))
    elif isinstance(record, PointWas):
        buffer.point = record.place
    elif isinstance(record, FirstChange):
        buffer.modified = False


def take_adjustments(machine, index, deletion, records):
    """The markers that the deletion moved and that are still where it left them, and how far it moved each."""
    adjustments = []
    while records and isinstance(records[0], MarkerMoved):
        record = records.popleft()
        marker = machine.markers[record.marker]
        if marker.buffer == index and marker.place == deletion.place:
            adjustments.append((marker, record.adjustment))
    return adjustments


def undo_deletion(machine, index, record, adjustments):
    buffer = machine.buffers[index]
    buffer.point = record.place
    insert(machine, index, record.place, record.characters, record.properties, point_advances=False)
    for marker, adjustment in adjustments:
        marker.place = buffer.clamp_in_text(marker.place - adjustment)
