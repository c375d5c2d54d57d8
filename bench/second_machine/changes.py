"""Changes under way: hooks run before them, then they are committed, and hooks run after them."""
from dataclasses import dataclass
from typing import Optional

import editing
from faults import Fault, require
from state import AFTER_CHANGE, BEFORE_CHANGE, KeptSpan
from work import Item


@dataclass
class Change(Item):
    """A change of the places from start to end, which follow what the hooks before it do to the text."""
    buffer: int
    start: int
    end: int

    def step(self, machine):
        span = machine.keep(self.buffer, self.start, self.end)
        machine.work.append(Commit(self, span))
        machine.run_hooks(self.buffer, BEFORE_CHANGE, (self.start + 1, self.end + 1))

    def commit(self, machine, buffer, start, end):
        """Makes the change, and gives the arguments of the hooks that run after it."""
        raise NotImplementedError


@dataclass
class Commit(Item):
    change: Change
    span: KeptSpan

    def step(self, machine):
        machine.kept.pop()
        machine.attempt(self.commit, machine)

    def commit(self, machine):
        buffer = machine.buffers[self.change.buffer]
        require(buffer is not None, Fault.BUFFER_KILLED)
        arguments = self.change.commit(machine, buffer, self.span.start, self.span.end)
        machine.run_hooks(self.change.buffer, AFTER_CHANGE, arguments)


@dataclass
class Insertion(Change):
    characters: tuple
    properties: tuple
    past_all: bool = False
    point_after: bool = True
    mark: Optional[int] = None      # a marker that is put after the text

    def commit(self, machine, buffer, start, _end):
        size = len(self.characters)
        editing.require_room(machine, buffer, size)
        buffer.undo.pending_below = 0
        editing.insert(machine, self.buffer, start, self.characters, self.properties, self.past_all)
        if self.point_after:
            buffer.point = buffer.clamp(start + size)
        if self.mark is not None:
            marker = machine.markers[self.mark]
            marker.buffer, marker.place = self.buffer, start + size
        return start + 1, start + size + 1, 0


@dataclass
class Deletion(Change):
    widen: bool = False

    def commit(self, machine, buffer, start, end):
        if self.widen:
            buffer.widen()
        if start < end:
            buffer.undo.pending_below = 0
            editing.delete(machine, self.buffer, start, end)
        return start + 1, start + 1, end - start


@dataclass
class PropertyChange(Change):
    edit: object

    def commit(self, machine, buffer, start, end):
        if editing.would_change(machine, buffer, start, end, self.edit):
            buffer.undo.pending_below = 0
            editing.change_properties(machine, self.buffer, start, end, self.edit)
        return start + 1, end + 1, end - start


@dataclass
class Undoing(Change):
    groups: int

    def commit(self, machine, buffer, _start, _end):
        records, last_serial = buffer.undo.plan(self.groups, buffer.start, buffer.end)
        old_size = buffer.end - buffer.start
        editing.undo(machine, self.buffer, records, last_serial)
        return buffer.start + 1, buffer.end + 1, old_size
