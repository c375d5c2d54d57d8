"""Handlers that are entered: filters, sentinels and hook functions, of the script, native, or the default."""
from dataclasses import dataclass
from typing import Iterator, Optional

import editing
from changes import Insertion
from faults import Fault, require
from natives import NATIVES
from values import NIL, codes, property_in
from work import Forms, Item


@dataclass
class Hooks(Item):
    """Hook functions of a buffer that are still to run."""
    functions: list
    buffer: int
    kind: str
    arguments: tuple

    def step(self, machine):
        if self.functions:
            machine.work.append(self)
            reason = "before" if self.kind.startswith("before") else "after"
            machine.work.append(Enter(reason, self.functions.pop(0), self.arguments, hooks=self))


@dataclass
class Enter(Item):
    reason: str
    handler: object                 # a symbol, or nil for the default
    arguments: tuple
    process: Optional[int] = None
    hooks: Optional[Hooks] = None

    def step(self, machine):
        name = "default" if self.handler is NIL else self.handler.name
        shown = " ".join(machine.show(argument) for argument in self.arguments)
        machine.print_line(f"> {self.reason} {name} {shown}")
        machine.work.append(Exit(name, self.reason, machine.current, self.process, self.hooks))
        machine.depth += 1
        machine.scopes.append({})
        if self.handler is NIL:
            machine.attempt(self.enter_default, machine)
        elif name in machine.script.handlers:
            self.enter_script(machine, machine.script.handlers[name])
        else:
            machine.work.append(NativeCalls(NATIVES[name](*self.arguments[:2])))

    def enter_script(self, machine, handler):
        """Parameters without an argument are nil."""
        missing = len(handler.parameters) - len(self.arguments)
        machine.scopes[-1].update(zip(handler.parameters, self.arguments + (NIL,) * missing))
        machine.work.append(Forms(handler.forms))

    def enter_default(self, machine):
        """Inserts the output, or the news of the end, at the mark of the process in its buffer."""
        process = machine.processes[self.process]
        index = process.buffer
        if index is None or machine.buffers[index] is None:
            return
        machine.current = index
        buffer, mark = machine.buffers[index], machine.markers[process.mark]
        text = self.arguments[1].characters
        if self.reason == "sentinel":
            text = codes("\nProcess ") + process.name + codes(" ") + text
        place = mark.place if mark.buffer == index else buffer.end
        inherited = machine.order.at_insertion(buffer, place)
        require(machine.read_only_lifted or property_in(inherited, "read-only") is None, Fault.TEXT_READ_ONLY)
        editing.require_room(machine, buffer, len(text))
        machine.work.append(Insertion(index, place, place, text, ((),) * len(text), past_all=True,
                                      point_after=False, mark=process.mark))


@dataclass
class Exit(Item):
    """The end of a handler; a hook function with a refused form empties its hook."""
    name: str
    reason: str
    current: int
    process: Optional[int]
    hooks: Optional[Hooks]
    faulted: bool = False

    def survives(self, _machine):
        self.faulted = True
        return True

    def step(self, machine):
        machine.depth -= 1
        machine.print_line(f"< {self.name}")
        machine.scopes.pop()
        if machine.buffers[self.current] is not None:
            machine.current = self.current
        if self.reason == "sentinel":
            machine.processes[self.process].listed = False
        if self.faulted and self.hooks is not None:
            self.empty_hook(machine)

    def empty_hook(self, machine):
        machine.work.pop()
        buffer = machine.buffers[self.hooks.buffer]
        if buffer is not None:
            buffer.hooks[self.hooks.kind] = []


@dataclass
class NativeCalls(Item):
    """The calls of a native handler, each chosen by the answers before it; a refused one ends them."""
    calls: Iterator
    answer: Optional[object] = None

    def step(self, machine):
        try:
            primitive, *arguments = self.calls.send(self.answer)
        except StopIteration:
            return
        machine.work.append(self)
        machine.attempt(machine.call, primitive, arguments, native=self)

    def survives(self, _machine):
        self.calls.close()
        return True
