"""Items of the machine's stack of work: forms to do, answers to print, and what a block restores at its end."""
from dataclasses import dataclass
from typing import Optional

from faults import Fault, require
from state import KeptSpan
from syntax import Assignment, Block
from values import equal


class Item:
    def step(self, machine):
        raise NotImplementedError

    def survives(self, _machine):
        """Whether a refused form leaves this item on the stack."""
        return False


@dataclass
class Forms(Item):
    """Forms to do in turn."""
    forms: list
    place: int = 0

    def step(self, machine):
        if self.place < len(self.forms):
            machine.work.append(self)
            self.place += 1
            machine.attempt(do_form, machine, self.forms[self.place - 1])


class TopForms(Forms):
    """The forms of the script itself; after a refused one the next is done."""

    def survives(self, _machine):
        return True


def do_form(machine, form):
    if isinstance(form, Block):
        BLOCKS[form.kind](machine, form)
    elif isinstance(form, Assignment):
        machine.call(form.call.primitive, machine.evaluated(form.call.arguments), target=form.name)
    else:
        machine.call(form.primitive, machine.evaluated(form.arguments))


@dataclass
class Answer(Item):
    """The value of a call, which is printed and then given to a variable or to a native handler."""
    value: object
    target: Optional[str] = None
    native: Optional[object] = None

    def step(self, machine):
        machine.print_line(f"= {machine.show(self.value)}")
        if self.native is not None:
            self.native.answer = self.value
        elif self.target is not None:
            machine.assign(self.target, self.value)


@dataclass
class Deferred:
    """The value of a call that is answered once these items, last first, are done; they may put another value."""
    value: object
    items: list


class Restoration(Item):
    """What is restored at the end of a block, also where a form in it is refused."""

    def survives(self, machine):
        self.step(machine)
        return False


@dataclass
class RestorePoint(Restoration):
    span: KeptSpan

    def step(self, machine):
        machine.kept.pop()
        buffer = machine.buffers[self.span.buffer]
        if buffer is not None:
            machine.current = self.span.buffer
            buffer.point = buffer.clamp(self.span.start)


@dataclass
class RestoreCurrent(Restoration):
    buffer: int

    def step(self, machine):
        if machine.buffers[self.buffer] is not None:
            machine.current = self.buffer


@dataclass
class RestoreBounds(Restoration):
    """Restores the bounds that were kept, or widens where the buffer was not narrowed."""
    buffer: int
    span: Optional[KeptSpan]

    def step(self, machine):
        if self.span is not None:
            machine.kept.pop()
        buffer = machine.buffers[self.buffer]
        if buffer is None:
            return
        if self.span is None:
            buffer.widen()
        else:
            buffer.start, buffer.end = self.span.start, self.span.end
        buffer.point = buffer.clamp(buffer.point)


@dataclass
class RestoreHooks(Restoration):
    inhibited: bool

    def step(self, machine):
        machine.hooks_inhibited = self.inhibited


@dataclass
class RestoreReadOnly(Restoration):
    lifted: bool

    def step(self, machine):
        machine.read_only_lifted = self.lifted


def do_body(machine, block, *before):
    machine.work += [*before, Forms(block.forms)]


def save_excursion(machine, block):
    point = machine.current_buffer().point
    span = machine.keep(machine.current, point, point)
    do_body(machine, block, RestorePoint(span))


def save_current_buffer(machine, block):
    do_body(machine, block, RestoreCurrent(machine.current))


def save_restriction(machine, block):
    buffer = machine.current_buffer()
    span = None
    if buffer.narrowed():
        span = machine.keep(machine.current, buffer.start, buffer.end, end_advances=True)
    do_body(machine, block, RestoreBounds(machine.current, span))


def inhibit_hooks(machine, block):
    do_body(machine, block, RestoreHooks(machine.hooks_inhibited))
    machine.hooks_inhibited = True


def inhibit_read_only(machine, block):
    do_body(machine, block, RestoreReadOnly(machine.read_only_lifted))
    machine.read_only_lifted = True


def when_equal(machine, block):
    left, right = machine.evaluate(block.left), machine.evaluate(block.right)
    require(left is not None and right is not None, Fault.VOID_VARIABLE)
    if equal(left, right):
        do_body(machine, block)


BLOCKS = {
    "save-excursion": save_excursion,
    "save-current-buffer": save_current_buffer,
    "save-restriction": save_restriction,
    "inhibit-hooks": inhibit_hooks,
    "inhibit-read-only": inhibit_read_only,
    "when-eq": when_equal,
}


class Ending(Item):
    """The last work: running children are killed, and the final state is printed."""

    def step(self, machine):
        for index, process in enumerate(machine.processes):
            if process.running():
                machine.ask("kill", process.child)
                machine.print_line(f"kill {machine.show_process(index)}")
        machine.print_final_state()


