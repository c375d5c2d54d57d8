"""Waiting for children: what they write goes to filters, and how they end goes to sentinels; also their deletion."""
from dataclasses import dataclass, field
from typing import Optional

from characters import decode
from faults import Fault, require
from handlers import Enter
from state import Buffer
from values import NIL, ProcessHandle, T, codes, text_of
from work import Item

MOST_BUFFERS = 256
SCRATCH = codes("*scratch*")


@dataclass
class Wait(Item):
    """Asks the processes in turn, for so many rounds at most, until one waited for has written something."""
    target: Optional[int]
    only_target: bool
    rounds: int
    asked_next: list = field(default_factory=list)
    heard: bool = False

    def step(self, machine):
        eligible = self.eligible(machine)
        gone = self.target is not None and self.target not in eligible
        if self.heard or gone or not self.choose(eligible):
            machine.answer(T if self.heard else NIL)
        else:
            machine.attempt(self.ask_next, machine)

    def eligible(self, machine):
        return [index for index, process in enumerate(machine.processes)
                if process.running() and process.filtered() and (not self.only_target or index == self.target)]

    def choose(self, eligible):
        """Whether a process is left to ask in this round, or in one more; the target comes first in each."""
        while self.asked_next and self.asked_next[0] not in eligible:
            self.asked_next.pop(0)
        if self.asked_next:
            return True
        if not eligible or self.rounds == 0:
            return False
        self.rounds -= 1
        self.asked_next = sorted(eligible, key=lambda index: index != self.target)
        return True

    def ask_next(self, machine):
        index = self.asked_next[0]
        process = machine.processes[index]
        kind, *parts = machine.ask("end" if process.drained else "read", process.child)
        self.asked_next.pop(0)
        machine.work.append(self)
        if process.drained:
            note_end(machine, index, kind, *parts)
        elif kind == "bytes":
            self.heard = self.heard or self.target in (None, index)
            take_output(machine, index, parts[0])
        elif kind != "nothing":
            process.drained = True
            take_output(machine, index, b"")


def take_output(machine, index, data):
    """Enters the filter with the characters that these bytes complete, or with all the rest at the end."""
    process = machine.processes[index]
    entered = len(decode(process.coding, process.received, complete=False))
    process.received += data
    process.fed = process.fed or bool(data)
    characters = decode(process.coding, process.received, complete=process.drained)[entered:]
    if characters:
        arguments = (ProcessHandle(index), text_of(characters))
        machine.work.append(Enter("filter", process.filter, arguments, index))


def note_end(machine, index, kind, code=0):
    process = machine.processes[index]
    if kind == "running":
        return
    process.status, process.code = {"code": "exit"}.get(kind, kind), code
    news = {"signal": "killed\n", "failed": "failed\n"}.get(kind, f"exited abnormally with code {code}\n")
    enter_sentinel(machine, index, "finished\n" if kind == "code" and code == 0 else news)


def enter_sentinel(machine, index, news):
    arguments = (ProcessHandle(index), text_of(codes(news)))
    machine.work.append(Enter("sentinel", machine.processes[index].sentinel, arguments, index))


@dataclass
class DeleteProcess(Item):
    process: int

    def step(self, machine):
        process = machine.processes[self.process]
        if process.running():
            machine.ask("kill", process.child)
            process.status = "signal"
            enter_sentinel(machine, self.process, "killed\n")


@dataclass
class KillBuffer(Item):
    """Kills a buffer once its processes are deleted; the last one leaves a new scratch buffer behind."""
    buffer: int

    def step(self, machine):
        if machine.buffers[self.buffer] is None:
            machine.answer(NIL)
        else:
            machine.attempt(self.kill, machine)

    def kill(self, machine):
        require_successor(machine, self.buffer)
        machine.buffers[self.buffer] = None
        for kept in (*machine.markers_in(self.buffer), *machine.overlays_in(self.buffer)):
            kept.buffer = None
        if machine.current == self.buffer:
            self.leave(machine)
        machine.answer(T)

    @staticmethod
    def leave(machine):
        live = machine.live_buffers()
        if not live:
            machine.buffers.append(Buffer(SCRATCH))
        machine.current = live[0] if live else len(machine.buffers) - 1


def require_successor(machine, index):
    """Refused where no other buffer lives and none can be made."""
    require(machine.live_buffers() != [index] or len(machine.buffers) < MOST_BUFFERS, Fault.TOO_MANY)
