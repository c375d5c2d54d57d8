"""What the machine's state is made of: buffers, markers, overlays, processes, and places that are kept for later."""
from dataclasses import dataclass, field
from typing import Optional

from undo_list import UndoList
from values import NIL, T

BEFORE_CHANGE, AFTER_CHANGE = "before-change-functions", "after-change-functions"


@dataclass
class Buffer:
    """A text with a property set for each character, and the bounds of its accessible part."""
    name: tuple
    text: list = field(default_factory=list)
    properties: list = field(default_factory=list)
    start: int = 0
    end: int = 0
    point: int = 0
    modified: bool = False
    read_only: bool = False
    undo: UndoList = field(default_factory=UndoList)
    hooks: dict = field(default_factory=lambda: {BEFORE_CHANGE: [], AFTER_CHANGE: []})

    def clamp(self, place):
        """The nearest place of the accessible part."""
        return min(max(place, self.start), self.end)

    def clamp_in_text(self, place):
        return min(max(place, 0), len(self.text))

    def widen(self):
        self.start, self.end = 0, len(self.text)

    def narrowed(self):
        return self.start > 0 or self.end < len(self.text)


@dataclass
class Marker:
    """A place in the buffer of that index, or in none; one that advances moves past text inserted at it."""
    buffer: Optional[int]
    place: int
    advances: bool


@dataclass
class Overlay:
    buffer: Optional[int]
    start: int
    end: int
    start_advances: bool
    end_advances: bool
    properties: tuple = ()

    def empty(self):
        return self.start == self.end

    def covers(self, place):
        return self.start <= place < self.end


@dataclass
class Process:
    """A child; its filter and sentinel are nil for the default, t for none (filters only), or a handler's symbol."""
    name: tuple
    child: int
    buffer: Optional[int]
    mark: int
    status: str = "run"
    code: int = 0
    filter: object = NIL
    sentinel: object = NIL
    coding: str = "utf-8-unix"
    received: bytes = b""
    fed: bool = False
    drained: bool = False
    closed: bool = False
    listed: bool = True

    def running(self):
        return self.status == "run"

    def filtered(self):
        return self.filter is not T

    def exit_status(self):
        return {"run": 0, "exit": self.code}.get(self.status, NIL)


@dataclass
class KeptSpan:
    """Places that a block or a change under way keeps; changes of the text move them."""
    buffer: int
    start: int
    end: int
    end_advances: bool = False
