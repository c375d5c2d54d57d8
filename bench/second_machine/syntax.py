"""What a script is made of once it is read: handlers, forms, calls and their arguments."""
from dataclasses import dataclass, field
from typing import Optional

# Symbols that have a number before any that the script names.
FIRST_SYMBOLS = (
    "front-sticky", "rear-nonsticky", "evaporate", "priority", "before-change-functions",
    "after-change-functions", "run", "exit", "signal", "failed", "read-only", "invisible",
    "before-string", "after-string", "utf-8-unix", "utf-8-dos", "latin-1-unix")


@dataclass
class Literal:
    value: object


@dataclass
class PropertyText:
    """A string with properties, whose sets are put in order once all symbols have their numbers."""
    characters: list
    properties: list


@dataclass
class Name:
    name: str


@dataclass
class Call:
    primitive: str
    arguments: list


@dataclass
class Assignment:
    name: str
    call: Call


@dataclass
class Block:
    kind: str
    forms: list
    left: Optional[object] = None
    right: Optional[object] = None


@dataclass
class Handler:
    parameters: list
    forms: list


@dataclass
class Script:
    symbol_numbers: dict = field(default_factory=lambda: {name: n for n, name in enumerate(FIRST_SYMBOLS)})
    handlers: dict = field(default_factory=dict)
    forms: list = field(default_factory=list)
