"""Values of the script's language. A property set is pairs of a name and a value, ordered by the symbols' numbers."""
import enum
from dataclasses import dataclass
from typing import Optional

from faults import Fault, Refused


class Constant(enum.Enum):
    NIL = "nil"
    T = "t"


NIL, T = Constant.NIL, Constant.T


@dataclass(frozen=True)
class Symbol:
    name: str


@dataclass(frozen=True)
class Text:
    characters: tuple
    properties: Optional[tuple] = None      # a property set for each character, or None where all are empty


@dataclass(frozen=True)
class ListValue:
    items: tuple


@dataclass(frozen=True)
class DottedList:
    items: tuple
    last: object


@dataclass(frozen=True)
class BufferHandle:
    index: int


@dataclass(frozen=True)
class MarkerHandle:
    index: int


@dataclass(frozen=True)
class OverlayHandle:
    index: int


@dataclass(frozen=True)
class ProcessHandle:
    index: int


def truth(condition):
    return T if condition else NIL


def list_of(items):
    items = tuple(items)
    return ListValue(items) if items else NIL


def codes(string):
    return tuple(map(ord, string))


def text_of(characters, properties=None):
    if properties is not None:
        properties = tuple(properties) if any(properties) else None
    return Text(tuple(characters), properties)


def equal(left, right):
    """Whether two values are equal by content; the properties of strings do not count."""
    if type(left) is not type(right):
        return False
    if isinstance(left, Text):
        return left.characters == right.characters
    if isinstance(left, ListValue):
        return equal_items(left.items, right.items)
    if isinstance(left, DottedList):
        return equal_items(left.items, right.items) and equal(left.last, right.last)
    return left == right


def equal_items(left, right):
    return len(left) == len(right) and all(map(equal, left, right))


def property_value(value):
    """What a property keeps of a value: strings lose their properties, and nil, kept as None, means no property."""
    if value is NIL:
        return None
    if isinstance(value, Text):
        return Text(value.characters)
    if value is T or isinstance(value, (int, Symbol)):
        return value
    if isinstance(value, ListValue) and all(isinstance(item, Symbol) for item in value.items):
        return value
    raise Refused(Fault.WRONG_TYPE_ARGUMENT)


def property_pairs(items):
    """The names and values of a property list; refused unless each name is a symbol and comes once."""
    names = items[0::2]
    if len(items) % 2 or not all(isinstance(name, Symbol) for name in names) or len(set(names)) < len(names):
        raise Refused(Fault.WRONG_TYPE_ARGUMENT)
    return tuple((name.name, property_value(value)) for name, value in zip(names, items[1::2]))


def property_in(properties, name):
    for own_name, value in properties:
        if own_name == name:
            return value
    return None


def property_list(properties):
    return list_of(part for name, value in properties for part in (Symbol(name), value))
