"""Property sets: their order, how they are edited, and what inserted text inherits from its neighbours."""
from dataclasses import dataclass

from values import T, ListValue, Symbol, property_in

STICKINESS = ("front-sticky", "rear-nonsticky")


class PropertyOrder:
    """The order of the pairs of a set, by the numbers of their symbols."""

    def __init__(self, symbol_numbers):
        self.symbol_numbers = symbol_numbers

    def sorted_names(self, names):
        return sorted(names, key=self.symbol_numbers.__getitem__)

    def arrange(self, values):
        """The set of these values by name; None means no property."""
        return tuple((name, values[name]) for name in self.sorted_names(values) if values[name] is not None)

    def inherited(self, before, after):
        """What text between two characters inherits; what comes from the one before wins."""
        rear_nonsticky = property_in(before, "rear-nonsticky")
        front_sticky = property_in(after, "front-sticky")
        from_after = {name: value for name, value in after if names(front_sticky, name)}
        from_before = {name: value for name, value in before if not names(rear_nonsticky, name)}
        values = {**from_after, **from_before}
        return self.arrange({name: values[name] for name in values if name not in STICKINESS})

    def at_insertion(self, buffer, place):
        """What text inserted there inherits; only accessible characters count."""
        before = buffer.properties[place - 1] if buffer.start < place <= buffer.end else ()
        after = buffer.properties[place] if buffer.start <= place < buffer.end else ()
        return self.inherited(before, after)


def names(stickiness, name):
    return stickiness is T or isinstance(stickiness, ListValue) and Symbol(name) in stickiness.items


@dataclass(frozen=True)
class AddProperties:
    pairs: tuple

    def result(self, properties, order):
        return order.arrange({**dict(properties), **dict(self.pairs)})


@dataclass(frozen=True)
class RemoveProperties:
    names: frozenset

    def result(self, properties, _order):
        return tuple(pair for pair in properties if pair[0] not in self.names)


@dataclass(frozen=True)
class ReplaceProperties:
    properties: tuple

    def result(self, _properties, _order):
        return self.properties
