"""The table of primitives: each function marked as one enters it under its own name, with hyphens."""
import inspect
from dataclasses import dataclass
from typing import Callable

MOST_ARGUMENTS = 64
PRIMITIVES = {}


@dataclass(frozen=True)
class Primitive:
    name: str
    function: Callable
    fewest: int
    most: int


def primitive(function):
    """Takes the numbers of arguments from the parameters after the machine."""
    parameters = list(inspect.signature(function).parameters.values())[1:]
    rest = [parameter for parameter in parameters if parameter.kind is parameter.VAR_POSITIONAL]
    required = [parameter for parameter in parameters if parameter.default is parameter.empty]
    name = function.__name__.replace("_", "-")
    most = MOST_ARGUMENTS if rest else len(parameters)
    PRIMITIVES[name] = Primitive(name, function, len(required) - len(rest), most)
    return function
