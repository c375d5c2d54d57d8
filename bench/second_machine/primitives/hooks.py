"""Primitives on the hooks of the current buffer."""
from arguments import check, check_handler
from faults import Fault, require
from primitives.table import primitive
from values import Symbol, list_of

MOST_FUNCTIONS = 8


def hook_functions(machine, hook, function):
    check_handler(machine, function)
    check(hook, Symbol)
    functions = machine.current_buffer().hooks.get(hook.name)
    require(functions is not None, Fault.WRONG_TYPE_ARGUMENT)
    check(function, Symbol)
    return functions


@primitive
def add_hook(machine, hook, function):
    functions = hook_functions(machine, hook, function)
    if function not in functions:
        require(len(functions) < MOST_FUNCTIONS, Fault.TOO_MANY)
        functions.insert(0, function)
    return list_of(functions)


@primitive
def remove_hook(machine, hook, function):
    functions = hook_functions(machine, hook, function)
    if function in functions:
        functions.remove(function)
    return list_of(functions)
