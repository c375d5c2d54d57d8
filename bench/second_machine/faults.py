"""The numbered faults with which a form is refused."""
import enum


class Fault(enum.Enum):
    ARGS_OUT_OF_RANGE = 1
    WRONG_TYPE_ARGUMENT = 2
    VOID_VARIABLE = 3
    NO_SUCH_BUFFER = 4
    BUFFER_KILLED = 5
    NO_FURTHER_UNDO = 6
    UNDO_OUTSIDE = 7
    UNDO_DISABLED = 8
    NO_SUCH_PROCESS = 9
    PROCESS_ENDED = 10
    BROKEN_PIPE = 11
    SPAWN_FAILED = 12
    NESTING = 13
    EXCHANGES_SPENT = 14
    BUFFER_FULL = 15
    TOO_MANY = 16
    BUFFER_READ_ONLY = 17
    TEXT_READ_ONLY = 18
    CODING_FIXED = 19

    def line(self):
        return f"! {self.value} {self.name.lower().replace('_', '-')}"


class Refused(Exception):
    """A form cannot be done; the machine prints the fault and goes on after the nearest form that survives it."""

    def __init__(self, fault):
        super().__init__(fault)
        self.fault = fault


def require(condition, fault):
    if not condition:
        raise Refused(fault)
