"""Hand-made cases, and the host they run with: children whose outputs are given, and exchanges that fail."""
from dataclasses import dataclass

FAILURES = {"spawn": "refused", "read": "failed", "end": "failed", "send": "broken", "close": "closed",
            "kill": "failed"}


@dataclass
class Case:
    """A script, what each of its children writes in turn, and the numbers of the exchanges that fail."""
    name: str
    script: bytes
    outputs: tuple = ()
    failing: tuple = ()

    def host(self):
        return ScriptedHost(self.outputs, self.failing)


def case(name, script, *outputs, failing=()):
    return Case(name, script if isinstance(script, bytes) else script.encode("utf-8"), outputs, failing)


class ScriptedHost:
    """A child that has written all its output ends with code 0; an empty piece of it means nothing yet."""

    def __init__(self, outputs, failing):
        self.outputs = [iter(output) for output in outputs]
        self.failing = failing
        self.asked = 0
        self.started = 0

    def __call__(self, asked):
        kind, *details = asked
        self.asked += 1
        if self.asked - 1 in self.failing:
            return (FAILURES[kind],)
        return getattr(self, kind)(*details)

    def spawn(self, _program, _arguments):
        if self.started == len(self.outputs):
            return ("refused",)
        self.started += 1
        return "started", self.started - 1

    def read(self, child):
        piece = next(self.outputs[child], None)
        if piece is None:
            return ("end",)
        return ("bytes", piece) if piece else ("nothing",)

    def end(self, _child):
        return "code", 0

    def send(self, _child, _data):
        return ("sent",)

    def close(self, _child):
        return ("closed",)

    def kill(self, _child):
        return ("killed",)
