"""The machine: its state, its stack of work, and the services that the items on it use."""
import printing
from faults import Fault, Refused, require
from handlers import Hooks
from natives import NATIVES
from primitives import PRIMITIVES
from property_sets import PropertyOrder
from state import Buffer, KeptSpan
from syntax import Literal, PropertyText
from values import text_of
from waiting import SCRATCH
from work import Answer, Deferred, Ending, RestoreHooks, TopForms

MOST_EXCHANGES = 65_536


class Machine:
    """Runs a script; `host` answers what is asked of children: a tuple of a kind, a child and more."""

    def __init__(self, script, host):
        self.script = script
        self.host = host
        for name in NATIVES:
            script.symbol_numbers.setdefault(name, len(script.symbol_numbers))
        self.order = PropertyOrder(script.symbol_numbers)
        self.lines = []
        self.buffers = [Buffer(SCRATCH)]        # None where killed
        self.markers = []
        self.overlays = []
        self.processes = []
        self.current = 0
        self.registers = {}
        self.scopes = []                        # the parameters of each handler that is entered
        self.kept = []
        self.depth = 0
        self.hooks_inhibited = False
        self.read_only_lifted = False
        self.exchanges = 0
        self.bytes_sent = 0
        self.work = [Ending(), TopForms(script.forms)]

    def run(self):
        while self.work:
            self.work.pop().step(self)
        return "".join(self.lines).encode("utf-8")

    # Printing.

    def print_line(self, line):
        self.lines.append(f"{'  ' * self.depth}{line}\n")

    def show(self, value):
        return printing.show(self, value)

    def show_process(self, index):
        return printing.show_process(self, index)

    def print_final_state(self):
        for line in printing.final_state(self):
            self.print_line(line)

    # Places in buffers.

    def current_buffer(self):
        return self.buffers[self.current]

    def live_buffers(self):
        return [index for index, buffer in enumerate(self.buffers) if buffer is not None]

    def markers_in(self, index):
        return (marker for marker in self.markers if marker.buffer == index)

    def overlays_in(self, index):
        return (overlay for overlay in self.overlays if overlay.buffer == index)

    def kept_in(self, index):
        return (span for span in self.kept if span.buffer == index)

    def keep(self, index, start, end, end_advances=False):
        """Keeps places until the item that holds the span takes it from the stack again."""
        span = KeptSpan(index, start, end, end_advances)
        self.kept.append(span)
        return span

    # Variables.

    def evaluate(self, atom):
        """The value of an argument, or None of a void variable."""
        if isinstance(atom, Literal):
            return atom.value
        if isinstance(atom, PropertyText):
            return text_of(atom.characters, [self.order.arrange(dict(pairs)) for pairs in atom.properties])
        return self.variables(atom.name).get(atom.name)

    def evaluated(self, atoms):
        values = [self.evaluate(atom) for atom in atoms]
        require(all(value is not None for value in values), Fault.VOID_VARIABLE)
        return values

    def assign(self, name, value):
        self.variables(name)[name] = value

    def variables(self, name):
        """Where a variable lives: with the parameters of the handler, or else with the registers."""
        return self.scopes[-1] if self.scopes and name in self.scopes[-1] else self.registers

    # Calls.

    def attempt(self, action, *arguments, **options):
        try:
            action(*arguments, **options)
        except Refused as refusal:
            self.refuse(refusal.fault)

    def refuse(self, fault):
        """Prints the fault, and drops the work up to what survives it."""
        self.print_line(fault.line())
        while not self.work[-1].survives(self):
            self.work.pop()

    def call(self, name, values, target=None, native=None):
        value = PRIMITIVES[name].function(self, *values)
        answer = Answer(value, target, native)
        self.work.append(answer)
        if isinstance(value, Deferred):
            answer.value = value.value
            self.work += value.items

    def answer(self, value):
        """Puts the value of the call whose work is done just now."""
        self.work[-1].value = value

    def is_handler(self, name):
        return name in self.script.handlers or name in NATIVES

    def run_hooks(self, index, kind, arguments):
        """Hook functions run with hooks inhibited, so that what they change runs none."""
        if not self.hooks_inhibited:
            self.hooks_inhibited = True
            functions = list(self.buffers[index].hooks[kind])
            self.work += [RestoreHooks(False), Hooks(functions, index, kind, arguments)]

    def ask(self, kind, *details):
        """The host's answer; killing a child is always allowed and does not count."""
        if kind != "kill":
            require(self.exchanges < MOST_EXCHANGES, Fault.EXCHANGES_SPENT)
            self.exchanges += 1
        return self.host((kind, *details))
