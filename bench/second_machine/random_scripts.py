"""The generator of random scripts: mostly well typed forms over a few buffers, markers, overlays and processes."""
import random

from random_words import (ARGUMENT_KINDS, BLOCKS, BUFFER_WORDS, CHOICES, EQUALS, HANDLER_FORMS, HOOKS,
                          HUGE_POSITIONS, LOOSE_VARIABLES, MIXTURE_CHOICES, MIXTURES, PATTERN_SHARES, PROPERTIES,
                          PROPERTY_LISTS, SECOND_VALUES, STRINGS, THIRD_VALUES, VALUES, weights)

DEEPEST_BLOCK = 4
MARKERS = ("m0", "m1", "m2", "m3")
OVERLAYS = ("o0", "o1", "o2", "o3")
PROCESSES = ("p0", "p1", "p2")
NATIVES = ("insert-filter", "drop-filter", "note-sentinel")
# The variables that often take what a primitive gives.
RESULTS = {
    "copy-marker": MARKERS, "point-marker": MARKERS, "make-marker": MARKERS, "process-mark": MARKERS,
    "set-marker": MARKERS, "make-overlay": OVERLAYS, "move-overlay": OVERLAYS, "start-process": PROCESSES,
    "get-process": PROCESSES}
BUFFER_RESULTS = ("get-buffer-create", "generate-new-buffer", "process-buffer", "current-buffer", "set-buffer")


class ScriptGenerator:
    def __init__(self, seed):
        self.random = random.Random(seed)
        self.pick = self.random.choice
        self.mixture = self.pick(MIXTURE_CHOICES)
        self.calls = tuple(zip(*weights(self.mixture).items()))
        self.handlers = []
        self.parameters = []
        self.buffers = ["b0", "b1", "b2"]
        self.stray_share = self.pick((0.0, 0.03, 0.03, 0.1))
        self.last_position = self.pick((6, 10, 16))
        self.any_property = self.chance(0.3)

    def chance(self, share):
        return self.random.random() < share

    def numbered(self, template, *bounds):
        """The template with a random number below each bound, at least one."""
        return template % tuple(self.random.randrange(1, bound) for bound in bounds)

    # Arguments.

    def argument(self, kind):
        """An argument of that kind, or now and then a stray one."""
        if self.chance(self.stray_share):
            return self.any()
        if kind in CHOICES:
            return self.pick(CHOICES[kind])
        return getattr(self, kind.replace("-", "_"))()

    def any(self):
        handler = "'" + self.pick([*(self.handlers or ["h0"]), "nosuch", "t", "nil", "insert-filter"])
        number = str(self.random.randrange(-2, 20))
        words = (STRINGS, VALUES, self.buffers, MARKERS, OVERLAYS, PROCESSES, PROPERTY_LISTS, LOOSE_VARIABLES,
                 ("nil",), ("t",), (number,), (handler,))
        return self.pick(self.pick(words))

    def position(self):
        share = self.random.randrange(20)
        if 13 <= share < 16:
            return self.pick(MARKERS)
        if share == 16:
            return str(self.pick(HUGE_POSITIONS))
        if share > 16 and self.parameters:
            return self.pick(self.parameters)
        return self.numbered("%d", self.last_position if share < 13 else 4)

    def position_or_nil(self):
        return "nil" if self.chance(0.25) else self.position()

    def buffer(self):
        return self.pick([*self.buffers, *self.buffers, *BUFFER_WORDS[:4]])

    def buffer_or_nil(self):
        return self.pick([*self.buffers, "nil", "nil", '"w"', '"nosuch"', '"*scratch*"'])

    def name(self):
        return self.pick([*BUFFER_WORDS, *self.buffers])

    def string(self):
        return self.pick(self.parameters if self.parameters and self.chance(0.1) else STRINGS)

    def property(self):
        return self.pick(PROPERTIES if self.any_property or self.chance(0.6) else PROPERTIES[:6])

    def marker(self):
        return self.pick(MARKERS)

    def overlay(self):
        return self.pick(OVERLAYS)

    def process(self):
        if self.chance(0.2):
            return self.pick(('"p"', '"p<1>"', '"nosuch"'))
        return self.parameters[0] if self.parameters and self.chance(0.25) else self.pick(PROCESSES)

    def process_or_nil(self):
        return "nil" if self.chance(0.3) else self.process()

    def function(self):
        return "'" + self.pick([*(self.handlers or ["drop-filter"]) * 3, *NATIVES])

    def function_or_nil(self):
        return "nil" if self.chance(0.25) else self.function()

    def filter(self):
        return self.pick(("nil", "t")) if self.chance(0.3) else self.function()

    # Forms.

    def call(self, name=None):
        name = name or self.random.choices(*self.calls)[0]
        arguments = []
        for kind in ARGUMENT_KINDS[name]:
            if kind.endswith("*"):
                arguments += [self.argument(kind[:-1]) for _ in range(self.pick((0, 0, 1, 1, 2)))]
            elif kind.endswith("?") and self.chance(0.45):
                break
            else:
                arguments.append(self.argument(kind.rstrip("?")))
        return name, f"({' '.join([name, *arguments])})"

    def form(self, depth=0):
        if depth < DEEPEST_BLOCK and self.chance(0.12):
            return self.block(depth)
        name, call = self.call()
        variables = self.buffers if name in BUFFER_RESULTS else RESULTS.get(name)
        if variables and self.chance(0.75):
            return f"(setq {self.pick(variables)} {call})"
        if self.chance(0.06):
            return f"(setq {self.pick(['x0', 'x1', *self.parameters])} {call})"
        return call

    def block(self, depth):
        kind = self.pick(BLOCKS)
        body = " ".join(self.form(depth + 1) for _ in range(self.pick((0, 1, 1, 2, 3))))
        return f"(when-eq {self.operands()} {body})" if kind == "when-eq" else f"({kind} {body})"

    def operands(self):
        """Two operands, often the same, and now and then a parameter."""
        choose = (lambda: self.pick(EQUALS)) if self.chance(0.25) else self.any
        left = choose()
        right = left if self.chance(0.5) else choose()
        if self.parameters and self.chance(0.2):
            left = self.pick(self.parameters)
        return f"{left} {right}"

    # Patterns of several forms.

    def pattern(self):
        """Half the time changes that are undone, or else a change in a narrowing or in a buffer that is killed."""
        if self.chance(0.45):
            return self.undone_changes()
        position, last = self.random.randrange(1, 6), self.random.randrange(1, 8)
        change, form = self.change(), self.form(2)
        inherit = self.call(self.pick(("insert-and-inherit", "insert-before-markers-and-inherit")))[1]
        return self.pick((
            f'(setq b2 (generate-new-buffer "k")) (save-current-buffer (set-buffer b2) {change} (kill-buffer) {form})',
            f"(save-excursion (goto-char {position}) (save-restriction (narrow-to-region {position} {last})"
            f" {change} {form}) {self.change()})",
            f"(widen) (set-buffer-read-only nil) (goto-char {position}) {change} {inherit}",
            f"(narrow-to-region {position} {last}) {form}"))

    def change(self):
        return self.pick((
            f'(insert "{self.pick(("q", "uv", "xyz"))}")',
            self.numbered("(delete-region %d %d)", 6, 7),
            '(insert-before-markers "BB")',
            "(erase-buffer)",
            self.numbered("(put-text-property %d %d 'face ", 5, 6) + self.pick(("'bold)", "'x)", "'nil)")),
            self.numbered("(set-text-properties %d %d ", 4, 6) + self.pick(PROPERTY_LISTS) + ")",
            self.numbered("(goto-char %d)", 6),
            '(insert #("pq" 0 1 (n 1)))',
            "(delete-and-extract-region 1 3)",
            f"(setq {self.pick(MARKERS)} (copy-marker {self.random.randrange(1, 7)} {self.pick(('t', 'nil'))}))",
            "(set-buffer-modified-p nil)"))

    def undone_changes(self):
        forms = []
        self.maybe(forms, 0.3, "(set-buffer %s)" % self.pick(("b0", "b1")))
        self.maybe(forms, 0.2, "(set-buffer-read-only nil)(buffer-enable-undo)(widen)")
        for _ in range(self.pick((1, 2, 3))):
            forms += ["(undo-boundary)", *(self.change() for _ in range(self.pick((1, 1, 2, 3))))]
        self.maybe(forms, 0.4, "(undo-boundary)")
        self.maybe(forms, 0.15, self.numbered("(narrow-to-region %d %d)", 6, 8))
        forms.append("(undo-start)")
        for _ in range(self.pick((1, 1, 2, 3))):
            forms.append("(undo-more %d)" % self.pick((1, 1, 1, 2, 3)))
            between = ("(undo-boundary)", "(buffer-undo-list)", self.change(), "(goto-char 2)", "(widen)")
            self.maybe(forms, 0.15, self.pick(between))
        self.maybe(forms, 0.3, "(buffer-undo-list)")
        return " ".join(forms)

    def maybe(self, forms, share, form):
        if self.chance(share):
            forms.append(form)

    # Whole scripts.

    def script(self):
        """Handlers first, then what the variables hold, then forms, and at the end waits for children."""
        parts = (self.all_handlers(), self.buffer_forms(), self.marker_forms(), self.overlay_forms(),
                 self.process_forms(), self.hook_forms(), self.value_forms(), self.body(), self.last_forms())
        return "\n".join(form for part in parts for form in part).encode("utf-8")

    def all_handlers(self):
        most = MIXTURES[self.mixture][1]
        if most and self.chance(0.9):
            self.handlers = [f"h{number}" for number in range(self.random.randrange(1, most + 1))]
            self.maybe(self.handlers, 0.05, "insert-filter")
        return [self.handler(name) for name in self.handlers]

    def handler(self, name):
        short = self.mixture in ("hooks", "processes", "all", "nesting", "undo") and self.chance(0.45)
        if short:
            parameters = self.pick(("b e", "b e", "b e n", "p s", "", "x"))
            forms = [self.pick(HANDLER_FORMS) for _ in range(self.pick((1, 1, 1, 2, 3)))]
        else:
            self.parameters = ["p", "s", "q", "v"][:self.pick((0, 1, 2, 2, 2, 3, 3, 4))]
            forms = [self.form(1) for _ in range(self.pick((0, 1, 1, 2, 2, 3, 5)))]
            parameters, self.parameters = " ".join(self.parameters), []
        if self.mixture == "nesting" and self.chance(0.9):
            wait = f"(accept-process-output {self.pick(('p0', 'p1', 'p0', 'nil 2', 'p1 1', 'nil', ''))})"
            forms.insert(self.random.randrange(len(forms) + 1), wait)
        return f"(defhandler {name} ({parameters})\n  {' '.join(forms)})"

    def buffer_forms(self):
        forms = []
        self.maybe(forms, 0.95, f'(insert "abcd{"efgh" * self.random.randrange(3)}")')
        if self.chance(0.9):
            forms += ["(setq b0 (current-buffer))", '(setq b1 (get-buffer-create "w"))',
                      '(setq b2 (get-buffer-create "out"))']
        if self.chance(0.35):
            self.buffers.append("b3")
            forms.append('(setq b3 (generate-new-buffer "dead"))(kill-buffer b3)')
        return forms

    def marker_forms(self):
        return [f"(setq {name} (copy-marker {self.pick(('nil', '1', '3', '4', '9'))} {self.pick(('t', 'nil'))}))"
                for name in MARKERS if self.chance(0.8)]

    def overlay_forms(self):
        if self.mixture not in ("overlays", "all", "places") and not self.chance(0.3):
            return []
        return [f"(setq {name} (make-overlay {self.numbered('%d %d', 7, 7)} nil {self.flag()} {self.flag()}))"
                for name in OVERLAYS if self.chance(0.85)]

    def flag(self):
        return self.pick(("t", "nil"))

    def process_forms(self):
        if self.mixture not in ("processes", "nesting", "all", "bytes") and not self.chance(0.2):
            return []
        forms = []
        for name in PROCESSES[:self.pick((1, 2, 3))]:
            buffer = self.pick(("nil", '"w"', '"out"', "b0", '"new"', '"out"'))
            forms.append(f'(setq {name} (start-process "p" {buffer} "prog" "-x"))')
            coding = self.pick(("utf-8-dos", "latin-1-unix", "utf-8-unix", "utf-8-dos"))
            self.maybe(forms, 0.35, f"(set-process-coding-system {name} '{coding})")
            self.maybe(forms, 0.7, f"(set-process-filter {name} {self.argument('filter')})")
            self.maybe(forms, 0.6, f"(set-process-sentinel {name} {self.argument('function-or-nil')})")
        return forms

    def hook_forms(self):
        if self.mixture not in ("hooks", "all") and not (self.handlers and self.chance(0.3)):
            return []
        return [f"(add-hook {self.pick(HOOKS)} {self.argument('function')})" for _ in range(self.pick((1, 2, 3)))]

    def value_forms(self):
        if not self.chance(0.6):
            return []
        return [self.numbered("(setq x0 (buffer-substring %d %d))", 4, 5),
                f"(setq x1 {self.pick(SECOND_VALUES)})", f"(setq x2 {self.pick(THIRD_VALUES)})"]

    def body(self):
        share = PATTERN_SHARES.get(self.mixture, 0.05)
        return [self.pattern() if self.chance(share) else self.form() for _ in range(self.pick((5, 10, 20, 30, 45)))]

    def last_forms(self):
        forms = []
        if self.mixture in ("processes", "nesting", "bytes") or self.mixture == "all" and self.chance(0.5):
            forms += [f"(accept-process-output {self.pick(('', 'p0', 'p1', 'nil 3', 'p0 2 t', 'p2 1'))})"
                      for _ in range(self.pick((1, 3, 6)))]
        self.maybe(forms, 0.5, "(buffer-undo-list)")
        self.maybe(forms, 0.3, "(erase-buffer)")
        return forms
