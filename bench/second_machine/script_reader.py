"""The reader of scripts: bytes to handlers and forms, or the line of the first form that is not well made."""
from characters import RAW, decode_utf8
from faults import Refused
from primitives.table import MOST_ARGUMENTS, PRIMITIVES
from syntax import Assignment, Block, Call, Handler, Literal, Name, PropertyText, Script
from values import NIL, T, Symbol, list_of, property_pairs, text_of

LONGEST_SCRIPT = 1_048_576
MOST_HANDLERS = MOST_REGISTERS = MOST_HANDLER_FORMS = 256
MOST_PARAMETERS = 8
LONGEST_NAME = 64
DEEPEST_BLOCK = 16
BLOCKS = ("save-excursion", "save-restriction", "save-current-buffer", "inhibit-hooks", "inhibit-read-only")

LETTERS = frozenset(b"abcdefghijklmnopqrstuvwxyzABCDEFGHIJKLMNOPQRSTUVWXYZ")
DIGITS = frozenset(b"0123456789")
WORD_BYTES = LETTERS | DIGITS | frozenset(b"-")
OPEN, CLOSE, QUOTE, HASH, DOUBLE_QUOTE, BACKSLASH, SEMICOLON, END = *b"()'#\"\\;", -1
ESCAPED = {DOUBLE_QUOTE: DOUBLE_QUOTE, BACKSLASH: BACKSLASH, ord("n"): 10, ord("t"): 9}


class ScriptFault(Exception):
    def __init__(self, line):
        super().__init__(line)
        self.line = line


class NotWellMade(Exception):
    """What is being read is no form."""


def well_made(condition):
    if not condition:
        raise NotWellMade()


def integer(word):
    """The number that a word spells, of at most eighteen digits, or None."""
    digits = word[1:] if word.startswith(b"-") else word
    return int(word) if 1 <= len(digits) <= 18 and DIGITS.issuperset(digits) else None


class ScriptReader:
    def __init__(self, source):
        self.source = source
        self.place = 0
        self.script = Script()
        self.registers = set()
        self.parameters = []
        self.form_count = 0

    # Bytes and words.

    def skip_blanks(self):
        while self.place < len(self.source):
            byte = self.source[self.place]
            if byte == SEMICOLON:
                line_end = self.source.find(b"\n", self.place)
                self.place = len(self.source) if line_end < 0 else line_end + 1
            elif byte in b" \t\n\r":
                self.place += 1
            else:
                return

    def next_byte(self):
        return self.source[self.place] if self.place < len(self.source) else END

    def accept(self, byte):
        found = self.next_byte() == byte
        self.place += found
        return found

    def expect(self, byte):
        well_made(self.accept(byte))

    def closes(self):
        self.skip_blanks()
        return self.accept(CLOSE)

    def word(self):
        start = self.place
        while self.next_byte() in WORD_BYTES:
            self.place += 1
        return self.source[start:self.place]

    def name(self, word=None):
        """The name a word spells; a symbol's number is its order of first appearance."""
        word = self.word() if word is None else word
        well_made(1 <= len(word) <= LONGEST_NAME and word[0] in LETTERS and word not in (b"t", b"nil"))
        name = word.decode("ascii")
        self.script.symbol_numbers.setdefault(name, len(self.script.symbol_numbers))
        return name

    def variable(self, word=None):
        name = self.name(word)
        if name not in self.parameters:
            self.registers.add(name)
        return name

    # Strings, quoted lists and atoms.

    def string(self):
        """The characters of a string. An escape parts the bytes before it from those after it."""
        self.expect(DOUBLE_QUOTE)
        characters = []
        start = self.place
        while True:
            byte = self.next_byte()
            well_made(byte != END)
            if byte in (DOUBLE_QUOTE, BACKSLASH):
                characters += decode_utf8(self.source[start:self.place], complete=True)
                self.place += 1
                if byte == DOUBLE_QUOTE:
                    return characters
                characters.append(self.escape())
                start = self.place
            else:
                self.place += 1

    def escape(self):
        if self.next_byte() in ESCAPED:
            self.place += 1
            return ESCAPED[self.source[self.place - 1]]
        digits = self.source[self.place:self.place + 3]
        well_made(len(digits) == 3 and frozenset(b"01234567").issuperset(digits) and int(digits, 8) < 0o400)
        self.place += 3
        number = int(digits, 8)
        return number if number < 0o200 else RAW + number

    def quoted_list(self):
        self.expect(OPEN)
        items = []
        while not self.closes():
            items.append(self.quoted_item())
        return items

    def quoted_item(self):
        if self.next_byte() == DOUBLE_QUOTE:
            return text_of(self.string())
        if not self.accept(OPEN):
            return self.plain_value(self.word())
        symbols = []
        while not self.closes():
            symbols.append(Symbol(self.name()))
        return list_of(symbols)

    def plain_value(self, word):
        number = integer(word)
        return number if number is not None else self.constant_or_symbol(word)

    def constant_or_symbol(self, word):
        if word in (b"t", b"nil"):
            return T if word == b"t" else NIL
        return Symbol(self.name(word))

    def atom(self):
        byte = self.next_byte()
        if byte == DOUBLE_QUOTE:
            return Literal(text_of(self.string()))
        if self.accept(HASH):
            return self.property_text()
        if self.accept(QUOTE):
            if self.next_byte() == OPEN:
                return Literal(list_of(self.quoted_list()))
            return Literal(self.constant_or_symbol(self.word()))
        word = self.word()
        if integer(word) is not None or word in (b"t", b"nil"):
            return Literal(self.plain_value(word))
        return Name(self.variable(word))

    def property_text(self):
        """Runs of properties come in order, none empty, none past the end of the string."""
        self.expect(OPEN)
        self.skip_blanks()
        characters = self.string()
        properties = [()] * len(characters)
        run_end = 0
        while not self.closes():
            start = self.number()
            end = self.number()
            items = self.quoted_list()
            well_made(0 <= start < end <= len(characters) and run_end <= start)
            run_end = end
            properties[start:end] = [self.pairs(items)] * (end - start)
        return PropertyText(characters, properties)

    def number(self):
        number = integer(self.word())
        well_made(number is not None)
        self.skip_blanks()
        return number

    @staticmethod
    def pairs(items):
        try:
            return property_pairs(items)
        except Refused as refusal:
            raise NotWellMade() from refusal

    # Forms.

    def call(self, word):
        primitive = PRIMITIVES.get(word.decode("ascii"))
        well_made(primitive is not None)
        arguments = []
        while not self.closes():
            arguments.append(self.atom())
            well_made(len(arguments) <= MOST_ARGUMENTS)
        well_made(primitive.fewest <= len(arguments) <= primitive.most)
        return Call(primitive.name, arguments)

    def opening_word(self):
        self.expect(OPEN)
        self.skip_blanks()
        return self.word()

    def form(self, word, depth):
        self.form_count += 1
        if word == b"setq":
            return self.assignment()
        kind = word.decode("ascii")
        if kind != "when-eq" and kind not in BLOCKS:
            return self.call(word)
        well_made(depth < DEEPEST_BLOCK)
        operands = []
        for _ in range(2 if kind == "when-eq" else 0):
            self.skip_blanks()
            operands.append(self.atom())
        return Block(kind, self.forms(depth + 1), *operands)

    def assignment(self):
        self.skip_blanks()
        name = self.variable()
        self.skip_blanks()
        call = self.call(self.opening_word())
        well_made(self.closes())
        return Assignment(name, call)

    def forms(self, depth):
        forms = []
        while not self.closes():
            forms.append(self.form(self.opening_word(), depth))
        return forms

    def handler(self):
        self.skip_blanks()
        name = self.name()
        handlers = self.script.handlers
        well_made(name != "default" and name not in handlers and len(handlers) < MOST_HANDLERS)
        self.skip_blanks()
        self.expect(OPEN)
        while not self.closes():
            parameter = self.name()
            well_made(parameter not in self.parameters and len(self.parameters) < MOST_PARAMETERS)
            self.parameters.append(parameter)
        self.form_count = 0
        forms = self.forms(0)
        well_made(self.form_count <= MOST_HANDLER_FORMS)
        handlers[name] = Handler(self.parameters, forms)

    def top_form(self):
        self.parameters = []
        word = self.opening_word()
        if word == b"defhandler":
            self.handler()
        else:
            self.script.forms.append(self.form(word, 0))
        well_made(len(self.registers) <= MOST_REGISTERS)


def read_script(source):
    """The script these bytes spell. The fault of one that is too long has no line."""
    if len(source) > LONGEST_SCRIPT:
        raise ScriptFault(0)
    reader = ScriptReader(source)
    reader.skip_blanks()
    while reader.place < len(source):
        start = reader.place
        try:
            reader.top_form()
        except NotWellMade:
            raise ScriptFault(1 + source.count(b"\n", 0, start)) from None
        reader.skip_blanks()
    return reader.script
