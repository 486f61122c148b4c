#!/usr/bin/env python3
"""Writes the rows of the syntax and the answers that are wanted: the files `stdin` and `stdout` beside this one.

The trees, and the places at which texts are refused, come from a reader that is written here from the grammar of the language and its
table of strengths, and shares nothing with the parsers that are tried. Where a table below says what a text must come to, the reader
is held to it too.
"""
import os
import sys

sys.setrecursionlimit(10000)

# ---- tokens

RESERVED = """OPENQASM include qubit qreg bit creg bool int uint angle array const let input output gate def return measure reset
barrier if else while for in break continue end ctrl negctrl inv pow gphase true false pi tau sizeof""".split()

FEATURES = {
    "float": "Float", "complex": "Complex", "duration": "Duration", "stretch": "Stretch", "delay": "Delay", "box": "Box",
    "durationof": "DurationOf", "cal": "Cal", "defcal": "DefCal", "defcalgrammar": "DefCalGrammar", "extern": "Extern",
    "pragma": "Pragma", "euler": "Euler", "switch": "Switch", "case": "Case", "default": "Default",
}

SYMBOLS = """( ) [ ] { } ; , : @ -> = == != < <= > >= << >> + - * / % ** ++ & && | || ^ ! ~
+= -= *= /= %= **= &= |= ^= <<= >>=""".split()

LETTERS = "abcdefghijklmnopqrstuvwxyzABCDEFGHIJKLMNOPQRSTUVWXYZ_"
DIGITS = "0123456789"
MOST_WHOLE = 2 ** 64 - 1


class Token:
    """One token: what it is, its spelling and its place. `kind` is Name, Integer, BitText, Text, Decimal, End, a reserved word, a
    symbol, or the feature that it is refused by."""

    def __init__(self, kind, spelling, place):
        self.kind, self.spelling, self.place = kind, spelling, place

    def at(self, place):
        return Token(self.kind, self.spelling, place)


class NoToken(Exception):
    """No token begins at this place, or a comment or text isn't closed."""


def place_text(place):
    return "%d:%d:%d" % place


def run_of(text, at, allowed):
    """The end of the characters from there on with single `_` between."""
    end = at
    while end < len(text) and text[end] in allowed:
        end += 1
        if end + 1 < len(text) and text[end] == "_" and text[end + 1] in allowed and end > at:
            end += 1
    return end


def number_at(text, at):
    """The end of the number there, and its kind: Integer or Decimal."""
    for prefix, allowed in (("xX", DIGITS + "abcdefABCDEF"), ("bB", "01"), ("oO", "01234567")):
        if text[at] == "0" and text[at + 1:at + 2] and text[at + 1] in prefix:
            end = run_of(text, at + 2, allowed)
            if end > at + 2:
                return end, "Integer"
    end = run_of(text, at, DIGITS)
    kind = "Integer"
    if text[end:end + 1] == ".":
        end = run_of(text, end + 1, DIGITS)
        kind = "Decimal"
    if text[end:end + 1] in ("e", "E"):
        digits = end + 2 if text[end + 1:end + 2] in ("+", "-") else end + 1
        behind = run_of(text, digits, DIGITS)
        if behind > digits:
            end, kind = behind, "Decimal"
    return end, kind


def token_at(text, at):
    """The end of the longest token there, and its kind; None where there is none."""
    first = text[at]
    if first in LETTERS:
        end = at
        while end < len(text) and text[end] in LETTERS + DIGITS:
            end += 1
        word = text[at:end]
        if word in FEATURES:
            return end, "E6 " + FEATURES[word]
        return end, word if word in RESERVED else "Name"
    if first in "πτ":
        return at + 1, "pi" if first == "π" else "tau"
    if first == "ℇ":
        return at + 1, "E6 Euler"
    if first in DIGITS or first == "." and text[at + 1:at + 2] and text[at + 1] in DIGITS:
        end, kind = number_at(text, at)
        for unit in ("dt", "ns", "us", "µs", "ms", "im", "s"):
            if text.startswith(unit, end):
                return end + len(unit), "E6 Imaginary" if unit == "im" else "E6 Timing"
        if kind == "Integer" and int(text[at:end].replace("_", ""), 0 if text[at] == "0" and end > at + 1 and text[at + 1] in "xXbBoO" else 10) > MOST_WHOLE:
            return end, "E6 Wide"
        return end, kind
    if first in "'\"":
        end = text.find(first, at + 1)
        if end < 0 or "\n" in text[at:end]:
            return None
        inside = text[at + 1:end]
        if inside and run_of(inside, 0, "01") == len(inside):
            return end + 1, "BitText" if len(inside.replace("_", "")) <= 64 else "E6 Wide"
        return end + 1, "Text"
    if first in "$#":
        allowed = DIGITS if first == "$" else LETTERS.replace("_", "")
        end = at + 1
        while end < len(text) and text[end] in allowed:
            end += 1
        if end == at + 1:
            return None
        if first == "$":
            return end, "E6 Hardware"
        return end, {"#pragma": "E6 Pragma", "#dim": "E6 Dim"}.get(text[at:end], "E6 Hash")
    for length in (3, 2, 1):
        if text[at:at + length] in SYMBOLS:
            return at + length, text[at:at + length]
    return None


def tokens_of(text, file=0):
    """The tokens of a text, with that of its end."""
    tokens, at, line, column = [], 0, 1, 1
    while at < len(text):
        end = None
        if text.startswith("//", at):
            end = text.find("\n", at)
            end = len(text) if end < 0 else end
        elif text.startswith("/*", at):
            close = text.find("*/", at + 2)
            if close < 0:
                raise NoToken((file, line, column))
            end = close + 2
        elif text[at] in " \t\n\r":
            end = at + 1
        else:
            found = token_at(text, at)
            if found is None:
                raise NoToken((file, line, column))
            end, kind = found
            tokens.append(Token(kind, text[at:end], (file, line, column)))
        for letter in text[at:end]:
            line, column = (line + 1, 1) if letter == "\n" else (line, column + 1)
        at = end
    tokens.append(Token("End", "", (file, line, column)))
    return tokens


# ---- trees: a variant is a tuple of its name and its parts, a list a list, and a part that isn't there None

def written(tree):
    if isinstance(tree, tuple):
        return " (" + tree[0] + "".join(map(written, tree[1:])) + ")"
    if isinstance(tree, list):
        return " [" + "".join(map(written, tree)) + " ]"
    if tree is None:
        return " none"
    if isinstance(tree, bool):
        return " true" if tree else " false"
    return " " + str(tree)


# ---- the reader

class Stopped(Exception):
    """The token that stops the reading, and whether a statement could begin there."""

    def __init__(self, at, begins=False):
        Exception.__init__(self)
        self.at, self.begins = at, begins


class TooDeep(Exception):
    """The first token that is too deep, or an operator too many."""

    def __init__(self, at):
        Exception.__init__(self)
        self.at = at


# the binary operators, from the weakest to the strongest but for `**`
STRENGTHS = [
    {"||": "LogicalOr"}, {"&&": "LogicalAnd"}, {"|": "Or"}, {"^": "Xor"}, {"&": "And"}, {"==": "Eq", "!=": "Ne"},
    {"<": "Lt", "<=": "Le", ">": "Gt", ">=": "Ge"}, {"<<": "Shl", ">>": "Shr"}, {"+": "Add", "-": "Sub"},
    {"*": "Mul", "/": "Div", "%": "Rem"},
]
UNARY = {"!": "Not", "~": "Turn", "-": "Neg"}
COMPOUND = {
    "+=": "Add", "-=": "Sub", "*=": "Mul", "/=": "Div", "%=": "Rem", "**=": "Pow", "&=": "And", "|=": "Or", "^=": "Xor",
    "<<=": "Shl", ">>=": "Shr",
}
SCALARS = {"bool": "Bool", "bit": "Bit", "int": "Int", "uint": "Uint", "angle": "Angle"}
MODIFIERS = {"inv": "Inv", "pow": "Pow", "ctrl": "Ctrl", "negctrl": "NegCtrl"}
BEGINS_EXPRESSION = set(UNARY) | set(SCALARS) | {"Integer", "BitText", "pi", "tau", "true", "false", "(", "Name", "sizeof"}


class Reader:
    """Reads the forms of the grammar, each method one of them; `depth` is that of the form's first token."""

    def __init__(self, tokens, at=0):
        self.tokens, self.at, self.operators = tokens, at, None

    def kind(self):
        return self.tokens[self.at].kind if self.at < len(self.tokens) else "End"

    def place(self):
        return place_text(self.tokens[self.at].place)

    def take(self, depth, *kinds):
        if self.kind() not in kinds:
            raise Stopped(self.at)
        if depth > 64:
            raise TooDeep(self.at)
        self.at += 1
        return self.tokens[self.at - 1]

    def operator(self, depth, *kinds):
        if self.kind() in kinds and self.operators == 256:
            raise TooDeep(self.at)
        self.operators += 1
        return self.take(depth, *kinds).kind

    def may(self, depth, kind):
        if self.kind() != kind:
            return False
        self.take(depth, kind)
        return True

    def name(self, depth):
        return self.take(depth, "Name").spelling

    def separated(self, depth, comma, form):
        members = [form(depth)]
        while self.may(depth, comma):
            members.append(form(depth))
        return members

    def names(self, depth):
        return self.separated(depth, ",", self.name)

    # expressions

    def expr(self, depth):
        outermost = self.operators is None
        if outermost:
            self.operators = 0
        tree = self.operation(depth, 0)
        if outermost:
            self.operators = None
        return tree

    def operation(self, depth, strength):
        if strength == len(STRENGTHS):
            return self.factor(depth)
        tree = self.operation(depth, strength + 1)
        while self.kind() in STRENGTHS[strength]:
            operator = STRENGTHS[strength][self.operator(depth, self.kind())]
            tree = ("Binary", operator, tree, self.operation(depth, strength + 1))
        return tree

    def factor(self, depth):
        if self.kind() in UNARY:
            operator = UNARY[self.operator(depth, self.kind())]
            return ("Unary", operator, self.factor(depth + 1))
        tree = self.primary(depth)
        if self.kind() == "**":
            self.operator(depth, "**")
            return ("Binary", "Pow", tree, self.factor(depth + 1))
        return tree

    def primary(self, depth):
        kind = self.kind()
        if kind in SCALARS:
            return ("Cast", self.scalar(depth), self.in_parentheses(depth))
        spelling = self.take(depth, "Integer", "BitText", "pi", "tau", "true", "false", "(", "Name", "sizeof").spelling
        if kind == "Integer":
            return ("Whole", int(spelling.replace("_", ""), 0 if spelling[1:2] and spelling[1] in "xXbBoO" else 10))
        if kind == "BitText":
            digits = spelling[1:-1].replace("_", "")
            return ("BitText", int(digits, 2), len(digits))
        if kind in ("pi", "tau"):
            return (kind.capitalize(),)
        if kind in ("true", "false"):
            return ("Bool", kind == "true")
        if kind == "(":
            inner = self.expr(depth + 1)
            self.take(depth, ")")
            return ("Parenthesized", inner)
        if kind == "sizeof":
            self.take(depth, "(")
            name = self.name(depth + 1)
            dimension = self.expr(depth + 1) if self.may(depth + 1, ",") else None
            self.take(depth, ")")
            return ("SizeOf", name, dimension)
        if self.kind() == "(":
            return ("Call", spelling, self.arguments(depth))
        return ("Name", spelling, self.brackets(depth))

    def exprs(self, depth):
        return self.separated(depth, ",", self.expr)

    def in_parentheses(self, depth):
        self.take(depth, "(")
        tree = self.expr(depth + 1)
        self.take(depth, ")")
        return tree

    def arguments(self, depth):
        self.take(depth, "(")
        trees = [] if self.kind() == ")" else self.exprs(depth + 1)
        self.take(depth, ")")
        return trees

    def size(self, depth):
        self.take(depth, "[")
        tree = self.expr(depth + 1)
        self.take(depth, "]")
        return tree

    def any_size(self, depth):
        return self.size(depth) if self.kind() == "[" else None

    def scalar(self, depth):
        variant = SCALARS[self.take(depth, *SCALARS).kind]
        return (variant,) if variant == "Bool" else (variant, self.any_size(depth))

    def set(self, depth):
        self.take(depth, "{")
        trees = self.exprs(depth + 1)
        self.take(depth, "}")
        return trees

    def any_expr(self, depth):
        return self.expr(depth) if self.kind() in BEGINS_EXPRESSION else None

    def range_behind(self, depth, start):
        self.take(depth, ":")
        second = self.any_expr(depth)
        if second is None or not self.may(depth, ":"):
            return ("Range", start, None, second)
        return ("Range", start, second, self.any_expr(depth))

    def range(self, depth):
        return self.range_behind(depth, self.any_expr(depth))

    def index(self, depth):
        if self.kind() == "{":
            return ("Set", self.set(depth))
        if self.kind() == ":":
            return self.range(depth)
        tree = self.expr(depth)
        return self.range_behind(depth, tree) if self.kind() == ":" else ("At", tree)

    def indexes(self, depth):
        self.take(depth, "[")
        trees = self.separated(depth + 1, ",", self.index)
        self.take(depth, "]")
        return trees

    def brackets(self, depth):
        trees = []
        while self.kind() == "[":
            trees.append(self.indexes(depth))
        return trees

    # statements

    def operand(self, depth):
        name = self.name(depth)
        index = None
        if self.may(depth, "["):
            index = self.index(depth + 1)
            self.take(depth, "]")
        return ("Operand", name, index)

    def operands(self, depth):
        return self.separated(depth, ",", self.operand)

    def any_operands(self, depth):
        return self.operands(depth) if self.kind() == "Name" else []

    def target(self, depth):
        return ("Target", self.name(depth), self.brackets(depth))

    def right(self, depth):
        if self.may(depth, "measure"):
            return ("Measure", self.operand(depth))
        return ("Value", self.expr(depth))

    def modifier(self, depth):
        variant = MODIFIERS[self.take(depth, *MODIFIERS).kind]
        if variant == "Inv":
            return (variant,)
        if variant == "Pow":
            return (variant, self.in_parentheses(depth))
        return (variant, self.in_parentheses(depth) if self.kind() == "(" else None)

    def gate_call(self, depth):
        modifiers = []
        while self.kind() in MODIFIERS:
            modifiers.append(self.modifier(depth))
            self.take(depth, "@")
        if self.may(depth, "gphase"):
            gate = ("GlobalPhase", self.in_parentheses(depth))
            operands = self.any_operands(depth)
        else:
            name = self.name(depth)
            gate = ("Named", name, self.arguments(depth) if self.kind() == "(" else None)
            operands = self.operands(depth)
        self.take(depth, ";")
        return ("GateCall", modifiers, gate, operands)

    def assigned(self, depth, target):
        if self.may(depth, "="):
            return ("Assignment", target, self.right(depth))
        operator = COMPOUND[self.take(depth, *COMPOUND).kind]
        return ("CompoundAssignment", operator, target, self.expr(depth))

    def by_name(self, depth):
        name = self.name(depth)
        if self.kind() == "[":
            form = self.assigned(depth, ("Target", name, self.brackets(depth)))
        elif self.kind() == "=" or self.kind() in COMPOUND:
            form = self.assigned(depth, ("Target", name, []))
        elif self.kind() == "(":
            arguments = self.arguments(depth)
            form = ("Call", name, arguments)
            if self.kind() == "Name":
                form = ("Gate", ("GateCall", [], ("Named", name, arguments), self.operands(depth)))
        else:
            form = ("Gate", ("GateCall", [], ("Named", name, None), self.operands(depth)))
        self.take(depth, ";")
        return form

    def block(self, depth):
        self.take(depth, "{")
        statements = []
        while self.kind() != "}":
            statements.append(self.statement(depth + 1))
        self.take(depth, "}")
        return statements

    def body(self, depth):
        return self.block(depth) if self.kind() == "{" else [self.statement(depth + 1)]

    def sequence(self, depth):
        if self.kind() == "{":
            return ("Set", self.set(depth))
        if self.may(depth, "["):
            tree = self.range(depth + 1)
            self.take(depth, "]")
            return tree
        return ("Name", self.name(depth))

    def with_body(self, depth):
        """A form that ends with a body, or None."""
        if self.may(depth, "if"):
            condition = self.in_parentheses(depth)
            body = self.body(depth)
            return ("If", condition, body, self.body(depth) if self.may(depth, "else") else None)
        if self.may(depth, "while"):
            return ("While", self.in_parentheses(depth), self.body(depth))
        if self.may(depth, "for"):
            scalar = self.scalar(depth)
            name = self.name(depth)
            self.take(depth, "in")
            return ("For", scalar, name, self.sequence(depth), self.body(depth))
        return None

    def line(self, depth):
        """A form that begins with a keyword or a type, without its semicolon, or None."""
        kind = self.kind()
        if kind in SCALARS:
            return ("Declaration", self.scalar(depth), self.name(depth), self.right(depth) if self.may(depth, "=") else None)
        if self.may(depth, "creg"):
            return ("BitRegister", self.name(depth), self.any_size(depth))
        if self.may(depth, "const"):
            scalar, name = self.scalar(depth), self.name(depth)
            self.take(depth, "=")
            return ("Constant", scalar, name, self.expr(depth))
        if self.may(depth, "let"):
            name = self.name(depth)
            self.take(depth, "=")
            return ("Alias", name, self.separated(depth, "++", self.operand))
        if self.may(depth, "measure"):
            return ("Measure", self.operand(depth), self.target(depth) if self.may(depth, "->") else None)
        if self.may(depth, "reset"):
            return ("Reset", self.operand(depth))
        if self.may(depth, "barrier"):
            return ("Barrier", self.any_operands(depth))
        if self.may(depth, "return"):
            return ("Return", None if self.kind() == ";" else self.right(depth))
        for keyword in ("break", "continue", "end"):
            if self.may(depth, keyword):
                return (keyword.capitalize(),)
        return None

    def form(self, depth):
        kind = self.kind()
        if kind == "Name":
            return self.by_name(depth)
        if kind == "gphase" or kind in MODIFIERS:
            return ("Gate", self.gate_call(depth))
        form = self.with_body(depth)
        if form is None:
            form = self.line(depth)
            if form is None:
                raise Stopped(self.at, True)
            self.take(depth, ";")
        return form

    def statement(self, depth):
        place = self.place()
        return ("Statement", place, self.form(depth))

    # items

    def entry(self, depth):
        if self.kind() == "{":
            return ("List", self.entries(depth))
        return ("Value", self.expr(depth))

    def entries(self, depth):
        self.take(depth, "{")
        entries = self.separated(depth + 1, ",", self.entry)
        self.take(depth, "}")
        return entries

    def gate_statement(self, depth):
        place = self.place()
        if self.may(depth, "barrier"):
            qubits = self.names(depth) if self.kind() == "Name" else []
            self.take(depth, ";")
            return ("GateStatement", place, ("Barrier", qubits))
        if self.kind() not in ("Name", "gphase") and self.kind() not in MODIFIERS:
            raise Stopped(self.at, True)
        return ("GateStatement", place, ("Call", self.gate_call(depth)))

    def parameter(self, depth):
        if self.may(depth, "qubit"):
            return ("Qubits", self.any_size(depth), self.name(depth))
        return ("Classical", self.scalar(depth), self.name(depth))

    def gate(self, place):
        name = self.name(0)
        parameters = None
        if self.may(0, "("):
            parameters = self.names(1) if self.kind() == "Name" else []
            self.take(0, ")")
        qubits = self.names(0)
        self.take(0, "{")
        body = []
        while self.kind() != "}":
            body.append(self.gate_statement(1))
        self.take(0, "}")
        return ("Gate", place, name, parameters, qubits, body)

    def definition(self, place):
        name = self.name(0)
        self.take(0, "(")
        parameters = [] if self.kind() == ")" else self.separated(1, ",", self.parameter)
        self.take(0, ")")
        result = self.scalar(0) if self.may(0, "->") else None
        return ("Definition", place, name, parameters, result, self.block(0))

    def array(self, place):
        self.take(0, "[")
        scalar = self.scalar(1)
        self.take(1, ",")
        dimensions = self.exprs(1)
        self.take(0, "]")
        name = self.name(0)
        return ("Array", place, scalar, name, dimensions, self.entries(0) if self.may(0, "=") else None)

    def short_item(self, place):
        """An item that ends with a semicolon, without it, or None."""
        if self.may(0, "include"):
            return ("Include", place, self.take(0, "Text", "BitText").spelling[1:-1])
        if self.may(0, "input"):
            return ("Input", place, self.scalar(0), self.name(0))
        if self.may(0, "output"):
            return ("Output", place, self.scalar(0), self.name(0))
        if self.may(0, "qubit"):
            return ("Qubit", place, self.any_size(0), self.name(0))
        if self.may(0, "qreg"):
            return ("QubitRegister", place, self.name(0), self.any_size(0))
        if self.may(0, "array"):
            return self.array(place)
        return None

    def item(self):
        place = self.place()
        item = self.short_item(place)
        if item is not None:
            self.take(0, ";")
            return item
        if self.may(0, "gate"):
            return self.gate(place)
        if self.may(0, "def"):
            return self.definition(place)
        return self.statement(0)

    def version(self):
        place = self.place()
        self.take(0, "OPENQASM")
        number = self.take(0, "Integer", "Decimal")
        self.take(0, ";")
        if number.kind == "Decimal":
            return ("Version", place, ("Decimal", number.spelling))
        return ("Version", place, ("Integer", Reader([number]).primary(0)[1]))

    def program(self):
        versions = [self.version()] if self.kind() == "OPENQASM" else []
        items = []
        while self.kind() != "End":
            items.append(self.item())
        return ("Program", versions, items, self.place())


# ---- answers

def refused(tokens, fault):
    """How the refusal of tokens is written."""
    token = tokens[fault.at] if fault.at < len(tokens) else Token("End", "", (0, 1, 1))
    place = place_text(token.place)
    if isinstance(fault, TooDeep):
        return " Nest " + place
    if token.kind.startswith("E6 "):
        return " NotInProfile " + token.kind[3:] + " " + place
    if token.kind == "Decimal":
        return " NotInProfile Decimal " + place
    if token.kind == "@" and fault.begins:
        return " NotInProfile Annotation " + place
    return " Syntax " + place


def parsed(tokens):
    """The tree of tokens, or their refusal as it is written."""
    try:
        return Reader(tokens).program()
    except (Stopped, TooDeep) as fault:
        return refused(tokens, fault)


def parsed_text(text):
    try:
        return parsed(tokens_of(text))
    except NoToken as fault:
        return " Token " + place_text(fault.args[0])


def tree_answer(answer):
    return answer if isinstance(answer, str) else written(answer)


def outcome_of(answer):
    return answer if isinstance(answer, str) else " program"


def expr_read(text, at, depth):
    """The number of the token behind an expression and its tree, or the refusal as it is written."""
    tokens = tokens_of(text)
    reader = Reader(tokens, at)
    try:
        tree = reader.expr(depth)
        return reader.at, tree
    except (Stopped, TooDeep) as fault:
        fault.begins = False
        return refused(tokens, fault)


def line_of(refusal, file):
    """The line that tells a refusal."""
    words = refusal.split()
    number, line, column = words[-1].split(":")
    name = ["p.qasm", "mine.inc"][file] if file < 2 else ""
    place = name + ":" + line + ":" + column
    if words[0] == "NotInProfile":
        return "E6 " + place + " profile " + words[1].lower()
    return {"Token": "E3 %s token", "Syntax": "E4 %s syntax", "Nest": "E5 %s nest"}[words[0]] % place


def read_answer(text, file):
    if len(text) > 1048576:
        return "E2 p.qasm long"
    try:
        characters = text.decode("utf-8")
    except UnicodeDecodeError as error:
        return "E1 p.qasm utf8 %d" % error.start
    try:
        answer = parsed(tokens_of(characters, file))
    except NoToken as fault:
        answer = " Token " + place_text(fault.args[0])
    return line_of(answer, file) if isinstance(answer, str) else written(answer)


# ---- rows

ROWS = []


def escaped(text):
    """A text as a row writes it."""
    if isinstance(text, bytes):
        try:
            text = text.decode("utf-8")
        except UnicodeDecodeError:
            return "".join(chr(b) if 32 <= b < 127 and b != 92 else "\\%02x" % b for b in text)
    plain = "".join("\\%02x" % ord(c) if ord(c) < 32 or c == "\\" else "\\c2\\a6" if c == "¦" else c for c in text)
    return plain[:-1] + "\\20" if plain.endswith(" ") else plain


def row(call, text, answer):
    """A row. A text may be a list of parts and of pairs of a count and a part."""
    if isinstance(text, list):
        pieces = [""]
        for part in text:
            if isinstance(part, tuple):
                pieces += [str(part[0]), escaped(part[1]), ""]
            else:
                pieces[-1] += escaped(part)
        text = "¦".join(pieces)
    else:
        text = escaped(text)
    ROWS.append((call + ": " + text if text else call, answer))


def whole(text):
    """The text that is meant by a list of parts."""
    if not isinstance(text, list):
        return text
    parts = [part[0] * part[1] if isinstance(part, tuple) else part for part in text]
    return parts[0][:0].join(parts)


def want(found, told, text):
    if found != told:
        sys.exit("the reader and a table differ on %r: %r, %r" % (text, found, told))


def parse_row(text, told=None):
    answer = tree_answer(parsed_text(whole(text)))
    if told is not None:
        want(answer, told, text)
    row("parse", text, answer)


def outcome_row(text, told=None):
    answer = outcome_of(parsed_text(whole(text)))
    if told is not None:
        want(answer, told, text)
    row("outcome", text, answer)


def expr_row(text, at=0, depth=0, told=None):
    found = expr_read(whole(text), at, depth)
    answer = found if isinstance(found, str) else "%d%s" % (found[0], written(found[1]))
    if told is not None:
        want(answer, told, text)
    row("expr %d %d" % (at, depth), text, answer)


def read_row(text, file=0, told=None):
    answer = read_answer(whole(text), file)
    if told is not None:
        want(answer, told, whole(text)[:80])
    row("read %d" % file, text, answer)


def beginnings_row(text):
    """Each number of first tokens, as an expression."""
    tokens = tokens_of(text)
    answers = []
    for count in range(len(tokens)):
        reader = Reader(tokens[:count])
        try:
            reader.expr(0)
            answers.append(" %d;" % reader.at)
        except (Stopped, TooDeep) as fault:
            answers.append(refused(tokens[:count], fault) + ";")
    row("beginnings", text, "".join(answers))


def ended_row(text, programs=None):
    """The first tokens alone, for each number of them; `programs` are the numbers that are programs."""
    tokens = tokens_of(text)
    answers = []
    for count, token in enumerate(tokens):
        answer = outcome_of(parsed(tokens[:count] + [Token("End", "", token.place)]))
        if programs is not None:
            ok = count in programs or token.kind == "End"
            want(answer, " program" if ok else " Syntax " + place_text(token.place), (text, count))
        answers.append(answer + ";")
    row("ended", text, "".join(answers))


def changed_row(text, spelling, told=None):
    """Each token in turn replaced by that one; `told` says what comes of a token."""
    tokens = tokens_of(text)
    other = tokens_of(spelling)[0]
    answers = []
    for at, token in enumerate(tokens):
        answer = outcome_of(parsed(tokens[:at] + [other.at(token.place)] + tokens[at + 1:]))
        if told is not None:
            want(answer, told(token), (text, at))
        answers.append(answer + ";")
    row("changed " + spelling, text, "".join(answers))


# ---- tables


# A text, its tree where `{a+{b*c}}` is a sum whose right side is a product, and how many tokens it takes.
OPERATORS = [
    ("1 + 2 ;", "{1+2}", 3), ("a || b && c", "{a||{b&&c}}", 5), ("a && b || c", "{{a&&b}||c}", 5), ("a && b | c", "{a&&{b|c}}", 5),
    ("a | b ^ c", "{a|{b^c}}", 5), ("a ^ b & c", "{a^{b&c}}", 5), ("a & b == c", "{a&{b==c}}", 5), ("a == b < c", "{a=={b<c}}", 5),
    ("a != b <= c", "{a!={b<=c}}", 5), ("a > b << c", "{a>{b<<c}}", 5), ("a >= b >> c", "{a>={b>>c}}", 5),
    ("a << b + c", "{a<<{b+c}}", 5), ("a >> b - c", "{a>>{b-c}}", 5), ("a + b * c", "{a+{b*c}}", 5), ("a * b + c", "{{a*b}+c}", 5),
    ("a - b / c", "{a-{b/c}}", 5), ("a - b % c", "{a-{b%c}}", 5), ("a || b || c", "{{a||b}||c}", 5), ("a == b != c", "{{a==b}!=c}", 5),
    ("a < b < c", "{{a<b}<c}", 5), ("a << b >> c", "{{a<<b}>>c}", 5), ("a - b - c + d", "{{{a-b}-c}+d}", 7),
    ("a / b * c", "{{a/b}*c}", 5), ("a ** b ** c", "{a**{b**c}}", 5), ("a * b ** c", "{a*{b**c}}", 5), ("- a ** b", "{-{a**b}}", 4),
    ("a ** - b ** c", "{a**{-{b**c}}}", 6), ("a * - b", "{a*{-b}}", 4), ("!a == b", "{{!a}==b}", 4), ("~a & b", "{{~a}&b}", 4),
    ("- - ~ ! a", "{-{-{~{!a}}}}", 5),
]

# The same: primaries, where each member of a list has a comma behind it, and what ends an expression.
PRIMARIES = [
    ("0x1F", "31", 1), ("18446744073709551615", "18446744073709551615", 1), ("\"0101\"", "5/4", 1), ("pi", "pi", 1), ("π", "pi", 1),
    ("tau + τ", "{tau+tau}", 3), ("true && false", "{true&&false}", 3), ("(a + b) * c", "{({a+b})*c}", 7), ("((a))", "((a))", 5),
    ("a b", "a", 1), ("a = b", "a", 1), ("a ++ b", "a", 1), ("a += b", "a", 1), ("a @", "a", 1), ("a 2.5", "a", 1), ("a[1]", "a[1,]", 4),
    ("a[1, b + 2][c]", "a[1,{b+2},][c,]", 11), ("a[{1, 2}]", "a[{1,2,},]", 8), ("a[1:2]", "a[1:2,]", 6), ("a[:]", "a[:,]", 4),
    ("a[1:]", "a[1:,]", 5), ("a[:2:3]", "a[:2:3,]", 7), ("a[1:2:]", "a[1:2:,]", 7), ("a[:2]", "a[:2,]", 5), ("a[:2:]", "a[:2:,]", 6),
    ("a[1:2:3]", "a[1:2:3,]", 8), ("f()", "f()", 3), ("f(1, g(2)) + 3", "{f(1,g(2,),)+3}", 11),
    ("bool(a) == bit(b)", "{bool<a>==bit<b>}", 9), ("int[8](a)", "int[8]<a>", 7), ("uint(a) + angle[n](b)", "{uint<a>+angle[n]<b>}", 12),
    ("sizeof(a)", "sizeof(a)", 4), ("sizeof(a, 1 + 1)", "sizeof(a,{1+1})", 8),
]

# A text, the depth of its first token, and the column of the token at which no expression goes on.
WRONG = [
    ("", 0, 1), (";", 0, 1), ("@", 0, 1), ("1 + @", 0, 5), ("1 +", 0, 4), ("1 + ;", 0, 5), ("a + + b", 0, 5), ("(a;", 0, 3),
    ("(a b)", 0, 4), ("()", 0, 2), ("f(1,)", 0, 5), ("f(,1)", 0, 3), ("f(1 2)", 0, 5), ("a[]", 0, 3), ("a[1,]", 0, 5), ("a[{}]", 0, 4),
    ("a[{1:2}]", 0, 5), ("a[::2]", 0, 4), ("a[1::2]", 0, 5), ("a[1:2:3:4]", 0, 8), ("int(", 0, 5), ("int a", 0, 5), ("int[8] a", 0, 8),
    ("bool[8](a)", 0, 5), ("sizeof()", 0, 8), ("sizeof(1)", 0, 8), ("sizeof(a,)", 0, 10), ("sizeof(a,1,2)", 0, 11), ("sizeof a", 0, 8),
    ("()", 64, 2),
]

# A text, the depth of its first token, and the column of the first token that is too deep.
EXPR_TOO_DEEP = [
    ("(1)", 64, 2), ("-1", 64, 2), ("a ** b", 64, 6), ("a[b]", 64, 3), ("a[:]", 64, 3), ("a[{b}]", 64, 3), ("a[{b}]", 63, 4),
    ("f(1)", 64, 3), ("int[8](a)", 64, 5), ("sizeof(a)", 64, 8), ("!(a)", 63, 3),
]

# A text, the depth of its first token, the column of the token that stops the reading, and its feature.
LEFT_OUT = [
    ("float(a)", 0, 1, "Float"), ("1 + 2.5", 0, 5, "Decimal"), ("f(1, ℇ)", 0, 6, "Euler"), ("a[switch]", 0, 3, "Switch"),
    ("-3im", 0, 2, "Imaginary"), ("1 + 4ns", 0, 5, "Timing"), ("$0", 0, 1, "Hardware"), ("(18446744073709551616)", 0, 2, "Wide"),
    ("(#dim)", 0, 2, "Dim"), ("1 + pragma", 0, 5, "Pragma"), ("a ** duration", 0, 6, "Duration"), ("(2.5)", 64, 2, "Decimal"),
]

# Texts that are programs, and how many first tokens are a program too.
PROGRAMS = [
    ("OPENQASM 3.0; h q;", [0, 3]), ("OPENQASM 3; include \"stdgates.inc\"; include \"01\";", [0, 3, 6]),
    ("input int[8] n; output bool b;", [0, 7]), ("qubit q; qubit[2] r; qreg s; qreg t[3];", [0, 3, 9, 12]),
    ("array[int[8], 2, n] z = {{1, n + 2}, {3}}; array[bool, 2] y;", [0, 27]),
    ("gate g(a, b) q, r { ctrl(2) @ inv @ x(a) q, r; barrier q; gphase(a); } gate k q { } gate m() q { barrier; }", [0, 35, 40]),
    ("def f(int[8] a, qubit[2] b, qubit c) -> bit[3] { return measure b; } def g() { return; }", [0, 29]),
    ("int[8] x = measure q[0]; bit c; uint y = 2; angle z;", [0, 12, 15, 20]),
    ("creg c; creg d[2]; const uint n = 2; let a = q[0] ++ r ++ s[1:2];", [0, 3, 9, 15]),
    ("x = 1; x[0, 1][2] += n; y = measure q; b **= 2;", [0, 4, 16, 21]),
    ("measure q; measure q[{0, 1}] -> c[0][1, 2]; reset q[1]; barrier q, r[0]; barrier;", [0, 3, 23, 29, 37]),
    ("h q[0], r; p(pi / 2, 1) q; f(1, 2); f(); f() q; x[0] = 1;", [0, 8, 18, 25, 29, 34]),
    ("inv @ pow(2) @ ctrl @ negctrl(2) @ gphase(pi); ctrl @ x q, r; gphase(pi) q;", [0, 19, 26]),
    ("if (a) x = 1; else if (b) { y = 2; } else { }", [0, 8, 19]),
    ("while (n < 2) { n += 1; break; continue; } while (true) end;", [0, 16]),
    ("for uint[8] i in [0:2:8] x q[i]; for int j in {1, 2} { } for bit k in b end; for int l in [:] { }", [0, 20, 31, 38]),
    ("return; return measure q; return x + 1; end;", [0, 2, 6, 11]),
    ("x = -(a) ** !b + sizeof(c, 1) * int[8](f(2, g())) - d[0, 1:2][{3}];", [0]),
    ("y = a || b && true | pi ^ 0x1F & c == d != e < 1 <= 2 > 3 >= 4 << 5 >> 6 / 7 % ~tau;", [0]),
    ("x = a[:] + a[1:] + a[:2] + a[:1:] + a[1:2:] + a[:1:2] + a[0:1:2] + bool(pi) ** uint(b) ** sizeof(z);", [0]),
    ("def f() { } negctrl @ x q, r;", [0, 6]),
]

# Texts that are no programs, each with the column of its stopper.
STOPPERS = [
    ("int[8](x);", 7), ("bool(x);", 5), ("f(1) = 2;", 6), ("f(1) q = 2;", 8), ("x[0] q;", 6), ("measure q[0, 1];", 12),
    ("cx q[0, 1], r;", 7), ("let a = q[0, 1];", 12), ("x = measure q + 1;", 15), ("return measure q == 1;", 18), ("x += measure q;", 6),
    ("const bit b = measure q;", 15), ("for int i in [3] { }", 16), ("q = a[::2];", 8), ("q = a[1::2];", 9),
    ("for int i in a[0:2] { }", 15), ("for int i in {} { }", 15), ("x q[{}];", 6), ("inv @ @ x q;", 7), ("inv x q;", 5),
    ("ctrl @ f(1);", 12), ("gphase q;", 8), ("if (true) { x q }", 17), ("if (true) else x q;", 11), ("else x q;", 1), ("if true { }", 4),
    ("while () { }", 8), ("{ x q; }", 1), ("x q; OPENQASM 3;", 6), ("OPENQASM x;", 10), ("OPENQASM 3", 11), ("include stdgates;", 9),
    ("input n;", 7), ("qubit q[2];", 8), ("qreg[2] q;", 5), ("array[int] z;", 10), ("array[int, 2] z = 3;", 19),
    ("array[int, 2] z = {};", 20), ("gate g(a,) q { }", 10), ("gate g { }", 8), ("gate g q { x q[0; }", 17),
    ("gate g q { reset q; }", 12), ("gate g q { barrier q[0]; }", 21), ("def f int a { }", 7), ("def f() -> { }", 12),
    ("def f() end;", 9), ("def f(a) { }", 7), ("if (a) { qubit q; }", 10), ("x q; }", 6), ("x q,;", 5), ("barrier q,;", 11),
    ("let a = q ++;", 13), ("x = = 1;", 5), ("x == 1;", 3), ("break", 6), ("return;;", 8), ("h", 2),
]

# Tokens that are refused by name.
WORDS_LEFT_OUT = [
    ("float", "Float"), ("complex", "Complex"), ("duration", "Duration"), ("stretch", "Stretch"), ("delay", "Delay"), ("box", "Box"),
    ("durationof", "DurationOf"), ("cal", "Cal"), ("defcal", "DefCal"), ("defcalgrammar", "DefCalGrammar"), ("extern", "Extern"),
    ("pragma", "Pragma"), ("euler", "Euler"), ("switch", "Switch"), ("case", "Case"), ("default", "Default"), ("ℇ", "Euler"),
    ("1.5", "Decimal"), ("5ns", "Timing"), ("2im", "Imaginary"), ("$0", "Hardware"), ("18446744073709551616", "Wide"),
    ("#pragma", "Pragma"), ("#dim", "Dim"), ("#bind", "Hash"),
]

# Where an `@` begins an annotation: its column.
ANNOTATIONS = [
    ("@bind x q;", 1), ("x q; @", 6), ("if (true) @bind x q;", 11), ("if (true) { @bind }", 13), ("if (true) x q; else @", 21),
    ("gate g q { x q; @bind }", 17), ("def f() { @bind }", 11),
]

# Where it doesn't.
NO_ANNOTATIONS = [
    ("inv @ @ x q;", 7), ("x @", 3), ("for int i in @", 14), ("x = @", 5), ("gate g @", 8),
]

# Programs with a part that is repeated: what stands before, the part, how often, and what stands behind.
ACCEPTED = [
    ("x = ", "-", 64, "1;"), ("x = 1", " + 1", 256, ";"), ("", "if (true) ", 64, "end;"),
]

# The same with a token too deep or an operator too many, in this column.
TEXT_TOO_DEEP = [
    ("x = ", "(", 65, "1", 70), ("x = ", "(", 100000, "", 70), ("x = ", "-", 65, "1;", 70), ("x = 1", " + 1", 257, ";", 1031),
    ("x = 1", " + 1", 258, " 1", 1031), ("", "if (true) ", 65, "end;", 645), ("", "if (true) {", 65, "", 709),
    ("", "if (true) {", 64, "for int i in a { end; }", 722), ("", "if(a)", 1000, "", 324), ("", "while(a){", 1000, "", 583),
    ("x = a", "[a", 1000, "", 135), ("array[int,1]z=", "{", 1000, "", 80),
]

# The same with a stopper in this column.
STOPPED = [
    ("x = ", "(", 65, ")", 70), ("x = ", "(", 65, "", 70), ("x = ", "(", 64, "1 1", 71), ("x = 1", " + 1", 256, " 1;", 1031),
    ("", "if (true) {", 64, "end;", 709), ("", "if (true) {", 64, "for int i in a { }", 723),
]

# Each form of the grammar, cramped.
FORMS = [
    "//nothing", "OPENQASM 0x3;", "OPENQASM 3.10;", "include\"stdgates.inc\";include'0_1';include'say\"s';",
    "input int[ 8 ]n;output angle t;input bit b;", "qubit q;qubit[2]r;qreg s;qreg t[n+1];",
    "array[int[8],2,n]z={{1,n+2},{3}};array[bool,2]y;", "gate k q{}",
    "gate g(a,b)q,r{ctrl(2)@inv@x(a)q,r;barrier q,r;gphase(a);}gate m()q{barrier;}", "def g(){return;}",
    "def f(int[8]a,qubit[2]b,qubit c)->bit[3]{if(a<1){return measure b;}}", "int[8]x=measure q[0];bit c;uint y=2;angle[n]z;bool b=true;",
    "creg c;creg d[2];const uint n=2;const bool t=!false;", "let a=q;let b=q[0]++r++s[1:2];", "x=1;x[0,1][2]=y;x=measure q[0:2];",
    "a+=1;a-=1;a*=1;a/=1;a%=1;a**=1;", "a&=1;a|=1;a^=1;a<<=1;a[0]>>=1;", "measure q;measure q[{0,1}]->c[0][1,2];",
    "reset q[1];barrier q,r[0];barrier;", "h q[0],r;p(pi/2,1)q;f()q;f(1,2);f();",
    "inv@pow(2)@ctrl@negctrl(2)@gphase(π);negctrl@x q,r;gphase(1)q,r;", "if(a)x q;", "if(a)x=1;else if(b){y=2;end;}else{}",
    "while(true)end;while(n<2){n+=1;break;continue;}", "for uint[8]i in[0:2:8]x q[i];for int l in[:]{}",
    "for int j in{1,2}for bit k in b{while(k)reset q;}", "return;return measure q;return x+1;return-x;return(x);end;",
    "x=a||b&&c|d^e&f==g!=h<i<=j>k>=l;", "x=a<<b>>c+d-e*f/g%h**i;", "x=-(a)**-b;x=!(~a);x=a-(b-c);x=(a-b)-c;x=- -a;",
    "x=0x1F+0b1_0+0o17+1_000;x=π+pi+τ+tau;b=\"0_1_01\";b='0';", "x=sizeof(a)+sizeof(a,1)+int[8](a)+bool(b)+bit(c)+f()+f(1,g(2));",
    "x=a[0,-1][b[2]]+a[:]+a[1:]+a[:2]+a[1:2];", "x=a[:2:]+a[:2:3]+a[1:2:]+a[1:2:3]+a[{1,2}];",
    "OPENQASM 3.0;include\"stdgates.inc\";qubit[3]q;bit[3]c;h q[0];cx q[0],q[1];c[0]=measure q[0];",
]

# Texts that are hard to read, each with the line of its refusal, or with none where it is that of a program.
BYTES = [
    (b'', ""), (b'h q;\r\nh q;\r\n', ""), (b'h q;\rh', "E4 p.qasm:1:7 syntax"), (b'\xef\xbb\xbfh q;', "E3 p.qasm:1:1 token"),
    (b'h\x00q;', "E3 p.qasm:1:2 token"), (b'h q; /* a\n*', "E3 p.qasm:1:6 token"), (b'h q; /*/', "E3 p.qasm:1:6 token"),
    (b'include "a\n";', "E3 p.qasm:1:9 token"), (b'include \'a";', "E3 p.qasm:1:9 token"), (b'\xc2\xb5', "E3 p.qasm:1:1 token"),
    (b'x = 10 \xc2\xb5s;', "E3 p.qasm:1:8 token"), (b'x = 10\xc2\xb5m;', "E3 p.qasm:1:7 token"),
    (b'x = 10\xc2\xb5s;', "E6 p.qasm:1:5 profile timing"), (b'x = \xcf\x80 + \xcf\x84 \xe2\x84\x87;', "E6 p.qasm:1:11 profile euler"),
    (b'// \xcf\x80 \xe2\x84', "E1 p.qasm utf8 6"), (b'//\xe2\x84;', "E1 p.qasm utf8 2"), (b'h q;\xf0\x9f\x92;', "E1 p.qasm utf8 4"),
    (b'h\xc0\x80', "E1 p.qasm utf8 1"), (b'h q;\xed\xa0\x80', "E1 p.qasm utf8 4"), (b'h q;\x80', "E1 p.qasm utf8 4"),
    (b'\xf4\x90\x80\x80', "E1 p.qasm utf8 0"), (b'? h\xff', "E1 p.qasm utf8 3"), (b'h h h ?', "E3 p.qasm:1:7 token"),
    (b'float f; ?', "E3 p.qasm:1:10 token"), (b'x q', "E4 p.qasm:1:4 syntax"), (b'x q\n', "E4 p.qasm:2:1 syntax"),
    (b'float f;', "E6 p.qasm:1:1 profile float"), (b'h q h float', "E4 p.qasm:1:5 syntax"), (b'\n @bind x q;', "E6 p.qasm:2:2 profile annotation"),
]

# Refusals, each with its line.
REFUSALS = [
    ("E1 p.qasm 0", "E1 p.qasm utf8 0"), ("E2 p.qasm", "E2 p.qasm long"), ("E3 0 1 7", "E3 p.qasm:1:7 token"),
    ("E4 0 4 4", "E4 p.qasm:4:4 syntax"), ("E5 1 1 77", "E5 mine.inc:1:77 nest"), ("E6 0 3 1 Float", "E6 p.qasm:3:1 profile float"),
    ("E7 0 1 1", "E7 p.qasm:1:1 version"), ("E8 0 4 1 x", "E8 p.qasm:4:1 name x"), ("E9 0 4 1 x", "E9 p.qasm:4:1 twice x"),
    ("E10 1 2 3", "E10 mine.inc:2:3 type"), ("E11 0 2 3 Loop", "E11 p.qasm:2:3 form loop"),
    ("E12 0 2 3 Divide", "E12 p.qasm:2:3 const divide"), ("E13 0 4 1 -536870912", "E13 p.qasm:4:1 angle -536870912"),
    ("E14 0 4 1 2 3", "E14 p.qasm:4:1 arity 2 3"), ("E15 17", "E15 qubits 17"), ("E16 1025", "E16 slots 1025"),
    ("E17 2097158", "E17 size 2097158"), ("E18 2 4 1", "E18 :4:1 include"), ("E19 a Missing", "E19 a missing"),
    ("OutOfMemory", "M1 memory"),
    # the greatest numbers, and names that aren't ASCII
    ("E1 π.qasm 18446744073709551615", "E1 π.qasm utf8 18446744073709551615"), ("E2 θ", "E2 θ long"),
    ("E3 65535 4294967295 4294967295", "E3 :4294967295:4294967295 token"), ("E8 1 10 20 naïve", "E8 mine.inc:10:20 name naïve"),
    ("E13 1 1 1 9223372036854775807", "E13 mine.inc:1:1 angle 9223372036854775807"),
    ("E13 1 1 1 -9223372036854775808", "E13 mine.inc:1:1 angle -9223372036854775808"),
    ("E14 0 1 1 4294967295 0", "E14 p.qasm:1:1 arity 4294967295 0"), ("E15 4294967295", "E15 qubits 4294967295"),
    ("E16 4294967295", "E16 slots 4294967295"), ("E17 18446744073709551615", "E17 size 18446744073709551615"),
]

FEATURE_WORDS = {
    "Float": "float", "Complex": "complex", "Duration": "duration", "Stretch": "stretch", "Delay": "delay", "Box": "box",
    "DurationOf": "durationof", "Cal": "cal", "DefCal": "defcal", "DefCalGrammar": "defcalgrammar", "Extern": "extern",
    "Pragma": "pragma", "Euler": "euler", "Switch": "switch", "Case": "case", "Default": "default", "Decimal": "decimal",
    "Timing": "timing", "Imaginary": "imaginary", "Hardware": "hardware", "Wide": "wide", "Dim": "dim", "Hash": "hash",
    "Annotation": "annotation",
}

CAUSES = ["Loop", "Return", "Target", "Qubit", "Register", "Call", "Dimensions", "Variable", "Divide", "Exact", "Range", "Missing", "Bad", "Unknown"]

# Texts of the number 1 and of the number 0 that are refused, each with its line.
NUMBERED = [
    (b"\xff", 1, "E1 p.qasm utf8 0"), (b"h q; \xc3", 1, "E1 p.qasm utf8 5"), (b"h q; /*", 1, "E3 mine.inc:1:6 token"),
    (b"h q", 1, "E4 mine.inc:1:4 syntax"), (b"delay[10ns] q;", 1, "E6 mine.inc:1:1 profile delay"), (b"h q; /*", 3, "E3 :1:6 token"),
    (b"h q", 65535, "E4 :1:4 syntax"),
]

# An assignment of 1 with a text repeated before it, and another behind it: how often, and the line of the refusal.
NESTED = [
    ("(", ")", 64, ""), ("(", ")", 65, "E5 p.qasm:1:77 nest"), ("(", "", 100000, "E5 p.qasm:1:77 nest"),
    ("-", "", 1000, "E5 p.qasm:1:77 nest"), ("a[", "", 1000, "E5 p.qasm:1:142 nest"), ("f(", "", 1000, "E5 p.qasm:1:142 nest"),
    ("2**", "", 1000, "E5 p.qasm:1:207 nest"), ("1+", "", 255, ""), ("1+", "", 256, ""), ("1+", "", 257, "E5 p.qasm:1:525 nest"),
    ("1+", "", 1000, "E5 p.qasm:1:525 nest"),
]

# A pattern that opens a level so many columns before the next token, the text behind it, and the column of the token at level 65.
LEVELS = [
    ("(", ")", 66), ("-", "", 66), ("!", "", 66), ("a**", "", 196), ("f(", ")", 131), ("a[", "]", 131), ("a[0,", "]", 259),
    ("int[", "](1)", 261), ("bool(", ")", 326), ("sizeof(b,", ")", 584),
]

# Operands with an operator behind each, what stands behind them all, how often, and the column of the 257th operator.
LONG = [("1+", "1", 256, None), ("1+", "1", 257, 514), ("1+", "f(-1)", 255, None), ("1+", "a[-1, !b]", 255, 517), ("1*", "2**3**4", 255, 515)]

# Texts with their trees, written by hand.
TREES = [
    ("OPENQASM 3; h q;", " (Program [ (Version 0:1:1 (Integer 3)) ] [ (Statement 0:1:13 (Gate (GateCall [ ] (Named h none) [ (Operand q none) ]))) ] 0:1:17)"),
    ("OPENQASM 3.0;\n", " (Program [ (Version 0:1:1 (Decimal 3.0)) ] [ ] 0:2:1)"),
    (" ", " (Program [ ] [ ] 0:1:2)"),
    ("if (a)\n if (b) x = 1; else y = 2;",
     " (Program [ ] [ (Statement 0:1:1 (If (Name a [ ]) [ (Statement 0:2:2 (If (Name b [ ])"
     " [ (Statement 0:2:9 (Assignment (Target x [ ]) (Value (Whole 1)))) ]"
     " [ (Statement 0:2:21 (Assignment (Target y [ ]) (Value (Whole 2)))) ])) ] none)) ] 0:2:27)"),
    ("x = a + b * c;",
     " (Program [ ] [ (Statement 0:1:1 (Assignment (Target x [ ])"
     " (Value (Binary Add (Name a [ ]) (Binary Mul (Name b [ ]) (Name c [ ])))))) ] 0:1:15)"),
    ("x[1] -= (a + b) * c;",
     " (Program [ ] [ (Statement 0:1:1 (CompoundAssignment Sub (Target x [ [ (At (Whole 1)) ] ])"
     " (Binary Mul (Parenthesized (Binary Add (Name a [ ]) (Name b [ ]))) (Name c [ ])))) ] 0:1:21)"),
    ("bit[2] c = measure q[0:1];",
     " (Program [ ] [ (Statement 0:1:1 (Declaration (Bit (Whole 2)) c"
     " (Measure (Operand q (Range (Whole 0) none (Whole 1)))))) ] 0:1:27)"),
    ("ctrl @ negctrl(2) @ pow(-1) @ inv @ gphase(pi) q;",
     " (Program [ ] [ (Statement 0:1:1 (Gate (GateCall [ (Ctrl none) (NegCtrl (Whole 2)) (Pow (Unary Neg (Whole 1))) (Inv) ]"
     " (GlobalPhase (Pi)) [ (Operand q none) ]))) ] 0:1:50)"),
    ("gate g() q {\n}\ngate h q, r { barrier q; }",
     " (Program [ ] [ (Gate 0:1:1 g [ ] [ q ] [ ]) (Gate 0:3:1 h none [ q r ]"
     " [ (GateStatement 0:3:15 (Barrier [ q ])) ]) ] 0:3:27)"),
    ("def f(int a, qubit[2] q) -> bool { return a == 1; }",
     " (Program [ ] [ (Definition 0:1:1 f [ (Classical (Int none) a) (Qubits (Whole 2) q) ] (Bool)"
     " [ (Statement 0:1:36 (Return (Value (Binary Eq (Name a [ ]) (Whole 1))))) ]) ] 0:1:52)"),
    ("array[uint[4], 2, 1] a = {{1}, 2};",
     " (Program [ ] [ (Array 0:1:1 (Uint (Whole 4)) a [ (Whole 2) (Whole 1) ] [ (List [ (Value (Whole 1)) ]) (Value (Whole 2)) ]) ] 0:1:35)"),
    ("for int i in {1, 2} measure q -> c;",
     " (Program [ ] [ (Statement 0:1:1 (For (Int none) i (Set [ (Whole 1) (Whole 2) ])"
     " [ (Statement 0:1:21 (Measure (Operand q none) (Target c [ ]))) ])) ] 0:1:36)"),
    ("let a = q[{0, 1}] ++ r;",
     " (Program [ ] [ (Statement 0:1:1 (Alias a [ (Operand q (Set [ (Whole 0) (Whole 1) ])) (Operand r none) ])) ] 0:1:24)"),
    ("qubit[2] q; qreg r[2]; qubit s; qreg t;",
     " (Program [ ] [ (Qubit 0:1:1 (Whole 2) q) (QubitRegister 0:1:13 r (Whole 2)) (Qubit 0:1:24 none s)"
     " (QubitRegister 0:1:33 t none) ] 0:1:40)"),
    ("\nif (!b) x q;\n",
     " (Program [ ] [ (Statement 0:2:1 (If (Unary Not (Name b [ ]))"
     " [ (Statement 0:2:9 (Gate (GateCall [ ] (Named x none) [ (Operand q none) ]))) ] none)) ] 0:3:1)"),
    ("input angle a; output bit b; include \"c\";",
     " (Program [ ] [ (Input 0:1:1 (Angle none) a) (Output 0:1:16 (Bit none) b) (Include 0:1:30 c) ] 0:1:42)"),
]

# More texts, whose trees the reader writes: each production with and without its parts, over lines.
MORE = [
    "", "\n\n", "// nothing", "OPENQASM 0x3;", "OPENQASM 3.10;", "OPENQASM 18446744073709551615;", "OPENQASM 0b11;", "OPENQASM .5e1;",
    "include \"stdgates.inc\";\ninclude 'say\"s';\ninclude \"\";\ninclude '0_1';",
    "input bool a;\ninput bit b;\ninput bit[2] c;\ninput int d;\ninput uint[n + 1] e;\ninput angle[4] f;",
    "output bool a;\n\n  output bit[2] b;\noutput int[8] c;\noutput uint d;\noutput angle[n] e;",
    "array[bool, 2] a;\narray[bit[2], 1] b;\narray[angle, 1, 2, 3] c = {{{1, 2, 3}, {a, b, -c}}};",
    "array[int, 1] a = {{{{1}}}, 2, {(3)}};", "gate g q { }", "gate g() q, r, s { x q; }", "gate g(a) q { U(a, 0, -a) q; inv @ g(a) q; }",
    "gate g(a, b, c) q, r {\n  barrier;\n  barrier q;\n  barrier q, r;\n  gphase(a / 2);\n  ctrl @ gphase(b) q;\n  pow(2) @ x() q, r[0];\n}",
    "def f() { }", "def f() -> bit[2] { }", "def f(bool a) -> bool { return a; }",
    "def f(bit[2] a, int b, uint[c] d, angle e, qubit q, qubit[2] r) -> angle[8] {\n  x q;\n  if (a) return e; else { return; }\n}",
    "bool a;\nbool b = true;\nbit c;\nbit[2] d = \"01\";\nint e;\nint[8] f = -1;\nuint g;\nuint[n] h = 2;\nangle i;\nangle[4] j = pi / 2;",
    "bit a = measure q;\nbit[2] b = measure q[0:1];\nint[8] c = f(1);", "creg c;\ncreg d[2];\ncreg e[n * 2];",
    "const bool a = false;\nconst bit[2] b = \"10\";\nconst int c = 1;\nconst uint[8] d = c;\nconst angle e = tau;",
    "let a = b;\nlet c = d ++ e ++ f;\nlet g = h[1] ++ i[0:2] ++ j[{0, 2}] ++ k[-1];",
    "a = 1;\na[0] = b;\na[0][1] = b[2][3];\na[0, 1][2, 3] = b;\na[1:2] = c;\na[{1, 2}] = c;\na = measure q;\na[0] = measure q[1];",
    "measure q;\nmeasure q[0];\nmeasure q -> c;\nmeasure q[0:1] -> c[1];\nmeasure q[{0}] -> c[0, 1][2];",
    "reset q;\nreset q[1];\nreset q[:];", "barrier;\nbarrier q;\nbarrier q, r[0], s[0:1];", "U(1, 2, 3) q;\nx q[0], r;\ng() q;\ng(a) q[0:2:4];",
    "gphase(1);\ngphase(a) q;\ngphase(pi) q, r[0];\ninv @ gphase(1);", "inv @ x q;\npow(2) @ x q;\nctrl @ x q, r;\nctrl(2) @ x q, r, s;\nnegctrl @ x q, r;\nnegctrl(n) @ x(1) q;",
    "f();\nf(1);\nf(1, a, -b);\nf((a));", "if (a) x q;", "if (a) { }", "if (a) { x q; y q; }", "if (a) x q; else y q;", "if (a) { } else { }",
    "if (a) x q; else { y q; z q; }", "if (a) { x q; } else y q;", "if (a) x q; else if (b) y q; else z q;", "if (a) { if (b) x q; } else y q;",
    "if (a) if (b) if (c) x q; else y q; else z q;", "if (a) while (b) if (c) x q; else y q;", "if (a) for int i in b if (c) x q; else y q;",
    "while (a) x q;", "while (a) { }", "while (a < 1) { break; continue; }", "for int i in [0:2] x q[i];", "for uint[8] i in [0:2:8] { x q; y q; }",
    "for int i in [:] { }", "for int i in [a:] { }", "for int i in [:b] { }", "for int i in [a:b:] { }", "for int i in [:a:b] { }",
    "for int i in {1} { }", "for bit b in {0, 1, c} x q;", "for bool b in c { end; }", "for angle a in b break;",
    "break;\ncontinue;\nend;\nreturn;", "return a;\nreturn measure q;\nreturn measure q[0];\nreturn f(1);\nreturn (a);\nreturn -a;",
    "x\n  q\n  ;\n\n  /* a comment\n  of two lines */ y q; // another\nz q;", "x = 1 /**/ + /* 2 + */ 3; // + 4",
]

BINARY = ["||", "&&", "|", "^", "&", "==", "!=", "<", "<=", ">", ">=", "<<", ">>", "+", "-", "*", "/", "%", "**"]

# What each token of a program is replaced by in turn.
SPELLINGS = ["@", "else", "}", "{", ";", "(", ")", "[", "]", "-", "**", "x", "1", "measure", "barrier", "int", ":", ",", "=", "\"01\"", "2.5", "#dim"]

# What stands in every gap of a sprawling text.
GAP = " /* a \n * b **/\t// c π\r\n  "


# ---- the rows of each table

def braces(tree):
    """An expression as the tables write it."""
    signs = {name: sign for level in STRENGTHS for sign, name in level.items()}
    signs["Pow"] = "**"
    variant, parts = tree[0], tree[1:]
    if variant == "Whole":
        return str(parts[0])
    if variant == "BitText":
        return "%d/%d" % parts
    if variant in ("Pi", "Tau"):
        return variant.lower()
    if variant == "Bool":
        return "true" if parts[0] else "false"
    if variant == "Parenthesized":
        return "(" + braces(parts[0]) + ")"
    if variant == "Name":
        return parts[0] + "".join("[" + "".join(map(braces_of_index, indexes)) + "]" for indexes in parts[1])
    if variant == "Call":
        return parts[0] + "(" + "".join(braces(argument) + "," for argument in parts[1]) + ")"
    if variant == "Cast":
        size = parts[0][1] if len(parts[0]) > 1 else None
        return parts[0][0].lower() + ("[" + braces(size) + "]" if size else "") + "<" + braces(parts[1]) + ">"
    if variant == "SizeOf":
        return "sizeof(" + parts[0] + ("," + braces(parts[1]) if parts[1] else "") + ")"
    if variant == "Unary":
        return "{" + {name: sign for sign, name in UNARY.items()}[parts[0]] + braces(parts[1]) + "}"
    return "{" + braces(parts[1]) + signs[parts[0]] + braces(parts[2]) + "}"


def braces_of_index(index):
    if index[0] == "At":
        return braces(index[1]) + ","
    if index[0] == "Set":
        return "{" + "".join(braces(place) + "," for place in index[1]) + "},"
    start, step, end = (braces(part) if part else "" for part in index[1:])
    return start + (":" + step if step else "") + ":" + end + ","


def expression_rows():
    for text, tree, count in OPERATORS + PRIMARIES:
        found, told = expr_read(text, 0, 0)
        want((found, braces(told)), (count, tree), text)
        expr_row(text)
        beginnings_row(text)
    for text, depth, column in WRONG:
        expr_row(text, 0, depth, " Syntax 0:1:%d" % column)
    for text, depth, column in EXPR_TOO_DEEP:
        expr_row(text, 0, depth, " Nest 0:1:%d" % column)
    for text, depth, column, feature in LEFT_OUT:
        expr_row(text, 0, depth, " NotInProfile %s 0:1:%d" % (feature, column))
    for before, behind, column in LEVELS:
        expr_row([(64, before), "1", (64, behind)])
        expr_row([(65, before), "1", (65, behind)], 0, 0, " Nest 0:1:%d" % column)
    expr_row([(65, "("), "", (65, ")")], 0, 0, " Syntax 0:1:66")
    for operand, last, count, column in LONG:
        expr_row([(count, operand), last], 0, 0, None if column is None else " Nest 0:1:%d" % column)


def operator_rows():
    """Every two operators side by side, in both orders, and every unary one beside each."""
    for first in BINARY:
        for second in BINARY:
            expr_row("a %s b %s c" % (first, second))
    for unary in UNARY:
        for binary in BINARY:
            expr_row("%s a %s b" % (unary, binary))
            expr_row("a %s %s b %s c" % (binary, unary, binary))
        for other in UNARY:
            expr_row("%s %s a" % (unary, other))
        expr_row("(%s a) ** b" % unary)
        expr_row("a ** %s b ** %s c ** d" % (unary, unary))
    for binary in BINARY:
        expr_row("a %s (b %s c)" % (binary, binary))
        expr_row("(a %s b) %s c" % (binary, binary))
    expr_row(" ".join("a " + operator for operator in BINARY) + " a")
    expr_row(" ".join("a " + operator for operator in reversed(BINARY)) + " a")
    expr_row("a + b; c * d", 4)
    expr_row("(x, y[1])", 3)
    expr_row("a", 1)
    expr_row("a", 7)


FORM_ROWS = [
    ("label", 0, 1), ("names", 0, 3), ("in_parentheses", 3, 6), ("size", 6, 9), ("arguments", 9, 14), ("scalar", 14, 18), ("set", 18, 23),
    ("indexes", 23, 26), ("all_indexes", 23, 29), ("expression", 29, 32), ("expressions", 29, 34), ("index", 34, 37), ("range", 34, 37),
]


def form_rows():
    text = "a, b (1) [2] (3, 4) uint[5] {6, 7} [8][9] 1 + 2, 3 1:2"
    for form, at, behind in FORM_ROWS:
        row("form %s %d" % (form, at), text, str(behind))
    for form, at, fault in [("label", 3, 3), ("names", 1, 1), ("in_parentheses", 9, 11), ("size", 23, None), ("set", 0, 0), ("range", 29, 32)]:
        row("form %s %d" % (form, at), text, "26" if fault is None else "Syntax(%d)" % fault)


def program_rows():
    for text, tree in TREES:
        parse_row(text, tree)
    for text in MORE + [text for text, _ in PROGRAMS] + FORMS:
        answer = parsed_text(text)
        if isinstance(answer, str):
            sys.exit("no program: %r %s" % (text, answer))
        parse_row(text)
    for text in FORMS:
        parse_row(GAP + "".join(token.spelling + GAP for token in tokens_of(text)))
    for sign in COMPOUND:
        parse_row("a %s b + 1;" % sign)
        parse_row("a[0][1:2] %s -b;" % sign)


def changed_rows():
    for text, programs in PROGRAMS:
        ended_row(text, programs)
        changed_row(text, "$0", lambda token: " NotInProfile Hardware " + place_text(token.place))
        changed_row(text, "'x'", lambda token: " program" if token.kind in ("Text", "BitText") else " Syntax " + place_text(token.place))
        for spelling in SPELLINGS:
            changed_row(text, spelling)


def refused_rows():
    for text, column in STOPPERS + NO_ANNOTATIONS:
        outcome_row(text, " Syntax 0:1:%d" % column)
    for text, column in ANNOTATIONS:
        outcome_row(text, " NotInProfile Annotation 0:1:%d" % column)
    for word, feature in WORDS_LEFT_OUT:
        outcome_row("x q; " + word, " NotInProfile %s 0:1:6" % feature)
        outcome_row("x = %s;" % word, " NotInProfile %s 0:1:5" % feature)
    for before, part, count, behind in ACCEPTED:
        outcome_row([before, (count, part), behind], " program")
    for before, part, count, behind, column in TEXT_TOO_DEEP:
        outcome_row([before, (count, part), behind], " Nest 0:1:%d" % column)
    for before, part, count, behind, column in STOPPED:
        outcome_row([before, (count, part), behind], " Syntax 0:1:%d" % column)
    opened = [(64, "if (true) {"), "for int i in a { "]
    outcome_row(opened + [(65, "}")], " program")
    outcome_row(opened + ["@bind"], " NotInProfile Annotation 0:1:722")


LIMITS = [
    ("", "while (a) ", "end;", ""), ("", "while (a) {", "end;", "}"), ("", "if (a) end; else ", "end;", ""), ("", "for int i in a ", "end;", ""),
    ("def f() {", "if (a) {", "end;", "}"), ("gate g q { x(", "(", "1", ")"), ("array[int, ", "(", "1", ")"), ("array[int, 1] a = ", "{", "1", "}"),
    ("x = ", "~", "1", ""), ("x = ", "a**", "1", ""), ("x = ", "f(", "", ")"), ("x = ", "a[:", "", "]"), ("x = ", "a[{", "1", "}]"), ("f(", "(", "1", ")"),
    ("gphase(", "(", "1", ")"), ("pow(", "(", "1", ")"), ("qubit[", "(", "1", ")"), ("bit[", "(", "1", ")"),
]

ENDS = {"gate g q { x(": ") q; }", "array[int, ": "] a;", "array[int, 1] a = ": ";", "x = ": ";", "f(": ");", "gphase(": ");", "pow(": ") @ x q;",
        "qubit[": "] q;", "bit[": "] b;", "def f() {": "}"}


def hostile_rows():
    """Both limits on each side, each beginning of a text, and texts that aren't closed."""
    for before, part, inner, close in LIMITS:
        for count in (31, 32, 33, 62, 63, 64, 65, 66, 1000):
            outcome_row([before, (count, part), inner, (count, close), ENDS.get(before, "")])
    for before in ("x = ", "if (", "while (", "x += ", "return ", "f(", "int a = ", "qubit[", "const int a = "):
        for count in (254, 255, 256, 257, 258):
            for operator in ("+ ", "|| ", "** ", "- -"):
                outcome_row([before, "1 ", (count, operator + "1 ")])
    for count in (127, 128, 129):
        outcome_row(["x = 1", (count, " + f(-1)"), ";"])
        outcome_row(["x = a[", (count, "1 + "), "1, 1", (256 - count, " * 1"), "] + 1;"])
        outcome_row(["f(1", (count, " + 1"), ", 1", (count, " + 1"), ");"])
    for text in ("OPENQASM 3.0;\ninclude \"a\";\ngate g(a) q { ctrl @ x(a) q; }\ndef f(int[8] a) -> bit { return measure q[0]; }",
                 "qubit[2] q; if (a <= 1) { x[0] **= -b[1:2]; } else for int i in [0:2] /* */ y q;",
                 "array[int[8], 2] z = {1, {2}}; let a = q[{0, 1}] ++ r; while (!b) b = measure q; f(\"0_1\", sizeof(a, 1)); // end"):
        for count in range(len(text)):
            outcome_row(text[:count])


def read_rows():
    for text, file, line in NUMBERED:
        read_row(text, file, line)
    read_row(b"h q;\n// no more\n", 0,
             " (Program [ ] [ (Statement 0:1:1 (Gate (GateCall [ ] (Named h none) [ (Operand q none) ]))) ] 0:3:1)")
    read_row(b"OPENQASM 3;\nh q;", 2)
    for text, line in BYTES:
        read_row(text, 0, line or None)
    text = b"qubit q; bit c;"
    for count in range(16):
        told = None if count in (0, 8, 9, 15) else "E4 p.qasm:1:%d syntax" % (count + 1)
        read_row(text[:count], 0, told)
    for before, behind, count, line in NESTED:
        read_row([b"int i; i = ", (count, before.encode()), b"1", (count, behind.encode()), b";"], 0, line or None)
    # the longest text that is read, and one byte more, which nothing else is said of
    read_row([(1048576, b"\n")])
    read_row([(1048577, b"\n")], 0, "E2 p.qasm long")
    read_row([(1048576, b"\n"), b"\xff"], 0, "E2 p.qasm long")
    read_row([(1048575, b"\n"), b"\xff"], 0, "E1 p.qasm utf8 1048575")
    read_row([b"//", (1000, "π".encode()), b"\xcf"], 0, "E1 p.qasm utf8 2002")


def refusal_rows():
    for call, line in REFUSALS:
        row("refusal " + call, "", line)
    for feature, word in FEATURE_WORDS.items():
        row("refusal E6 1 2 3 " + feature, "", "E6 mine.inc:2:3 profile " + word)
    for cause in CAUSES:
        row("refusal E11 1 2 3 " + cause, "", "E11 mine.inc:2:3 form " + cause.lower())
        row("refusal E12 1 2 3 " + cause, "", "E12 mine.inc:2:3 const " + cause.lower())
        row("refusal E19 a " + cause, "", "E19 a " + cause.lower())
    for call in ("refusal E20 0 1 1", "refusal E8 0 1 1", "refusal E6 0 1 1 Nothing", "refusal", "nothing", "", "expr 0 65", "read x"):
        row(call, "", "no row")
    row("parse", "", " (Program [ ] [ ] 0:1:1)")
    row("outcome", b"\xff", "no characters")
    row("outcome", [(2000000, "("), ";"], "too long")


def main():
    counts = []
    for rows in (expression_rows, operator_rows, form_rows, program_rows, changed_rows, refused_rows, hostile_rows, read_rows, refusal_rows):
        before = len(ROWS)
        rows()
        counts.append("%s %d" % (rows.__name__, len(ROWS) - before))
    folder = os.path.dirname(os.path.abspath(__file__))
    for name, part in (("stdin", 0), ("stdout", 1)):
        with open(os.path.join(folder, name), "w", encoding="utf-8", newline="") as out:
            out.write("".join(entry[part] + "\n" for entry in ROWS))
    print(", ".join(counts), "together", len(ROWS))


if __name__ == "__main__":
    main()
