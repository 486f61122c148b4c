"""Reads texts of the language into the syntax trees that the definitions are about. It reads texts that the grammar spells, without
decimals and other tokens that are refused by name: the definitions of typing and meaning are held against programs, not the reader."""

import re

from antt import NONE, Made, Record, some

SYMBOLS = """-> ++ **= <<= >>= == != <= >= << >> ** && || += -= *= /= %= &= |= ^= - + * / % = < > ( ) [ ] { } ; : , @ & | ^ ! ~""".split()
TOKEN = re.compile("|".join([
    r"(?P<blank>[ \t\r\n]+|//[^\n]*|/\*.*?\*/)",
    r"(?P<number>0[xX][0-9a-fA-F_]+|0[bB][01_]+|0[oO][0-7_]+|\d+\.\d*|\d[\d_]*)",
    r"(?P<name>[A-Za-z_][A-Za-z0-9_]*)",
    r"(?P<constant>[πτ])",
    r"""(?P<text>"[^"]*"|'[^']*')""",
    f"(?P<symbol>{'|'.join(map(re.escape, SYMBOLS))})",
]), re.S)

LEVELS = [["||"], ["&&"], ["|"], ["^"], ["&"], ["==", "!="], ["<", "<=", ">", ">="], ["<<", ">>"], ["+", "-"], ["*", "/", "%"]]
INFIX = {"||": "LogicalOr", "&&": "LogicalAnd", "|": "Or", "^": "Xor", "&": "And", "==": "Eq", "!=": "Ne", "<": "Lt", "<=": "Le", ">": "Gt",
         ">=": "Ge", "<<": "Shl", ">>": "Shr", "+": "Add", "-": "Sub", "*": "Mul", "/": "Div", "%": "Rem", "**": "Pow"}
COMPOUND = {"+=": "Add", "-=": "Sub", "*=": "Mul", "/=": "Div", "%=": "Rem", "**=": "Pow", "&=": "And", "|=": "Or", "^=": "Xor",
            "<<=": "Shl", ">>=": "Shr"}
PREFIX = {"!": "Not", "~": "Turn", "-": "Neg"}
TYPES = {"bool": "Bool", "bit": "Bit", "int": "Int", "uint": "Uint", "angle": "Angle"}
MODIFIERS = {"inv": "Inv", "pow": "Pow", "ctrl": "Ctrl", "negctrl": "NegCtrl"}


class Unread(Exception):
    """The text has what this reader doesn't read."""


def tokens_of(text):
    """Each token with its kind, its line and its column; at the end one of kind `end`."""
    tokens, at, line, column = [], 0, 1, 1
    while at < len(text):
        found = TOKEN.match(text, at)
        if not found:
            raise Unread(f"{line}:{column}")
        token = found.group(0)
        if found.lastgroup != "blank":
            tokens.append((found.lastgroup, token, line, column))
        line += token.count("\n")
        column = len(token) - token.rfind("\n") if "\n" in token else column + len(token)
        at = found.end()
    return tokens + [("end", "", line, column)]


def codes(text):
    return tuple(text.encode())


def optional(value):
    return NONE if value is None else some(value)


class Program:
    """A text that is being read, with the texts that it includes: `names` are those of the texts in the order of their numbers."""

    def __init__(self, text, files=None, names=None):
        self.tokens = tokens_of(text)
        self.at = 0
        self.files = files or {}
        self.names = names if names is not None else ["p"]
        self.number = len(self.names) - 1
        self.versions = []

    # -- tokens

    @property
    def now(self):
        return self.tokens[self.at][1]

    @property
    def kind(self):
        return self.tokens[self.at][0]

    def next(self):
        return self.tokens[min(self.at + 1, len(self.tokens) - 1)][1]

    def take(self, wanted=None):
        token = self.now
        if wanted not in (None, token):
            raise Unread(f"{wanted} is wanted before {token}")
        self.at += 1
        return token

    def takes(self, token):
        """Takes the token where it stands there."""
        found = self.kind != "text" and self.now == token
        self.at += found
        return found

    def place(self):
        _, _, line, column = self.tokens[self.at]
        return Record(file=self.number, line=line, column=column)

    def name(self):
        if self.kind != "name":
            raise Unread("a name is wanted")
        return codes(self.take())

    def listed(self, read, end):
        """Parts with commas between, up to the end, which is taken."""
        parts = []
        while self.now != end:
            parts.append(read())
            if not self.takes(","):
                break
        self.take(end)
        return tuple(parts)

    # -- expressions

    def expression(self, level=0):
        if level == len(LEVELS):
            return self.unary()
        left = self.expression(level + 1)
        while self.kind == "symbol" and self.now in LEVELS[level]:
            operator = INFIX[self.take()]
            left = Made("Binary", (Made(operator), left, self.expression(level + 1)))
        return left

    def unary(self):
        if self.kind == "symbol" and self.now in PREFIX:
            operator = PREFIX[self.take()]
            return Made("Unary", (Made(operator), self.unary()))
        left = self.primary()
        if self.takes("**"):
            return Made("Binary", (Made("Pow"), left, self.unary()))
        return left

    def primary(self):
        if self.takes("("):
            inside = self.expression()
            self.take(")")
            return Made("Parenthesized", (inside,))
        if self.kind in ("number", "text"):
            return self.literal()
        if self.now in ("pi", "π", "tau", "τ"):
            return Made("Pi" if self.take() in ("pi", "π") else "Tau")
        if self.now in ("true", "false"):
            return Made("Bool", (self.take() == "true",))
        if self.takes("sizeof"):
            return self.size_of()
        if self.now in TYPES:
            return self.cast()
        name = self.name()
        if self.takes("("):
            return Made("Call", (name, self.listed(self.expression, ")")))
        return Made("Name", (name, self.brackets()))

    def literal(self):
        if self.kind == "number":
            text = self.take().replace("_", "")
            if "." in text:
                raise Unread("a decimal")
            return Made("Whole", (int(text, 0) if text[:2].lower() in ("0x", "0b", "0o") else int(text),))
        digits = self.take()[1:-1].replace("_", "")
        if not re.fullmatch("[01]+", digits):
            raise Unread("a text")
        return Made("BitText", (int(digits, 2), len(digits)))

    def size_of(self):
        self.take("(")
        name = self.name()
        dimension = self.expression() if self.takes(",") else None
        self.take(")")
        return Made("SizeOf", (name, optional(dimension)))

    def cast(self):
        to = self.scalar()
        self.take("(")
        operand = self.expression()
        self.take(")")
        return Made("Cast", (to, operand))

    def scalar(self):
        kind = TYPES[self.take()]
        return Made(kind) if kind == "Bool" else Made(kind, (optional(self.size()),))

    def size(self):
        """A size in square brackets, where there is one."""
        if not self.takes("["):
            return None
        size = self.expression()
        self.take("]")
        return size

    def range_from(self, start):
        self.take(":")
        middle = None if self.now in (":", "]") else self.expression()
        step, end = None, middle
        if self.takes(":"):
            step, end = middle, None if self.now == "]" else self.expression()
        return Record(start=optional(start), step=optional(step), end=optional(end))

    def index(self):
        if self.takes("{"):
            return Made("Set", (self.listed(self.expression, "}"),))
        start = None if self.now == ":" else self.expression()
        if self.now == ":":
            return Made("Range", (self.range_from(start),))
        return Made("At", (start,))

    def brackets(self):
        groups = []
        while self.takes("["):
            groups.append(self.listed(self.index, "]"))
        return tuple(groups)

    # -- parts of statements

    def operand(self):
        name, index = self.name(), None
        if self.takes("["):
            index = self.index()
            self.take("]")
        return Record(name=name, index=optional(index))

    def target(self):
        return Record(name=self.name(), brackets=self.brackets())

    def right(self):
        if self.takes("measure"):
            return Made("Measure", (self.operand(),))
        return Made("Value", (self.expression(),))

    def body(self):
        if not self.takes("{"):
            return (self.statement(),)
        statements = []
        while self.now != "}":
            statements.append(self.statement())
        self.take("}")
        return tuple(statements)

    def modifier(self):
        word, argument = MODIFIERS[self.take()], None
        if self.takes("("):
            argument = self.expression()
            self.take(")")
        self.take("@")
        if word == "Inv":
            return Made("Inv")
        return Made(word, (argument if word == "Pow" else optional(argument),))

    def gate_call(self):
        modifiers = []
        while self.now in MODIFIERS:
            modifiers.append(self.modifier())
        if self.takes("gphase"):
            self.take("(")
            gate = Made("GlobalPhase", (self.expression(),))
            self.take(")")
        else:
            name = self.name()
            gate = Made("Named", (name, optional(self.listed(self.expression, ")") if self.takes("(") else None)))
        return Record(modifiers=tuple(modifiers), gate=gate, operands=self.listed(self.operand, ";"))

    # -- statements

    def statement(self):
        place = self.place()
        return Record(place=place, form=self.form())

    def form(self):
        """The form of a statement, by its first token."""
        word = self.now
        if word in TYPES and self.next() != "(":
            return self.declaration()
        simple = {"creg": self.bit_register, "const": self.constant, "let": self.alias, "measure": self.measure, "reset": self.reset,
                  "barrier": self.barrier, "if": self.branch, "while": self.while_loop, "for": self.for_loop, "return": self.returned}
        if word in simple:
            return simple[word]()
        if word in ("break", "continue", "end"):
            self.take()
            self.take(";")
            return Made(word.capitalize())
        if word in MODIFIERS or word == "gphase":
            return Made("Gate", (self.gate_call(),))
        return self.named()

    def named(self):
        """A call or an assignment, which begin with a name."""
        start = self.at
        name = self.name()
        if self.takes("("):
            arguments = self.listed(self.expression, ")")
            if self.takes(";"):
                return Made("Call", (name, arguments))
        self.at = start
        if self.next() == "(" or self.tokens[self.at + 1][0] == "name":
            return Made("Gate", (self.gate_call(),))
        target = self.target()
        if self.now in COMPOUND:
            operator = Made(COMPOUND[self.take()])
            value = self.expression()
            self.take(";")
            return Made("CompoundAssignment", (target, operator, value))
        self.take("=")
        return self.ended("Assignment", target, self.right())

    def ended(self, form, *parts):
        self.take(";")
        return Made(form, parts)

    def declaration(self):
        scalar, name = self.scalar(), self.name()
        return self.ended("Declaration", scalar, name, optional(self.right() if self.takes("=") else None))

    def bit_register(self):
        self.take("creg")
        return self.ended("BitRegister", self.name(), optional(self.size()))

    def constant(self):
        self.take("const")
        scalar, name = self.scalar(), self.name()
        self.take("=")
        return self.ended("Constant", scalar, name, self.expression())

    def alias(self):
        self.take("let")
        name = self.name()
        self.take("=")
        parts = [self.operand()]
        while self.takes("++"):
            parts.append(self.operand())
        return self.ended("Alias", name, tuple(parts))

    def measure(self):
        self.take("measure")
        operand = self.operand()
        return self.ended("Measure", operand, optional(self.target() if self.takes("->") else None))

    def reset(self):
        self.take("reset")
        return self.ended("Reset", self.operand())

    def barrier(self):
        self.take("barrier")
        return Made("Barrier", (self.listed(self.operand, ";"),))

    def condition(self):
        self.take()
        self.take("(")
        test = self.expression()
        self.take(")")
        return test

    def branch(self):
        test, body = self.condition(), self.body()
        return Made("If", (test, body, optional(self.body() if self.takes("else") else None)))

    def while_loop(self):
        test = self.condition()
        return Made("While", (test, self.body()))

    def for_loop(self):
        self.take("for")
        scalar, name = self.scalar(), self.name()
        self.take("in")
        if self.takes("["):
            values = Made("Range", (self.range_from(None if self.now == ":" else self.expression()),))
            self.take("]")
        elif self.takes("{"):
            values = Made("Set", (self.listed(self.expression, "}"),))
        else:
            values = Made("Name", (self.name(),))
        return Made("For", (scalar, name, values, self.body()))

    def returned(self):
        self.take("return")
        return self.ended("Return", optional(None if self.now == ";" else self.right()))

    # -- items

    def item(self):
        """The items that come from the next one: several where it includes another text."""
        forms = {"include": self.include, "input": self.outside, "output": self.outside, "qubit": self.qubits,
                 "qreg": self.quantum_register, "array": self.array, "gate": self.gate, "def": self.definition}
        if self.now in forms:
            return forms[self.now]()
        return [Made("Statement", (self.statement(),))]

    def include(self):
        place = self.place()
        self.take("include")
        name = self.take()[1:-1]
        self.take(";")
        if name == "stdgates.inc":
            return [Made("Include", (place, codes(name)))]
        if name not in self.files:
            raise Unread(f"no text {name}")
        self.names.append(name)
        inside = Program(self.files[name], self.files, self.names)
        items = inside.all_items()
        self.versions += inside.versions
        return items

    def outside(self):
        place, word = self.place(), self.take().capitalize()
        scalar, name = self.scalar(), self.name()
        return [self.ended(word, place, scalar, name)]

    def qubits(self):
        place = self.place()
        self.take("qubit")
        size = self.size()
        return [self.ended("Qubit", place, optional(size), self.name())]

    def quantum_register(self):
        place = self.place()
        self.take("qreg")
        name = self.name()
        return [self.ended("QubitRegister", place, name, optional(self.size()))]

    def array(self):
        place = self.place()
        self.take("array")
        self.take("[")
        scalar = self.scalar()
        self.take(",")
        dimensions = self.listed(self.expression, "]")
        name = self.name()
        value = self.array_list() if self.takes("=") else None
        return [self.ended("Array", Record(place=place, scalar=scalar, dimensions=dimensions, name=name, value=optional(value)))]

    def array_list(self):
        self.take("{")
        return self.listed(lambda: Made("List", (self.array_list(),)) if self.now == "{" else Made("Value", (self.expression(),)), "}")

    def gate(self):
        place = self.place()
        self.take("gate")
        name = self.name()
        parameters = self.listed(self.name, ")") if self.takes("(") else None
        qubits = self.listed(self.name, "{")
        body = []
        while not self.takes("}"):
            body.append(self.gate_statement())
        return [Made("Gate", (Record(place=place, name=name, parameters=optional(parameters), qubits=qubits, body=tuple(body)),))]

    def gate_statement(self):
        place = self.place()
        if self.takes("barrier"):
            return Record(place=place, form=Made("Barrier", (self.listed(self.name, ";"),)))
        return Record(place=place, form=Made("Call", (self.gate_call(),)))

    def parameter(self):
        if self.takes("qubit"):
            size = self.size()
            return Made("Qubits", (optional(size), self.name()))
        scalar = self.scalar()
        return Made("Classical", (scalar, self.name()))

    def definition(self):
        place = self.place()
        self.take("def")
        name = self.name()
        self.take("(")
        parameters = self.listed(self.parameter, ")")
        result = self.scalar() if self.takes("->") else None
        fields = {"place": place, "name": name, "parameters": parameters, "result": optional(result), "body": self.body()}
        return [Made("Definition", (Record(fields),))]

    def version(self):
        place = self.place()
        self.take("OPENQASM")
        text = self.take()
        self.take(";")
        number = Made("Decimal", (codes(text),)) if "." in text else Made("Integer", (int(text, 0),))
        self.versions.append(Record(place=place, number=number))

    def all_items(self):
        if self.now == "OPENQASM":
            self.version()
        items = []
        while self.kind != "end":
            items += self.item()
        return items

    def tree(self):
        items = self.all_items()
        return Record(versions=tuple(self.versions), items=tuple(items), end=self.place())
