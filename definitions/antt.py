"""An interpreter of the definitions in crates/*/specs.

It computes what the text of a definition says, on values of Python, so that definitions can be held against answers that were found in
another way. A proof says that code is as its definition; only a computed case says that the definition is as the language.

Values: a whole number without sign is an int, one with a sign an `Integer`, a truth value a bool, a list a tuple, a record a `Record`, a
pair a `Pair`, what a constructor makes a `Made`, and a function a `Function`. `word("Rattle.qt_value.specs.Results", "result_of")` gives
the value of a definition, and `call(f, x, y)` applies it. Types play no part: signatures and records' declarations are passed over.

Evaluation is strict. Words of the standard library are those of library.py; a definition may be replaced there by one in Python."""

import os
import re
import time

CRATES = os.path.join(os.path.dirname(os.path.dirname(os.path.abspath(__file__))), "crates")


# ---- values

class Made:
    """What a constructor makes of its parts."""
    __slots__ = ("name", "parts")

    def __init__(self, name, parts=()):
        self.name = name
        self.parts = tuple(parts)

    def __repr__(self):
        return self.name + (f"({', '.join(map(repr, self.parts))})" if self.parts else "")

    def __eq__(self, other):
        return isinstance(other, Made) and self.name == other.name and self.parts == other.parts

    def __hash__(self):
        return hash((self.name, self.parts))


class Integer:
    """A whole number with a sign: `pos n`, or `negsuc n`, which is −n − 1."""
    __slots__ = ("number",)

    def __init__(self, number):
        self.number = number

    def __repr__(self):
        return f"{self.number:+d}"

    def __eq__(self, other):
        return isinstance(other, Integer) and self.number == other.number

    def __hash__(self):
        return hash(self.number)


class Record(dict):
    """The fields of a record by their names."""


class Pair(list):
    """Two values or more."""


class Function:
    """A function of so many arguments, of which it has some."""
    __slots__ = ("arity", "body", "given", "entries")

    def __init__(self, arity, body, given=()):
        self.arity = arity
        self.body = body
        self.given = given


UNIT = Made("tt")
NONE = Made("None")


def some(value):
    return Made("Some", (value,))


class NoClause(Exception):
    """No clause of a definition fits its arguments."""


class TooLong(Exception):
    """The time that was given for a case is over."""


def call(function, *arguments):
    """The function, or the constructor, applied to the arguments."""
    while arguments:
        if isinstance(function, Made):
            return Made(function.name, function.parts + arguments)
        if not isinstance(function, Function):
            raise TypeError(f"{function!r} is applied to {arguments!r}")
        wanted = function.arity - len(function.given)
        if len(arguments) < wanted:
            return Function(function.arity, function.body, function.given + arguments)
        function, arguments = function.body(*function.given, *arguments[:wanted]), arguments[wanted:]
    return function


# ---- tokens

TOKEN = re.compile(r'"[^"]*"|[(){};,]|λ|[^\s(){};,λ"]+')


def tokens_of(text):
    """The tokens of an expression. The point after the names of a λ is a token of its own."""
    tokens = []
    for found in TOKEN.finditer(text):
        token = found.group(0)
        if len(token) > 1 and token.endswith("."):
            tokens += [token[:-1], "."]
        else:
            tokens.append(token)
    return tokens


def without_comment(line):
    """The line up to `--` at its beginning or behind a space."""
    return re.sub(r"(^|(?<= ))--.*", "", line).rstrip()


# ---- expressions and patterns: tuples whose first part names their form

OPERATORS = {">>=": (1, "left"), "||": (2, "right"), "&&": (3, "right"), "≡": (4, "none"), "==": (5, "none"), "∷": (6, "right"),
             "++": (6, "right"), "+": (7, "left"), "-": (7, "left"), "+ℤ": (7, "left"), "-ℤ": (7, "left"), "*": (8, "left"),
             "/": (8, "left"), "%": (8, "left"), "*ℤ": (8, "left"), "^": (9, "right")}
ENDS = {None, ")", "}", ";", ",", "then", "else", "in", ".", "where", "="}
CONSTANT_CONSTRUCTORS = {"[]", "true", "false", "zero", "suc", "pos", "negsuc", "tt"}


class Reader:
    """Reads expressions and patterns from a list of tokens."""

    def __init__(self, tokens):
        self.tokens = tokens
        self.at = 0

    def peek(self):
        return self.tokens[self.at] if self.at < len(self.tokens) else None

    def take(self, wanted=None):
        token = self.peek()
        if token is None or wanted not in (None, token):
            raise SyntaxError(f"{wanted or 'a token'} is wanted at {self.at} in {' '.join(self.tokens)}")
        self.at += 1
        return token

    def skip_brackets(self):
        """Over a group in brackets, whatever stands inside."""
        depth = 0
        while True:
            token = self.take()
            depth += (token in "({") - (token in ")}")
            if depth == 0:
                return

    def skip_to(self, *ends):
        while self.peek() not in ends:
            self.take()

    # -- expressions

    def expression(self, strength=0):
        if self.peek() == "λ":
            return self.function()
        if self.peek() == "let":
            return self.binding()
        if self.peek() == "if":
            return self.choice()
        left = self.application()
        while self.peek() in OPERATORS and OPERATORS[self.peek()][0] >= strength:
            operator = self.take()
            level, side = OPERATORS[operator]
            left = ("operator", operator, left, self.expression(level if side == "right" else level + 1))
        return left

    def function(self):
        self.take("λ")
        names = []
        while self.peek() != ".":
            if self.peek() == "(":
                names.append(self.tokens[self.at + 1])
                self.skip_brackets()
            else:
                names.append(self.take())
        self.take(".")
        return ("function", names, self.expression())

    def binding(self):
        self.take("let")
        name = self.take()
        self.skip_to("=")
        self.take("=")
        value = self.expression()
        self.take("in")
        return ("let", name, value, self.expression())

    def choice(self):
        self.take("if")
        test = self.expression()
        self.take("then")
        first = self.expression()
        self.take("else")
        return ("if", test, first, self.expression())

    def application(self):
        head, arguments = self.atom(), []
        while self.peek() not in ENDS and self.peek() not in OPERATORS:
            if self.peek() == "{":
                self.skip_brackets()
            elif self.peek() in ("λ", "if", "let"):
                arguments.append(self.expression())
                break
            else:
                arguments.append(self.atom())
        return ("call", head, arguments) if arguments else head

    def atom(self):
        if self.peek() == "(":
            return self.fields_of(self.parenthesized())
        token = self.take()
        if token == "record":
            return self.record()
        if token.startswith('"'):
            return ("value", token[1:-1])
        if token.isdigit():
            return ("value", int(token))
        return ("name", token)

    def parenthesized(self):
        self.take("(")
        if self.peek() == ")":
            self.take()
            return ("value", UNIT)
        parts = [self.expression()]
        if self.peek() == ":":
            self.skip_to(")")
        while self.peek() == ",":
            self.take()
            if self.peek() != ")":
                parts.append(self.expression())
        self.take(")")
        return parts[0] if len(parts) == 1 else ("pair", parts)

    def fields_of(self, expression):
        """Fields that are asked of a value in parentheses, as `(f x).name`."""
        while self.peek() and len(self.peek()) > 1 and self.peek().startswith("."):
            for field in self.take()[1:].split("."):
                expression = ("field", expression, field)
        return expression

    def record(self):
        base = None if self.peek() == "{" else self.atom()
        self.take("{")
        fields = []
        while self.peek() != "}":
            name = self.take()
            self.take("=")
            fields.append((name, self.expression()))
            if self.peek() == ";":
                self.take()
        self.take("}")
        return ("record", base, fields)

    # -- patterns

    def pattern(self):
        """A pattern that is one token, or stands in brackets."""
        token = self.peek()
        if token == "{":
            self.skip_brackets()
            return self.pattern()
        self.take()
        if token != "(":
            return pattern_of(token, [])
        if self.peek() == ")":
            self.take()
            return ("any",)
        parts = [self.long_pattern()]
        while self.peek() == ",":
            self.take()
            parts.append(self.long_pattern())
        self.take(")")
        return parts[0] if len(parts) == 1 else ("pair", parts)

    def long_pattern(self):
        """A constructor with its parts, or the first and the rest of a list."""
        if self.peek() == "(":
            left = self.pattern()
        else:
            name, parts = self.take(), []
            while self.peek() not in (")", ",", "∷", None):
                parts.append(self.pattern())
            left = pattern_of(name, parts)
        if self.peek() != "∷":
            return left
        self.take()
        return ("made", "∷", [left, self.long_pattern()])


def pattern_of(word, parts):
    if word.isdigit():
        return ("number", int(word))
    if word == "_":
        return ("any",)
    is_constructor = "." in word or word[0].isupper() or word in CONSTANT_CONSTRUCTORS or word.startswith(("end_of-", "more_of-"))
    return ("made", re.split(r"\.|::", word)[-1], parts) if is_constructor else ("name", word)


# ---- matching

# The parts of the constructors of a type that holds itself, as a pattern of the primed constructor has them: the number of a part, None
# for the length of a row, and a number in brackets for a part that stands as a row of one.
ROWS = {
    "List'": [None, 0], "If'": [0, 1, None, 2, 3, None, 4, 5], "Loop'": [0, 1, 2, None, 3, 4],
    "Element'": [0, 1, 2, None, 3], "Bit'": [None, [0], None, [1]], "Slice'": [None, [0], 1, 2, 3], "Convert'": [0, None, [1]],
    "Unary'": [0, None, [1]], "Binary'": [0, None, [1], None, [2]], "ExactQuotient'": [None, [0], None, [1]],
    "Logical'": [0, None, [1], None, [2]], "Neg'": [None, [0]], "Add'": [None, [0], None, [1]], "Sub'": [None, [0], None, [1]],
    "Times'": [None, [0], 1], "Scaled'": [0, None, [1]], "Over'": [None, [0], 1], "Sum'": [None, [0], None, [1]],
    "Difference'": [None, [0], None, [1]], "Opposite'": [None, [0]], "Product'": [None, [0], 1], "Quotient'": [None, [0], 1],
}


def row_part(value, part):
    if part is None:
        return None
    return (value.parts[part[0]],) if isinstance(part, list) else value.parts[part]


def matches(pattern, value, names):
    """Whether the value is as the pattern says; the names of the pattern get their values."""
    form = pattern[0]
    if form == "any":
        return True
    if form == "name":
        names[pattern[1]] = value
        return True
    if form == "number":
        return value == pattern[1]
    if form == "pair":
        return all(matches(part, x, names) for part, x in zip(pattern[1], value))
    if isinstance(value, Made):
        return matches_made(pattern[1], pattern[2], value, names)
    return matches_plain(pattern[1], pattern[2], value, names)


def matches_made(name, parts, value, names):
    if name in ROWS:
        return value.name == name[:-1] and all(matches(part, row_part(value, x), names) for part, x in zip(parts, ROWS[name]))
    if value.name != name:
        return False
    if len(parts) != len(value.parts):
        raise NoClause(f"{name} has other parts than {value!r}")
    return all(matches(part, x, names) for part, x in zip(parts, value.parts))


def matches_plain(name, parts, value, names):
    """Constructors of lists, truth values and numbers."""
    if name == "[]" or name.startswith("end_of-"):
        return value == ()
    if name == "∷" or name.startswith("more_of-"):
        return len(value) > 0 and matches(parts[0], value[0], names) and matches(parts[1], value[1:], names)
    if name in ("true", "false"):
        return value is (name == "true")
    if name == "zero":
        return value == 0
    if name == "suc":
        return value > 0 and matches(parts[0], value - 1, names)
    if name == "pos":
        return value.number >= 0 and matches(parts[0], value.number, names)
    if name == "negsuc":
        return value.number < 0 and matches(parts[0], -value.number - 1, names)
    raise NoClause(f"{name} is asked of {value!r}")


# ---- modules

class Module:
    """The definitions of a file, each a list of clauses: patterns, an expression, and the definitions behind `where`."""

    def __init__(self, path):
        self.path = path
        self.definitions = {}
        self.imports = {}
        self.aliases = {}
        self.constructors = set()


MODULES = {}


def module(path):
    """The module of that name, `Rattle.CRATE.specs.NAME`."""
    if path not in MODULES:
        parts = path.split(".")
        MODULES[path] = Module(path)
        with open(os.path.join(CRATES, *parts[1:]) + ".antt", encoding="utf-8") as file:
            read_block(MODULES[path], [without_comment(line) for line in file], 0, MODULES[path].definitions)
    return MODULES[path]


def indent_of(line):
    return len(line) - len(line.lstrip())


def read_block(to, lines, indent, definitions):
    """The items that begin at an indent, each with the lines that go on with it."""
    items = []
    for line in lines:
        if line.strip() and indent_of(line) == indent and line.strip()[0] not in "})":
            items.append([line])
        elif line.strip():
            items[-1].append(line)
    for item in items:
        read_item(to, item, indent, definitions)


def read_item(to, item, indent, definitions):
    head = item[0].strip()
    if re.match(r"(unfoldable )?(pub )?use ", head):
        read_use(to, head.partition("use ")[2])
    elif head.endswith("mutual"):
        read_block(to, item[1:], indent + 2, definitions)
    elif re.match(r"(pub )?data ", head):
        to.constructors.update(line.strip().split(" ")[0] for line in item[1:])
    elif not re.match(r"(pub )?(use|mod|record) |infix", head):
        read_clause(to, item, definitions)


def read_use(to, text):
    group = re.fullmatch(r"(\S+?)\.\{(.*)\}", text)
    alias = re.fullmatch(r"(\S+) as (\S+)", text)
    if group:
        to.imports.update((name.strip(), group.group(1)) for name in group.group(2).split(","))
    elif alias:
        to.aliases[alias.group(2)] = alias.group(1)
    else:
        to.aliases[text.split(".")[-1]] = text


def read_clause(to, item, definitions):
    """A clause of a definition; a signature is passed over."""
    text, _, rest = "\n".join(item).partition(" where\n")
    inner = {}
    if rest:
        lines = rest.split("\n")
        read_block(to, lines, indent_of(lines[0]), inner)
    tokens = tokens_of(re.sub(r"^(abbrev |unfoldable )?(pub )?", "", text.strip()))
    middle = middle_of(tokens)
    if middle is None:
        return
    name, patterns = left_side(tokens[:middle])
    reader = Reader(tokens[middle + 1:])
    expression = reader.expression()
    if reader.peek() is not None:
        raise SyntaxError(f"{to.path}: {name}: {reader.peek()} stands behind the expression")
    definitions.setdefault(name, []).append((patterns, expression, inner))


def middle_of(tokens):
    """Where the `=` of a clause stands; None for a signature."""
    depth = 0
    for i, token in enumerate(tokens):
        depth += (token in ("(", "{")) - (token in (")", "}"))
        if depth == 0 and token in (":", "="):
            return i if token == "=" else None
    raise SyntaxError(" ".join(tokens))


def left_side(tokens):
    if len(tokens) == 3 and tokens[1] == ">>=":
        return "◌>>=◌", [pattern_of(tokens[0], []), pattern_of(tokens[2], [])]
    reader = Reader(tokens)
    name, patterns = reader.take(), []
    while reader.peek() is not None:
        patterns.append(reader.pattern())
    return name, patterns


# ---- the values of names

LIBRARY = {}
REPLACED = {}
WORDS = {}


def word(path, name):
    """The value of a definition, or of a word of the library."""
    if (path, name) in REPLACED:
        return REPLACED[path, name]
    if re.match(r"Rattle\.(std|core)\.|denote", path) or ".declared." in path:
        return LIBRARY[name] if name in LIBRARY else Made(name.split("::")[-1])
    if (path, name) not in WORDS:
        WORDS[path, name] = defined(module(path), name)
    return WORDS[path, name]


def defined(of, name):
    if name in of.definitions:
        value = clauses_value(of, name, of.definitions[name], {})
        return value if value.arity else value.body()
    if name in of.constructors:
        return Made(name)
    if name in of.imports:
        return word(of.imports[name], name)
    if name[0].isupper():
        return Made(name)
    raise NameError(f"{of.path}: {name}")


def global_value(of, name):
    """What a name that isn't bound stands for in a module."""
    if name.startswith("more_of-"):
        return Function(2, lambda first, rest: (first,) + rest)
    if name.startswith("end_of-"):
        return ()
    if name in of.definitions or name in of.constructors:
        return word(of.path, name)
    if name in of.imports:
        return word(of.imports[name], name)
    if name in LIBRARY:
        return LIBRARY[name]
    before, _, behind = name.partition(".")
    if behind and before in of.aliases:
        return word(of.aliases[before], behind)
    if behind:
        return fields(global_value(of, before), behind.split("."))
    if name[0].isupper() or name in ("→", "×"):
        return Made(name)
    raise NameError(f"{of.path}: {name}")


def fields(value, names):
    for name in names:
        value = value[int(name)] if name.isdigit() else value[name]
    return value


# ---- evaluation: an expression becomes a function of the values of its names

class Clock:
    """Stops a case that takes too long."""
    end = None
    steps = 0

    @classmethod
    def tick(cls):
        cls.steps += 1
        if cls.end and cls.steps % 4096 == 0 and time.time() > cls.end:
            raise TooLong()


def clauses_value(of, name, clauses, around):
    """The function that clauses define; `around` has the values of the names outside of them."""
    arity = len(clauses[0][0])
    ready = {}

    def body(*arguments):
        Clock.tick()
        for number, (patterns, expression, inner) in enumerate(clauses):
            names = {}
            if all(matches(pattern, x, names) for pattern, x in zip(patterns, arguments)):
                if number not in ready:
                    ready[number] = evaluator(of, expression)
                return ready[number](with_inner(of, {**around, **names}, inner))
        raise NoClause(f"{of.path}: {name}: {arguments!r}"[:500])

    return Function(arity, body)


def with_inner(of, names, inner):
    for name, clauses in inner.items():
        names[name] = clauses_value(of, name, clauses, names)
    return names


def evaluator(of, expression):
    """The function that gives an expression's value for the values of its names."""
    return FORMS[expression[0]](of, *expression[1:])


def value_form(of, value):
    return lambda names: value


def name_form(of, name):
    before, _, behind = name.partition(".")
    path = behind.split(".") if behind else []
    found = []

    def value(names):
        if before in names:
            return fields(names[before], path)
        if not found:
            found.append(global_value(of, name))
        return found[0]

    return value


def call_form(of, head, arguments):
    values = [evaluator(of, x) for x in arguments]
    if head == ("name", "if_number") and len(values) == 4:
        left, right, first, second = values
        return lambda names: first(names) if left(names) == right(names) else second(names)
    function = evaluator(of, head)
    return lambda names: call(function(names), *[value(names) for value in values])


def operator_form(of, operator, left, right):
    first, second = evaluator(of, left), evaluator(of, right)
    if operator == "&&":
        return lambda names: first(names) and second(names)
    if operator == "||":
        return lambda names: first(names) or second(names)
    if operator == ">>=":
        return lambda names: call(global_value(of, "◌>>=◌"), first(names), second(names))
    act = LIBRARY[f"◌{operator}◌"].body
    return lambda names: act(first(names), second(names))


def if_form(of, test, left, right):
    condition, first, second = evaluator(of, test), evaluator(of, left), evaluator(of, right)
    return lambda names: first(names) if condition(names) else second(names)


def function_form(of, parameters, body):
    inside = evaluator(of, body)
    return lambda names: Function(len(parameters), lambda *given: inside({**names, **dict(zip(parameters, given))}))


def let_form(of, name, value, body):
    first, inside = evaluator(of, value), evaluator(of, body)
    return lambda names: inside({**names, name: first(names)})


def pair_form(of, parts):
    values = [evaluator(of, part) for part in parts]
    return lambda names: Pair(value(names) for value in values)


def record_form(of, base, parts):
    start = evaluator(of, base) if base else lambda names: {}
    values = [(name, evaluator(of, part)) for name, part in parts]
    return lambda names: Record(start(names), **{name: value(names) for name, value in values})


def field_form(of, expression, name):
    value = evaluator(of, expression)
    return lambda names: fields(value(names), [name])


FORMS = {"value": value_form, "name": name_form, "call": call_form, "operator": operator_form, "if": if_form, "function": function_form,
         "let": let_form, "pair": pair_form, "record": record_form, "field": field_form}
