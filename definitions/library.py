"""Words that definitions use and that aren't under test: those of the standard library, the folds of the syntax tree, and, because they
would be slow, some definitions of whole numbers, of the ring of amplitudes and of matrices (`replace_slow_words`)."""

from antt import LIBRARY, NONE, REPLACED, UNIT, Function, Integer, Made, Record, call, some


def add(name, arity, body):
    LIBRARY[name] = Function(arity, body)


# ---- the standard library

def quotient(a, b):
    """Truncated toward zero; 0 where the divisor is 0."""
    size = abs(a) // abs(b) if b else 0
    return size if (a < 0) == (b < 0) else -size


def listed(options):
    return tuple(option.parts[0] for option in options if option.name == "Some")


def if_some(option, change):
    return some(change(option.parts[0])) if option.name == "Some" else NONE


VALUES = {"true": True, "false": False, "tt": UNIT, "zero": 0, "[]": (), "None": NONE}

WHOLE_NUMBERS = {
    "suc": (1, lambda n: n + 1), "min": (2, min), "max": (2, max), "nat_eq": (2, lambda a, b: a == b), "nat_lt": (2, lambda a, b: a < b),
    "nat_le": (2, lambda a, b: a <= b), "◌+◌": (2, lambda a, b: a + b), "◌-◌": (2, lambda a, b: max(a - b, 0)),
    "◌*◌": (2, lambda a, b: a * b), "◌/◌": (2, lambda a, b: a // b if b else 0), "◌%◌": (2, lambda a, b: a % b if b else a),
    "◌^◌": (2, lambda a, b: a ** b), "◌==◌": (2, lambda a, b: a == b), "bit_at": (2, lambda bits, i: bits >> i & 1),
    "bit_and": (2, lambda a, b: a & b), "bit_or": (2, lambda a, b: a | b), "bit_xor": (2, lambda a, b: a ^ b),
}

INTEGERS = {
    "pos": (1, Integer), "negsuc": (1, lambda n: Integer(-n - 1)), "neg_ℤ": (1, lambda z: Integer(-z.number)),
    "◌+ℤ◌": (2, lambda a, b: Integer(a.number + b.number)), "◌-ℤ◌": (2, lambda a, b: Integer(a.number - b.number)),
    "◌*ℤ◌": (2, lambda a, b: Integer(a.number * b.number)), "unsigned_abs": (1, lambda z: abs(z.number)),
    "int_lt": (2, lambda a, b: a.number < b.number), "int_le": (2, lambda a, b: a.number <= b.number),
    "int_div": (2, lambda a, b: Integer(quotient(a.number, b.number))),
    "int_rem": (2, lambda a, b: Integer(a.number - quotient(a.number, b.number) * b.number)),
    "int_rem_euclid": (2, lambda a, b: Integer(a.number % abs(b.number)) if b.number else a),
}

OTHERS = {
    "not": (1, lambda a: not a), "cond": (3, lambda test, a, b: a if test else b),
    "codes": (1, lambda text: tuple(text.encode())),
    "is_some": (1, lambda option: option.name == "Some"), "option_map": (2, lambda f, option: if_some(option, lambda x: call(f, x))),
    "unwrap_or": (2, lambda option, other: option.parts[0] if option.name == "Some" else other), "option_or": (2, lambda a, b: a if a.name == "Some" else b),
}

LISTS = {
    "◌∷◌": (2, lambda first, rest: (first,) + rest), "◌++◌": (2, lambda a, b: a + b), "replicate": (2, lambda n, x: (x,) * n),
    "length": (1, len), "map": (2, lambda f, xs: tuple(call(f, x) for x in xs)), "take": (2, lambda n, xs: xs[:n]),
    "reverse": (1, lambda xs: xs[::-1]), "slice_get": (2, lambda xs, i: some(xs[i]) if i < len(xs) else NONE),
    "slice_set": (3, lambda xs, i, x: xs[:i] + (x,) + xs[i + 1:] if i < len(xs) else xs),
    "get_or": (3, lambda xs, i, other: xs[i] if i < len(xs) else other), "slice_index_or": (3, lambda xs, i, x: xs[i] if i < len(xs) else x),
    "flat_map": (2, lambda f, xs: tuple(y for x in xs for y in call(f, x))),
    "list_any": (2, lambda f, xs: any(call(f, x) for x in xs)), "list_all": (2, lambda f, xs: all(call(f, x) for x in xs)),
    "filter_map": (2, lambda f, xs: listed(call(f, x) for x in xs)), "range_with_len": (2, lambda first, n: tuple(range(first, first + n))),
    "pointwise": (3, lambda f, xs, ys: len(xs) == len(ys) and all(call(f, x, y) for x, y in zip(xs, ys))),
}

LIBRARY.update(VALUES)
for table in (WHOLE_NUMBERS, INTEGERS, OTHERS, LISTS):
    for word_name, (word_arity, word_body) in table.items():
        add(word_name, word_arity, word_body)


# ---- folds of the syntax tree: a value of a type that holds itself is its own layer

# which parts hold what: E an expression, I an index, S a scalar, R a range, T a statement; L before it a list, O an optional one
EXPRESSION_PARTS = {
    "Parenthesized": ["E"], "Name": [None, "LLI"], "Call": [None, "LE"], "Cast": ["S", "E"], "SizeOf": [None, "OE"], "Unary": [None, "E"],
    "Binary": [None, "E", "E"], "At": ["E"], "Range": ["R"], "Set": ["LE"], "Bit": ["OE"], "Int": ["OE"], "Uint": ["OE"], "Angle": ["OE"],
}
ANGLE_PARTS = {"Sum": "AA", "Difference": "AA", "Opposite": "A", "Product": ["A", None], "Quotient": ["A", None]}
STATEMENT_PARTS = {"If": [None, "LT", "OLT"], "While": [None, "LT"], "For": [None, None, None, "LT"]}


def changed(shape, changes, value):
    """A part of that shape, with what it holds changed."""
    if shape is None:
        return value
    if shape[0] == "L":
        return tuple(changed(shape[1:], changes, x) for x in value)
    if shape[0] == "O":
        return if_some(value, lambda x: changed(shape[1:], changes, x))
    return changes[shape](value)


def layer(parts, changes, value):
    if isinstance(value, Record):
        return Record((name, changed("OE", changes, x)) for name, x in value.items())
    if value.name not in parts:
        return value
    return Made(value.name, [changed(shape, changes, x) for shape, x in zip(parts[value.name], value.parts)])


def expression_map(*arguments):
    """Eight types, the four changes, and the layer."""
    changes = {kind: (lambda x, f=f: call(f, x)) for kind, f in zip("EISR", arguments[8:12])}
    return layer(EXPRESSION_PARTS, changes, arguments[12])


def expression_fold(kind):
    def fold(*arguments):
        changes = {}
        for each, step in zip("EISR", arguments[4:8]):
            changes[each] = lambda x, f=step: call(f, layer(EXPRESSION_PARTS, changes, x))
        return changes[kind](arguments[8])
    return fold


def statement_fold(of_statement):
    def fold(first, second, form_step, statement_step, value):
        def form(x):
            return call(form_step, layer(STATEMENT_PARTS, {"T": statement}, x))

        def statement(x):
            return call(statement_step, Record(place=x["place"], form=form(x["form"])))

        return statement(value) if of_statement else form(value)
    return fold


def angle_fold(type_of_it, step, value):
    return call(step, layer(ANGLE_PARTS, {"A": lambda x: angle_fold(type_of_it, step, x)}, value))


add("fold-Angle", 3, angle_fold)
for type_name in ("Expr", "Index", "Scalar", "Range"):
    add(f"fold-{type_name}", 9, expression_fold(type_name[0]))
    add(f"map-{type_name}", 13, expression_map)
for type_name in ("Expr", "Index", "Scalar", "Range", "Statement", "StatementForm"):
    add(f"roll-{type_name}", 1, lambda x: x)
    add(f"out-{type_name}", 1, lambda x: x)
add("fold-Statement", 5, statement_fold(True))
add("fold-StatementForm", 5, statement_fold(False))


# ---- words that would be slow

def progression(first, step, count):
    """A register's qubits; one of millions is no test."""
    if count > 20000:
        raise OverflowError("a register of so many qubits")
    return tuple(first + i * step for i in range(count))


def power(x, exponent):
    """A power that is read modulo at most 2^64."""
    return Integer(x.number ** exponent if exponent < 200 else pow(x.number, exponent, 2 ** 64))


class Amplitude(tuple):
    """c0 + c1 ω + c2 ω² + c3 ω³."""

    def __getitem__(self, field):
        return Integer(tuple.__getitem__(self, int(field[1]))) if isinstance(field, str) else tuple.__getitem__(self, field)


NOTHING = Amplitude((0, 0, 0, 0))
ONE = Amplitude((1, 0, 0, 0))
OMEGA = Amplitude((0, 1, 0, 0))


def plus(x, y):
    return Amplitude(a + b for a, b in zip(x, y))


def times(x, y):
    """By ω⁴ = −1."""
    product = [0] * 8
    for i, a in enumerate(x):
        for j, b in enumerate(y):
            product[i + j] += a * b
    return Amplitude(product[i] - product[i + 4] for i in range(4))


def root(n):
    return times(OMEGA, root(n - 1)) if n else ONE


def norm_b(x):
    return Integer(x[0] * x[1] + x[1] * x[2] + x[2] * x[3] - x[3] * x[0])


def basis_state(n, number):
    return tuple(bool(number >> qubit & 1) for qubit in range(n))


def entry(matrix, row, column):
    """An entry of a matrix, reckoned once."""
    if not hasattr(matrix, "entries"):
        matrix.entries = {}
    if (row, column) not in matrix.entries:
        matrix.entries[row, column] = call(matrix, row, column)
    return matrix.entries[row, column]


def product(n, a, b, row, column):
    total = NOTHING
    for middle in range(2 ** n):
        right = entry(b, basis_state(n, middle), column)
        if right != NOTHING:
            total = plus(total, times(entry(a, row, basis_state(n, middle)), right))
    return total


def embedded(matrix, qubits, row, column):
    """The entry at the chosen qubits' bits where all other bits agree."""
    if len(row) != len(column) or any(a != b for i, (a, b) in enumerate(zip(row, column)) if i not in qubits):
        return NOTHING
    chosen = [tuple(q < len(bits) and bits[q] for q in qubits) for bits in (row, column)]
    return entry(matrix, *chosen)


def multiplied(n, matrix, entries):
    states = [basis_state(n, i) for i in range(2 ** n)]
    result = []
    for row in states:
        total = NOTHING
        for column, amplitude in zip(states, entries):
            if amplitude != NOTHING:
                total = plus(total, times(call(matrix, row, column), amplitude))
        result.append(total)
    return tuple(result)


SLOW = {
    "qt_registers.specs.Registers": {"progression": (3, progression)},
    "qt_bits.specs.Residues": {"power": (2, power)},
    "qt_ring.specs.Ring": {
        "nil": (0, NOTHING), "one": (0, ONE), "the_omega": (0, OMEGA), "imaginary": (0, Amplitude((0, 0, 1, 0))), "plus": (2, plus),
        "times": (2, times), "root": (1, root), "minus": (1, lambda x: Amplitude(-c for c in x)),
        "conj": (1, lambda x: Amplitude((x[0], -x[3], -x[2], -x[1]))), "two_to": (1, lambda h: Amplitude((2 ** h, 0, 0, 0))),
        "is_nil": (1, lambda x: x == NOTHING), "norm_a": (1, lambda x: Integer(sum(c * c for c in x))), "norm_b": (1, norm_b),
    },
    "qt_ring.specs.Matrix": {"product": (5, product), "embedded": (4, embedded)},
    "qt_ring.specs.State": {"multiplied": (3, multiplied)},
    "qt_ring.specs.Places": {"bits_of": (2, basis_state)},
}


def replace_slow_words(all_of_them=True):
    """Puts words of Python in place of slow definitions: all, or only those without which nothing ends."""
    for path, words in SLOW.items():
        if all_of_them or not path.startswith("qt_ring"):
            for name, (arity, body) in words.items():
                REPLACED["Rattle." + path, name] = Function(arity, body) if arity else body
