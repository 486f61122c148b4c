#!/usr/bin/env python3
"""Writes the cases of phases, exact numbers, plain states and programs of the first form, and the answers that are wanted.

Run it in this folder: `python3 number_cases.py stdin > stdin` writes the rows, and `python3 number_cases.py stdout > stdout` the
answers. `src/main.rt` says what a row is.

Everything is reckoned here anew: numbers of the ring as polynomials with w^4 = -1, real numbers a + b * sqrt(2) and amplitudes
with whole numbers and fractions of any size, texts of programs by a pattern, and states gate by gate.
"""

import re
import sys
from fractions import Fraction

LARGEST = 1 << 54
MOST_UNITS = 1 << 60


def some(value):
    return "None" if value is None else f"Some({value})"


# ---- phases, in units of pi / 2^32


def phase_answer(units):
    return f"Units({units})" if abs(units) <= MOST_UNITS else "Fault(Range)"


def phase_rows():
    yield "phase zero", phase_answer(0)
    yield "phase pi", phase_answer(1 << 32)
    yield "phase tau", phase_answer(1 << 33)
    for units in (0, -7, MOST_UNITS, MOST_UNITS + 1, -MOST_UNITS, -MOST_UNITS - 1, -(1 << 63), (1 << 63) - 1):
        yield f"phase units {units}", phase_answer(units)
    for left, right in ((3, -5), (MOST_UNITS, 1), (MOST_UNITS, -1), (-MOST_UNITS, -1), (MOST_UNITS, -MOST_UNITS)):
        yield f"phase sum {left} {right}", phase_answer(left + right)
    for units in (MOST_UNITS, -7):
        yield f"phase opposite {units}", phase_answer(-units)
    for left, right in ((7, 7), (-7, 7)):
        yield f"phase same {left} {right}", f"Same({str(left == right).lower()})"
    pi, most = 1 << 32, 1 << 64
    for units, k in ((pi, -3), (pi, 1 << 28), (pi, (1 << 28) + 1), (-1, most), (MOST_UNITS, -most), (0, most), (5, 0)):
        yield f"phase product {units} {k}", phase_answer(units * k)
    for units, k in ((pi, 3), (pi, 4), (-pi, 4), (pi, -pi), (pi, 2 * pi), (-9, 2), (0, most), (0, 0), (MOST_UNITS, -1)):
        answer = "Fault(NotExact)" if k == 0 or units % k != 0 else phase_answer(units // k)
        yield f"phase quotient {units} {k}", answer
    eighth = 1 << 30
    for units in (
        0, eighth, -eighth, eighth // 2, -eighth // 2, pi, 2 * pi, -9 * eighth, 7 * eighth, 1, MOST_UNITS, eighth - MOST_UNITS,
    ):
        place = None if units % eighth != 0 else units // eighth % 8
        yield f"phase eighth {units}", f"Eighth({some(place)})"


# ---- numbers of the ring, as lists of four coefficients


def times(x, y):
    product = [0] * 4
    for i in range(4):
        for j in range(4):
            sign = 1 if i + j < 4 else -1
            product[(i + j) % 4] += sign * x[i] * y[j]
    return product


def plus(x, y):
    return [a + b for a, b in zip(x, y)]


def conj(x):
    return [x[0], -x[3], -x[2], -x[1]]


def over(x, y):
    """The quotient, or None where it has a coefficient that isn't whole: x times the other conjugates of y, over the norm of y."""
    others = conj(y)
    # w -> w^3 and its conjugate
    for sent in ([y[0], y[3], -y[2], y[1]], conj([y[0], y[3], -y[2], y[1]])):
        others = times(others, sent)
    norm = times(y, others)
    assert norm[1:] == [0, 0, 0] and norm[0] != 0
    product = times(x, others)
    if any(c % norm[0] != 0 for c in product):
        return None
    return [c // norm[0] for c in product]


ROOT2 = [0, 1, 0, -1]
ONE_MINUS_OMEGA = [1, -1, 0, 0]
EPSILON = [1, 1, 0, -1]
EPSILON_INVERSE = [-1, 1, 0, -1]


def fields(x):
    return ", ".join(f"c{place}: {c}" for place, c in enumerate(x))


def number(x):
    return f"Omega {{ {fields(x)} }}"


def perhaps(x):
    return f"Perhaps({some(None if x is None else number(x))})"


def written(x):
    return " ".join(str(c) for c in x)


def omega_rows():
    one, even, last = [1, 0, 0, 0], [2, 4, -6, 0], [1, 0, 0, -3]
    largest = [LARGEST] * 4
    zero, small = [0] * 4, [1, 2, 3, 4]
    for x, j in ((last, 0), (last, 1), (last, 4), (last, 7), (last, 8), (last, 9), (last, 255), (one, 4)):
        turned = x
        for _ in range(j):
            turned = times([0, 1, 0, 0], turned)
        yield f"omega times_omega {written(x)} {j}", f"Number({number(turned)})"
    yield f"omega add {written(even)} {written(last)}", f"Number({number(plus(even, last))})"
    for x, y in ((last, even), (even, even)):
        yield f"omega sub {written(x)} {written(y)}", f"Number({number(plus(x, [-c for c in y]))})"
    for x in (zero, [0, 0, 0, -1]):
        yield f"omega zero {written(x)}", f"Zero({str(x == zero).lower()})"
    for x in (one, [1, 1, 0, 0], last, even, largest):
        norm = times(x, conj(x))
        assert norm[2] == 0 and norm[3] == -norm[1]
        yield f"omega norm {written(x)}", f"Norm({norm[0]}, {norm[1]})"
    for x in (small, largest):
        yield f"omega conj {written(x)}", f"Number({number(conj(x))})"
    for x, y in (
        ([0, 1, 0, 0], [0, 0, 0, 1]), (small, [5, 6, 7, 8]), (EPSILON, EPSILON_INVERSE), (largest, largest), (conj(largest), largest),
    ):
        yield f"omega mul {written(x)} {written(y)}", f"Wide(Wide {{ {fields(times(x, y))} }})"
    for x in (even, one, last):
        yield f"omega halve {written(x)}", perhaps(over(x, [2, 0, 0, 0]))
    for x in (
        ROOT2, [2, 0, 0, 0], small, zero, one, [0, 1, 0, 0], [0, 0, 1, 0], [0, 0, 0, 1],
        [LARGEST, LARGEST, LARGEST, -LARGEST], [LARGEST - 1, LARGEST, 1 - LARGEST, -LARGEST], [LARGEST, 1, LARGEST, 0],
    ):
        yield f"omega over_root2 {written(x)}", perhaps(over(x, ROOT2))
    for x in (
        [2, 0, 0, 0], one, [0, 1, 0, 0], ONE_MINUS_OMEGA, [1, 0, 0, 1], [1, 1, 1, 0],
        largest, [-LARGEST, LARGEST, LARGEST, LARGEST], [LARGEST, LARGEST, LARGEST, LARGEST - 1],
    ):
        yield f"omega over_one_minus_omega {written(x)}", perhaps(over(x, ONE_MINUS_OMEGA))
    for x in (one, EPSILON, small, [LARGEST, LARGEST, LARGEST, -LARGEST], [-LARGEST, LARGEST, LARGEST, LARGEST]):
        yield f"omega times_epsilon {written(x)}", f"Number({number(times(x, EPSILON))})"
    for x in (one, EPSILON, small, [LARGEST, LARGEST, LARGEST, -LARGEST], [-LARGEST, LARGEST, LARGEST, -LARGEST]):
        yield f"omega times_epsilon_inverse {written(x)}", f"Number({number(times(x, EPSILON_INVERSE))})"


# ---- real numbers a + b * sqrt(2), as pairs


def real_times(x, y):
    return x[0] * y[0] + 2 * x[1] * y[1], x[0] * y[1] + x[1] * y[0]


def power(x, n):
    """x to the power n, where x times its conjugate is 1 if n is below 0."""
    base = x if n >= 0 else (x[0], -x[1])
    product = (1, 0)
    for _ in range(abs(n)):
        product = real_times(product, base)
    return product


UNIT = (3, 2)
WEIGHTS = {
    "one": (1 << 96, 0),
    "least": (1, 0),
    "largest": (1 << 126, 0),
    "falling": tuple(part << 24 for part in power(UNIT, -40)),
    "sloped": (1 << 125, -(1 << 124)),
    "small": power(UNIT, -24),
    "smaller": power(UNIT, -25),
}
MASSES = {"zero": (0, 0), "least": (1, 0), "likely": (1 << 95, 1 << 94), "two": (1 << 97, 0)}
MOST = 1 << 100


def scaled(weight, twos, units, primes):
    product = real_times(weight, real_times(power(UNIT, units), power((2, -1), primes)))
    exact = [Fraction(part) * Fraction(2) ** twos for part in product]
    if any(part.denominator != 1 for part in exact) or exact[0] >= MOST:
        return "Fault"
    return f"Weight({exact[0]}, {exact[1]})"


def mass_of(weight, norm):
    product = real_times(weight, norm)
    if weight[0] * norm[0] > 1 << 125 or product[0] >= MOST:
        return "Fault"
    return f"Mass({product[0]}, {product[1]})"


def weight_rows():
    for name, scales in (
        ("one", [(twos, 0, 0) for twos in (-96, -97, -1024, 3, 4, 1024)]),
        ("one", [(0, 1, 0), (0, 2, 0), (0, -1, 0), (0, 512, 0), (0, -512, 0), (-5, 3, 0), (-96, -40, 0)]),
        ("one", [(0, 0, 1), (2, 0, 1), (3, 0, 1), (-96, 0, 1), (-97, 0, 1), (-96, -39, 1), (-1024, 512, 1), (1024, 512, 1)]),
        ("least", [(99, 0, 0), (100, 0, 0), (0, 3, 1), (5, -3, 1), (-1, 0, 1)]),
        ("largest", [(-27, 0, 0), (-26, 0, 0), (-126, 0, 0), (-127, 0, 0)]),
        ("falling", [(0, 40, 0), (-24, 41, 1), (0, 10, 0), (0, 9, 0), (0, 80, 0), (-25, 40, 0), (0, -1, 0)]),
    ):
        for scale in scales:
            yield f"weight scaled {name} {written(scale)}", scaled(WEIGHTS[name], *scale)
    for name, norm in (
        ("one", (3, 2)), ("one", (15, 0)), ("one", (16, 0)), ("one", (0, 0)),
        ("small", power(UNIT, 24)), ("smaller", power(UNIT, 25)),
    ):
        yield f"weight mass {name} {written(norm)}", mass_of(WEIGHTS[name], norm)
    for left, right in (("sloped", "sloped"), ("one", "least")):
        first, second = plus(WEIGHTS[left], WEIGHTS[right])
        yield f"weight plus {left} {right}", f"Weight({first}, {second})"


def least_form(a, b):
    """The numerators and the exponent of the fractions a and b over the least power of two."""
    k = max(a.denominator, b.denominator).bit_length() - 1
    return int(a * 2**k), int(b * 2**k), k


def over_96(numerators):
    return [Fraction(part, 1 << 96) for part in numerators]


def told_mass(numerators):
    a, b, k = least_form(*over_96(numerators))
    is_zero = str(tuple(numerators) == (0, 0)).lower()
    return f"Answer {{ reduced: Reduced {{ a: {a}, b: {b}, k: {k} }}, is_zero: {is_zero} }}"


def mass_rows():
    for name, numerators in MASSES.items():
        yield f"mass reduced {name}", told_mass(numerators)
    for left, right in (("likely", "likely"), ("likely", "least")):
        yield f"mass plus {left} {right}", told_mass(plus(MASSES[left], MASSES[right]))


# ---- states: amplitudes with fractions as coefficients


def root2_over_2(x):
    return [c / 2 for c in times(ROOT2, x)]


class State:
    """The amplitudes by the number of their basis state, of which bit j is the bit of qubit j."""

    def __init__(self, qubits):
        self.amplitudes = [[Fraction(int(i == 0)), *[Fraction(0)] * 3] for i in range(1 << qubits)]
        self.halvings = 0

    def map(self, change):
        self.amplitudes = [change(i) for i in range(len(self.amplitudes))]

    def gate(self, name, *qubits):
        old = self.amplitudes
        twin = 1 << qubits[-1]
        if name == "h":
            sign = [1, -1]
            self.map(lambda i: root2_over_2(plus(old[i ^ twin], [sign[i // twin % 2] * c for c in old[i]])))
        elif name == "x":
            self.map(lambda i: old[i ^ twin])
        elif name == "t":
            self.map(lambda i: times([0, 1, 0, 0], old[i]) if i & twin else old[i])
        elif name == "cx":
            self.map(lambda i: old[i ^ twin] if i & 1 << qubits[0] else old[i])
        self.halvings += 0 if name == "t" else 1

    def project(self, qubit, outcome):
        old = self.amplitudes
        self.map(lambda i: old[i] if (i >> qubit & 1) == outcome else [Fraction(0)] * 4)

    def mass(self):
        norms = [times(x, conj(x)) for x in self.amplitudes]
        return sum(norm[0] for norm in norms), sum(norm[1] for norm in norms)

    def copied(self):
        copy = State(0)
        copy.amplitudes, copy.halvings = self.amplitudes, self.halvings
        return copy


def told_state(qubits, steps):
    state = State(qubits)
    for step in steps.split(";"):
        name, *places = step.split()
        places = [int(place) for place in places]
        if name in ("zero", "one"):
            state.project(*places, ("zero", "one").index(name))
        elif name != "copy":
            state.gate(name, *places)
    a, b = (part * (1 << 96) for part in state.mass())
    vanishes = str(all(c == 0 for x in state.amplitudes for c in x)).lower()
    return f"Summary {{ a: {a}, b: {b}, halvings: {state.halvings}, vanishes: {vanishes} }}"


def plain_rows():
    for qubits, steps in (
        (2, "h 0; zero 0"), (2, "h 0; one 0"), (2, "h 0; t 0; h 0; zero 0"), (2, "h 0; t 0; h 0; one 0"), (2, "x 0; zero 0"),
        (2, "h 0; cx 0 1; zero 0; zero 1"), (2, "h 0; cx 0 1; zero 0; one 1"), (2, "h 0; cx 0 1; one 0; zero 1"),
        (2, "h 0; cx 0 1; copy; one 0; one 1"),
        (0, "copy"), (1, "x 0; one 0"), (4, "h 3; t 3; h 3; cx 3 0; one 0"), (3, "h 0; h 1; t 0; cx 1 0; h 0; t 1; h 1; zero 0; one 1"),
    ):
        yield f"plain {qubits} {steps}", told_state(qubits, steps)
    for row in ("plain 5 copy", "plain 2 h 2", "plain 2 cx 1 1", "plain 1 h 0; y 0"):
        yield row, "no row"


# ---- reports


def fraction_text(a, b, k):
    return f"({a}{'-' if b < 0 else '+'}{abs(b)}r)/2^{k}"


def output_text(layout, values):
    texts = [f"{name}={value % 2**width:0{width}b}" for (name, width), value in zip(layout, values)]
    return " ".join(texts) if layout else "-"


def report_text(layout, chances):
    lines = [f"{output_text(layout, values)} {fraction_text(*least_form(*of))}" for values, of in chances]
    total = least_form(sum(of[0] for _, of in chances), sum(of[1] for _, of in chances))
    return '"' + "".join(f"{line}\\n" for line in [*lines, f"total {fraction_text(*total)}"]) + '"'


def report_rows():
    most, least = (1 << 127) - 1, -(1 << 127)
    for numbers in (
        (1, 0, 1), (2, 1, 2), (2, -1, 2), (0, 0, 0), (-3, 4, 10), (most, most, (1 << 32) - 1), (least, least, 96),
    ):
        yield f"fraction {written(numbers)}", fraction_text(*numbers)
    one = (Fraction(1), Fraction(0))
    for layout, values in (
        ([], [0, 0]), ([("c", 2)], [0]), ([("c", 2)], [2]), ([("a", 2), ("b", 1)], [1, 1]), ([("c", 66)], [(1 << 64) - 1]),
    ):
        registers = " ".join(f"{name}:{width}" for name, width in layout)
        yield f"sure {registers} = {written(values)}", report_text(layout, [(values, one)])
    half, quarter = Fraction(1, 2), Fraction(1, 4)
    layout = [("c", 1)]
    yield "either half", report_text(layout, [([0], (half, Fraction(0))), ([1], (half, Fraction(0)))])
    yield "either likely", report_text(layout, [([0], (half, quarter)), ([1], (half, -quarter))])


# ---- programs of the first form

SIZE, PLACE = r"([1-4])", r"([0-9])"
HEAD = re.compile(rf'OPENQASM 3\.0;\ninclude "stdgates\.inc";\nqubit\[{SIZE}\] q;\nbit\[{SIZE}\] c;\n')
LINE = re.compile(
    rf"([htx]) q\[{PLACE}\];\n|(cx) q\[{PLACE}\], q\[{PLACE}\];\n|()c\[{PLACE}\] = measure q\[{PLACE}\];\n", re.ASCII
)


def read(text):
    """The sizes and the statements of the program, or None."""
    head = HEAD.match(text)
    if not head:
        return None
    qubits, bits = int(head[1]), int(head[2])
    at, statements = head.end(), []
    while at < len(text):
        line = LINE.match(text, at)
        if not line:
            return None
        at = line.end()
        parts = [part for part in line.groups() if part is not None]
        name, places = parts[0], [int(part) for part in parts[1:]]
        limits = {"cx": [qubits, qubits], "": [bits, qubits]}.get(name, [qubits])
        if any(place >= limit for place, limit in zip(places, limits)) or (name == "cx" and places[0] == places[1]):
            return None
        statements.append((name, *places))
    if len(statements) > 32 or sum(name == "" for name, *_ in statements) > 12:
        return None
    return qubits, bits, statements


def statement(name, *places):
    if name == "cx":
        return f"ControlledX {{ control: {places[0]}, target: {places[1]} }}"
    if name == "":
        return f"Measure {{ qubit: {places[1]}, bit: {places[0]} }}"
    gate = {"h": "Hadamard", "t": "T", "x": "X"}[name]
    return f"{gate} {{ qubit: {places[0]} }}"


def leaves(state, value, statements):
    """The values of the register at the ends of all paths, each with its mass."""
    if not statements:
        yield value, state.mass()
        return
    (name, *places), *rest = statements
    if name:
        state.gate(name, *places)
        yield from leaves(state, value, rest)
        return
    bit, qubit = places
    for outcome in (0, 1):
        branch = state.copied()
        branch.project(qubit, outcome)
        yield from leaves(branch, value & ~(1 << bit) | outcome << bit, rest)


def chances(qubits, statements):
    found = {}
    for value, mass in leaves(State(qubits), 0, statements):
        found[value] = tuple(plus(found.get(value, (0, 0)), mass))
    return [([value], of) for value, of in sorted(found.items()) if of != (0, 0)]


def escaped(text):
    for character, letter in (("\\", "\\"), ("\n", "n"), ("\r", "r"), ("\0", "0")):
        text = text.replace(character, f"\\{letter}")
    return text


def text_of(qubits, bits, lines):
    return f'OPENQASM 3.0;\ninclude "stdgates.inc";\nqubit[{qubits}] q;\nbit[{bits}] c;\n{lines}'


def read_row(text):
    program = read(text)
    if program is None:
        return f"read {escaped(text)}", "none"
    qubits, bits, statements = program
    listed = ", ".join(statement(*each) for each in statements)
    return f"read {escaped(text)}", f"{qubits} {bits} [{listed}]"


RIGHT = ["OPENQASM 3.0;", 'include "stdgates.inc";', "qubit[2] q;", "bit[1] c;", "h q[1];", "c[0] = measure q[1];"]
BROKEN = {
    0: ["OPENQASM 3;", "OPENQASM 2.0;", "openqasm 3.0;", " OPENQASM 3.0;"],
    1: ["include 'stdgates.inc';", 'include "qelib1.inc";', ""],
    2: ["qubit[5] q;", "qubit[0] q;", "qubit[02] q;", "qubit[1] q;", "qubit[2] r;"],
    3: ["bit[5] c;", "bit[0] c;", "bit[01] c;", "bit c;"],
    4: [
        "h q[2];", "h q[01];", "h  q[1];", "h q[1]", "h q[-];", "h q[\u0661];", "H q[1];", "y q[1];", "h q;", "cx q[1], q[1];",
        "cx q[0],q[1];", "cx q[0], q[2];", "cx q[2], q[0];", "", "h q[1];\n", "h q[1];\r", "h q[1]; ",
    ],
    5: [
        "c[1] = measure q[1];", "c[0] = measure q[2];", "c[0]=measure q[1];", "measure q[1];", "c[0] = measure q[1];\nend",
        "c[0] = measure q[1];\n", "c[0] = measure q[1];\0",
    ],
}


def read_rows():
    for program in (
        (1, 1, "h q[0];\nc[0] = measure q[0];\n"), (1, 1, "h q[0];\nt q[0];\nh q[0];\nc[0] = measure q[0];\n"), (2, 2, ""),
        (2, 2, "cx q[1], q[0];\nx q[1];\nc[0] = measure q[1];\n"), (4, 3, "cx q[0], q[3];\nc[2] = measure q[3];\n"),
    ):
        yield read_row(text_of(*program))
    right = "".join(f"{line}\n" for line in RIGHT)
    yield read_row(right)
    yield read_row(right[:-1])
    for place, lines in BROKEN.items():
        for wrong in lines:
            row = read_row("".join(f"{wrong if place == k else line}\n" for k, line in enumerate(RIGHT)))
            assert row[1] == "none", row
            yield row
    for gates, measurements in ((20, 12), (32, 0), (0, 12), (21, 12), (33, 0), (0, 13), (19, 13)):
        yield read_row(text_of(4, 3, "cx q[3], q[0];\n" * gates + "c[2] = measure q[3];\n" * measurements))


PROGRAMS = [
    (1, "h q[0];\nc[0] = measure q[0];\n"),
    (1, "h q[0];\nt q[0];\nh q[0];\nc[0] = measure q[0];\n"),
    (2, ""),
    (2, "h q[0];\ncx q[0], q[1];\nc[0] = measure q[0];\nc[1] = measure q[1];\n"),
    (3, "h q[0];\ncx q[0], q[1];\ncx q[1], q[2];\nc[0] = measure q[0];\nc[1] = measure q[1];\nc[2] = measure q[2];\n"),
    (2, "x q[0];\nc[1] = measure q[0];\n"),
    (1, "x q[0];\nc[0] = measure q[0];\nx q[0];\nc[0] = measure q[0];\n"),
    (2, "h q[0];\nc[0] = measure q[0];\nc[0] = measure q[1];\n"),
    (2, "h q[0];\nt q[0];\nh q[0];\nh q[1];\nt q[1];\nh q[1];\nc[1] = measure q[0];\nx q[0];\ncx q[0], q[1];\nc[0] = measure q[1];\n"),
]


def program_rows():
    for size, lines in PROGRAMS:
        text = text_of(size, size, lines)
        qubits, bits, statements = read(text)
        found = chances(qubits, statements)
        told = "".join(f" {values} {written(least_form(*of))}" for values, of in found)
        yield f"run {escaped(text)}", f"c:{bits}{told}"
        yield f"report {escaped(text)}", report_text([("c", bits)], found)
    yield "run h q[0];\\n", "none"
    yield "report ", "none"


def rows():
    for part in (phase_rows, omega_rows, weight_rows, mass_rows, plain_rows, report_rows, read_rows, program_rows):
        yield from part()
    yield from ((row, "no row") for row in ("", "phase", "phase pie", "omega add 1 2 3", "weight plus one two", "mass plus least", "sure c = 1", "sure c:1 = x", "either"))


if __name__ == "__main__":
    sys.stdout.reconfigure(encoding="utf-8")
    column = ("stdin", "stdout").index(sys.argv[1])
    for line in rows():
        print(line[column])
