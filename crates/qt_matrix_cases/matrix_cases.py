#!/usr/bin/env python3
"""Writes the rows of gate calls (stdin) and what is wanted of them (stdout), beside this file.

The matrices are reckoned here from what is printed of the gates, and not from bodies or primitives: matrices with entries in
Z[e^(i pi/4)] over a power of two, in whole numbers alone. A gate's place t is bit t of its row and column."""
import itertools
from pathlib import Path

here = Path(__file__).parent
EIGHTH, PI = 1 << 30, 1 << 32
rows, answers = [], []


# ---- numbers: four whole coefficients of 1, w, w^2, w^3 with w = e^(i pi/4), and w^4 = -1

def times(x, y):
    made = [0] * 8
    for i, a in enumerate(x):
        for j, b in enumerate(y):
            made[i + j] += a * b
    return tuple(made[i] - made[i + 4] for i in range(4))


def plus(x, y):
    return tuple(a + b for a, b in zip(x, y))


def minus(x):
    return tuple(-a for a in x)


def conj(x):
    return (x[0], -x[3], -x[2], -x[1])


def root(e):
    """e^(i pi e/4)."""
    e %= 8
    made = [0] * 4
    made[e % 4] = 1 if e < 4 else -1
    return tuple(made)


ZERO, ONE, I = (0, 0, 0, 0), root(0), root(2)


class Matrix:
    """Entries over 2^k on so many qubits, by row and column; those that are left out are 0."""

    def __init__(self, qubits, k, entries):
        self.qubits, self.k, self.entries = qubits, k, {at: x for at, x in entries.items() if x != ZERO}

    @staticmethod
    def one(qubits):
        return Matrix(qubits, 0, {(i, i): ONE for i in range(1 << qubits)})

    def after(self, first):
        """This one behind another."""
        made, columns = {}, {}
        for (i, j), x in self.entries.items():
            columns.setdefault(j, []).append((i, x))
        for (j, l), y in first.entries.items():
            for i, x in columns.get(j, ()):
                made[i, l] = plus(made.get((i, l), ZERO), times(x, y))
        return Matrix(self.qubits, self.k + first.k, made).least()

    def least(self):
        while self.k and all(c % 2 == 0 for x in self.entries.values() for c in x):
            self.k -= 1
            self.entries = {at: tuple(c // 2 for c in x) for at, x in self.entries.items()}
        return self

    def inverse(self):
        return Matrix(self.qubits, self.k, {(j, i): conj(x) for (i, j), x in self.entries.items()})

    def power(self, k):
        factor = self if k >= 0 else self.inverse()
        made, left = Matrix.one(self.qubits), abs(k)
        while left:
            if left % 2:
                made = factor.after(made)
            factor, left = factor.after(factor), left // 2
        return made

    def controlled(self, value):
        """One qubit more, in front: the identity where its bit isn't the value."""
        made = {(i << 1 | 1 - value, i << 1 | 1 - value): (1 << self.k, 0, 0, 0) for i in range(1 << self.qubits)}
        made.update({(i << 1 | value, j << 1 | value): x for (i, j), x in self.entries.items()})
        return Matrix(self.qubits + 1, self.k, made)

    def times(self, number):
        return Matrix(self.qubits, self.k, {at: times(number, x) for at, x in self.entries.items()})

    def on(self, total, places):
        """On these qubits of so many."""
        others = [q for q in range(total) if q not in places]
        made = {}
        for bits in itertools.product((0, 1), repeat=len(others)):
            rest = sum(b << q for b, q in zip(bits, others))
            spread = [rest | sum((i >> t & 1) << q for t, q in enumerate(places)) for i in range(1 << self.qubits)]
            for (i, j), x in self.entries.items():
                made[spread[i], spread[j]] = x
        return Matrix(total, self.k, made)

    def told(self):
        columns = []
        for j in range(1 << self.qubits):
            column = Matrix(self.qubits, self.k, {at: x for at, x in self.entries.items() if at[1] == j}).least()
            column_text = "".join(f" {i}:{','.join(map(str, x))}" for (i, _), x in sorted(column.entries.items()))
            columns.append(f"{column.k}{column_text};")
        return "".join(columns)


# ---- the gates as they are printed. Angles are numbers of pi/4

def square(k, a, b, c, d):
    return Matrix(1, k, {(0, 0): a, (0, 1): b, (1, 0): c, (1, 1): d})


def u(theta, phi, lam):
    e, f = plus(ONE, root(theta)), plus(ONE, minus(root(theta)))
    return square(1, e, minus(times(I, times(root(lam), f))), times(I, times(root(phi), f)), times(root(phi + lam), e))


def diagonal(a, b):
    return square(0, a, ZERO, ZERO, b)


def halves(*angles):
    """Half of each sum, or Unprintable where it is no multiple of pi/4."""
    for angle in angles:
        if angle % 2:
            raise Unprintable
    return [angle // 2 for angle in angles]


class Unprintable(Exception):
    """The matrix has an entry that is no such number."""


def cos2(m):
    """Twice the cosine of m pi/4."""
    return plus(root(m), root(-m))


def sin2(m):
    """Twice the sine of m pi/4."""
    return times(minus(I), plus(root(m), minus(root(-m))))


def rx(theta):
    (m,) = halves(theta)
    return square(1, cos2(m), times(minus(I), sin2(m)), times(minus(I), sin2(m)), cos2(m))


def ry(theta):
    (m,) = halves(theta)
    return square(1, cos2(m), minus(sin2(m)), sin2(m), cos2(m))


def rz(lam):
    (m,) = halves(lam)
    return diagonal(root(-m), root(m))


ROOT2 = plus(root(1), minus(root(3)))
H = square(1, ROOT2, ROOT2, ROOT2, minus(ROOT2))
X = square(0, ZERO, ONE, ONE, ZERO)
Y = square(0, ZERO, minus(I), I, ZERO)
SX = square(1, plus(ONE, I), plus(ONE, minus(I)), plus(ONE, minus(I)), plus(ONE, I))
SWAP = Matrix(2, 0, {(0, 0): ONE, (1, 2): ONE, (2, 1): ONE, (3, 3): ONE})


def u3(theta, phi, lam):
    (m,) = halves(theta + phi + lam)
    return u(theta, phi, lam).times(root(-m))


def u2(phi, lam):
    s, d = halves(phi + lam, phi - lam)
    return square(1, times(ROOT2, root(-s)), minus(times(ROOT2, root(-d))), times(ROOT2, root(d)), times(ROOT2, root(s)))


def p(lam):
    return diagonal(ONE, root(lam))


def cu(theta, phi, lam, gamma):
    (m,) = halves(theta)
    return u(theta, phi, lam).times(root(gamma - m)).controlled(1)


def under(gate):
    return lambda *angles: gate(*angles).controlled(1)


def fixed(matrix):
    return lambda: matrix


GATES = {
    "U": u, "gphase": lambda gamma: Matrix(0, 0, {(0, 0): root(gamma)}),
    "id": fixed(diagonal(ONE, ONE)), "p": p, "phase": p, "u1": p, "z": fixed(p(4)), "s": fixed(p(2)), "t": fixed(p(1)),
    "sdg": fixed(p(-2)), "tdg": fixed(p(-1)), "x": fixed(X), "y": fixed(Y), "h": fixed(H), "sx": fixed(SX),
    "rx": rx, "ry": ry, "rz": rz, "u2": u2, "u3": u3,
    "cx": under(fixed(X)), "CX": under(fixed(X)), "cy": under(fixed(Y)), "cz": under(fixed(p(4))), "cp": under(p), "cphase": under(p),
    "crx": under(rx), "cry": under(ry), "crz": under(rz), "ch": under(fixed(H)), "swap": fixed(SWAP),
    "ccx": lambda: X.controlled(1).controlled(1), "cswap": lambda: SWAP.controlled(1), "cu": cu,
}
# the angles that stand in rows, in pi/4: of the gates with one parameter, two, three and four
ANGLES = {
    "gphase": [(1,), (-3,)], "p": [(e,) for e in range(-9, 10)], "phase": [(3,)], "u1": [(-1,)], "cp": [(1,), (6,)], "cphase": [(-5,)],
    "rx": [(e,) for e in range(-18, 20, 2)], "ry": [(e,) for e in range(-18, 20, 2)], "rz": [(e,) for e in range(-18, 20, 2)],
    "crx": [(2,), (-6,), (8,)], "cry": [(2,), (10,)], "crz": [(2,), (-4,), (8,)],
    "u2": [(0, 4), (1, 3), (-3, 5), (2, 0)], "u3": [(2, 1, -1), (1, 2, 3), (4, 4, 8), (-3, 1, 0)],
    "U": [(2, 0, 4), (1, 2, 3), (4, 0, 4), (-3, 1, 7), (8, 0, 0)], "cu": [(2, 0, 4, 1), (4, 1, 3, -2), (6, 2, 1, 0)],
}


def angles_of(name):
    return ANGLES.get(name, [()])


# ---- modifiers, the outermost first

def apply(modifier, matrix):
    if modifier == "inv":
        return matrix.inverse()
    if modifier in ("ctrl", "negctrl"):
        return matrix.controlled(1 if modifier == "ctrl" else 0)
    return matrix.power(int(modifier.partition(":")[2]))


def modified(modifiers, matrix):
    for modifier in reversed(modifiers):
        matrix = apply(modifier, matrix)
    return matrix


# ---- declared gates: a body is a list of calls, each with its modifiers, its gate, its angles as pairs of a text and a function of the
# gate's own parameters, and its qubits

class Gate:
    def __init__(self, parameters, qubits, calls):
        self.parameters, self.qubits, self.calls = parameters, qubits, calls

    def matrix(self, declared, *given):
        made = Matrix.one(self.qubits)
        for modifiers, name, angles, qubits in self.calls:
            inner = matrix_of(declared, name, [value(*given) for _, value in angles])
            made = modified(modifiers, inner).on(self.qubits, qubits).after(made)
        return made

    def written(self):
        return "|".join([f"gate {self.parameters} {self.qubits}"] + [call_text(m, n, [t for t, _ in a], q) for m, n, a, q in self.calls])


def matrix_of(declared, name, angles):
    return GATES[name](*angles) if name in GATES else declared[int(name[1:])].matrix(declared, *angles)


def call_text(modifiers, name, angles, qubits):
    return " ".join([",".join(map(str, part)) or "-" if part is not name else name for part in (modifiers, name, angles, qubits)])


def row(kind, total, declared, modifiers, name, units, operands, wanted):
    rows.append(f"{kind} {total};" + "".join(gate.written() + ";" for gate in declared) + call_text(modifiers, name, units, operands))
    answers.append(wanted)


def matrix(total, modifiers, name, angles, operands, declared=()):
    """A row of a call whose angles are in pi/4, on these qubits of so many."""
    made = modified(modifiers, matrix_of(declared, name, angles)).on(total, operands)
    row("matrix", total, declared, modifiers, name, [a * EIGHTH for a in angles], operands, made.told())


def places(total, turn):
    """All qubits, in an order that isn't always the ascending one."""
    listed = list(range(total))
    return listed[turn % total:] + listed[:turn % total] if total else []


# ---- each standard gate at each of its angles; under each modifier; under each pair of modifiers, at one of its angles in turn
MODIFIERS = ["inv", "pow:2", "pow:-3", "pow:0", "ctrl", "negctrl"]
turn = 0
for name in GATES:
    for angles in angles_of(name):
        size = matrix_of((), name, angles).qubits
        matrix(size, [], name, angles, places(size, 0))
    for modifiers in [(m,) for m in MODIFIERS + ["pow:1", "pow:-1", "pow:7"]] + list(itertools.product(MODIFIERS, repeat=2)):
        angles = angles_of(name)[turn % len(angles_of(name))]
        size = modified(modifiers, matrix_of((), name, angles)).qubits
        if size < 5:
            matrix(size, list(modifiers), name, angles, places(size, turn))
        turn += 1

# ---- on other qubits than the first, in each order; and where others stand between
for operands in itertools.permutations(range(4), 2):
    matrix(4, [], "cu", (2, 1, 3, 1), operands)
for operands in itertools.permutations(range(3)):
    matrix(3, ["ctrl", "negctrl"], "h", (), operands)
    matrix(3, [], "cswap", (), operands)
matrix(5, ["negctrl", "inv", "ctrl", "pow:2"], "sx", (), (4, 0, 2))
matrix(5, ["inv", "negctrl", "pow:-2", "ctrl", "inv"], "u3", (1, 2, 3), (3, 1, 4))
matrix(4, ["ctrl", "ctrl", "ctrl", "ctrl"], "gphase", (3,), (2, 0, 3, 1))
matrix(3, ["ctrl", "pow:-2"], "t", (), (0, 2))
matrix(6, ["ctrl"] * 4 + ["negctrl"], "y", (), (5, 0, 4, 1, 3, 2))

# ---- powers at their bounds, and powers of powers
for k in (1024, -1024, 1023, -1023, 1, -1):
    for name in ("t", "h", "sx", "y", "swap"):
        matrix(matrix_of((), name, ()).qubits, [f"pow:{k}"], name, (), places(matrix_of((), name, ()).qubits, 0))
matrix(1, ["pow:3", "pow:-5", "inv"], "t", (), [0])
matrix(2, ["ctrl", "pow:3", "inv", "pow:2"], "u2", (1, 3), [1, 0])


# ---- declared gates over gates, with angles in their parameters
def parameter(i):
    return (f"${i}", lambda *given: given[i])


def constant(e):
    return (str(e * EIGHTH), lambda *given: e)


def opposite(a):
    return (a[0] + "_neg", lambda *given: -a[1](*given))


def added(a, b):
    return (f"{a[0]}_{b[0]}_add", lambda *given: a[1](*given) + b[1](*given))


def less(a, b):
    return (f"{a[0]}_{b[0]}_sub", lambda *given: a[1](*given) - b[1](*given))


def scaled(a, k):
    return (f"{a[0]}_*{k}", lambda *given: a[1](*given) * k)


def over(a, k):
    def value(*given):
        if a[1](*given) % k:
            raise Unprintable
        return a[1](*given) // k
    return (f"{a[0]}_/{k}", value)


A, B, C = parameter(0), parameter(1), parameter(2)
DECLARED = [
    Gate(1, 2, [([], "h", [], [1]), (["ctrl"], "p", [over(A, 2)], [0, 1]), (["inv"], "t", [], [0]), ([], "gphase", [opposite(A)], [])]),
    Gate(2, 2, [([], "g0", [less(B, A)], [1, 0]), (["pow:-2"], "rz", [scaled(A, -2)], [0]), ([], "cx", [], [1, 0])]),
    Gate(3, 3, [(["ctrl"], "g1", [C, over(B, -1)], [2, 0, 1]), (["inv"], "g0", [added(A, constant(2))], [1, 2]), ([], "u3", [constant(2), A, opposite(A)], [0]),
                (["negctrl", "pow:2"], "g0", [scaled(A, 2)], [1, 2, 0])]),
    Gate(0, 3, [([], "g2", [constant(4), constant(2), constant(6)], [2, 1, 0]), (["ctrl"], "gphase", [constant(1)], [1])]),
    Gate(2, 1, []),
    Gate(1, 1, [(["pow:0"], "rz", [over(A, 7)], [0]), ([], "g4", [over(A, 3), over(A, 5)], [0]), ([], "x", [], [0])]),
]
for given in ((4,), (-2,), (8,), (0,), (6,)):
    for modifiers in ([], ["inv"], ["pow:3"], ["ctrl"], ["negctrl"], ["ctrl", "inv"], ["pow:-2", "negctrl"]):
        size = 2 + sum(m in ("ctrl", "negctrl") for m in modifiers)
        matrix(size, modifiers, "g0", given, places(size, given[0]), DECLARED[:1])
for given in ((2, 4), (4, -2), (6, 0), (1, 5)):
    for modifiers in ([], ["inv"], ["pow:2"], ["ctrl"], ["inv", "negctrl"]):
        size = 2 + sum(m in ("ctrl", "negctrl") for m in modifiers)
        matrix(size, modifiers, "g1", given, places(size, given[0]), DECLARED[:2])
for given in ((2, 4, 2), (4, -2, 0), (-6, 8, 4)):
    for modifiers in ([], ["inv"], ["pow:-2"], ["ctrl"], ["negctrl", "inv"]):
        size = 3 + sum(m in ("ctrl", "negctrl") for m in modifiers)
        matrix(size, modifiers, "g2", given, places(size, 1), DECLARED[:3])
matrix(3, [], "g3", (), [0, 1, 2], DECLARED[:4])
matrix(4, ["ctrl"], "g3", (), [3, 1, 0, 2], DECLARED[:4])
matrix(1, ["inv"], "g4", (1, 3), [0], DECLARED[:5])
# an angle on which no primitive rests isn't reckoned
row("matrix", 1, DECLARED, [], "g5", [EIGHTH], [0], X.told())

# ---- broadcasts: one call for each place, in ascending order
def broadcast(total, modifiers, name, angles, operands):
    """Operands are qubits, or pairs of a first qubit and a count."""
    count = max(o[1] for o in operands if isinstance(o, tuple))
    gate, made = modified(modifiers, matrix_of((), name, angles)), Matrix.one(total)
    for place in range(count):
        made = gate.on(total, [o[0] + place if isinstance(o, tuple) else o for o in operands]).after(made)
    written = [f"{o[0]}+{o[1]}" if isinstance(o, tuple) else str(o) for o in operands]
    row("matrix", total, (), modifiers, name, [a * EIGHTH for a in angles], written, made.told())


broadcast(3, [], "h", (), [(0, 3)])
broadcast(4, [], "cx", (), [0, (1, 3)])
broadcast(4, [], "cx", (), [(0, 3), 3])
broadcast(4, ["ctrl"], "rz", (2,), [(0, 2), (2, 2)])
broadcast(5, ["negctrl", "inv"], "cu", (2, 1, 3, 1), [(0, 2), 4, (2, 2)])
broadcast(5, [], "swap", (), [(0, 4), 4])
broadcast(3, ["pow:0"], "swap", (), [(0, 2), 2])


# ---- angles that are refused: the first fixed one that is no multiple of pi/4, in the order of the primitives, then of U's angles
def refused(name, units, wanted, modifiers=(), operands=(0,)):
    row("matrix", 2, (), list(modifiers), name, units, operands, f"angle {wanted}")


refused("U", [PI // 8, 0, 0], PI // 8)
refused("U", [0, 1, 2], 1)
refused("U", [0, 1, 2], -2, ["inv"])
refused("U", [3, 1, 2], -3, ["pow:-1"])
refused("rz", [PI // 4], -PI // 8)
refused("rx", [EIGHTH], -EIGHTH // 2)
refused("ry", [3], 3)
refused("p", [5], 5)
refused("gphase", [-7], -7, [], [])
refused("cu", [PI // 4, 0, 0, 0], -PI // 8, [], [0, 1])
refused("u2", [PI // 4, 0], -(PI // 4 + PI // 2) // 2)
row("matrix", 2, (), ["pow:0"], "rz", [PI // 4], [0], Matrix.one(2).told())

# ---- phases up to 2^60 units. What passes that bound in a body, or leaves a rest, is reckoned at run time
LIMIT = 1 << 60
row("matrix", 1, (), [], "p", [LIMIT], [0], p(LIMIT // EIGHTH).told())
row("matrix", 1, (), [], "p", [-LIMIT], [0], p(0).told())
row("matrix", 1, (), [], "p", [LIMIT + 1], [0], "no row")
row("matrix", 1, (), [], "p", [LIMIT - 1], [0], f"angle {LIMIT - 1}")
SUM = Gate(2, 1, [([], "p", [added(A, B)], [0])])
row("matrix", 1, [SUM], [], "g0", [LIMIT - EIGHTH, EIGHTH], [0], p(0).told())
row("matrix", 1, [SUM], [], "g0", [LIMIT, 1], [0], "at run time")
row("matrix", 1, [SUM], [], "g0", [-LIMIT, -1], [0], "at run time")
row("matrix", 1, [SUM], ["pow:0"], "g0", [LIMIT, 1], [0], Matrix.one(1).told())
THIRD = Gate(1, 1, [([], "p", [over(A, 3)], [0])])
row("matrix", 1, [THIRD], [], "g0", [3 * EIGHTH], [0], p(1).told())
row("matrix", 1, [THIRD], [], "g0", [PI], [0], "at run time")
row("matrix", 1, [Gate(1, 1, [([], "p", [over(A, 0)], [0])])], [], "g0", [0], [0], "at run time")
row("matrix", 1, [Gate(1, 1, [([], "p", [scaled(A, 1 << 64)], [0])])], [], "g0", [0], [0], p(0).told())
row("matrix", 1, [Gate(1, 1, [([], "p", [scaled(A, 1 << 64)], [0])])], [], "g0", [1], [0], "at run time")
row("matrix", 1, [Gate(1, 1, [([], "p", [scaled(A, (1 << 64) + 1)], [0])])], [], "g0", [0], [0], "no row")

# ---- gates that a body can't call come to nothing: itself, a later one, one that isn't there
NOTHING = Matrix.one(1).told()
row("matrix", 1, [Gate(0, 1, [([], "g0", [], [0])])], [], "g0", [], [0], NOTHING)
row("matrix", 1, [Gate(0, 1, [([], "g1", [], [0]), ([], "x", [], [0])]), Gate(0, 1, [([], "y", [], [0])])], [], "g0", [], [0], X.told())
row("matrix", 1, [], [], "g0", [], [0], NOTHING)
row("matrix", 1, [], [], "g4294967263", [], [0], NOTHING)
row("matrix", 1, [], [], "g4294967264", [], [0], "no row")
# no qubits of the state, or one twice
row("matrix", 2, [], [], "cx", [], [0, 0], "no primitive")
row("matrix", 2, [], [], "cx", [], [0, 2], "no primitive")
row("matrix", 2, [], ["ctrl", "ctrl"], "x", [], [0, 0, 1], "no primitive")
row("matrix", 2, [], [], "x", [], [32], "no primitive")

# ---- counts: ten powers of 1,024 in one another, and thirty gates that each call the one before twice
STOP = (1 << 32) - 1


def count(declared, modifiers, name, primitives, operators=0):
    row("count", 1, declared, modifiers, name, [], [0], f"primitives {min(primitives, STOP)}, operators {min(operators, STOP)}")


def chain(length, calls):
    """Gates of which the first calls x, and each other the one before, so often."""
    return [Gate(0, 1, [([], "x", [], [0])] if n == 0 else [([], f"g{n - 1}", [], [0])] * calls) for n in range(length)]


TOWER = [Gate(0, 1, [(["pow:1024"], f"g{n - 1}" if n else "x", [], [0])]) for n in range(10)]
count(TOWER, [], "g9", 2 * 1024 ** 10)
count(TOWER, [], "g2", 2 * 1024 ** 3)
count(TOWER, ["pow:0"], "g9", 0)
count(TOWER[:1] + [Gate(0, 1, [(["pow:0"], "g0", [], [0])])], [], "g1", 0)
count(chain(31, 2), [], "g30", 2 * 2 ** 30)
count(chain(31, 2), [], "g29", 2 * 2 ** 29)
count(chain(31, 2), ["pow:4", "ctrl"], "g30", 8 * 2 ** 30)
count(chain(64, 2), [], "g63", 2 * 2 ** 63)
HALF = Gate(1, 1, [([], "rz", [over(opposite(A), 2)], [0]), (["pow:3"], "rz", [added(A, A)], [0])])
count([HALF, Gate(0, 1, [(["pow:5"], "g0", [scaled(constant(1), 2)], [0])])], [], "g1", 5 * 8, 1 + 5 * 3)

# ---- long inputs: a body of 10,000 calls, and chains of gates up to the depth of 1,024 bodies, those of the standard gates among them
row("matrix", 1, [Gate(0, 1, [([], "t", [], [0])] * 10000)], [], "g0", [], [0], p(10000).told())
count([Gate(0, 1, [([], "t", [], [0])] * 10000)], [], "g0", 10000)
row("matrix", 1, chain(1023, 1), [], "g1022", [], [0], X.told())
row("matrix", 1, chain(1024, 1), [], "g1023", [], [0], "memory")
row("matrix", 1, chain(3000, 1), [], "g2999", [], [0], "memory")
count(chain(1024, 1), [], "g1023", 2)

# ---- lines that are no row
for wrong in ["", "matrix", "matrix 1", "matrix 1;", "matrix 9;- x - 0", "matrix x;- x - 0", "matrices 1;- x - 0", "matrix 1;- x", "matrix 1;- x -0", "matrix 1;- X - 0",
              "matrix 1;- gx - 0", "matrix 1;pow - x 0", "matrix 1;pow:2147483648 x - 0", "matrix 1;gate|- x - 0;- g0 - 0", "matrix 1;gate 0 1|- x - a;- g0 - 0",
              "matrix 1;gate 0 1|- p add 0;- g0 - 0", "matrix 1;gate 0 1|- p 1_1 0;- g0 - 0", "matrix 1;- p pi 0", "matrix 1;- x - 256", "count 1;- x - 0+"]:
    rows.append(wrong)
    answers.append("no row")
(here / "stdin").write_text("\n".join(rows) + "\n")
(here / "stdout").write_text("\n".join(answers) + "\n")
