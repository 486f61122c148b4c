#!/usr/bin/env python3
"""Writes the cases of state vectors, of gates on them, of measurements, canonical forms and branches, and the answers that are wanted.

Run it in this folder: `python3 state_cases.py stdin > stdin` writes the rows, and `python3 state_cases.py stdout > stdout` the
answers. `src/main.rt` says what a row is.

Everything is reckoned here anew, with whole numbers of any size: numbers of the ring as polynomials with w^4 = -1, gates as full
matrices, and the canonical form by its definition. Where rows are chosen at random, they are the same in each run.
"""

import itertools
import random
import sys

QUBITS = 16
LARGEST = 1 << 54
MOST_HALVINGS = 127

# ---- numbers of the ring, as lists of four coefficients

ZERO, ONE, TWO = [0, 0, 0, 0], [1, 0, 0, 0], [2, 0, 0, 0]
OMEGA, IMAGINARY = [0, 1, 0, 0], [0, 0, 1, 0]
ROOT2 = [0, 1, 0, -1]
ONE_MINUS_OMEGA = [1, -1, 0, 0]
EPSILON, EPSILON_INVERSE = [1, 1, 0, -1], [-1, 1, 0, -1]


def times(x, y):
    product = [0] * 4
    for i in range(4):
        for j in range(4):
            sign = 1 if i + j < 4 else -1
            product[(i + j) % 4] += sign * x[i] * y[j]
    return product


def plus(x, y):
    return [a + b for a, b in zip(x, y)]


def minus(x):
    return [-c for c in x]


def conj(x):
    return [x[0], -x[3], -x[2], -x[1]]


def power(x, n):
    product = ONE
    for _ in range(n):
        product = times(product, x)
    return product


def omega(n):
    return power(OMEGA, n % 8)


def epsilon(n):
    return power(EPSILON, n) if n >= 0 else power(EPSILON_INVERSE, -n)


def norm(x):
    """A and B, where |x|^2 = A + B * sqrt(2)."""
    square = times(x, conj(x))
    assert square[2] == 0 and square[3] == -square[1]
    return square[0], square[1]


def over(x, y):
    """The quotient, or None where it has a coefficient that isn't whole: x times the other conjugates of y, over the norm of y."""
    others = conj(y)
    # w -> w^3 and its conjugate
    for sent in ([y[0], y[3], -y[2], y[1]], conj([y[0], y[3], -y[2], y[1]])):
        others = times(others, sent)
    whole = times(y, others)
    assert whole[1:] == [0, 0, 0] and whole[0] != 0
    product = times(x, others)
    if any(c % whole[0] != 0 for c in product):
        return None
    return [c // whole[0] for c in product]


def all_over(entries, y):
    quotients = [over(x, y) for x in entries]
    return None if None in quotients else quotients


def scaled(factor, entries):
    return [times(factor, x) for x in entries]


def is_small(entries):
    return all(abs(c) <= LARGEST for x in entries for c in x)


# ---- states: entries, and how often each is to be halved


class State:
    def __init__(self, entries, halvings=0):
        self.entries, self.halvings = entries, halvings
        self.qubits = len(entries).bit_length() - 1
        while self.halvings > 0 and (quotients := all_over(self.entries, TWO)):
            self.entries, self.halvings = quotients, self.halvings - 1

    def is_bounded(self):
        return is_small(self.entries) and self.halvings <= MOST_HALVINGS


def zeros(qubits):
    return State([ONE] + [ZERO] * ((1 << qubits) - 1))


def bits(index, qubits):
    return [index >> q & 1 for q in range(qubits)]


def twice_u(theta, phi, lam):
    """Twice the matrix of U."""
    a, b, c = omega(theta), omega(phi), omega(lam)
    less, more = plus(ONE, minus(a)), plus(ONE, a)
    return [
        [more, times(minus(IMAGINARY), times(c, less))],
        [times(IMAGINARY, times(b, less)), times(times(b, c), more)],
    ]


def holds(ones, zeros_mask, index, qubits):
    here = bits(index, qubits)
    return all(b == 1 for b, m in zip(here, bits(ones, qubits)) if m) and all(
        b == 0 for b, m in zip(here, bits(zeros_mask, qubits)) if m
    )


def matrix_of(step, qubits):
    """The full matrix of a primitive, and how often its entries are to be halved."""
    size = 1 << qubits
    matrix = [[ZERO] * size for _ in range(size)]
    if step[0] == "phase":
        _, ones, clear, angle = step
        for i in range(size):
            matrix[i][i] = omega(angle) if holds(ones, clear, i, qubits) else ONE
        return matrix, 0
    _, ones, clear, target, *angles = step
    gate = twice_u(*angles)
    for i, j in itertools.product(range(size), repeat=2):
        if i & ~(1 << target) == j & ~(1 << target):
            if holds(ones, clear, i, qubits):
                matrix[i][j] = gate[i >> target & 1][j >> target & 1]
            elif i == j:
                matrix[i][j] = TWO
    return matrix, 1


def product(matrix, entries):
    sums = []
    for row in matrix:
        total = ZERO
        for m, x in zip(row, entries):
            if m != ZERO and x != ZERO:
                total = plus(total, times(m, x))
        sums.append(total)
    return sums


def kept(state, qubit, outcome):
    """What the outcome leaves, or None where that is nothing."""
    entries = [x if i >> qubit & 1 == outcome else ZERO for i, x in enumerate(state.entries)]
    return State(entries, state.halvings) if any(x != ZERO for x in entries) else None


def flipped(state, qubit):
    return State([state.entries[i ^ 1 << qubit] for i in range(len(state.entries))], state.halvings)


def is_primitive(step, qubits):
    ones, clear = step[1:3]
    if ones >> qubits or clear >> qubits or ones & clear:
        return False
    if step[0] == "phase":
        return 0 <= step[3] < 8
    target = step[3]
    return target < qubits and not (ones | clear) >> target & 1 and all(0 <= a < 8 for a in step[4:])


# ---- rows of states


def listed(entries):
    return ", ".join(" ".join(str(c) for c in x) for x in entries)


def told(state):
    return f"k {state.halvings}: {listed(state.entries)}"


def after(state, steps):
    """What is told of the state after the steps, of which the first that can't be done is the last."""
    for step in steps:
        name, *numbers = step
        if name in ("turn", "phase"):
            if not is_primitive(step, state.qubits):
                return "refused"
            matrix, halvings = matrix_of(step, state.qubits)
            new = State(product(matrix, state.entries), state.halvings + halvings)
            if not new.is_bounded():
                return f"fault, {told(state)}"
        elif numbers[0] >= state.qubits:
            return "refused"
        elif name == "flip":
            new = flipped(state, numbers[0])
        else:
            new = kept(state, numbers[0], ("zero", "one").index(name))
            if new is None:
                return f"nothing, {told(state)}"
        state = new
    return told(state)


def state_row(entries, steps):
    """A row from a list of entries, or from so many qubits in 0."""
    written = f"{entries} zeros" if isinstance(entries, int) else f"{len(entries).bit_length() - 1} {listed(entries)}"
    begun = zeros(entries) if isinstance(entries, int) else State(entries)
    row = "; ".join([f"state {written}", *(" ".join(str(part) for part in step) for step in steps)])
    if not is_small(begun.entries) or len(begun.entries) != 1 << begun.qubits:
        return row, "refused"
    return row, after(begun, steps)


def some_entries(chance, qubits, size=5):
    """Entries with small coefficients, some of them 0, and not all."""
    while True:
        entries = [
            ZERO if chance.random() < 0.2 else [chance.randint(-size, size) for _ in range(4)] for _ in range(1 << qubits)
        ]
        if any(x != ZERO for x in entries):
            return entries


def chunks(steps, count):
    for begin in range(0, len(steps), count):
        yield steps[begin : begin + count]


def control_sets(qubits, target=None):
    """All pairs of masks on the qubits but the target."""
    for asked in itertools.product((None, 0, 1), repeat=qubits):
        if target is None or asked[target] is None:
            yield tuple(sum(1 << q for q, bit in enumerate(asked) if bit == value) for value in (1, 0))


def gate_rows(chance):
    # each set of controls of each target, with some angles
    for qubits in range(1, 6):
        turns = [
            ("turn", ones, clear, target, *(chance.randrange(8) for _ in range(3)))
            for target in range(qubits)
            for ones, clear in control_sets(qubits, target)
        ]
        phases = [("phase", ones, clear, chance.randrange(8)) for ones, clear in control_sets(qubits)]
        steps = turns + phases
        chance.shuffle(steps)
        for some in chunks(steps, 10):
            yield state_row(some_entries(chance, qubits), some)
    for some in chunks([("phase", ones, 0, angle) for angle in range(8) for ones in (0, 1)], 8):
        yield state_row(0, [("phase", 0, 0, step[3]) for step in some])
        yield state_row(some_entries(chance, 1), some)
    # all angles, without controls and with some
    angles = list(itertools.product(range(8), repeat=3))
    chance.shuffle(angles)
    for some in chunks(angles, 8):
        yield state_row(some_entries(chance, 1), [("turn", 0, 0, 0, *three) for three in some])
        controls = list(control_sets(3, 1))
        yield state_row(some_entries(chance, 3), [("turn", *chance.choice(controls), 1, *three) for three in some])


def every_angle_rows(chance):
    # each angle theta of a turn, and each phase, under each set of controls
    for qubits in range(1, 5):
        turns = [
            ("turn", ones, clear, target, theta, chance.randrange(8), chance.randrange(8))
            for target in range(qubits)
            for ones, clear in control_sets(qubits, target)
            for theta in range(8)
        ]
        phases = [("phase", ones, clear, angle) for ones, clear in control_sets(qubits) for angle in range(8)]
        steps = turns + phases
        chance.shuffle(steps)
        for some in chunks(steps, 12):
            yield state_row(some_entries(chance, qubits), some)


HADAMARD, X, T = (2, 0, 4), (4, 0, 4), (0, 0, 1)


def bound_rows():
    """Products on both sides of the bounds of coefficients and of halvings."""
    largest, less, next_to = [LARGEST, 0, 0, 0], [LARGEST - 1, 0, 0, 0], [LARGEST, 0, -2, 0]
    for entries, angles in (
        ([largest, largest], X), ([largest, minus(largest)], T), ([[LARGEST] * 4, minus([LARGEST] * 4)], X),
        ([largest, largest], HADAMARD), ([largest, next_to], HADAMARD), ([less, less], HADAMARD), ([next_to, next_to], HADAMARD),
        ([largest, ZERO], HADAMARD), ([[LARGEST] * 4, ZERO], HADAMARD), ([[LARGEST, 0, LARGEST, 0], ZERO], HADAMARD),
        ([largest, less], (1, 2, 3)), ([[LARGEST // 2] * 4, ZERO], (3, 0, 0)),
    ):
        yield state_row(entries, [("turn", 0, 0, 0, *angles)])
    yield state_row([largest, largest, largest, next_to], [("turn", 2, 0, 0, *HADAMARD)])
    yield state_row([largest, largest, largest, next_to], [("turn", 0, 2, 0, *HADAMARD)])
    once = [("turn", 0, 0, 0, *HADAMARD), ("zero", 0)]
    yield state_row(1, once * (2 * MOST_HALVINGS))
    yield state_row(1, once * (2 * MOST_HALVINGS) + once)
    # one halving more before the product is reduced, and the bounds of coefficients below 0
    for angles in (X, T, (4, 3, 5)):
        yield state_row(1, once * (2 * MOST_HALVINGS) + [("turn", 0, 0, 0, *angles)])
    yield state_row(1, once * (2 * MOST_HALVINGS - 1) + [("turn", 0, 0, 0, *HADAMARD)] * 3)
    for entries in ([minus(largest), minus(largest)], [minus(largest), minus(next_to)], [minus(next_to), minus(next_to)]):
        yield state_row(entries, [("turn", 0, 0, 0, *HADAMARD)])


def measured_rows(chance):
    # states over some halvings, of which one half is even
    for qubits in (2, 3, 4):
        for scale in (2, 8, 64, 1 << 40):
            even = [scaled([scale, 0, 0, 0], [x])[0] if i % 2 == 0 else x for i, x in enumerate(some_entries(chance, qubits, 3))]
            steps = [step for _ in range(4) for step in (("turn", 0, 0, 1, *HADAMARD), ("turn", 0, 0, 1, 0, 0, chance.randrange(8)))]
            for last in (("zero", 0), ("one", 0), ("zero", 1), ("one", 1), ("flip", 0), ("flip", 1)):
                yield state_row(even, [*steps, last])
    for qubits in (1, 2, 3, 5):
        for qubit in range(qubits):
            entries = some_entries(chance, qubits)
            for steps in ([("flip", qubit)], [("flip", qubit), ("zero", qubit), ("flip", qubit)], [("one", qubit), ("zero", qubit)]):
                yield state_row(entries, steps)
    for qubits in (1, 2, 3, 4):
        yield state_row(qubits, [("turn", 0, 0, 0, *HADAMARD), *(("turn", 1, 0, q, *X) for q in range(1, qubits)), ("one", qubits - 1)])


def split_row(entries, qubit):
    state = State(entries)
    halves = [kept(state, qubit, outcome) for outcome in (0, 1)]
    zero, one = ("none" if half is None else told(half) for half in halves)
    return f"split {state.qubits} {listed(entries)}; {qubit}", f"zero {zero}; one {one}"


def split_rows(chance):
    yield split_row([ONE, ZERO], 0)
    yield split_row([ZERO, [0, 0, 0, -1]], 0)
    yield split_row([[LARGEST] * 4, minus([LARGEST] * 4)], 0)
    yield split_row([ZERO, ONE, ZERO, ONE], 0)
    yield split_row([ZERO, ONE, ZERO, ONE], 1)
    yield split_row([ZERO, ZERO], 0)
    for qubits in (1, 2, 3, 4):
        for qubit in range(qubits):
            yield split_row(some_entries(chance, qubits, 100), qubit)


def norm_rows(chance):
    for entries in (
        [ZERO], [ONE], [[1, 1, 0, 0]], [[1, -1, 0, 0]], [[0, 0, 0, 1], [2, 0, 0, 0]], [[LARGEST] * 4] * 3, [minus([LARGEST] * 4)],
        [[LARGEST, LARGEST, LARGEST, -LARGEST]] * 5, [[LARGEST, -LARGEST, LARGEST, LARGEST]], some_entries(chance, 4, 1 << 50),
    ):
        a, b = (sum(norm(x)[part] for x in entries) for part in (0, 1))
        yield f"norm {listed(entries)}", f"{a} {b}"


# ---- canonical forms


def in_window(x):
    a, b = norm(x)
    return -a < 2 * b <= a


POWERS = {m: epsilon(m) for m in range(-60, 61)}


def canonical(entries):
    """The form, and the twos, units and primes of the scale."""
    twos = 0
    while quotients := all_over(entries, TWO):
        entries, twos = quotients, twos + 2
    if quotients := all_over(entries, ROOT2):
        entries, twos = quotients, twos + 1
    primes = 0
    if quotients := all_over(entries, ONE_MINUS_OMEGA):
        entries, primes = quotients, 1
    first = next(x for x in entries if x != ZERO)
    (units,) = [m for m in POWERS if in_window(times(POWERS[-m], first))]
    entries = scaled(POWERS[-units], entries)
    first = times(POWERS[-units], first)
    turn = max(range(8), key=lambda j: times(omega(j), first))
    return scaled(omega(turn), entries), twos, units, primes


def canon_answer(entries):
    if not is_small(entries) or all(x == ZERO for x in entries):
        return "refused"
    form, twos, units, primes = canonical(entries)
    if not is_small(form):
        return f"fault, {listed(entries)}"
    return f"twos {twos}, units {units}, primes {primes}: {listed(form)}"


def canon_row(entries):
    return f"canon {listed(entries)}", canon_answer(entries)


FACTORS = (
    [omega(j) for j in range(8)] + [epsilon(m) for m in (-3, -2, -1, 1, 2, 3)]
    + [ROOT2, ONE_MINUS_OMEGA, TWO, times(ROOT2, ONE_MINUS_OMEGA), times(TWO, epsilon(2)), times(omega(3), times(ROOT2, TWO)), minus(ROOT2)]
)


def canon_rows(chance):
    for entries in ([[1, 1, 0, 0], ZERO], [TWO], [ONE], [ZERO, OMEGA], [ZERO, ZERO, ROOT2, ONE_MINUS_OMEGA], [minus(ONE), ONE], [ONE, ONE]):
        yield canon_row(entries)
    for qubits in (0, 1, 1, 2, 3):
        entries = some_entries(chance, qubits, 6)
        form = canonical(entries)[0]
        for factor in FACTORS:
            assert canonical(scaled(factor, entries))[0] == form
            yield canon_row(scaled(factor, entries))
    # states that differ by more than a factor
    for j in range(8):
        yield canon_row([ONE, omega(j)])
        yield canon_row([ONE_MINUS_OMEGA, times(ONE_MINUS_OMEGA, omega(j))])
    # long powers of epsilon
    for m in (-40, -39, 39, 40):
        for others in ([], [ONE], [omega(3)], [epsilon(-m)], [epsilon(m)], [[LARGEST, 0, 0, 0]]):
            yield canon_row([epsilon(m), *others])
            yield canon_row([ZERO, *others, epsilon(m)])
    # the bound of the form, from both sides
    for y in ([0, LARGEST, 0, 0], [-1, LARGEST, 0, 0], [0, LARGEST, 0, -1], [0, LARGEST, -1, 0], [1, LARGEST, 1, 0], [LARGEST] * 4):
        for first in (EPSILON, EPSILON_INVERSE, ONE, times(omega(5), EPSILON)):
            yield canon_row([first, y])
            yield canon_row([first, times(TWO, [c // 2 for c in y])])
    for entries in (
        [[LARGEST] * 4], [minus([LARGEST] * 4)], [[LARGEST, 0, 0, 0], ZERO], [[LARGEST, -LARGEST, LARGEST, LARGEST]],
        [[LARGEST - 1, LARGEST, 1 - LARGEST, -LARGEST]], [[1, LARGEST, 0, 0], [LARGEST, 1, 0, 0]], [[LARGEST, LARGEST - 1, 0, 0]],
    ):
        yield canon_row(entries)


# ---- branches


def written_branch(branch):
    at, slots, entries = branch
    return f"{at}; {' '.join(str(slot) for slot in slots)}; {len(entries).bit_length() - 1} {listed(entries)}"


BRANCHES = [
    (0, [], [ONE]), (1, [], [ONE]), (0, [0], [ONE]), (0, [1], [ONE]), (0, [0, 1], [ONE]), (0, [1, 0], [ONE]), (0, [], [OMEGA]),
    (0, [], [minus(ONE)]), (0, [], [[1, 0, 0, 1]]), (0, [], [ONE, ZERO]), (0, [], [ZERO, ONE]), (0, [], [ONE, OMEGA]),
    (0, [], [ONE, minus(OMEGA)]), (4294967295, [18446744073709551615, 7], [[LARGEST] * 4, minus([LARGEST] * 4)]),
]


def branch_rows():
    for at, slots, entries in BRANCHES:
        words = 4 * len(entries) + len(slots) + 16
        yield f"branch {written_branch((at, slots, entries))}", f"words {words}, at {at}, slots {slots}, entries {listed(entries)}"
    for left, right in itertools.product(BRANCHES, repeat=2):
        same = str(left == right).lower()
        yield f"same {written_branch(left)} | {written_branch(right)}", f"equal {same}, hashed alike {same}"


# ---- rows that break a condition, and lines that are no rows


def broken_rows():
    above = [LARGEST + 1, 0, 0, 0]
    for entries, steps in (
        ([above, ZERO], []), ([minus(above), ZERO], []), ([ONE, [0, 0, 0, LARGEST + 1]], []), ([ONE, ONE, ONE], []),
        (1, [("turn", 1, 0, 0, 0, 0, 0)]), (1, [("turn", 0, 1, 0, 0, 0, 0)]), (2, [("turn", 2, 2, 0, 0, 0, 0)]),
        (2, [("turn", 4, 0, 0, 0, 0, 0)]), (2, [("turn", 0, 4, 0, 0, 0, 0)]), (2, [("turn", 0, 0, 2, 0, 0, 0)]),
        (1, [("turn", 0, 0, 0, 8, 0, 0)]), (1, [("turn", 0, 0, 0, 0, 8, 0)]), (1, [("turn", 0, 0, 0, 0, 0, 8)]),
        (0, [("turn", 0, 0, 0, 0, 0, 0)]), (1, [("phase", 0, 0, 8)]), (1, [("phase", 1, 1, 0)]), (1, [("phase", 2, 0, 0)]),
        (1, [("phase", 0, 2, 0)]), (1, [("zero", 1)]), (1, [("one", 1)]), (1, [("flip", 1)]), (0, [("flip", 0)]),
    ):
        row = state_row(entries, steps)
        assert row[1] == "refused", row
        yield row
    for entries in ([ZERO], [ZERO, ZERO], [above], [ONE, minus(above)]):
        row = canon_row(entries)
        assert row[1] == "refused", row
        yield row
    for row in (
        f"state {QUBITS + 1} zeros", "state 1 1 0 0 0", "state 0 1 0 0", "state 0 1 0 0 x", "state 1 zeros; turn 0 0 0 0 0",
        "state 1 zeros;", "state 1 zeros; twist 0", "state zeros", f"split 1 {listed([above, ZERO])}; 0",
        "split 1 1 0 0 0, 0 0 0 0; 1", "split 0 1 0 0 0; 0", "split 1 1 0 0 0, 0 0 0 0", f"norm {listed([above])}",
        f"norm {listed([ONE, minus(above)])}", "norm 1 0 0", "branch 0; ; 1 1 0 0 0", f"branch 0; ; 0 {listed([above])}",
        "branch 4294967296; ; 0 1 0 0 0", "branch 0; 18446744073709551616; 0 1 0 0 0", "branch 0; 0 1 0 0 0",
        "branch 0; ; 1 1 0 0 0, 1 0 0 0, 1 0 0 0", "same 0; ; 0 1 0 0 0", "same 0; ; 0 1 0 0 0 | 0; 0 1 0 0 0",
    ):
        yield row, "refused"
    for row in ("", "state", "turn 0 0 0 0 0 0"):
        yield row, "no row"


def rows():
    chance = random.Random(14)
    yield state_row(1, [])
    yield state_row(1, [("turn", 0, 0, 0, *HADAMARD)])
    yield state_row([TWO, ZERO], [])
    yield from gate_rows(chance)
    yield from every_angle_rows(random.Random(15))
    yield from bound_rows()
    yield from measured_rows(chance)
    yield from split_rows(chance)
    yield from norm_rows(chance)
    yield from canon_rows(chance)
    yield from branch_rows()
    yield from broken_rows()


if __name__ == "__main__":
    column = ("stdin", "stdout").index(sys.argv[1])
    for line in rows():
        print(line[column])
