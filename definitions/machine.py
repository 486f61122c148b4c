"""A machine for flat code over exact numbers: it follows every outcome of every choice and gives the leaves in order. It is written from the
rules of instructions alone; of the definitions it only uses the operators and conversions of values.

An amplitude is c0 + c1 ω + c2 ω² + c3 ω³ over a power of two, and a state has those that aren't zero by the number of their basis state."""

from antt import Clock, call, word

VALUES = "Rattle.qt_meaning.specs.Values"
MOST_UNITS = 2 ** 60


class Fault(Exception):
    """What an instruction stumbles on."""


def value_of(result):
    if result.name == "Err":
        raise Fault(result.parts[0].name)
    return result.parts[0]


# ---- amplitudes

def times(x, y):
    c = [0] * 7
    for i, a in enumerate(x):
        for j, b in enumerate(y):
            c[i + j] += a * b
    return (c[0] - c[4], c[1] - c[5], c[2] - c[6], c[3])


def plus(x, y):
    return tuple(a + b for a, b in zip(x, y))


def root(n):
    """ω to the n, by ω⁴ = −1."""
    c = [0, 0, 0, 0]
    c[n % 4] = 1 if n % 8 < 4 else -1
    return tuple(c)


ZERO, ONE = (0, 0, 0, 0), (1, 0, 0, 0)


class State:
    """Amplitudes over 2^k."""

    def __init__(self, entries, k=0):
        self.entries = entries
        self.k = k

    def norm(self):
        """|v|² as (a + b √2) / 2^k with the least k."""
        a = sum(c * c for x in self.entries.values() for c in x)
        b = sum(x[0] * x[1] + x[1] * x[2] + x[2] * x[3] - x[3] * x[0] for x in self.entries.values())
        return reduced(a, b, 2 * self.k)

    def project(self, qubit, bit):
        return State({i: x for i, x in self.entries.items() if i >> qubit & 1 == bit}, self.k)

    def flip(self, qubit):
        return State({i ^ 1 << qubit: x for i, x in self.entries.items()}, self.k)

    def scaled(self, applies, factor):
        return State({i: times(x, factor) if applies(i) else x for i, x in self.entries.items()}, self.k)

    def turned(self, applies, qubit, matrix):
        """By a matrix of halves on one qubit, where the controls are as they are to be."""
        new = {}
        for i, x in self.entries.items():
            if not applies(i):
                new[i] = plus(new.get(i, ZERO), tuple(2 * c for c in x))
                continue
            column = i >> qubit & 1
            for row in (0, 1):
                j = i & ~(1 << qubit) | row << qubit
                new[j] = plus(new.get(j, ZERO), times(matrix[row][column], x))
        return halved({i: x for i, x in new.items() if x != ZERO}, self.k + 1)


def halved(entries, k):
    """The same amplitudes over the least power of two."""
    while k and all(c % 2 == 0 for x in entries.values() for c in x):
        entries, k = {i: tuple(c // 2 for c in x) for i, x in entries.items()}, k - 1
    return State(entries, k)


def reduced(a, b, k):
    while k and a % 2 == 0 and b % 2 == 0:
        a, b, k = a // 2, b // 2, k - 1
    return a, b, k


def u_matrix(theta, phi, lam):
    """Twice the matrix of U."""
    one_more, one_less = plus(ONE, root(theta)), plus(ONE, times((-1, 0, 0, 0), root(theta)))
    minus_i = root(6)
    return [[one_more, times(minus_i, times(root(lam), one_less))],
            [times(root(2), times(root(phi), one_less)), times(root(phi + lam), one_more)]]


# ---- values

def width(kind):
    return 1 if kind.name == "Bool" else 64 if kind.name == "Phase" else kind.parts[0]


def number(kind, bits):
    """The number that a value stands for."""
    bits %= 2 ** width(kind)
    return bits - 2 ** width(kind) if kind.name == "Int" and bits >> (width(kind) - 1) else bits


def place(count, kind, bits):
    """The place that an index is written for."""
    i = number(kind, bits)
    if not -count <= i < count:
        raise Fault("Index")
    return i % count


def signed(bits):
    return bits - 2 ** 64 if bits >> 63 else bits


def phase_bits(units):
    if abs(units) > MOST_UNITS:
        raise Fault("BadAngle")
    return units % 2 ** 64


def quotient(units, divisor):
    if divisor == 0 or units % divisor:
        raise Fault("BadAngle")
    return units // divisor


def turns(first, step, last):
    if step == 0:
        raise Fault("Step")
    distance = last - first if step > 0 else first - last
    return min(distance // abs(step) + 1, 2 ** 64 - 1) if distance >= 0 else 0


# ---- runs

class Leaf:
    def __init__(self, signal, place, slots, state, fuel, trail):
        self.signal, self.place, self.slots, self.state, self.fuel, self.trail = signal, place, slots, state, fuel, trail


class Thread:
    """A path up to its next choice."""

    def __init__(self, at, slots, state, fuel, trail):
        self.at, self.slots, self.state, self.fuel, self.trail = at, list(slots), state, fuel, trail
        self.cells = {}

    def leaf(self, signal, place=None):
        return Leaf(signal, place, tuple(self.slots), self.state, self.fuel, self.trail)


class Machine:
    def __init__(self, parts):
        self.code = parts["instructions"]
        self.places = parts["places"]
        self.qubits = parts["qubits"]
        self.start = parts["start"]
        self.numbers, count = [], 0
        for instruction in self.code:
            count += instruction.name in ("Measure", "Reset")
            self.numbers.append(count)

    def leaves(self, fuel):
        waiting = [Thread(0, self.start, State({0: ONE}), fuel, ())]
        done = []
        while waiting:
            found = self.follow(waiting.pop())
            if isinstance(found, Leaf):
                done.append(found)
            else:
                waiting += reversed(found)
        return done

    def follow(self, t):
        """The leaf that the path ends in, or the threads behind its next choice."""
        while True:
            Clock.tick()
            instruction, place_of = self.code[t.at], self.places[t.at]
            name, parts = instruction.name, instruction.parts
            if name == "Tick":
                if t.fuel == 0:
                    return t.leaf("Dry")
                t.fuel -= 1
                t.at += 1
                continue
            if name == "End":
                return t.leaf("Ended")
            if name == "Jump":
                self.check_jump(t.at, parts[0])
                t.at = parts[0]
                continue
            if name == "JumpIf":
                self.check_jump(t.at, parts[1])
                t.at = parts[1] if t.cells.get(parts[0], 0) % 2 else t.at + 1
                continue
            try:
                found = getattr(self, name.lower())(t, *parts)
            except Fault as fault:
                return t.leaf(fault.args[0], place_of)
            if found is not None:
                return found
            t.at += 1

    def check_jump(self, at, to):
        assert to < len(self.code) and (to > at or self.code[to].name == "Tick"), f"a jump from {at} to {to}"

    # -- values

    def get_operand(self, t, operand):
        return number(operand["kind"], t.cells.get(operand["cell"], 0))

    def get_place(self, t, count, index):
        return place(count, index["kind"], t.cells.get(index["cell"], 0))

    def load(self, t, cell, bits):
        t.cells[cell] = bits

    def get(self, t, cell, slot):
        t.cells[cell] = t.slots[slot]

    def put(self, t, slot, cell):
        t.slots[slot] = t.cells.get(cell, 0)

    def getat(self, t, cell, first, count, index):
        t.cells[cell] = t.slots[first + self.get_place(t, count, index)]

    def putat(self, t, first, count, index, cell):
        t.slots[first + self.get_place(t, count, index)] = t.cells.get(cell, 0)

    def bitget(self, t, cell, of, index):
        at = self.get_place(t, width(of["kind"]), index)
        t.cells[cell] = t.cells.get(of["cell"], 0) >> at & 1

    def bitput(self, t, of, index, bit):
        at = self.get_place(t, width(of["kind"]), index)
        old = t.cells.get(of["cell"], 0)
        t.cells[of["cell"]] = old & ~(1 << at) | (t.cells.get(bit, 0) & 1) << at

    def apply(self, t, cell, operation):
        if operation.name == "Unary":
            operator, of = operation.parts
            t.cells[cell] = call(word(VALUES, "operated_alone"), operator, of["kind"], t.cells.get(of["cell"], 0))
        else:
            operator, left, right = operation.parts
            x, y = t.cells.get(left["cell"], 0), t.cells.get(right["cell"], 0)
            t.cells[cell] = value_of(call(word(VALUES, "operated"), operator, left["kind"], right["kind"], x, y))

    def cast(self, t, cell, of, to):
        t.cells[cell] = call(word(VALUES, "converted_to"), to, of["kind"], t.cells.get(of["cell"], 0))

    def turns(self, t, cell, first, step, last):
        t.cells[cell] = turns(*(self.get_operand(t, x) for x in (first, step, last)))

    # -- phases

    def units(self, t, argument):
        if argument.name == "Units":
            return argument.parts[0].number
        units = signed(t.cells.get(argument.parts[0], 0))
        phase_bits(units)
        return units

    def angleop(self, t, cell, operation):
        t.cells[cell] = phase_bits(self.reckoned(t, operation.name, operation.parts))

    def reckoned(self, t, name, parts):
        if name == "Step":
            return self.stepped(t, parts[0].name, parts[0].parts)
        if name == "OfAngle":
            kind, bits = parts[0]["kind"], t.cells.get(parts[0]["cell"], 0)
            return bits % 2 ** width(kind) * 2 ** (33 - width(kind))
        if name == "Product":
            return self.units(t, parts[0]) * self.get_operand(t, parts[1])
        if name == "Quotient":
            return quotient(self.units(t, parts[0]), self.get_operand(t, parts[1]))
        if t.cells.get(parts[0]["cell"], 0) % 2 ** width(parts[0]["kind"]):
            raise Fault("BadAngle")
        return 0

    def stepped(self, t, name, parts):
        left = self.units(t, parts[0])
        if name == "Neg":
            return -left
        if name in ("Times", "Over"):
            return left * parts[1].number if name == "Times" else quotient(left, parts[1].number)
        right = self.units(t, parts[1])
        return left + right if name == "Add" else left - right

    # -- qubits

    def qubit(self, t, cell, qubits, index):
        t.cells[cell] = qubits[self.get_place(t, len(qubits), index)]

    def qubit_of(self, t, reference):
        if reference.name == "At":
            return reference.parts[0]
        found = t.cells.get(reference.parts[0], 0)
        if found >= self.qubits:
            raise Fault("Index")
        return found

    def qubits_of(self, t, references):
        found = [self.qubit_of(t, reference) for reference in references]
        if len(set(found)) < len(found):
            raise Fault("SameQubit")
        return found

    def distinct(self, t, references):
        self.qubits_of(t, references)

    def eighths(self, t, angle):
        if angle.name == "Eighth":
            return angle.parts[0] % 8
        units = signed(t.cells.get(angle.parts[0], 0))
        if units % 2 ** 30:
            raise Fault("BadAngle")
        return (-units if angle.parts[1] else units) // 2 ** 30 % 8

    def gate(self, t, primitive):
        ones, zeros, *rest = primitive.parts
        targets = [rest.pop(0)] if primitive.name == "Turn" else []
        qubits = self.qubits_of(t, [*ones, *zeros, *targets])
        angles = [self.eighths(t, angle) for angle in rest]
        set_ones, set_zeros = qubits[:len(ones)], qubits[len(ones):len(ones) + len(zeros)]

        def applies(i):
            return all(i >> q & 1 for q in set_ones) and not any(i >> q & 1 for q in set_zeros)

        if targets:
            t.state = t.state.turned(applies, qubits[-1], u_matrix(*angles))
        else:
            t.state = t.state.scaled(applies, root(angles[0]))
        t.trail += (("did", tuple(sorted(set_ones)), tuple(sorted(set_zeros)), tuple(qubits[-1:] if targets else ()), tuple(angles),
                     place_key(self.places[t.at])),)

    # -- choices

    def branch(self, t, outcome):
        """The thread behind a choice with an outcome, whose slots are as they were, or none."""
        qubit, bit = outcome
        state = t.state.project(qubit, bit)
        return Thread(t.at + 1, t.slots, state, t.fuel, t.trail) if state.entries else None

    def chosen(self, thread, at, bit):
        event = ("chose", place_key(self.places[at]), bool(bit), thread.fuel, self.numbers[at], tuple(thread.slots))
        thread.trail += (event,)
        return thread

    def measure(self, t, reference, store):
        qubit, at = self.qubit_of(t, reference), 0
        if store.name != "Nowhere":
            at = store.parts[1] if store.name == "Bit" else t.cells.get(store.parts[1], 0)
        if at >= 64:
            raise Fault("Index")
        found = []
        for bit in (0, 1):
            thread = self.branch(t, (qubit, bit))
            if thread:
                if store.name != "Nowhere":
                    slot = store.parts[0]
                    thread.slots[slot] = thread.slots[slot] & ~(1 << at) | bit << at
                found.append(self.chosen(thread, t.at, bit))
        return found

    def reset(self, t, reference):
        qubit, found = self.qubit_of(t, reference), []
        for bit in (0, 1):
            thread = self.branch(t, (qubit, bit))
            if thread:
                thread.state = thread.state.flip(qubit) if bit else thread.state
                found.append(self.chosen(thread, t.at, bit))
        return found


def place_key(place_of):
    return place_of["file"], place_of["line"], place_of["column"]
