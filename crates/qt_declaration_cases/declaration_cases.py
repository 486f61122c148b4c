#!/usr/bin/env python3
"""The answers to the rows of this program, reckoned anew: python3 declaration_cases.py < stdin | diff - stdout"""

import re
import sys

HERE = "Place { file: 0, line: 3, column: 4 }"
LAST = 2**32 - 1
DEFAULTS = {"bool": 1, "bit": 1, "int": 64, "uint": 64, "angle": 32}


class Refused(Exception):
    pass


def label(name):
    return f'Label {{ text: "{name}" }}'


def refuse(word, *rest):
    raise Refused(f"{word}({', '.join((HERE,) + rest)})")


def kind_of(name, width):
    return "Bool" if name == "bool" else f"{name.capitalize()}({width})"


class State:
    def __init__(self):
        self.scopes, self.known = [set()], 0
        self.slots, self.qubits, self.variables = 0, 0, 0
        self.inside = set()

    def counts(self):
        return f" slots {self.slots} qubits {self.qubits} constants {self.known} variables {self.variables}"

    def new(self, name):
        if name in self.scopes[-1]:
            refuse("E9", label(name))

    def add(self, name):
        self.new(name)
        self.scopes[-1].add(name)
        self.known += 1

    def take(self, count):
        first, self.slots = self.slots, min(self.slots + count, LAST)
        return first


def size_within(text, largest):
    size = int(text)
    if not 1 <= size <= largest:
        refuse("E12", "Range")
    return size


def type_of(name, size):
    if name not in DEFAULTS:
        raise KeyError(name)
    if name == "bool" or size == "-":
        return name, DEFAULTS[name]
    return name, size_within(size, 32 if name == "angle" else 64)


def constant(state, name, size, new, number):
    kind, width = type_of(name, size)
    state.new(new)
    if kind == "angle" and int(number) != 0:
        refuse("E10")
    state.add(new)


def qubits(state, name, count):
    state.qubits += count
    state.add(name)


def qubit(state, size, name):
    count = 1 if size == "-" else size_within(size, LAST)
    state.new(name)
    qubits(state, name, count)


def qreg(state, name, size):
    state.new(name)
    qubits(state, name, 1 if size == "-" else size_within(size, LAST))


def creg(state, name, size):
    state.new(name)
    if size != "-":
        size_within(size, 64)
    state.take(1)
    state.add(name)
    state.variables += len(state.scopes) == 1


def enter(state):
    state.scopes.append(set())


def leave(state, known):
    if len(state.scopes) > 1:
        state.scopes.pop()
    state.known = min(state.known, int(known))


DECLARATIONS = {"constant": constant, "qubit": qubit, "qreg": qreg, "creg": creg, "enter": enter, "leave": leave}


def declare(state, word, rest):
    try:
        DECLARATIONS[word](state, *rest)
        done = "declared"
    except Refused as refusal:
        done = str(refusal)
    return done + state.counts()


def lengths(numbers):
    for at, number in enumerate(numbers):
        if at == 7:
            refuse("E11", "Dimensions")
        size_within(number, LAST)
    return f"Lengths {{ items: [{', '.join(numbers)}] }}"


def element(name, size):
    kind, width = type_of(name, size)
    if kind == "bit":
        refuse("E10")
    return kind_of(kind, width)


def bits(kind, width, text):
    if kind == "bool":
        return {"true": 1, "false": 0}.get(text)
    if kind == "bit":
        return int(text, 2) if len(text) == width and re.fullmatch("[01]+", text) else None
    if not re.fullmatch("-?[0-9]+" if kind == "int" else "[0-9]+", text):
        return None
    number, bound = int(text), 2**width
    if kind == "int":
        return number % bound if -bound // 2 <= number < bound // 2 else None
    return number if number < bound else None


def fit(inputs, settings):
    starts = ""
    for kind, width, name, slot in inputs:
        given = [value for other, value in settings if other == name]
        if not given:
            raise Refused(f"E19({label(name)}, Missing)")
        found = bits(kind, int(width), given[0])
        if found is None:
            raise Refused(f"E19({label(name)}, Bad)")
        starts += f"{slot}:{found} "
    for name, _ in settings:
        if name not in [other for _, _, other, _ in inputs]:
            raise Refused(f"E19({label(name)}, Unknown)")
    return starts


def answer(state, inputs, settings, word, rest):
    if word in DECLARATIONS:
        return declare(state, word, rest)
    if word == "slots":
        return f"from {state.take(int(rest[0]))} declared{state.counts()}"
    if word == "element":
        return element(*rest)
    if word == "lengths":
        return lengths(rest)
    if word == "input":
        inputs.append(rest)
        return ""
    if word == "setting":
        settings.append(rest)
        return ""
    given = list(inputs), list(settings)
    inputs.clear()
    settings.clear()
    return fit(*given) if word == "fit" else "no row"


def main():
    state, inputs, settings = State(), [], []
    for line in sys.stdin.read().splitlines():
        word, *rest = line.split()
        try:
            print(answer(state, inputs, settings, word, rest))
        except Refused as refusal:
            print(refusal)
        except KeyError:
            print("no row")


main()
