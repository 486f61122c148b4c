#!/usr/bin/env python3
"""Writes rows of names and registers and the answers that are wanted, by lists of its own.

Run it in this folder: `python3 name_cases.py stdin > stdin` writes the rows, and `python3 name_cases.py stdout > stdout` the answers.
`src/main.rt` says what a row is. A table is a list of dictionaries here, the global scope first, and a register is reckoned place by
place from its parts, whose qubits are never listed. The rows of names are written by hand and by chance with a fixed beginning.
"""

import math
import random
import sys

SEEN_INSIDE = ("constant", "gate", "subroutine")
KINDS = ("variable", "constant", "qubits", "alias", "gate", "subroutine", "parameter")


# ---- names


def some(value):
    return "None" if value is None else f"Some({value})"


def named(words):
    """What a row says of a name, as it is shown."""
    kind, width, length, places = words[0], int(words[1]), int(words[2]), words[3:]
    if places[0] == "nowhere":
        shown = "Nowhere"
    elif places[0] == "number":
        shown = f"Number {{ number: {places[1]} }}"
    else:
        first, count = int(places[1]), int(places[2])
        run = f"Run {{ origin: Program, first: {first}, step: 1, count: {count} }}" if count else ""
        shown = f"Qubits {{ qubits: Register {{ runs: [{run}], size: {count} }} }}"
    of = some(f"Int({width})" if width else None)
    lengths = f"Lengths {{ items: [{length if length else ''}] }}"
    return f"Named {{ what: {kind.capitalize()}, of: {of}, lengths: {lengths}, places: {shown} }}"


def refusal(code, line, name):
    return f'Err({code}(Place {{ file: 0, line: {line}, column: 1 }}, Label {{ text: "{name}" }}))'


class Tables:
    def __init__(self):
        self.scopes = {"outside": [{}], "inside": [{}]}

    def found(self, table, name):
        for scope in reversed(self.scopes[table]):
            if name in scope:
                return scope[name]
        return None

    def declare(self, tables, name, line, words):
        if any(name in self.scopes[table][-1] for table in tables):
            return refusal("E9", line, name)
        for table in tables:
            self.scopes[table][-1][name] = named(words)
        return "Ok(())"

    def find(self, table, name, line):
        found = self.found(table, name)
        return refusal("E8", line, name) if found is None else f"Ok({found})"

    def many(self, table, count):
        scope = self.scopes[table][-1]
        for number in range(count):
            if f"n{number}" in scope:
                return refusal("E9", 1, f"n{number}")
            scope[f"n{number}"] = named(["variable", "0", "0", "number", str(number)])
        return f"Ok({count})"


def answer_names(tables, words):
    call = words[0]
    if call == "new":
        tables.scopes = {"outside": [{}], "inside": [{}]}
        return "ok"
    if call == "global":
        seen = ("outside", "inside") if words[3] in SEEN_INSIDE else ("outside",)
        return tables.declare(seen, words[1], words[2], words[3:])
    table, rest = words[1], words[2:]
    scopes = tables.scopes[table]
    if call == "enter":
        scopes.append({})
        return "ok"
    if call == "leave":
        if len(scopes) > 1:
            scopes.pop()
        return "ok"
    if call == "declare":
        return tables.declare((table,), rest[0], rest[1], rest[2:])
    if call == "find":
        return tables.find(table, rest[0], rest[1])
    if call == "known":
        return some(tables.found(table, rest[0]))
    if call == "declares":
        return str(rest[0] in scopes[-1]).lower()
    if call == "many":
        return tables.many(table, int(rest[0]))
    if call == "nest":
        return f"Ok({rest[0]})"
    return "no row"


def some_named(chance):
    kind = chance.choice(KINDS)
    places = chance.choice(("nowhere", f"number {chance.randrange(9)}", f"qubits {chance.randrange(9)} {chance.randrange(5)}"))
    return f"{kind} {chance.randrange(65)} {chance.randrange(4)} {places}"


def chance_rows():
    chance = random.Random(19)
    rows = ["new"]
    for line in range(1, 401):
        table = chance.choice(("outside", "inside"))
        name = chance.choice("abcdefgh")
        rows.append(
            chance.choice(
                (
                    f"enter {table}",
                    f"leave {table}",
                    f"declare {table} {name} {line} {some_named(chance)}",
                    f"declare {table} {name} {line} {some_named(chance)}",
                    f"global {name} {line} {some_named(chance)}",
                    f"find {table} {name} {line}",
                    f"find {table} {name} {line}",
                    f"known {table} {name}",
                    f"declares {table} {name}",
                )
            )
        )
    return rows


VARIABLE = "variable 8 0 number 3"

NAME_ROWS = [
    # a second declaration is refused, and an unknown name; after each the first is still found
    "new",
    "enter outside",
    f"declare outside a 1 {VARIABLE}",
    "declare outside a 2 constant 4 0 nowhere",
    "find outside a 3",
    "find outside b 4",
    "find outside a 5",
    # the innermost entry, and what it hid once its scope is closed
    "enter outside",
    "find outside a 6",
    "declare outside a 7 qubits 0 0 qubits 2 3",
    "declares outside a",
    "find outside a 8",
    "enter outside",
    "declares outside a",
    "find outside a 9",
    "leave outside",
    "leave outside",
    "find outside a 10",
    "leave outside",
    "find outside a 11",
    "known outside a",
    # the global scope stays open
    "leave outside",
    f"declare outside a 12 {VARIABLE}",
    "leave outside",
    "find outside a 13",
    # what is seen inside
    "new",
    "global n 1 constant 8 0 nowhere",
    "global g 2 gate 0 2 number 0",
    "global f 3 subroutine 4 1 number 0",
    "global v 4 variable 8 3 number 1",
    "global q 5 qubits 0 0 qubits 0 4",
    "global l 6 alias 0 0 qubits 1 2",
    "global p 7 parameter 8 0 number 1",
] + [f"find {table} {name} 8" for table in ("outside", "inside") for name in "ngfvqlp"] + [
    # a name that is hidden inside may be declared there; outside it is declared already
    "enter inside",
    "declare inside v 9 parameter 0 0 number 0",
    "find inside v 10",
    "find outside v 10",
    "declare inside n 11 variable 4 0 number 2",
    "find inside n 12",
    "leave inside",
    "find inside v 13",
    "find inside n 14",
    "global v 15 constant 8 0 nowhere",
    "find outside v 16",
    "find inside v 17",
    "global n 18 variable 8 0 number 7",
    "find outside n 19",
    "find inside n 20",
    # a name that the inside alone has
    "declare inside w 21 constant 8 0 nowhere",
    "global w 22 gate 0 1 number 1",
    "find outside w 23",
    "find inside w 24",
    "global w 25 variable 8 0 number 2",
    "find outside w 26",
    "find inside w 27",
    # names that begin alike, and a long one
    f"declare outside ab 28 {VARIABLE}",
    "find outside abc 29",
    "find outside ab 30",
    f"declare outside {'x' * 300} 31 {VARIABLE}",
    f"find outside {'x' * 300} 32",
    # many
    "new",
    "many outside 50000",
    "find outside n0 1",
    "find outside n49999 2",
    "find outside n50000 3",
    "many outside 1",
    "nest outside 10000 a",
    "find outside a 4",
    "nest inside 64 n0",
    "find inside n0 5",
    "known outside n7",
]

NO_ROWS = [
    "find nowhere a 1",
    "find outside a",
    "find outside a x",
    "declare outside a 1 thing 0 0 nowhere",
    "declare outside a 1 variable 300 0 nowhere",
    "declare outside a 1 variable 0 0 there",
    "many outside x",
    "register program 1",
    "register qubit 1 2",
    "at x; program 0 1",
    "other",
    "",
]


# ---- registers


def parts_in(written):
    parts = []
    for part in written.split(","):
        origin, number, count = part.split()
        parts.append((origin, int(number), int(count)))
    return parts


def qubit_at(parts, place):
    for origin, number, count in parts:
        if place < count:
            if origin == "program":
                return f"Number {{ qubit: {number + place} }}"
            return f"OfParameter {{ parameter: {number}, place: {place} }}"
        place -= count
    return None


def runs_in(written):
    """The runs of a register as (origin, range of numbers), from places one step apart in its parts; None where it has no such places."""
    numbers, _, parts = written.partition(";")
    if len(numbers.split()) != 3 or not parts:
        return None
    start, step, count = map(int, numbers.split())
    parts = parts_in(parts)
    if step == 0 or (count > 0 and start + (count - 1) * step >= sum(part[2] for part in parts)):
        return None
    places = range(start, start + count * step, step)
    runs, behind = [], 0
    for origin, number, size in parts:
        first = next_at_least(places, behind)
        end = min(places.stop, behind + size)
        way = (number if origin == "program" else 0) - behind
        runs.append(((origin, None if origin == "program" else number), range(first + way, max(first, end) + way, step)))
        behind += size
    return runs


def next_at_least(places, least):
    """The first place that isn't below a number, also behind the last one."""
    return places.start + max(0, -(-(least - places.start) // places.step)) * places.step


def meet(left, right):
    """Whether two ranges have a number in common: the least common one from the larger first number on, by the remainder theorem."""
    divisor = math.gcd(left.step, right.step)
    if not left or not right or (right.start - left.start) % divisor:
        return False
    step = right.step // divisor
    turns = (right.start - left.start) // divisor * pow(left.step // divisor, -1, step) % step if step > 1 else 0
    common = left.start + turns * left.step
    both = left.step * step
    least = max(left.start, right.start)
    common += max(0, -(-(least - common) // both)) * both
    return common <= min(left[-1], right[-1])


def overlap(row):
    left, _, right = row.partition("/")
    left, right = runs_in(left), runs_in(right)
    if left is None or right is None:
        return "refused"
    return str(any(one[0] == other[0] and meet(one[1], other[1]) for one in left for other in right)).lower()


def show(size, at):
    shown = [str(size)] + [some(at(place)) for place in range(min(size, 10))]
    if size > 10:
        shown += ["..", some(at(size - 1))]
    return " ".join(shown)


def answer_registers(row):
    call, rest = row.split(" ", 1)
    if call in ("register", "copied"):
        parts = parts_in(rest)
        return show(sum(part[2] for part in parts), lambda place: qubit_at(parts, place))
    if call == "overlap":
        return overlap(rest)
    numbers, written = rest.split(";")
    parts = parts_in(written)
    size = sum(part[2] for part in parts)
    if call == "at":
        return some(qubit_at(parts, int(numbers)))
    if len(numbers.split()) != 3:
        return "refused"
    start, step, count = map(int, numbers.split())
    if step == 0 or (count > 0 and start + (count - 1) * step >= size):
        return "refused"
    return show(count, lambda place: qubit_at(parts, start + place * step))


def some_parts(chance):
    origins = ("program", "program", "parameter")
    return ", ".join(f"{chance.choice(origins)} {chance.randrange(20)} {chance.randrange(7)}" for _ in range(chance.randrange(1, 5)))


def some_places(chance):
    parts = f"program {chance.randrange(20)} 40, parameter {chance.randrange(3)} 40"
    return f"{chance.randrange(60)} {chance.randrange(1, 10)} {chance.randrange(6)}; {parts}"


GIANT = "program 4000000000 4294967295, parameter 3 4294967295, program 5 1"

REGISTER_ROWS = [
    "register program 0 0",
    "register program 3 1",
    "register program 3 4",
    "register parameter 2 3",
    "register parameter 2 0",
    "register program 3 2, parameter 0 2, program 0 1",
    f"register {GIANT}",
    f"copied {GIANT}",
    "copied program 0 0",
    f"at 0; {GIANT}",
    f"at 4294967294; {GIANT}",
    f"at 4294967295; {GIANT}",
    f"at 8589934589; {GIANT}",
    f"at 8589934590; {GIANT}",
    f"at 8589934591; {GIANT}",
    f"at 18446744073709551615; {GIANT}",
    "at 0; program 0 0",
    f"stepped 0 1 8589934591; {GIANT}",
    f"stepped 4294967290 2 8; {GIANT}",
    f"stepped 1 4294967295 2; {GIANT}",
    f"stepped 0 8589934590 2; {GIANT}",
    f"stepped 0 8589934591 2; {GIANT}",
    f"stepped 0 18446744073709551615 2; {GIANT}",
    f"stepped 18446744073709551615 18446744073709551615 2; {GIANT}",
    "stepped 0 0 1; program 0 3",
    "stepped 3 1 0; program 0 3",
    "stepped 9 1 0; program 0 3",
    "stepped 2 1 1; program 0 3",
    "stepped 3 1 1; program 0 3",
    "stepped 1 3 4; program 0 4, parameter 1 4, program 8 4",
    "stepped 0 1; program 0 1",
    "overlap 0 1 4; program 0 4 / 0 1 4; program 3 4",
    "overlap 0 1 4; program 0 4 / 0 1 4; program 4 4",
    "overlap 0 1 4; program 0 4 / 0 1 4; parameter 0 4",
    "overlap 0 1 4; parameter 0 4 / 3 1 1; parameter 0 4",
    "overlap 0 1 4; parameter 0 4 / 3 1 1; parameter 1 4",
    "overlap 0 1 0; program 0 4 / 0 1 4; program 0 4",
    "overlap 0 1 4; program 0 4 / 0 1 0; program 0 4",
    "overlap 0 1 5; program 0 4 / 0 1 4; program 0 4",
    "overlap 0 1 4; program 0 4 / 0 0 4; program 0 4",
    "overlap 0 1 4; program 0 4",
    # each second place, and every other one; each third place meets each second, from the fourth on
    "overlap 0 2 2147483647; program 0 4294967295 / 1 2 2147483647; program 0 4294967295",
    "overlap 1 2 2147483647; program 0 4294967295 / 0 3 1431655765; program 0 4294967295",
    "overlap 1 2 2147483647; program 0 4294967295 / 0 3 1; program 0 4294967295",
    # steps that have no common divisor meet late, or beyond the end
    "overlap 0 65521 65549; program 0 4294967295 / 1 65537 65534; program 0 4294967295",
    "overlap 0 65521 65549; program 0 4294967295 / 65536 65537 65534; program 0 4294967295",
    "overlap 0 65521 4000; program 0 4294967295 / 65536 65537 4000; program 0 4294967295",
    "overlap 0 1 8589934590; program 0 4294967295, parameter 0 4294967295 / 0 4294967294 2; parameter 0 4294967295",
    "overlap 4294967295 1 4; program 0 4294967295, program 7 4 / 0 1 4; program 10 4",
    "overlap 4294967295 1 4; program 0 4294967295, program 7 4 / 0 1 4; program 11 4",
]


def chance_registers():
    chance = random.Random(4)
    rows = []
    for _ in range(60):
        parts = some_parts(chance)
        rows.append(f"register {parts}")
        rows.append(f"at {chance.randrange(20)}; {parts}")
        rows.append(f"stepped {chance.randrange(6)} {chance.randrange(1, 5)} {chance.randrange(6)}; {parts}")
    for _ in range(150):
        rows.append(f"overlap {some_places(chance)} / {some_places(chance)}")
    return rows


def main():
    tables = Tables()
    pairs = [(row, answer_names(tables, row.split())) for row in NAME_ROWS + chance_rows()]
    pairs += [(row, answer_registers(row)) for row in REGISTER_ROWS + chance_registers()]
    pairs += [(row, "no row") for row in NO_ROWS]
    for row, answer in pairs:
        print(row if sys.argv[1] == "stdin" else answer)


main()
