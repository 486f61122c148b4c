#!/usr/bin/env python3
"""Writes the table of operators and conversions, reckoned with whole numbers of any size by the tables of the language.

Run it in this folder: `python3 operator_tables.py stdin > stdin` writes the rows, and `python3 operator_tables.py stdout > stdout` the
answers that are wanted. `src/main.rt` says what a row is.

Each operator stands with each pair of types and each conversion from each type to each other one, at all edge values of their operands.
A pair that is refused has one row.
"""

import sys

COMPARISONS = {
    "==": lambda x, y: x == y, "!=": lambda x, y: x != y, "<": lambda x, y: x < y,
    "<=": lambda x, y: x <= y, ">": lambda x, y: x > y, ">=": lambda x, y: x >= y,
}
BITWISE = ("|", "^", "&")
SHIFTS = ("<<", ">>")
TURNS = ("rotl", "rotr")
OPERATORS = [*BITWISE, *COMPARISONS, *SHIFTS, "+", "-", "*", "/", "%", "**", *TURNS]
UNARY_OPERATORS = ["!", "~", "neg", "popcount"]

BOOL = ("bool", 1)
PHASE = ("phase", 0)
WIDTHS = {"bit": [1, 63, 64], "int": [1, 63, 64], "uint": [1, 63, 64], "angle": [1, 31, 32]}
TYPES = [BOOL, *[(name, n) for name, widths in WIDTHS.items() for n in widths]]
# Types that no value has.
NO_TYPES = [PHASE, ("bit", 0), ("bit", 65), ("int", 0), ("int", 65), ("uint", 0), ("uint", 65), ("angle", 0), ("angle", 33)]


class Divide(Exception):
    """A divisor is 0, or isn't positive below an angle, or an exponent is negative."""


class Refused(Exception):
    """No row of the language's table fits the types."""


def is_whole(kind):
    return kind[0] in ("bool", "bit", "int", "uint")


def has_size(kind):
    name, n = kind
    return kind == BOOL or name in ("bit", "int", "uint") and 1 <= n <= 64 or name == "angle" and 1 <= n <= 32


def number(kind, bits):
    name, n = kind
    return bits - (1 << n) if name == "int" and bits >> (n - 1) else bits


def bits_of(n, number):
    return number % (1 << n)


def common(left, right):
    """The greater width, and uint where an operand of that width has no sign."""
    n = max(left[1], right[1])
    return ("uint", n) if any(k[1] == n and k[0] != "int" for k in (left, right)) else ("int", n)


def truncated(x, y):
    quotient = abs(x) // abs(y)
    return quotient if (x < 0) == (y < 0) else -quotient


def turn(n, digits, places):
    """A text of n digits, the highest place first, turned toward the highest place."""
    text = format(digits, "b").zfill(n)
    places %= n
    return int(text[places:] + text[:places], 2)


def arithmetic(op, n, x, y):
    if op == "+":
        return bits_of(n, x + y)
    if op == "-":
        return bits_of(n, x - y)
    if op == "*":
        return bits_of(n, x * y)
    if op == "**":
        if y < 0:
            raise Divide
        return pow(x, y, 1 << n)
    if y == 0:
        raise Divide
    quotient = truncated(x, y)
    return bits_of(n, quotient if op == "/" else x - quotient * y)


def bitwise(op, left, right):
    return {"|": left | right, "^": left ^ right, "&": left & right}[op]


def shifted(op, left, a, k):
    n = left[1]
    if not 0 <= k < n:
        return 0
    return bits_of(n, a << k) if op == "<<" else a >> k


def of_wholes(op, left, a, right, b):
    kind = common(left, right)
    n = kind[1]
    a, b = bits_of(n, number(left, a)), bits_of(n, number(right, b))
    x, y = number(kind, a), number(kind, b)
    if op in COMPARISONS:
        return BOOL, int(COMPARISONS[op](x, y))
    return kind, bitwise(op, a, b) if op in BITWISE else arithmetic(op, n, x, y)


def of_angles(op, kind, a, b):
    if op in COMPARISONS:
        return BOOL, int(COMPARISONS[op](a, b))
    if op in ("+", "-"):
        return kind, arithmetic(op, kind[1], a, b)
    if op == "/":
        return ("uint", kind[1]), arithmetic(op, kind[1], a, b)
    raise Refused


def of_angle_and_whole(op, kind, a, k):
    if op == "*":
        return kind, bits_of(kind[1], a * k)
    if op == "/":
        if k <= 0:
            raise Divide
        return kind, a // k
    raise Refused


def apply(op, left, a, right, b):
    if not has_size(left) or not has_size(right):
        raise Refused
    if op in SHIFTS or op in TURNS:
        takers = ("bit", "int", "uint", "angle") if op in SHIFTS else ("bit", "uint")
        if left[0] not in takers or not is_whole(right):
            raise Refused
        k = number(right, b)
        return left, shifted(op, left, a, k) if op in SHIFTS else turn(left[1], a, k if op == "rotl" else -k)
    if op in BITWISE and left == right and left[0] in ("bit", "angle"):
        return left, bitwise(op, a, b)
    if is_whole(left) and is_whole(right):
        return of_wholes(op, left, a, right, b)
    if left == right:
        return of_angles(op, left, a, b)
    if left[0] == "angle" and is_whole(right):
        return of_angle_and_whole(op, left, a, number(right, b))
    if right[0] == "angle" and is_whole(left) and op == "*":
        return of_angle_and_whole(op, right, b, number(left, a))
    raise Refused


def apply_unary(op, kind, a):
    name, n = kind
    if not has_size(kind):
        raise Refused
    if op == "!" and is_whole(kind):
        return BOOL, int(a == 0)
    if op == "~" and name != "bool":
        return kind, int("".join("10"[int(d)] for d in format(a, "b").zfill(n)), 2)
    if op == "neg":
        return (kind if name in ("int", "angle") else ("uint", n)), bits_of(n, -number(kind, a))
    if op == "popcount" and name == "bit":
        return ("uint", 64), format(a, "b").count("1")
    raise Refused


def cast(kind, a, to):
    name, n = kind
    if not has_size(to):
        raise Refused
    if to[0] in ("int", "uint") and is_whole(kind):
        return to, bits_of(to[1], number(kind, a))
    if to == BOOL and is_whole(kind):
        return to, int(a != 0)
    if to[0] == "bit" and name in ("int", "uint", "bool"):
        return to, bits_of(to[1], number(kind, a))
    if name in ("bit", "angle") and to[0] in ("bit", "angle") and n == to[1]:
        return to, a
    if name == "angle" and to[0] == "angle":
        return to, a << (to[1] - n) if to[1] > n else a >> (n - to[1])
    raise Refused


def yes(holds):
    return "true" if holds else "false"


def type_facts(kind):
    """Its width, whether it has a size of the language, and whether its values are whole numbers."""
    return f"{kind[1]} {yes(has_size(kind))} {yes(is_whole(kind))}"


def place(index, length):
    try:
        return range(length)[index]
    except IndexError:
        return "index"


def turns(first, step, last):
    """How many numbers the range has, which 2^64 - 1 stands for where they are more."""
    if step == 0:
        return "step"
    numbers = range(first, last + (1 if step > 0 else -1), step)
    return min((numbers[-1] - first) // step + 1, (1 << 64) - 1) if numbers else 0


# ---- rows: each is a line and its answer


def greatest(kind):
    name, n = kind
    return (1 << (n - 1)) - 1 if name == "int" else (1 << n) - 1


def edges(kind):
    """The bits of 0, 1 and the least and the greatest number, and of -1 in an int; in a uint also those that an int would take for its least."""
    name, n = kind
    numbers = [0, 1, greatest(kind), (1 << n) - 1]
    if name in ("int", "uint"):
        numbers.append(1 << (n - 1))
    return list(dict.fromkeys(numbers))


def counts(kind, n):
    """Edge values as counts of places in n places: also the bits of n - 1 and n, where they fit."""
    return list(dict.fromkeys(edges(kind) + [k for k in (n - 1, n) if k <= greatest(kind)]))


def text(kind, *bits):
    return " ".join(map(str, [*kind, *bits]))


def row(line, function, *arguments):
    try:
        kind, bits = function(*arguments)
        return line, text(kind, bits)
    except Divide:
        return line, "divide"
    except Refused:
        return line, "refused"


def binary_row(op, left, a, right, b):
    return row(f"{op} {text(left, a)} {text(right, b)}", apply, op, left, a, right, b)


def unary_row(op, kind, a):
    return row(f"{op} {text(kind, a)}", apply_unary, op, kind, a)


def cast_row(kind, a, to):
    return row(f"cast {text(kind, a)} {text(to)}", cast, kind, a, to)


def number_row(kind, bits):
    fits = has_size(kind) and bits < 1 << kind[1]
    return f"number {text(kind, bits)}", number(kind, bits) if fits else "refused"


def type_row(kind):
    return f"type {text(kind)}", type_facts(kind)


def place_row(index, length):
    return f"place {index} {length}", place(index, length)


def turns_row(first, step, last):
    return f"turns {first} {step} {last}", turns(first, step, last)


def one_if_refused(rows):
    """A refusal rests on types alone."""
    return rows[:1] if rows[0][1] == "refused" else rows


# Rows whose answers are worked out by hand, line by line.
WORKED = """
/ int 8 249 int 8 2 = int 8 253
% int 8 249 int 8 2 = int 8 255
+ int 8 127 int 8 1 = int 8 128
/ int 64 5 int 64 0 = divide
/ angle 8 5 int 8 255 = divide
** int 8 2 int 8 255 = divide
+ angle 8 5 int 8 1 = refused
<< uint 8 1 uint 8 8 = uint 8 0
<< uint 8 1 int 8 255 = uint 8 0
>> int 8 128 int 8 255 = int 8 0
>> int 8 128 int 8 8 = int 8 0
rotl bit 8 129 int 8 255 = bit 8 192
rotr bit 8 129 int 8 247 = bit 8 3
~ uint 8 5 = uint 8 250
popcount bit 4 5 = uint 64 2
neg bit 8 1 = uint 8 255
neg int 8 128 = int 8 128
! int 8 0 = bool 1 1
! angle 8 0 = refused
cast int 8 255 uint 64 = uint 64 18446744073709551615
cast uint 8 200 bool 1 = bool 1 1
cast angle 8 129 angle 7 = angle 7 64
cast bit 8 1 angle 7 = refused
cast uint 8 1 phase 0 = refused
number uint 3 7 = 7
number uint 3 8 = refused
number int 8 127 = 127
number int 8 128 = -128
number angle 33 0 = refused
number phase 0 0 = refused
type bool 1 = 1 true true
type bit 64 = 64 true true
type int 65 = 65 false true
type angle 32 = 32 true false
type phase 0 = 0 false false
place -3 2 = index
place -2 2 = 0
place 1 2 = 1
place 2 2 = index
turns 0 3 10 = 4
turns 5 1 2 = 0
turns 0 0 3 = step
turns 0 1 18446744073709551616 = 18446744073709551615
"""


def worked():
    return [tuple(line.rsplit(" = ", 1)) for line in WORKED.strip().split("\n")]


def examples():
    """Small numbers, to be read."""
    yield binary_row("/", ("int", 8), 249, ("int", 8), 2)
    yield binary_row("%", ("int", 8), 249, ("int", 8), 2)
    yield binary_row("<<", ("uint", 8), 1, ("uint", 8), 8)
    yield binary_row("+", ("int", 8), 127, ("int", 8), 1)
    yield binary_row("/", ("int", 64), 5, ("int", 64), 0)
    yield unary_row("~", ("uint", 8), 5)
    yield unary_row("popcount", ("bit", 4), 5)
    for op in ("/", "%"):
        for n in (8, 64):
            for x, y in ((7, 2), (-7, 2), (7, -2), (-7, -2)):
                yield binary_row(op, ("int", n), bits_of(n, x), ("int", n), bits_of(n, y))
    for op in OPERATORS:
        for x, y in ((90, 11), (171, 3), (200, 100), (3, 5)):
            for left, right in (("bit", "bit"), ("int", "uint"), ("uint", "bit"), ("angle", "angle"), ("angle", "uint")):
                yield binary_row(op, (left, 8), x, (right, 8), y)
    for op in TURNS:
        for k in (-9, -8, -7, 3, 63, 64, 65):
            for kind in (("bit", 8), ("uint", 63), ("uint", 64)):
                yield binary_row(op, kind, 0xB00000000000005A % (1 << kind[1]), ("int", 64), bits_of(64, k))


def binary_rows():
    for op in OPERATORS:
        for left in TYPES:
            for right in TYPES:
                values = counts(right, left[1]) if op in SHIFTS + TURNS else edges(right)
                yield from one_if_refused([binary_row(op, left, a, right, b) for a in edges(left) for b in values])
        for kind in NO_TYPES:
            yield binary_row(op, kind, 0, ("int", 8), 1)
            yield binary_row(op, ("angle", 8), 1, kind, 0)
            yield binary_row(op, kind, 0, kind, 0)


def unary_rows():
    for op in UNARY_OPERATORS:
        for kind in [*TYPES, ("bit", 8), ("bit", 63), ("angle", 8)]:
            yield from one_if_refused([unary_row(op, kind, a) for a in [*edges(kind), 0x5A5A5A5A5A5A5A5A % (1 << kind[1])]])
        for kind in NO_TYPES:
            yield unary_row(op, kind, 0)


def cast_rows():
    types = [*TYPES, *[("bit", n) for n in (8, 31, 32, 33, 63)], ("int", 8), ("uint", 8), ("angle", 8)]
    for kind in types:
        for to in types:
            yield from one_if_refused([cast_row(kind, a, to) for a in edges(kind)])
        for to in NO_TYPES:
            yield cast_row(kind, 1, to)


def number_rows():
    for kind in [("uint", 3), *TYPES]:
        for bits in [*edges(kind), *[bits for bits in (1 << kind[1],) if bits < 1 << 64]]:
            yield number_row(kind, bits)
    for kind in NO_TYPES:
        yield number_row(kind, 0)


def type_rows():
    for kind in [*TYPES, *NO_TYPES]:
        yield type_row(kind)


def place_rows():
    yield place_row(0, 0)
    for length in (1, 2, 7, (1 << 32) - 1):
        for index in (-length - 1, -length, 1 - length, -1, 0, 1, length - 1, length, length + 1, -(1 << 127), (1 << 127) - 1):
            yield place_row(index, length)


def turns_rows():
    for numbers in ((0, 3, 10), (5, 1, 2), (0, 0, 3), (0, 3, 9), (0, 3, 8), (10, -3, 0), (10, -3, 1), (2, -1, 5)):
        yield turns_row(*numbers)
    most = 1 << 64
    for first in (-most, -1, 0, 1, most - 1, most):
        for step in (-most, -2, -1, 0, 1, 2, most):
            for last in (-most, -1, 0, most - 3, most - 2, most - 1, most):
                yield turns_row(first, step, last)


def rows():
    for part in (worked, examples, type_rows, number_rows, unary_rows, cast_rows, place_rows, turns_rows, binary_rows):
        yield from part()


def answers():
    """Each row once. A row that is worked out by hand and reckoned too has the same answer both times."""
    answers = {}
    for line, answer in rows():
        if answers.setdefault(line, str(answer)) != str(answer):
            raise SystemExit(f"{line}: {answers[line]}, and {answer}")
    return answers


if __name__ == "__main__":
    column = ("stdin", "stdout").index(sys.argv[1])
    for line in answers().items():
        print(line[column])
