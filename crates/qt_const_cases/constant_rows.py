#!/usr/bin/env python3
"""Writes rows of constants and the answers that are wanted, as the rules of the language give them.

Run it in this folder: `python3 constant_rows.py stdin > stdin` writes the rows, and `python3 constant_rows.py stdout > stdout` the
answers. `src/main.rt` says what a row is.

A line of the table below is a row, ` => `, and its answer: the number of entries, `TYPE WIDTH BITS` of a value, `phase UNITS`, `type TYPE`,
`E8 NAME`, `E10`, `E14` with the number of arguments that are wanted and that of those given, or `E11` or `E12` and its word. Rows of angles
are reckoned with whole numbers of any size.
"""

import sys

TAU = 1 << 33

TABLE = """
known n other => 1
known a value angle 4 3 => 2
known b value bit 4 6 => 3
known i value int 8 251 => 4
known t value bool 1 1 => 5
known p phase 2 => 6
known z lengths 2 3 => 7

value i + 7 => int 64 2
value 9223372036854775808 => uint 64 9223372036854775808
value ~b => bit 4 9
value false && n => E12 variable
value false && 1 / 0 => bool 1 0
value false || 1 / 0 => E12 divide

value uint[4](29) => uint 4 13
value uint[65](1) => E12 range
value angle[3](pi) => angle 3 4
value angle[3](0) => angle 3 0
value angle[3](1) => E10
value int("0101") => int 64 5

value popcount("0101") => uint 64 2
value rotl(b, 1) => bit 4 12
value rotr(b, 2) => bit 4 9
value rotl(b) => E14 2 1
value rotr(m, 1, 2) => E14 2 3
value popcount() => E14 1 0
value popcount(b, m) => E14 1 2
value pi * popcount() => E14 1 0
value f(1) => E8 f

value angle[3](pi / 8) => E12 exact
value bool(pi) => E10
value uint[8](pi) => E10
value bool(2) => bool 1 1
value bool(0) => bool 1 0
value bool(a) => E10
value uint[0](1) => E12 range
value angle[0](pi) => E12 range
value angle[33](pi) => E12 range

value true || 1 / 0 == 0 => bool 1 1
value true && 1 / 0 == 0 => E12 divide
value true || pi => E10

value pi / 4 => phase 1073741824
value pi / 3 => E12 exact
value pi / 0 => E12 exact
value 1 / 0 => E12 divide
value 7 / 2 => int 64 3
value pi * (7 / 2) => E12 exact

value tau => phase 8589934592
value 268435457 * pi => E12 range
value 0 - pi => phase -4294967296
value 1 + pi => E10

value a + pi / 8 => angle 4 4
value a + pi / 16 => E12 exact
value a == 0 => bool 1 0
value a == 1 => E10

value pi + pi => phase 8589934592
value -pi => phase -4294967296
value 3 * pi => phase 12884901888
value pi * 3 => phase 12884901888
value pi * (1 / 0) => E12 divide

value pi == pi => E10
value pi * pi => E10
value pi / pi => E10
value ~pi => E10
value !pi => E10

value pi / 8 + a => angle 4 4
value 0 == a => bool 1 0
value pi / a => uint 4 2
value a < pi => bool 1 1
value a * pi => E10
value a / 0 => E12 divide

value n => E12 variable
value m => E8 m
value z => E10
value i => int 8 251
value b[2] => bit 1 1
value b[4] => E12 range
value i[-1] => bit 1 1

value b[1:2] => bit 2 3
value b[:2:] => bit 2 2
value b[2:1] => E12 range
value b[:0:] => E12 range
value i[:] => E10

value sizeof(z) => uint 64 2
value sizeof(z, 1) => uint 64 3
value sizeof(z, 2) => E12 range
value sizeof(z, -1) => E12 range
value sizeof(n) => E10
value sizeof(m) => E8 m

value z[0, 1] => E12 variable
value z[0][1] => E12 variable
value z[0] => E10
value t[0] => E10
value p[0] => E10
value b[{0}] => E10

value b[0:2][1] => bit 1 1
value b[2:3, 0] => bit 1 1
value b[0:1][2] => E12 range

value pi + 3/2 => E10
value 3/2 + pi => E10
value pi - 3/2 => E10
value 3/2 - pi => E10
value pi + 4/2 => E10
value 4/2 + pi => E10
value pi + 5 * (3/2) => E10
value -(3/2) + pi => E10
value 2 * (pi + 3/2) => E10
value (3/2 + pi) / 2 => E10
value pi + 1/0 => E12 divide
value 1/0 + pi => E12 divide
value pi + (3/2 + 1/0) => E12 divide
value pi + 0/3 => phase 4294967296
value 0/3 + pi => phase 4294967296
value pi - 0/3 => phase 4294967296
value 0/3 - pi => phase -4294967296
value 0 + pi => phase 4294967296
value false + pi => phase 4294967296
value pi - "000" => phase 4294967296
value pi + 1/2 => E12 exact
value 1/2 + pi => E12 exact
value pi + (3/2 - 1) => E12 exact
value pi + angle[4](0) => angle 4 8
value pi * (3/2) => E12 exact
value (3/2) * pi => E12 exact
value pi * (4/2) => phase 8589934592
value (4/2) * pi => phase 8589934592
value pi / (3/2) => E12 exact
value pi * (0/3) => phase 0
value pi * (3/2 + 1/0) => E12 exact
value pi + (3/2 + m) => E8 m
value 3/2 + (pi + m) => E8 m
value m + (pi + 3/2) => E8 m
value pi + n => E12 variable
value n + pi => E12 variable
value a + 0/3 => angle 4 3
value 0/3 + a => angle 4 3
value a + 3/2 => E10
value 3/2 + a => E10
value angle[3](pi + 3/2) => E10
value angle[3](pi + 0/3) => angle 3 4
value angle[3](1/2 + pi) => E12 exact
value true || pi + 3/2 == pi => E10
value true || pi + 1/0 == pi => E12 divide

value tau || m => E8 m
value m || tau => E8 m
value tau && m => E8 m
value tau || n => E12 variable
value tau || 1/0 => E12 divide
value 1/0 || tau => E12 divide
value tau || true => E10
value true && tau => E10
value tau && tau => E10
value a || m => E8 m
value a && true => E10

cut 0 => 0
known x phase 2 => 1
known x other => 2
value x => E12 variable
cut 1 => 1
value x => phase 2

cut 0 => 0
known popcount other => 1
value popcount("0101") => E8 popcount

cut 0 => 0
exponent 1 / 2 => E12 exact
exponent 4 / 2 => int 64 2
exponent pi + 3/2 => E10
exponent 3 - 1 / 2 => E12 exact

cut 0 => 0
known n value int 8 3 => 1
type uint[n](0) => type Uint(3)
type uint(0) => type Uint(64)
type bool(0) => type Bool
type bit(0) => type Bit(1)
type angle(0) => type Angle(32)
type angle[n * 11](0) => E12 range
type int[m](0) => E8 m
type int[pi](0) => E10
known n hidden => 2
value n => E8 n
value n[0] => E8 n
value sizeof(n) => E8 n
value n() => E8 n
type bit[n](0) => E8 n
cut 1 => 1
value n => int 8 3
known s subroutine => 2
value s => E8 s
value s[0] => E8 s
value sizeof(s) => E8 s
value s() => E11 call
value s(m, 1 / 0) => E11 call
value 1 / 0 + s() => E12 divide
value s() + m => E11 call
value false && s() => E11 call
exponent s() => E11 call
type bit[s](0) => E8 s
type bit[s()](0) => E11 call
cut 1 => 1
value s() => E8 s
"""

HERE = "Place { file: 0, line: 3, column: 4 }"
KINDS = {"bit": "Bit", "int": "Int", "uint": "Uint", "angle": "Angle"}


def value(name, width, bits):
    kind = "Bool" if name == "bool" else f"{KINDS[name]}({width})"
    return f"Value {{ kind: {kind}, bits: {bits} }}"


def told(answer):
    """The answer as the program prints it."""
    match answer.split():
        case [entries]:
            return f"Err(E10({HERE}))" if entries == "E10" else entries
        case ["type", kind]:
            return f"Ok({kind})"
        case ["phase", units]:
            return f"Ok(Phase(Phase {{ units: {units} }}))"
        case ["E14", wanted, given]:
            return f"Err(E14({HERE}, {wanted}, {given}))"
        case ["E11", cause]:
            return f"Err(E11({HERE}, {cause.capitalize()}))"
        case ["E8", name]:
            return f'Err(E8({HERE}, Label {{ text: "{name}" }}))'
        case ["E12", cause]:
            return f"Err(E12({HERE}, {cause.capitalize()}))"
        case [name, width, bits]:
            return f"Ok(Value({value(name, width, bits)}))"


def table_rows():
    for line in TABLE.split("\n"):
        if line:
            row, answer = line.split(" => ")
            yield row, told(answer)


def angle_rows():
    """A phase as an angle: as many steps as the width has room for go round the circle."""
    for width in (1, 3, 31, 32):
        step = TAU >> width
        for units in (0, step, -step, TAU, TAU - step, TAU + step, -TAU // 2, 5 * TAU + 2 * step, step // 2, step + 1, -1, 1 << 60, -(1 << 60)):
            fault = units % step != 0
            angle = value("angle", width, units // step % (1 << width))
            yield f"angle {width} {units}", "Err(Const(Exact))" if fault else f"Ok({angle})"
    for row in ("angle 0 0", "angle 33 0", f"angle 3 {(1 << 60) + 1}", "angle 3", "angle"):
        yield row, "no row"


if __name__ == "__main__":
    column = ("stdin", "stdout").index(sys.argv[1])
    for line in [*table_rows(), *angle_rows()]:
        print(line[column])
