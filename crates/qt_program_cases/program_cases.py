#!/usr/bin/env python3
"""Writes the rows of programs that are checked, and the answers that are wanted.

The answers come from four places: the cases of definitions/cases.json, which were found without this program; the examples of
docs/LANGUAGE.md; a table of programs with the answers of the language's rules; and pairs of faults in one statement, where the
fault that the rules judge first is the answer (`fault_pairs.py`)."""
import itertools
import json
import pathlib
import re

import fault_pairs

here = pathlib.Path(__file__).parent
rows, answers = [], []


def escaped(text):
    for letter, written in (("\\", "\\\\"), ("\n", "\\n"), ("\r", "\\r"), ("\t", "\\t"), ("\0", "\\0")):
        text = text.replace(letter, written)
    return text


def add(text, wanted, settings=()):
    rows.append("".join(["check", *(f" {setting}" for setting in settings), ":", escaped(text)]))
    answers.append(wanted)


# ---- programs whose answers were found without this program
for case in json.loads((here / "../../definitions/cases.json").read_text()):
    if case["mode"] == "check":
        add(case["text"], case["wanted"], case.get("settings", ()))

# ---- the examples of docs/LANGUAGE.md
PAGE = (here / "../../docs/LANGUAGE.md").read_text()
for line in PAGE[PAGE.index("## What a program means") : PAGE.index("## How a program runs")].splitlines():
    example = re.fullmatch(r"\| `([^`]+)` \| `(ok|E[0-9]+) ([^`]+)` \|", line)
    # other answers are those of runs, and angles are judged behind the size
    if example and example[2] != "E13":
        add(example[1], f"{example[2]} {example[3]}".replace("p.qasm:", "p:"))

# ---- programs with the answers of the rules
GATES = 'include "stdgates.inc"; '
for text, wanted in [
    ("qubit[2] q; bit[2] c; c = measure q;", "ok qubits 2 slots 1 size 17"),
    ("bit c; bit c;", "E9 p:1:8 twice c"),
    ("x = 1;", "E8 p:1:1 name x"),
    ("uint[8] n = pi;", "E10 p:1:1 type"),
    ("break;", "E11 p:1:1 form loop"),
    ("bit[65] b;", "E12 p:1:1 const range"),
    ("const int i = 1 / 0;", "E12 p:1:1 const divide"),
    ("array[uint[8], 1025] z;", "E16 slots 1025"),
    ("qubit[17] q;", "E15 qubits 17"),
    ("OPENQASM 2.0;", "E7 p:1:1 version"),
    (GATES + "qubit[2] q; cx q[0];", "E14 p:1:37 arity 2 1"),
    ("qubit q; x q;", "E8 p:1:10 name x"),
    ("qubit q; U(pi/3, 0, 0) q;", "E12 p:1:10 const exact"),
    # sizes and limits
    ("bit[0] b;", "E12 p:1:1 const range"),
    ("int[64] n;", "ok qubits 0 slots 1 size 6"),
    ("int[65] n;", "E12 p:1:1 const range"),
    ("uint[18446744073709551615] n;", "E12 p:1:1 const range"),
    ("qubit[0] q;", "E12 p:1:1 const range"),
    ("qubit[16] q;", "ok qubits 16 slots 0 size 6"),
    (GATES + "qubit[4294967295] q; x q;", "E15 qubits 4294967295"),
    ("array[uint[8], 1024] z;", "ok qubits 0 slots 1024 size 11"),
    ("array[uint[8], 65536, 65536] z;", "E16 slots 4294967295"),
    ("bit[64] b; bit[18446744073709551615] c;", "E12 p:1:12 const range"),
    ("angle[32] a; angle[33] c;", "E12 p:1:14 const range"),
    ("angle[0] a;", "E12 p:1:1 const range"),
    ("qubit[4294967296] q;", "E12 p:1:1 const range"),
    ("array[uint[8], 0] z;", "E12 p:1:1 const range"),
    ("array[uint[8], 4294967295] z; z[4294967294] = 1;", "E16 slots 4294967295"),
    ("array[uint[8], 4294967295, 4294967295, 4294967295] z; int n = z[0, 0, 0];", "E16 slots 4294967295"),
    ("qubit[4294967295] q; qubit[4294967295] r; let a = q ++ q[0];", "E11 p:1:43 form qubit"),
    ("qubit[4294967295] q; qubit[4294967295] r; let a = q ++ r;", "E12 p:1:43 const range"),
    (GATES + "qubit[4294967295] q; qubit[4294967295] r; cx q, r;", "E15 qubits 4294967295"),
    ("def f(int n) { int m; } " + "f(1); " * 512, "ok qubits 0 slots 1024 size 4096"),
    ("def f(int n) { int m; } " + "f(1); " * 512 + "int n;", "E16 slots 1025"),
    ("array[bool, 1, 1, 1, 1, 1, 1, 1] z;", "ok qubits 0 slots 1 size 20"),
    ("array[bool, 1, 1, 1, 1, 1, 1, 1, 1] z;", "E11 p:1:1 form dimensions"),
    # what bodies see
    ("def f(int n) { f(n); }", "E8 p:1:16 name f"),
    ("def f(int n) { g(n); } def g(int n) { }", "E8 p:1:16 name g"),
    ("int v; def f(int n) { n = v; }", "E8 p:1:23 name v"),
    ("qubit q; def f(int n) { reset q; }", "E8 p:1:25 name q"),
    ("const int k = 3; def f(int n) { n = k; } f(k);", "ok qubits 0 slots 1 size 9"),
    (GATES + "qubit q; gate g a { x q; }", "E8 p:1:45 name q"),
    (GATES + "int v; gate g a { rx(v) a; }", "E8 p:1:43 name v"),
    (GATES + "gate g a { g a; }", "E8 p:1:36 name g"),
    # statements where they may stand
    ("while (true) { break; }", "ok qubits 0 slots 0 size 6"),
    ("def f(int n) { break; }", "E11 p:1:16 form loop"),
    ("while (true) { continue; }", "ok qubits 0 slots 0 size 6"),
    ("if (true) { continue; }", "E11 p:1:13 form loop"),
    ("return;", "E11 p:1:1 form return"),
    ("def f(int n) { return n; }", "E11 p:1:16 form return"),
    ("def f(int n) -> int { return; }", "E11 p:1:23 form return"),
    (GATES + "qubit[2] q; qubit[3] r; cx q, r;", "E14 p:1:49 arity 2 3"),
    (GATES + "qubit[2] q; cx q[0], q[0];", "E11 p:1:37 form qubit"),
    ("const int k = 1; k = 2;", "E11 p:1:18 form target"),
    ("input int[8] n; n = 2;", "E11 p:1:17 form target"),
    ('include "own.inc"; int n;', "includes"),
]:
    add(text, wanted)
add("input int[8] n;", "E19 n missing")
add("input int[8] n;", "ok qubits 0 slots 1 size 7", ["n=3"])
add("input int[8] n;", "E19 n bad", ["n=128"])
add("input int[8] n;", "E19 m unknown", ["n=3", "m=1"])

# ---- what is seen inside a subroutine and a gate: global constants and gates, inside a subroutine the subroutines before it too
OUTSIDE = (
    GATES + "const int k = 1; int v; bit[2] b; input int w; output int o; array[int, 2] z; qubit p; qubit[2] q; let a = q[0:1]; "
    "gate g t { } def e(int m) -> int { return m; } "
)
for head, body, uses in [
    (
        "def f(int n, qubit s) { ",
        "{} }}",
        [
            ("n = k;", None), ("g s;", None), ("x s;", None), ("n = e(n);", None), ("n = v;", "v"), ("n = b;", "b"), ("n = w;", "w"), ("n = o;", "o"),
            ("n = z[0];", "z"), ("v = n;", "v"), ("b[0] = measure s;", "b"), ("reset p;", "p"), ("reset q[0];", "q"), ("reset a;", "a"), ("cx s, a;", "a"),
            ("n = f(n);", "f"), ("n = later(n);", "later"), ("for int i in b { }", "b"), ("if (v == 1) { }", "v"), ("return v;", "form return"),
        ],
    ),
    (
        "gate h(n) s { ",
        "{} }}",
        [
            ("rx(k * n) s;", None), ("g s;", None), ("x s;", None), ("rx(v) s;", "v"), ("rx(n * v) s;", "v"), ("rx(b) s;", "b"), ("rx(w * pi) s;", "w"), ("rx(o) s;", "o"),
            ("rx(z[0]) s;", "z"), ("x p;", "p"), ("x q;", "q"), ("cx s, a;", "a"), ("barrier s, p;", "p"), ("h(n) s;", None), ("later s;", "later"),
            ("pow(v) @ x s;", "v"), ("ctrl(w) @ x s;", "w"),
        ],
    ),
]:
    for use, name in uses:
        place = len(OUTSIDE + head) + 1
        if use == "h(n) s;":
            # the standard gate of that name has no parameter
            refusal = f"E14 p:1:{place} arity 0 1"
        elif name is None:
            place, refusal = len(OUTSIDE + head + body.format(use)) + 2, None
        else:
            refusal = f"E11 p:1:{place} {name}" if name.startswith("form") else f"E8 p:1:{place} name {name}"
        add(OUTSIDE + head + body.format(use) + " y = 1; def later(int n) -> int { return n; }", refusal or f"E8 p:1:{place} name y")

# ---- bodies in bodies
def nested(levels):
    return "int n; " + "if (true) { " * levels + "n = 1; " + "} " * levels


add(nested(64), "ok qubits 0 slots 1 size 263")
add(nested(65), f"E5 p:1:{len('int n; ') + len('if (true) { ') * 64 + len('if (') + 1} nest")

# ---- two faults in one statement, in both orders
FAULTS = [
    ("y", "E8 {} name y"),
    ("(pi + 1)", "E10 {} type"),
    ("f(n)", "E11 {} form call"),
    ("b[9]", "E12 {} const range"),
    ("popcount(b, b)", "E14 {} arity 1 2"),
]
BEFORE = "int n; bit[4] b; qubit[2] q; def f(int k) -> int { return k; } "
PLACE = f"p:1:{len(BEFORE) + 1}"
FORMS = [
    "int v = ({X}) + ({Y});", "n = ({X}) * ({Y});", "n += ({X}) - ({Y});", "if (({X}) == ({Y})) {{ n = 1; }}", "while (({X}) < ({Y})) {{ n = 1; }}",
    "f(({X}) | ({Y}));", "for int i in {{({X}), ({Y})}} {{ n = i; }}", "for int i in [({X}):({Y})] {{ n = i; }}", "n = rotl(({X}), ({Y}));",
    "n = int(({X}) + ({Y}));", "n = -({X}) / ~({Y});", "reset q[({X}) + ({Y})];", "array[int, 2] v = {{({X}), ({Y})}};",
]
for form, ((first, refusal), (second, _)) in itertools.product(FORMS, itertools.permutations(FAULTS, 2)):
    add(BEFORE + form.format(X=first, Y=second), refusal.format(PLACE))
for fault, refusal in FAULTS:
    # the right side comes before the target, a new name before its value, and a value before what comes behind the statement
    add(BEFORE + f"m = {fault} + 1;", refusal.format(PLACE))
    add(BEFORE + f"b[{fault}] = y2;", f"E8 {PLACE} name y2")
    add(BEFORE + f"int n = {fault} + 1;", f"E9 {PLACE} twice n")
    add(BEFORE + f"int[65] n = {fault} + 1;", f"E12 {PLACE} const range")
    add(BEFORE + f"if ({fault} == 1) {{ m = 1; }}", refusal.format(PLACE))

for text, wanted in fault_pairs.cases():
    add(text, wanted)

(here / "stdin").write_text("\n".join(rows) + "\n")
(here / "stdout").write_text("\n".join(answers) + "\n")
