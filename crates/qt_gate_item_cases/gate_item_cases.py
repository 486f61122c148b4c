#!/usr/bin/env python3
"""Writes the rows of gates and gate calls that are checked (stdin), and the answers that the rules of the language give (stdout)."""
from pathlib import Path

here = Path(__file__).parent
rows, answers = [], []
GATES = 'include "stdgates.inc"; '


def add(text, wanted, kind="check"):
    rows.append(f"{kind}:{text}")
    answers.append(wanted)


def call(text, wanted):
    """A call behind 24 characters of an include and 14 of a register: at column 39."""
    add(GATES + "qubit[16] q; " + text, wanted if wanted.startswith("ok") else wanted.replace("@", "p:1:38"))


# ---- modifiers: exponents up to 1,024 in size, 1 to 15 controls each
for exponent in ("1024", "-1024", "0", "-1", "4 / 2", "2 ** 10", "1023 + 1"):
    call(f"pow({exponent}) @ x q[0];", "ok")
for exponent in ("1025", "-1025", "9223372036854775807", "18446744073709551615", "-9223372036854775808", "2 ** 10 + 1"):
    call(f"pow({exponent}) @ x q[0];", "E12 @ const range")
call("pow(1 / 2) @ x q[0];", "E12 @ const exact")
call("pow(1 / 0) @ x q[0];", "E12 @ const divide")
call("pow(pi) @ x q[0];", "E10 @ type")
call("pow(n) @ x q[0];", "E8 @ name n")
for word in ("ctrl", "negctrl"):
    call(f"{word}(0) @ x q[0];", "E12 @ const range")
    call(f"{word}(-1) @ x q[0];", "E12 @ const range")
    call(f"{word}(16) @ x q[0];", "E12 @ const range")
    call(f"{word}(18446744073709551615) @ x q[0];", "E12 @ const range")
    call(f"{word}(1) @ x q[0], q[1];", "ok")
    call(f"{word}(15) @ x " + ", ".join(f"q[{i}]" for i in range(16)) + ";", "ok")
    call(f"{word}(15) @ x " + ", ".join(f"q[{i}]" for i in range(15)) + ";", "E14 @ arity 16 15")
    call(f"{word}(15) @ gphase(pi) " + ", ".join(f"q[{i}]" for i in range(15)) + ";", "ok")
call("ctrl(8) @ negctrl(8) @ gphase(pi) " + ", ".join(f"q[{i}]" for i in range(16)) + ";", "ok")
call("ctrl(15) @ ctrl(15) @ x q[0];", "E14 @ arity 31 1")
# the modifiers before the name, the outermost first
call("pow(1025) @ ctrl(0) @ nothing q;", "E12 @ const range")
call("pow(1 / 2) @ pow(1025) @ x q;", "E12 @ const exact")
call("inv @ nothing(1) q;", "E8 @ name nothing")

# ---- arguments up to 2^60 units: pi is 2^32
call("p(268435456 * pi) q[0];", "ok")
call("p(-268435456 * pi) q[0];", "ok")
call("p(268435456 * pi + pi / 4294967296) q[0];", "E12 @ const range")
call("p(-(268435456 * pi) - pi / 4294967296) q[0];", "E12 @ const range")
call("p(268435457 * pi) q[0];", "E12 @ const range")
call("p(pi / 8589934592) q[0];", "E12 @ const exact")
call("p(pi / 3) q[0];", "E12 @ const exact")
call("p(1) q[0];", "E10 @ type")
call("p(0) q[0];", "ok")

# ---- gates: the answers to each alone are its numbers of parameters, qubits and calls, and the names before it, which it leaves as they were
def gate(text, wanted):
    add(text, wanted, "gate")


gate("gate g a { U(0, 0, 0) a; }", "ok 0:1:1 0")
gate("gate g a { }", "ok 0:1:0 0")
gate("gate g(t, u) a, b { U(t, u / 2, -t + pi) a; ctrl @ gphase(2 * u) b; barrier a, b; }", "ok 2:2:2 0")
gate(GATES + "const int n = 2; gate f(t) a { p(n * t) a; } gate g(t) a { f(t / n) a; f(pi / n) a; }", "ok 1:1:2 2")
gate("gate g a { g a; }", "E8 p:1:12 name g")
gate("gate g a { f a; } gate f a { U(0, 0, 0) a; }", "E8 p:1:12 name f")
gate("gate g a { x a; }", "E8 p:1:12 name x")
gate(GATES + "gate g a { x a; }", "ok 0:1:1 0")
gate("gate x a { } gate g a { x a; }", "ok 0:1:1 1")
gate("gate g a { } gate g a { }", "E9 p:1:14 twice g")
gate("const int g = 1; gate g a { }", "E9 p:1:18 twice g")
gate("gate g a, a { }", "E9 p:1:1 twice a")
gate("gate g(t, t) a { }", "E9 p:1:1 twice t")
gate("gate g(a) a { }", "E9 p:1:1 twice a")
gate("gate g(g) x { U(g, 0, 0) x; }", "ok 1:1:1 0")
gate("qubit q; gate g a { U(0, 0, 0) q; }", "E8 p:1:21 name q")
gate("gate g a { U(0, 0, 0) a, a; }", "E14 p:1:12 arity 1 2")
gate("gate g a { U(0, 0) a; }", "E14 p:1:12 arity 3 2")
gate("gate g a, b { ctrl @ U(0, 0, 0) a, a; }", "E11 p:1:15 form qubit")
gate("gate g a { U(0, 0, 0) a[0]; }", "E10 p:1:12 type")
gate("gate g(t) a { U(t * t, 0, 0) a; }", "E10 p:1:15 type")
gate("gate g(t) a { U(t + 1, 0, 0) a; }", "E10 p:1:15 type")
gate("gate g(t) a { U(t + 0, 0, 0) a; }", "ok 1:1:1 0")
gate("gate g(t) a { U(t / (1 / 2), 0, 0) a; }", "E12 p:1:15 const exact")
gate("gate g(t) a { U(t / (1 / 0), 0, 0) a; }", "E12 p:1:15 const divide")
gate("gate g(t) a { U(t / 0, 0, 0) a; }", "ok 1:1:1 0")
gate("gate g(t) a { U(angle[4](t), 0, 0) a; }", "E12 p:1:15 const variable")
gate("gate g a { U(pi / 3, 0, 0) a; }", "E12 p:1:12 const exact")
gate("gate g a { pow(1025) @ U(0, 0, 0) a; }", "E12 p:1:12 const range")
gate("gate g a { pow(-1024) @ U(0, 0, 0) a; }", "ok 0:1:1 0")
gate("gate g a { ctrl(16) @ U(0, 0, 0) a; }", "E12 p:1:12 const range")
gate("gate g a { barrier b; }", "E8 p:1:12 name b")
# the last item is to be a gate
gate("qubit q;", "no row")
gate("", "no row")

# ---- long inputs: a body of 10,000 calls, gates that each call the one before twice, and powers in one another
add(GATES + "gate g a { ? }", "ok 0:1:10000 0", "gate 10000 x a; ")
add(GATES + "gate g(t) a { ? }", "ok 1:1:10000 0", "gate 10000 p(t / # + pi) a; ")
add(GATES + "gate g a { ? y a, a; }", f"E14 p:1:{len(GATES + 'gate g a { ') + 10000 * len('x a; ') + len(' y')} arity 1 2", "gate 10000 x a; ")
add(GATES + "gate g a { ? } qubit q; g q;", "ok 1, 200000 primitives", "check 200000 t a;")
add(GATES + "gate g0 a { x a; } ?qubit q; g30 q;", "ok 31, 2147483648 primitives", "check 30 gate g# a { g$ a; g$ a; } ")
add(GATES + "gate g0 a { x a; } ?qubit q; g10 q;", "ok 11, 4294967295 primitives", "check 10 gate g# a { pow(1024) @ g$ a; } ")
add(GATES + "gate g0 a { x a; } ?qubit q; g10000 q;", "ok 10001, 2 primitives", "check 10000 gate g# a { g$ a; } ")
add(GATES + "gate g0 a { x a; } ? gate g a { g10001 a; }", "E8 p:1:{} name g10001".format(
    len(GATES) + len("gate g0 a { x a; } ") + sum(len(f"gate g{n} a {{ g{n - 1} a; }} ") for n in range(1, 10001)) + 1 + 12), "gate 10000 gate g# a { g$ a; } ")

# ---- lines that are no row
for wrong in ("", "check", "gate", "checks: qubit q;", "check x y: qubit q;"):
    rows.append(wrong)
    answers.append("no row")
(here / "stdin").write_text("\n".join(rows) + "\n")
(here / "stdout").write_text("\n".join(answers) + "\n")
