#!/usr/bin/env python3
"""Writes the rows of qubits that operands name (the end of stdin) and the answers that are wanted (the end of stdout), beside this file.

The rows behind `parameter pf 2 6` are written anew. Qubits are lists here: a register is the list of its qubits, and an operand is reckoned
on it as the rules of indexes, ranges and sets say.
"""
from pathlib import Path

HERE = "Place { file: 0, line: 3, column: 4 }"
FIRST = "parameter pf 2 6"


class Refused(Exception):
    pass


def e10():
    return Refused(f"E10({HERE})")


def e11(word):
    return Refused(f"E11({HERE}, {word})")


def e12():
    return Refused(f"E12({HERE}, Range)")


def number(qubit):
    return f"Number {{ qubit: {qubit} }}"


def place_of(parameter, place):
    return f"OfParameter {{ parameter: {parameter}, place: {place} }}"


# a single qubit is ("single", its text), a register ("register", their texts)
NAMES = {
    "q": ("register", [number(n) for n in range(3, 7)]),
    "one": ("single", number(7)),
    "pf": ("register", [place_of(2, n) for n in range(6)]),
    "pg": ("register", [place_of(4, n) for n in range(6)]),
    "ql": ("register", [number(n) for n in range(20, 32)]),
    "qm": ("register", [number(n) for n in range(28, 34)]),
    "sa": ("single", "slot 9"),
    "sb": ("single", "slot 10"),
    "sc": ("single", "slot 9"),
}


def place_in(qubits, index):
    """A place may be written from the end on."""
    if not -len(qubits) <= index < len(qubits):
        raise e12()
    return index % len(qubits)


def chosen(qubits, members):
    found = []
    for member in members:
        qubit = qubits[place_in(qubits, int(member))]
        if qubit in found:
            raise e11("Qubit")
        found.append(qubit)
    return found


def between(qubits, bounds):
    """Both ends belong to a range."""
    bounds = [b.strip() for b in bounds]
    step = bounds[1] if len(bounds) == 3 else ""
    start = place_in(qubits, int(bounds[0] or 0))
    by = int(step or 1)
    if by < 1:
        raise e12()
    end = place_in(qubits, int(bounds[-1] or -1))
    if end < start:
        raise e12()
    return qubits[start : end + 1 : by]


def operand(written):
    name, _, index = written.strip().partition("[")
    kind, qubits = NAMES[name]
    index = index.removesuffix("]")
    if not index:
        return kind, qubits
    if kind == "single":
        raise e10()
    if index.startswith("{"):
        return "register", chosen(qubits, index.strip("{} ").split(","))
    if ":" in index:
        return "register", between(qubits, index.split(":"))
    if index == "i":
        return "single", f"one of {len(qubits)}"
    return "single", qubits[place_in(qubits, int(index))]


def told_qubits(of):
    kind, qubits = of
    return qubits if kind == "single" else f"{len(qubits)} from Some({qubits[0]})"


def told_places(of):
    kind, qubits = of
    if kind == "single":
        if qubits.startswith(("slot", "one of")):
            raise e11("Register")
        qubits = [qubits]
    return " ".join([f"{len(qubits)}:", *qubits[:10]])


def fixed(of):
    kind, qubits = of
    if kind == "register":
        return qubits
    return [] if qubits.startswith("one of") else [qubits]


def told_repeats(operands):
    told, done = "repeats", []
    for written in operands:
        try:
            qubits = fixed(operand(written))
            told += " again" if any(q in done for q in qubits) else " new"
            done += qubits
        except Refused as refused:
            told += str(refused)
    return told


def answer(call, rest):
    if call == "repeats":
        return told_repeats(rest.split(";"))
    try:
        of = operand(rest)
        return told_qubits(of) if call == "qubits" else told_places(of)
    except Refused as refused:
        return str(refused)


DECLARED = [FIRST, "parameter pg 4 6", "register ql 20 12", "register qm 28 6", "slot sa 9", "slot sb 10", "slot sc 9"]
INDEXES = [
    "", "[0]", "[5]", "[-1]", "[-6]", "[6]", "[-7]", "[i]", "[0:3]", "[:]", "[1:]", "[:2]", "[-3:-1]", "[0:2:5]", "[1:2:5]", "[5:5]",
    "[3:2]", "[0:0:3]", "[0:-1:3]", "[0:6]", "[-7:2]", "[0:9:3]", "[:4:]", "[{0}]", "[{2, 0, 1}]", "[{-1, 0}]", "[{5, 5}]", "[{0, -6}]",
    "[{0, 6}]", "[{6, 6}]", "[{1, 1, 6}]", "[{3, 1, 4, 0, 5, 2}]",
]
REPEATS = [
    "q; one; pf; pg; ql", "q; q", "q[0]; q[1]; q[2]; q[3]; q", "q[0:1]; q[2:3]; q[1:2]", "q; one; one", "one; q", "ql; qm",
    "ql[0:7]; qm", "ql[8]; qm", "qm; ql[8]", "qm; ql[7]", "pf; pg; pf[0]", "pf[0]; pg[0]; pf[1]; pf[0]",
    "pf[0:2:5]; pf[1:2:5]; pf[{2, 3}]", "pf[0:2:5]; pf[{1, 3, 5}]; pg", "ql[{0, 11}]; qm[3]", "ql[{0, 11}]; qm[4]",
    "qm[3]; ql[{0, 11}]", "sa; sb; sc; sa", "sa; q; sb; pf", "ql[i]; ql", "ql; ql[i]", "ql[i]; ql[i]", "q; sa; q[i]; sa",
    "one; one[0]; one", "ql[:4:]; ql[1:4:]; ql[2:4:]; ql[3:4:]; ql[11]", "q", "qm[0]; ql[8:8]", "qm[1:]; ql[0:8]; ql[9:]",
]


def rows():
    calls = [("qubits", name + index) for name in ("pf", "one", "sa") for index in INDEXES]
    few = ("", "[2]", "[i]", "[:3:]", "[{4, 0}]", "[{4, 4}]", "[9:]")
    calls += [("places", name + index) for name in ("ql", "pf", "one", "sb") for index in few]
    calls += [("repeats", written) for written in REPEATS]
    return [f"{call} {rest}" for call, rest in calls], [answer(call, rest) for call, rest in calls]


here = Path(__file__).parent
kept = (here / "stdin").read_text().split("\n")
kept = kept[: kept.index(FIRST)] if FIRST in kept else kept[:-1]
asked, wanted = rows()
answers = (here / "stdout").read_text().split("\n")[: len(kept)]
(here / "stdin").write_text("\n".join([*kept, *DECLARED, *asked]) + "\n")
(here / "stdout").write_text("\n".join([*answers, *["declared"] * len(DECLARED), *wanted]) + "\n")
