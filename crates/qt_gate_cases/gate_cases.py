#!/usr/bin/env python3
"""Writes the rows of bodies and standard gates (stdin) and the answers that are wanted (stdout), beside this file."""
import re
from pathlib import Path

here = Path(__file__).parent
lists = [[], [(0, 1)], [(3, 2), (0, 0), (1, 65536)], [(4294967295, 4294967295)], [(n % 4, n) for n in range(40)]]
rows, answers = [], []
for bodies in lists:
    written = "".join(f" {p}:{q}" for p, q in bodies)
    rows.append("bodies" + (written or " "))
    answers.append(f"gates{written}, shared{written}")
# the standard gates in order: name, parameters, qubits, calls in the body
gates = [
    ("id", 0, 1, 1), ("p", 1, 1, 1), ("phase", 1, 1, 1), ("u1", 1, 1, 1),
    ("z", 0, 1, 1), ("s", 0, 1, 1), ("t", 0, 1, 1), ("sdg", 0, 1, 1), ("tdg", 0, 1, 1),
    ("x", 0, 1, 2), ("y", 0, 1, 2), ("h", 0, 1, 2), ("sx", 0, 1, 1),
    ("rx", 1, 1, 2), ("ry", 1, 1, 2), ("rz", 1, 1, 2), ("u2", 2, 1, 2), ("u3", 3, 1, 2),
    ("cx", 0, 2, 1), ("CX", 0, 2, 1), ("cy", 0, 2, 1), ("cz", 0, 2, 1), ("cp", 1, 2, 1), ("cphase", 1, 2, 1),
    ("crx", 1, 2, 1), ("cry", 1, 2, 1), ("crz", 1, 2, 1), ("ch", 0, 2, 1),
    ("swap", 0, 2, 3), ("ccx", 0, 3, 1), ("cswap", 0, 3, 1), ("cu", 4, 2, 2),
]
rows.append("table standard")
answers.append("table" + "".join(f" {n}:{p}:{q}:{c}" for n, p, q, c in gates))
for number, (name, parameters, qubits, _) in enumerate(gates):
    rows.append(f"standard {name}")
    answers.append(f"gate {number}, {parameters}:{qubits}")
for unknown in ["", "X", "Cx", "cxx", "c", "u", "U", "gphase", "cnot", "id ", " id", "ïd"]:
    rows.append(f"standard {unknown}")
    answers.append("none")
for wrong in ["", "table", "table ", "table all", "standard"]:
    rows.append(wrong)
    answers.append("no row")
for wrong in ["bodies", "bodies 1", "bodies 1:", "bodies :1", "bodies 1:4294967296", "bodies 1:2 x:2", "body 1:2"]:
    rows.append(wrong)
    answers.append("no row")
# how many primitives each standard gate comes to, and with modifiers so many times as the powers say; none of them counts operators
primitives = {
    "x": 2, "y": 2, "h": 2, "rx": 2, "ry": 2, "rz": 2, "u2": 2, "u3": 2, "cx": 2, "CX": 2, "cy": 2, "crx": 2, "cry": 2, "crz": 2, "ch": 2,
    "swap": 6, "ccx": 2, "cswap": 6, "cu": 2,
}
stop = 4294967295
for name, _, _, _ in gates:
    rows.append(f"count {name}")
    answers.append(f"primitives {primitives.get(name, 1)}, operators 0")
for name, modifiers, times in [
    ("t", "ctrl pow:-2", 2), ("swap", "inv", 1), ("swap", "pow:0", 0), ("cu", "pow:3 ctrl pow:-5 negctrl inv", 15),
    ("swap", "pow:2147483647", 2147483647), ("cswap", "pow:-2147483648", 2147483648), ("id", "pow:65536 pow:65535", 65536 * 65535),
    ("id", "pow:65536 pow:65536", 65536 * 65536), ("x", "pow:0 pow:2147483647 pow:4", 0),
]:
    rows.append(f"count {name} {modifiers}")
    answers.append(f"primitives {min(primitives.get(name, 1) * times, stop)}, operators 0")
for gates_behind, operators in [(1, 0), (1, 3), (2, 3), (29, 0), (30, 1), (31, 2), (33, 1), (100, 4294967295), (255, 1)]:
    told = (6, 0)
    for _ in range(gates_behind):
        told = (2 * told[0], 2 * (operators + told[1]))
    rows.append(f"chain {gates_behind} {operators}")
    answers.append(f"primitives {min(told[0], stop)}, operators {min(told[1], stop)}")
for wrong in ["count", "count nothing", "count x pow", "count x pow:", "count x pow:2147483648", "count x twice", "chain", "chain 1", "chain 0 0", "chain 256 0"]:
    rows.append(wrong)
    answers.append("no row")

# ---- expansions, reckoned here from the text of the standard library and not as the program does
PI = 1 << 32
TABLE = {
    "id": "U(0,0,0) 0", "p": "ctrl:gphase(a) 0", "z": "p(pi) 0", "s": "p(pi/2) 0", "t": "p(pi/4) 0", "tdg": "p(-pi/4) 0",
    "x": "U(pi,0,pi) 0; gphase(-pi/2)", "y": "U(pi,pi/2,pi/2) 0; gphase(-pi/2)", "h": "U(pi/2,0,pi) 0; gphase(-pi/4)",
    "sx": "U(pi/2,-pi/2,pi/2) 0", "rx": "U(a,-pi/2,pi/2) 0; gphase(-a/2)", "ry": "U(a,0,0) 0; gphase(-a/2)",
    "rz": "gphase(-a/2); U(0,0,a) 0", "u2": "gphase(-(a+b+pi/2)/2); U(pi/2,a,b) 0", "u3": "gphase(-(a+b+c)/2); U(a,b,c) 0",
    "cx": "ctrl:x 0,1", "cp": "ctrl:p(a) 0,1", "crz": "ctrl:rz(a) 0,1", "ch": "ctrl:h 0,1", "swap": "cx 0,1; cx 1,0; cx 0,1",
    "ccx": "ctrl:ctrl:x 0,1,2", "cswap": "ctrl:swap 0,1,2", "cu": "p(d-a/2) 0; ctrl:U(a,b,c) 0,1",
}
CONSTANTS = {"0": 0, "pi": PI, "pi/2": PI // 2, "pi/4": PI // 4, "-pi/2": -PI // 2, "-pi/4": -PI // 4}
LIMIT = 1 << 60
CALL = re.compile(r"((?:ctrl:)*)(\w+)(?:\((.*)\))?(?: ([\d,]+))?")


class Refused(Exception):
    """A fixed angle that is no multiple of pi/4."""


def parts(text, mark):
    """The parts between marks that stand in no parentheses."""
    found, depth, begin = [], 0, 0
    for place, letter in enumerate(text):
        depth += {"(": 1, ")": -1}.get(letter, 0)
        if letter == mark and depth == 0:
            found.append(text[begin:place])
            begin = place + 1
    return [part.strip() for part in found + [text[begin:]]]


class Call:
    """One call of a standard gate, with the steps and the primitives that it comes to."""

    def __init__(self, first):
        self.first, self.steps = first, []

    def step(self, name, of, number=None):
        known = [a for a in of if isinstance(a, int)]
        if len(known) == len(of):
            value = {"add": lambda a, b: a + b, "sub": lambda a, b: a - b, "neg": lambda a: -a}.get(name)
            result = value(*known) if value else (known[0] // number if known[0] % number == 0 else None)
            if result is not None and abs(result) <= LIMIT:
                return result
        self.steps.append(":".join([name] + [str(a) for a in of] + ([str(number)] if number else [])))
        return f"w{self.first + len(self.steps) - 1}"

    def angle(self, text, given):
        if text in CONSTANTS:
            return CONSTANTS[text]
        if text in "abcd":
            return given["abcd".index(text)]
        if text.startswith("(") and text.endswith(")"):
            return self.angle(text[1:-1], given)
        terms = parts(text, "+")
        if len(terms) > 1:
            result = self.angle(terms[0], given)
            for term in terms[1:]:
                result = self.step("add", [result, self.angle(term, given)])
            return result
        terms = parts(text, "-")
        if len(terms) == 2 and terms[0]:
            left = self.angle(terms[0], given)
            return self.step("sub", [left, self.angle(terms[1], given)])
        if text.endswith("/2"):
            return self.step("over", [self.angle(text[:-2], given)], 2)
        return self.step("neg", [self.angle(text[1:], given)])

    def body(self, name, given, controls, qubits):
        """The primitives of a gate by its body: each the controls, the qubit or None, and the angles."""
        if name == "U":
            return [(controls, qubits[0], given[:3])]
        if name == "gphase":
            return [(controls, None, given[:1])]
        made = []
        for text in TABLE[name].split(";"):
            modifiers, called, angles, names = CALL.fullmatch(text.strip()).groups()
            arguments = [self.angle(angle, given) for angle in parts(angles, ",")] if angles else []
            named = [qubits[int(n)] for n in names.split(",")] if names else []
            made += self.call(called, modifiers.split(":")[:-1], arguments, controls, named)
        return made

    def call(self, name, modifiers, given, controls, qubits):
        if "pow:0" in modifiers:
            return []
        if not modifiers:
            return self.body(name, given, controls, qubits)
        first, rest = modifiers[0], modifiers[1:]
        if first in ("ctrl", "negctrl"):
            return self.call(name, rest, given, controls + [(first, qubits[0])], qubits[1:])
        made = self.call(name, rest, given, controls, qubits)
        times = 1
        if first != "inv":
            times = int(first.partition(":")[2])
        if first == "inv" or times < 0:
            made = [(c, q, self.back(angles)) for c, q, angles in reversed(made)]
        return made * abs(times)

    @staticmethod
    def back(angles):
        negated = [-a if isinstance(a, int) else (a[1:] if a.startswith("-") else f"-{a}") for a in angles]
        return [negated[0], negated[2], negated[1]] if len(negated) == 3 else negated


def eighth(angle):
    if not isinstance(angle, int):
        return angle
    if angle % (PI // 4):
        raise Refused(angle)
    return angle // (PI // 4) % 8


def told(made):
    controls, qubit, angles = made
    ones = "".join(f",{q}" for kind, q in controls if kind == "ctrl")
    zeros = "".join(f",{q}" for kind, q in controls if kind == "negctrl")
    target = "" if qubit is None else f",{qubit}"
    return ("P" if qubit is None else "U") + f"{ones}|{zeros}|{target}" + "".join(f":{eighth(a)}" for a in angles)


def expansion(name, arguments, operands, modifiers):
    cells = 0
    numbered = []
    for one in arguments + operands:
        numbered.append(f"w{cells}" if one == "?" else one)
        cells += one == "?"
    call = Call(cells)
    made = call.call(name, modifiers, numbered[: len(arguments)], [], numbered[len(arguments):])
    try:
        primitives = [told(one) for one in made]
    except Refused as refused:
        return f"angle {refused.args[0]} at 4:9"
    return " ".join(["steps"] + call.steps) + "; " + " ".join(["primitives"] + primitives)


for name, arguments, operands, modifiers in [
    ("id", [], [3], ""), ("x", [], [0], ""), ("h", [], [255], "inv"), ("t", [], [1, 0], "ctrl pow:4"), ("t", [], [1, 0], "ctrl pow:-2"),
    ("rz", [PI // 4], [0], ""), ("crz", [PI // 4], [0, 1], ""), ("crz", [PI // 2], [0, 1], ""), ("rz", [PI // 4], [0], "pow:0"),
    ("rz", ["?"], [0], "pow:0"), ("rz", ["?"], [0], ""), ("rz", ["?"], ["?"], "inv"), ("rx", ["?"], [2, 1], "negctrl inv"),
    ("u3", ["?", 5, "?"], ["?"], ""), ("u3", ["?", 0, "?"], ["?"], "pow:2 inv"), ("u2", [PI, "?"], [4], "pow:-1"), ("u2", [PI // 2, PI], [4], ""),
    ("cu", ["?", PI, "?", 0], [2, 0, "?"], "ctrl"), ("cu", [PI, PI, 0, 1], [0, 1], ""), ("cu", [PI, PI, 0, PI // 2], [0, 1], "inv inv"),
    ("swap", [], [7, "?"], ""), ("cswap", [], ["?", 1, "?"], "inv"), ("ccx", [], [0, 1, 2], "pow:2"), ("p", [3], [0], "inv"), ("p", [3], [0], ""),
    ("u3", [LIMIT, LIMIT, 0], [0], ""), ("u3", [LIMIT, -LIMIT, 2], [0], ""), ("rx", [1], [0], ""), ("rx", [PI // 4], [0], ""),
    ("rx", [PI // 4], [0], "inv"), ("sx", [], ["?", "?", "?"], "ctrl negctrl"), ("cp", ["?"], ["?", "?"], "pow:3"), ("y", [], [0], "pow:-3"),
]:
    written = [",".join(str(one) for one in listed) or "-" for listed in (arguments, operands)]
    rows.append(" ".join(["expand", name, *written, modifiers]).rstrip())
    answers.append(expansion(name, arguments, operands, modifiers.split()))
for wrong in ["expand", "expand nothing - 0", "expand x a 0", "expand x - b", "expand x - 256", "expand p 1152921504606846977 0", "expand x - 0 twice"]:
    rows.append(wrong)
    answers.append("no row")

# the size of a program: its tokens, six primitives for each `swap`, and the sizes of the subroutines that it calls
for tokens, places, behind in [(0, 0, 0), (1, 1, 0), (7, 5, 0), (7, 5, 1), (3, 4, 10), (4294967295, 1, 0), (0, 715827881, 0), (0, 715827882, 0),
    (0, 4294967295, 3), (1, 0, 29), (0, 0, 255), (1, 0, 255)]:
    of_subroutine = tokens + 6 * places
    for _ in range(behind):
        of_subroutine = tokens + 2 * (tokens + of_subroutine)
    rows.append(f"program {tokens} {places} {behind}")
    answers.append(f"size {min(4 * tokens + of_subroutine + 6, stop)}")
for wrong in ["program", "program 1 1", "program 1 1 256", "program 1 4294967296 1", "program -1 1 1"]:
    rows.append(wrong)
    answers.append("no row")
(here / "stdin").write_text("\n".join(rows) + "\n")
(here / "stdout").write_text("\n".join(answers) + "\n")
