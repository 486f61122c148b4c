#!/usr/bin/env python3
"""Writes the rows of parts of flat code (stdin) and the answers that are wanted (stdout), beside this file.

The answers come from the nine rules as they are said below, over the words of the rows: sets of places that jumps go to, and the way back
from each primitive to its test.
"""
import random
import re
from pathlib import Path

WHOLE = ("bool", "bit", "int", "uint")


def has_size(kind):
    name, width = kind
    if name == "bool":
        return True
    if name == "phase":
        return False
    return 1 <= width <= (32 if name == "angle" else 64)


def width(kind):
    return 1 if kind[0] == "bool" else kind[1]


def is_whole(kind):
    return kind[0] in WHOLE


def binary_fits(operator, left, right):
    if not (has_size(left) and has_size(right)):
        return False
    both_whole = is_whole(left) and is_whole(right)
    same_angle = left[0] == right[0] == "angle" and left[1] == right[1]
    if operator in ("xor",):
        return both_whole or same_angle
    if operator in ("less", "add"):
        return both_whole or same_angle
    if operator == "left":
        return left[0] in ("bit", "int", "uint", "angle") and is_whole(right)
    if operator == "multiply":
        return both_whole or (left[0] == "angle" and is_whole(right)) or (right[0] == "angle" and is_whole(left))
    if operator == "divide":
        return both_whole or (left[0] == "angle" and is_whole(right)) or same_angle
    if operator == "rest":
        return both_whole
    if operator == "turn":
        return left[0] in ("bit", "uint") and is_whole(right)
    raise ValueError(operator)


def unary_fits(operator, of):
    return has_size(of) and (is_whole(of) if operator == "not" else of[0] == "bit")


def converts(source, to):
    if not (has_size(source) and has_size(to)):
        return False
    if to[0] in ("bool", "int", "uint"):
        return is_whole(source)
    if to[0] == "bit":
        return source[1] == to[1] if source[0] in ("bit", "angle") else is_whole(source)
    return source[0] == "angle" or (source[0] == "bit" and source[1] == to[1])


class Reader:
    """The words of an instruction; what they name is gathered."""

    def __init__(self, text):
        self.words = text.replace(",", " , ").split()
        self.cells, self.slots, self.qubits = [], [], []
        self.fits = True
        self.references, self.is_gate = [], False

    def word(self):
        return self.words.pop(0)

    def number(self):
        return int(self.word())

    def cell(self):
        self.cells.append(self.number())

    def slot(self):
        self.slots.append(self.number())

    def span(self):
        first, count = self.number(), self.number()
        self.slots.append(first + count - 1)

    def kind(self):
        return (self.word(), self.number())

    def operand(self):
        self.cell()
        kind = self.kind()
        self.fits = self.fits and has_size(kind)
        return kind

    def reference(self):
        word = self.word()
        number = int(word[1:])
        (self.cells if word[0] == "#" else self.qubits).append(number)
        self.references.append(word)

    def references_to_comma(self):
        while self.words[0] != ",":
            self.reference()
        self.word()

    def argument(self):
        if self.word() == "work":
            self.cell()
        else:
            self.number()

    def angle(self):
        if self.word() == "eighth":
            self.number()
        else:
            self.cell()


def read(text):
    r = Reader(text)
    name = r.word()
    r.name, r.target = name, None
    if name == "load":
        r.cell(), r.number()
    elif name == "get":
        r.cell(), r.slot()
    elif name == "put":
        r.slot(), r.cell()
    elif name == "get_at":
        r.cell(), r.span(), r.operand()
    elif name == "put_at":
        r.span(), r.operand(), r.cell()
    elif name == "bit_get":
        r.cell(), r.operand(), r.operand()
    elif name == "bit_put":
        r.operand(), r.operand(), r.cell()
    elif name == "apply":
        r.cell()
        operator = r.word()
        if operator in ("not", "count"):
            r.fits = unary_fits(operator, r.operand())
        else:
            left, right = r.operand(), r.operand()
            r.fits = binary_fits(operator, left, right)
    elif name == "cast":
        r.cell()
        source = r.operand()
        r.fits = converts(source, r.kind())
    elif name == "turns":
        r.cell(), r.operand(), r.operand(), r.operand()
    elif name == "angle":
        r.cell()
        operation = r.word()
        if operation == "angle":
            r.fits = r.operand()[0] == "angle" and r.fits
        elif operation == "exact":
            r.fits = is_whole(r.operand()) and r.fits
        elif operation in ("product", "quotient"):
            r.argument()
            r.fits = is_whole(r.operand()) and r.fits
        elif operation in ("add", "sub"):
            r.argument(), r.argument()
        elif operation == "neg":
            r.argument()
        else:
            r.argument(), r.number()
    elif name == "qubit":
        r.cell()
        while r.words[0] != ",":
            r.qubits.append(r.number())
        r.word()
        r.operand()
    elif name == "distinct":
        r.references_to_comma()
    elif name in ("u", "phase"):
        r.is_gate = True
        r.references_to_comma(), r.references_to_comma()
        if name == "u":
            r.reference()
            r.angle(), r.angle()
        r.angle()
    elif name == "measure":
        r.reference()
        where = r.word()
        if where != "nowhere":
            r.slot()
            r.number() if where == "bit" else r.cell()
    elif name == "reset":
        r.reference()
    elif name == "jump":
        r.target = r.number()
    elif name == "jump_if":
        r.cell()
        r.target = r.number()
    assert not r.words, text
    return r


def tests_hold(code):
    """From each primitive with references in cells, back over primitives and arithmetic of phases alone, there is a test of them."""
    targets = {i.target for i in code if i.target is not None}
    for at, i in enumerate(code):
        wanted = {r for r in i.references if r[0] == "#"} if i.is_gate else set()
        if not wanted:
            continue
        back = at - 1
        while back >= 0 and (code[back].is_gate or code[back].name == "angle"):
            back -= 1
        if back < 0 or code[back].name != "distinct" or not wanted <= set(code[back].references):
            return False
        if any(back < t <= at for t in targets):
            return False
    return True


def is_valid(qubits, slots, cells, start, texts, fields, cut):
    code = [read(t) for t in texts]
    product = 1
    rules = [
        qubits <= 16,
        not cut and len(start) == slots,
        code[-1].name in ("end", "jump"),
        all(
            i.target is None or at < i.target < len(code) or (i.target <= at and code[i.target].name == "tick")
            for at, i in enumerate(code)
        ),
        all(
            i.fits and all(c < cells for c in i.cells) and all(s < slots for s in i.slots) and all(q < qubits for q in i.qubits)
            for i in code
        ),
        all(len({r for r in i.references if r[0] == "@"}) == len([r for r in i.references if r[0] == "@"]) for i in code if i.is_gate),
        tests_hold(code),
        cells <= 16777216,
    ]
    for name, kind, slot, lengths in fields:
        product = 1
        for length in lengths:
            product *= length
        rules.append(has_size(kind) and slot + product <= slots)
    return all(rules)


def row(qubits, slots, cells, start, texts, fields=(), cut=False):
    told = "; ".join(f"{n} {k[0]} {k[1]} {s}" + "".join(f" {l}" for l in ls) for n, k, s, ls in fields)
    text = f"{'cut' if cut else 'code'} {qubits} {slots} {cells} / {' '.join(map(str, start))} / {'; '.join(texts)} / {told}"
    if is_valid(qubits, slots, cells, start, texts, fields, cut):
        shown = "".join(f" {v}" for v in start)
        names = "".join(f" {n}:{s}" for n, k, s, ls in fields)
        n = len(texts)
        answer = f"ok instructions {n} places {n} qubits {qubits} slots {slots} cells {cells} end 1 start{shown} told{names}"
    else:
        answer = f"back instructions {len(texts)} qubits {qubits}"
    return text, answer


TURN = "eighth 2 eighth 0 work 3"
BASE = [
    "tick", "load 0 5", "get 1 0", "put 1 0", "get_at 2 0 3 1 int 8", "put_at 1 2 0 uint 64 1", "bit_get 2 0 bit 8 1 int 64",
    "bit_put 0 bit 64 1 uint 3 2", "apply 0 add 0 int 8 1 uint 4", "apply 0 not 1 bool 1", "cast 1 0 bit 4 angle 4",
    "turns 3 0 int 64 1 int 64 2 int 8", "angle 3 add work 1 units -1073741824", "angle 3 product units 5 1 uint 8",
    "angle 2 angle 3 angle 32", "jump_if 0 24", "tick", "qubit 1 0 2 1, 2 int 64", "distinct @0 #1 #2,", "angle 3 neg work 3",
    f"u #1, , @0 {TURN}", "phase @1, #2, opposite 3", "jump 24", "tick", "measure #1 bit 0 63", "measure @1 at 1 0", "measure @2 nowhere",
    "reset @0", "jump 23", "end",
]
KINDS = [
    ("bool", 1), ("bit", 1), ("bit", 64), ("bit", 65), ("int", 0), ("int", 8), ("uint", 64), ("angle", 32), ("angle", 33), ("phase", 0),
]


def with_one(at, text):
    return BASE[:at] + [text] + BASE[at + 1:]


def changed(rng):
    """The code with one number, type or instruction changed by chance."""
    texts = list(BASE)
    at = rng.randrange(len(texts))
    choice = rng.randrange(4)
    if choice == 0:
        numbers = list(re.finditer(r"(?<=[ @#])\d+", texts[at]))
        if numbers:
            m = rng.choice(numbers)
            texts[at] = texts[at][:m.start()] + str(rng.choice([0, 1, 2, 3, 4, 15, 16, 24, 29, 30])) + texts[at][m.end():]
    elif choice == 1:
        kinds = list(re.finditer(r"(?<=\d )(bool|bit|int|uint|angle) \d+(?= |$)", texts[at]))
        if kinds and not texts[at].startswith(("measure", "angle 2 angle")):
            m = rng.choice(kinds)
            new = rng.choice(KINDS)
            texts[at] = texts[at][:m.start()] + f"{new[0]} {new[1]}" + texts[at][m.end():]
    elif choice == 2:
        texts[at] = rng.choice(BASE)
    else:
        other = rng.randrange(len(texts))
        texts[at], texts[other] = texts[other], texts[at]
    return texts


def main():
    rng = random.Random(7)
    rows = []
    add = lambda *given, **named: rows.append(row(*given, **named))
    # the end
    add(0, 0, 0, [], ["end"])
    add(0, 0, 0, [], ["tick"])
    add(0, 0, 0, [], ["end", "tick"])
    add(0, 0, 0, [], ["tick", "jump 0"])
    # counts
    add(16, 0, 0, [], ["end"])
    add(17, 0, 0, [], ["end"])
    add(0, 1, 0, [], ["end"])
    add(0, 2, 0, [1, 18446744073709551615], ["end"])
    add(0, 0, 0, [], ["end"], cut=True)
    add(0, 0, 16777216, [], ["end"])
    add(0, 0, 16777217, [], ["end"])
    add(0, 0, 16777216, [], ["load 16777215 1", "end"])
    # jumps
    for to in range(6):
        add(0, 0, 1, [], ["tick", f"jump_if 0 {to}", "tick", f"jump {to}", "end"])
    # what is told
    shapes = [(), (1,), (2,), (2, 2), (3, 2), (0,), (4294967295, 4294967295, 0), (4294967295, 4294967295, 4294967295), (0, 4294967295)]
    for lengths in shapes:
        for slot in (0, 1, 5, 6, 4294967295):
            add(0, 5, 0, [0] * 5, ["end"], [("z", ("uint", 8), slot, lengths)])
    for kind in KINDS:
        add(0, 2, 0, [0, 1], ["end"], [("a", ("bit", 2), 1, ()), ("b", kind, 0, (1, 2))])
    # all instructions, and each with a number or a type that is wrong
    add(3, 3, 4, [0, 1, 2], BASE)
    for qubits, slots, cells in [(2, 3, 4), (3, 2, 4), (3, 3, 3), (16, 8, 9)]:
        add(qubits, slots, cells, [0] * slots, BASE)
    for kind in KINDS:
        k = f"{kind[0]} {kind[1]}"
        for at, text in [(4, f"get_at 2 0 3 1 {k}"), (10, f"cast 1 0 {k} angle 32"), (10, f"cast 1 0 bit 64 {k}"),
                         (10, f"cast 1 0 int 8 {k}"),
                         (9, f"apply 0 not 1 {k}"), (9, f"apply 0 count 1 {k}"), (13, f"angle 3 product units 5 1 {k}"),
                         (13, f"angle 3 quotient work 3 1 {k}"), (13, f"angle 3 exact 1 {k}"), (14, f"angle 2 angle 3 {k}"),
                         (11, f"turns 3 0 {k} 1 int 64 2 int 8"), (6, f"bit_get 2 0 {k} 1 int 64")]:
            add(3, 3, 4, [0, 1, 2], with_one(at, text))
        for operator in ("xor", "less", "left", "add", "multiply", "divide", "rest", "turn"):
            for other in ("bit 64", "int 8", "angle 32"):
                add(3, 3, 4, [0, 1, 2], with_one(8, f"apply 0 {operator} 0 {k} 1 {other}"))
    # fixed qubits that differ or not
    for gate in ["u @0, @1, @2", "u @0 @0, , @1", "u , @1 @1, @2", "u @0, @0, @1", "u @2, , @2", "u , @2, @2", "phase @0, @0,",
                 "phase , ,"]:
        angles = f" {TURN}" if gate[0] == "u" else " eighth 7"
        add(3, 3, 4, [0, 0, 0], with_one(13, gate + angles))
    # tests, and jumps to each instruction
    add(3, 3, 4, [0, 0, 0], with_one(18, "distinct #1,"))
    add(3, 3, 4, [0, 0, 0], with_one(18, "distinct #1 #2 #3 @0 @0,"))
    add(3, 3, 4, [0, 0, 0], with_one(19, "load 3 0"))
    add(3, 3, 4, [0, 0, 0], with_one(19, "distinct ,"))
    add(3, 3, 4, [0, 0, 0], with_one(17, f"u #1, , @0 {TURN}"))
    for to in range(16, 31):
        add(3, 3, 4, [0, 0, 0], with_one(15, f"jump_if 0 {to}"))
    # by chance
    for _ in range(400):
        add(3, 3, 4, [0, 1, 2], changed(rng))
    wrong = ["", "code", "code 1 1 1 / / end", "code 1 1 / / end /", "code 1 1 1 / / stop /", "code 0 0 0 / / end 1 /",
             "code 0 0 0 / x / end /",
             "code 0 0 0 / / jump /", "code 0 0 0 / / / ", "codes 0 0 0 / / end /"]
    rows += [(text, "no row") for text in wrong]
    here = Path(__file__).parent
    (here / "stdin").write_text("\n".join(text for text, _ in rows) + "\n")
    (here / "stdout").write_text("\n".join(answer for _, answer in rows) + "\n")


main()
