"""Programs with two faults in one statement, and which of them is told.

A form is a statement with blanks. Its judgements are listed by hand in the order of the language's rules (docs/LANGUAGE.md, "What a program
means"): a blank, and what may stand in it to be refused by this judgement, with the refusal. A blank may be judged more than once, as a right
side is typed before the target and is held to the target's type behind it. Where two blanks hold faults, that of the earlier judgement is told;
so each pair of faults stands in both orders of text, wherever both blanks take it.

`cases()` yields a text and its answer: for each form the statement without a fault, in front of a statement with one; with each fault alone; and
with each two of them."""

TAIL = " later = 1;"


def refused(refusal, place):
    """A refusal as the program tells it: its place stands behind its kind."""
    kind, rest = refusal.split(" ", 1)
    return f"{kind} p:1:{place} {rest}"


# ---- what is wrong with a value of a run, a constant, an angle, a qubit
VALUE = [("y", "E8 name y"), ("(pi + 1)", "E10 type"), ("(f(n))", "E11 form call"), ("b[9]", "E12 const range"), ("popcount(b, b)", "E14 arity 1 2")]
CONSTANT = [("y", "E8 name y"), ("pi", "E10 type"), ("n", "E12 const variable"), ("1 / 0", "E12 const divide"), ("popcount(1, 2)", "E14 arity 1 2")]
ANGLE = [("y", "E8 name y"), ("b", "E10 type"), ("f(n)", "E11 form call"), ("pi / 3", "E12 const exact"), ("rotl(b)", "E14 arity 2 1")]
QUBIT = [("y", "E8 name y"), ("n", "E8 name n"), ("q[(pi + 1)]", "E10 type"), ("q[f(n)]", "E11 form call"), ("q[9]", "E12 const range")]
MODIFIER = [("ctrl(y) @ ", "E8 name y"), ("pow(pi) @ ", "E10 type"), ("ctrl(16) @ ", "E12 const range"), ("pow(1 / 2) @ ", "E12 const exact"), ("pow(n) @ ", "E12 const variable")]
STATEMENT = [("later = 1;", "E8 name later"), ("break;", "E11 form loop")]


def some(faults, *kinds):
    """Those of these kinds."""
    return [fault for fault in faults if fault[1].split()[0] in kinds]


VALUES, CONSTANTS, QUBITS = some(VALUE, "E8", "E10", "E12"), some(CONSTANT, "E8", "E10", "E12"), some(QUBIT, "E8", "E10", "E12")
SIZE = CONSTANTS + [("65", "E12 const range")]
# a variable isn't seen inside a subroutine
INSIDE = [("n", "E8 name n"), ("1 / 0", "E12 const divide"), ("65", "E12 const range")]

# ---- what stands before a statement
VARIABLES = "int n; bit[4] b; def f(int k) -> int { return k; } "
REGISTERS = VARIABLES + "qubit[3] q; qubit[2] r; qubit p; "
GATES = 'include "stdgates.inc"; ' + REGISTERS
ARRAYS = VARIABLES + "array[int, 2, 3] z; "


class Form:
    """A statement with blanks, and what stands before it. `judged` are the judgements in order: a blank, and its faults. `fine` is what stands in
    a blank otherwise; `inner` are blanks that hold a statement of their own, whose place is told."""

    def __init__(self, before, text, fine, judged, inner=()):
        self.before, self.text, self.fine, self.judged, self.inner = before, text, fine, judged, inner

    def filled(self, **faults):
        """The text, with the places of the statement and of each inner one."""
        parts = dict(self.fine, **faults)
        place, places, text = len(self.before) + 1, {}, self.before
        rest = self.text
        while "<" in rest and ">" in rest.split("<", 1)[1]:
            head, rest = rest.split("<", 1)
            blank, rest = rest.split(">", 1)
            text += head
            places[blank] = len(text) + 1
            text += parts[blank]
        return text + rest, place, places

    def case(self, chosen):
        """The text with these faults, which stand in the order of judgement."""
        text, place, places = self.filled(**{blank: fault for blank, fault, _ in chosen})
        if not chosen:
            return text + TAIL, refused("E8 name later", len(text) + 2)
        blank, _, refusal = chosen[0]
        return text + TAIL, refused(refusal, places[blank] if blank in self.inner else place)

    def cases(self):
        yield self.case([])
        faults = [(number, blank, fault, refusal) for number, (blank, all_faults) in enumerate(self.judged) for fault, refusal in all_faults]
        for first in faults:
            yield self.case([first[1:]])
            for second in faults:
                if first[0] < second[0] and first[1] != second[1]:
                    yield self.case([first[1:], second[1:]])


FORMS = [
    # declarations: the type, a new name, the right side, and whether it has the type
    Form(VARIABLES, "int[<size>] <name> = <value>;", {"size": "8", "name": "v", "value": "n"},
         [("size", SIZE), ("name", [("n", "E9 twice n")]), ("value", VALUE), ("value", [("tau", "E10 type")])]),
    Form(REGISTERS, "bit[<size>] <name> = measure <qubits>;", {"size": "3", "name": "v", "qubits": "q"},
         [("size", SIZE), ("name", [("n", "E9 twice n")]), ("qubits", QUBIT), ("qubits", [("r", "E14 arity 3 2")])]),
    Form(VARIABLES, "int[<size>] <name> = f(<given><more>);", {"size": "8", "name": "v", "given": "n", "more": ""},
         [("size", SIZE), ("name", [("n", "E9 twice n")]), ("more", [(", n", "E14 arity 1 2")]), ("given", VALUE), ("given", [("tau", "E10 type")])]),
    Form(VARIABLES, "creg <name>[<size>];", {"name": "v", "size": "8"}, [("name", [("n", "E9 twice n")]), ("size", SIZE)]),
    Form(VARIABLES, "const int[<size>] <name> = <value>;", {"size": "8", "name": "v", "value": "1"},
         [("size", SIZE), ("name", [("n", "E9 twice n")]), ("value", [f for f in CONSTANT if f[0] != "pi"]), ("value", [("pi", "E10 type")])]),
    Form(VARIABLES, "qubit[<size>] <name>;", {"size": "2", "name": "v"}, [("size", CONSTANT + [("0", "E12 const range")]), ("name", [("n", "E9 twice n")])]),
    Form(VARIABLES, "qreg <name>[<size>];", {"name": "v", "size": "2"}, [("name", [("n", "E9 twice n")]), ("size", CONSTANT + [("0", "E12 const range")])]),
    Form(VARIABLES, "input uint[<size>] <name>;", {"size": "8", "name": "v"}, [("size", SIZE), ("name", [("n", "E9 twice n")])]),
    Form(VARIABLES, "output bit[<size>] <name>;", {"size": "8", "name": "v"}, [("size", SIZE), ("name", [("n", "E9 twice n")])]),
    Form(REGISTERS, "let <name> = <first> ++ <second>;", {"name": "v", "first": "q[0]", "second": "r"},
         [("name", [("n", "E9 twice n")]), ("first", QUBIT), ("first", [("q[n]", "E11 form register")]), ("second", QUBIT),
          ("second", [("r[n]", "E11 form register")]), ("second", [("q[{1, 0}]", "E11 form qubit")])]),
    # arrays: the elements' type, each dimension, a new name, and the list from left to right
    Form(VARIABLES, "array[<kind>, <first>, <second><more>] <name> = {<row>, {3, <item>}};",
         {"kind": "int[8]", "first": "2", "second": "2", "more": "", "name": "v", "row": "{1, 2}", "item": "4"},
         [("kind", [("int[y]", "E8 name y"), ("int[65]", "E12 const range"), ("bit[2]", "E10 type")]), ("first", CONSTANTS), ("second", CONSTANTS),
          ("more", [(", 1, 1, 1, 1, 1, 1", "E11 form dimensions")]), ("name", [("n", "E9 twice n")]),
          ("row", [("{1, y}", "E8 name y"), ("{1}", "E10 type"), ("5", "E10 type")]), ("item", VALUE), ("item", [("tau", "E10 type")])]),
    # assignments: the right side, the target, and whether the one fits the other
    Form(VARIABLES + "const int k = 1; ", "<target> = <value>;", {"target": "n", "value": "1"},
         [("value", VALUE), ("target", [("m", "E8 name m"), ("k", "E11 form target"), ("n[(pi + 1)]", "E10 type"), ("b[9]", "E12 const range"), ("b[0][1]", "E12 const range")]),
          ("value", [("tau", "E10 type")])]),
    Form(ARRAYS, "z[<row>, <column>]<step> = <value>;", {"row": "1", "column": "n", "step": "", "value": "1"},
         [("value", VALUE), ("row", VALUES), ("column", VALUES), ("step", [("[y]", "E8 name y"), ("[0:1]", "E10 type"), ("[64]", "E12 const range")]), ("value", [("pi", "E10 type")])]),
    Form(REGISTERS, "<target> = measure <qubits>;", {"target": "b[0:2]", "qubits": "q"},
         [("qubits", QUBIT), ("target", [("m", "E8 name m"), ("b[pi:2]", "E10 type"), ("b[1:9]", "E12 const range")]), ("qubits", [("r", "E14 arity 3 2")])]),
    Form(REGISTERS + "array[bool, 2] z; ", "measure <qubits> -> z[<place>];", {"qubits": "p", "place": "0"},
         [("qubits", QUBIT), ("place", VALUE), ("place", [("n", "E11 form register")]), ("qubits", [("r", "E14 arity 1 2")])]),
    Form(REGISTERS + "angle[4] a; def e(int k) { } ", "<target> = <called>(<given><more>);", {"target": "n", "called": "f", "given": "1", "more": ""},
         [("called", [("g", "E8 name g")]), ("more", [(", 2", "E14 arity 1 2")]), ("given", VALUE), ("called", [("e", "E10 type")]),
          ("target", [("m", "E8 name m"), ("n[64]", "E12 const range"), ("n[f(1)]", "E11 form call")]), ("target", [("a", "E10 type")])]),
    Form(VARIABLES + "const int k = 1; angle[4] a; ", "<target> += <value>;", {"target": "n", "value": "2"},
         [("value", VALUE), ("target", [("m", "E8 name m"), ("k", "E11 form target"), ("n[f(1)]", "E11 form call"), ("b[9]", "E12 const range")]),
          ("value", [("a", "E10 type")])]),
    # operands: the name, its index, whether it has places, and whether the index is one of them
    Form(REGISTERS, "reset <name>[<place>];", {"name": "q", "place": "n"},
         [("name", [("y", "E8 name y"), ("n", "E8 name n")]), ("place", VALUE), ("place", [("tau", "E10 type")]), ("name", [("p", "E10 type")]), ("place", [("7", "E12 const range")])]),
    Form(REGISTERS, "reset <name>[<start>:<step>:<end>];", {"name": "q", "start": "0", "step": "1", "end": "2"},
         [("name", [("y", "E8 name y"), ("n", "E8 name n")]), ("start", CONSTANT), ("step", CONSTANT), ("end", CONSTANT), ("name", [("p", "E10 type")]),
          ("start", [("7", "E12 const range")]), ("step", [("0", "E12 const range")]), ("end", [("-4", "E12 const range")])]),
    Form(REGISTERS, "reset <name>[{<first>, <second>}];", {"name": "q", "first": "1", "second": "0"},
         [("name", [("y", "E8 name y"), ("p", "E10 type")]), ("first", CONSTANT + [("3", "E12 const range")]), ("second", CONSTANT + [("3", "E12 const range")]),
          ("second", [("1", "E11 form qubit")])]),
    Form(REGISTERS, "barrier <first>, <second>;", {"first": "q[0]", "second": "r"}, [("first", QUBIT), ("second", QUBIT)]),
    # gate calls: modifiers, the name, the number of arguments, each argument, the number of qubits, and the operands one by one
    Form(GATES, "<modifier><gate>(<angle><more>) <first>, <second><others>;",
         {"modifier": "inv @ ", "gate": "crz", "angle": "pi / 2", "more": "", "first": "q[0]", "second": "q[1]", "others": ""},
         [("modifier", MODIFIER), ("gate", [("g", "E8 name g"), ("n", "E8 name n")]), ("more", [(", 0", "E14 arity 1 2")]), ("angle", ANGLE),
          ("others", [(", p", "E14 arity 2 3")]), ("first", QUBIT), ("second", QUBITS), ("second", [("q[0]", "E11 form qubit")])]),
    Form(GATES, "<inner><outer>x <qubit>;", {"inner": "inv @ ", "outer": "pow(2) @ ", "qubit": "q"}, [("inner", MODIFIER), ("outer", MODIFIER), ("qubit", QUBITS)]),
    Form(GATES, "u3(<first>, <second>, <third>) <qubit>;", {"first": "pi", "second": "0", "third": "n * pi", "qubit": "q"},
         [("first", ANGLE), ("second", ANGLE), ("third", ANGLE), ("qubit", QUBITS)]),
    Form(GATES, "ctrl @ gphase(<angle>) <first><others>;", {"angle": "pi", "first": "q[0]", "others": ""},
         [("angle", ANGLE), ("others", [(", p", "E14 arity 1 2")]), ("first", QUBIT)]),
    Form(GATES + "qubit[3] s; ", "ccx <first>, <second>, <third>;", {"first": "q", "second": "p", "third": "s"},
         [("first", QUBITS), ("second", QUBITS), ("second", [("r", "E14 arity 3 2")]), ("second", [("q[1]", "E11 form qubit")]), ("third", QUBITS),
          ("third", [("r", "E14 arity 3 2")]), ("third", [("q", "E11 form qubit")])]),
    # calls: the name, the number of arguments, and the arguments one by one
    Form(REGISTERS + "def g(qubit s, qubit[2] t, int m) { } ", "<called>(<single>, <register>, <value><more>);",
         {"called": "g", "single": "p", "register": "r", "value": "n", "more": ""},
         [("called", [("n", "E8 name n"), ("h", "E8 name h")]), ("more", [(", 1", "E14 arity 3 4")]),
          ("single", QUBIT + [("q", "E10 type"), ("1", "E10 type")]), ("register", QUBIT + [("q", "E10 type"), ("r[n]", "E11 form register")]), ("value", VALUE), ("value", [("tau", "E10 type")])]),
    Form(REGISTERS + "def g(qubit[2] s, qubit[2] t) { } ", "g(<first>, <second>);", {"first": "q[0:1]", "second": "r"},
         [("first", QUBIT + [("q", "E10 type")]), ("second", QUBIT + [("q", "E10 type")]), ("second", [("q[{2, 0}]", "E11 form qubit")])]),
    # conditions and loops, each before its body
    Form(VARIABLES, "if (<condition>) { <body> } else { <other> }", {"condition": "n", "body": "n = 1;", "other": "n = 2;"},
         [("condition", VALUE + [("tau", "E10 type")]), ("body", STATEMENT), ("other", STATEMENT)], ("body", "other")),
    Form(VARIABLES, "while (<condition>) { <body> }", {"condition": "n", "body": "n = 1;"},
         [("condition", VALUE + [("tau", "E10 type")]), ("body", STATEMENT[:1])], ("body",)),
    Form(VARIABLES, "for <kind> i in [<start>:<step>:<end>] { <body> }", {"kind": "int[8]", "start": "0", "step": "1", "end": "n", "body": "n = 1;"},
         [("kind", [("int[y]", "E8 name y"), ("angle[3]", "E10 type"), ("uint[0]", "E12 const range")]), ("start", VALUES + [("tau", "E10 type")]), ("step", VALUES), ("end", VALUE),
          ("body", STATEMENT[:1] + [("int i;", "E9 twice i")])], ("body",)),
    Form(VARIABLES, "for int i in [<start>:<end>] { n = i; }", {"start": "0", "end": "n"}, [("start", [("", "E10 type")]), ("end", VALUES)]),
    Form(VARIABLES, "for int[<size>] i in {<first>, <second>} { <body> }", {"size": "8", "first": "0", "second": "n", "body": "n = 1;"},
         [("size", SIZE), ("first", VALUE), ("second", VALUE + [("tau", "E10 type")]), ("body", STATEMENT[:1])], ("body",)),
    Form(ARRAYS, "for int[<size>] i in <name> { <body> }", {"size": "8", "name": "b", "body": "n = 1;"},
         [("size", SIZE), ("name", [("y", "E8 name y"), ("f", "E8 name f"), ("z", "E10 type")]), ("body", STATEMENT[:1])], ("body",)),
    # the head of a subroutine, and its body
    Form(VARIABLES, "def <name>(int[<first>] s, uint[<second>] <twice>) -> bit[<result>] { <body> return <value>; }",
         {"name": "g", "first": "8", "second": "8", "twice": "t", "result": "8", "body": "", "value": "s"},
         [("name", [("n", "E9 twice n")]), ("first", INSIDE), ("second", INSIDE), ("twice", [("s", "E9 twice s")]), ("result", INSIDE), ("body", STATEMENT)], ("body",)),
    Form(VARIABLES, "def g(qubit[<first>] s, qubit <second>) { <body> }", {"first": "2", "second": "t", "body": ""},
         [("first", INSIDE[:2] + [("0", "E12 const range")]), ("second", [("s", "E9 twice s")]), ("body", STATEMENT + [("return 1;", "E11 form return")])], ("body",)),
    # a gate's names, and then the calls in its body
    Form(GATES, "gate <name>(s, <angle>) t, <wire> { <body> }", {"name": "g", "angle": "u", "wire": "v", "body": "x t;"},
         [("name", [("n", "E9 twice n")]), ("angle", [("s", "E9 twice s")]), ("wire", [("t", "E9 twice t")]), ("body", [("x q;", "E8 name q"), ("x t, v;", "E14 arity 1 2")])], ("body",)),
    # expressions, from left to right, and then the operator
    Form(ARRAYS, "n = z[<row>, <column>]<step>;", {"row": "1", "column": "n", "step": ""},
         [("row", VALUE + [("2", "E12 const range"), ("tau", "E10 type")]), ("column", VALUES + [("3", "E12 const range")]), ("step", [("[y]", "E8 name y"), ("[64]", "E12 const range"), ("[{0}]", "E10 type")])]),
    Form(VARIABLES, "n = b[<start>:<end>][<place>];", {"start": "0", "end": "2", "place": "n"},
         [("start", CONSTANTS), ("end", CONSTANTS), ("start", [("4", "E12 const range")]), ("end", [("5", "E12 const range")]), ("place", VALUES), ("place", [("3", "E12 const range")])]),
    Form(VARIABLES, "n = int[<size>](<value>);", {"size": "8", "value": "n"}, [("size", SIZE), ("value", VALUE), ("value", [("tau", "E10 type")])]),
    Form(ARRAYS, "n = sizeof(<name>, <dimension>) + <value>;", {"name": "z", "dimension": "1", "value": "n"},
         [("name", [("y", "E8 name y"), ("n", "E10 type")]), ("dimension", CONSTANTS + [("2", "E12 const range")]), ("value", VALUES)]),
    Form(VARIABLES, "n = rotl(<of><more>) + <value>;", {"of": "b", "more": ", 1", "value": "1"},
         [("more", [("", "E14 arity 2 1"), (", 1, 2", "E14 arity 2 3")]), ("of", VALUE), ("value", VALUES)]),
    Form(VARIABLES + "angle[4] a; ", "n = (<left>) && !<right> || <last>;", {"left": "n", "right": "b", "last": "n == 1"},
         [("left", VALUE), ("right", VALUE), ("last", VALUE)]),
]

# ---- a call in the body of a gate is judged as one outside, at its own place; what stands beside a parameter is constant
BODY = 'include "stdgates.inc"; int n; gate g(t) s, u { '
BODY_ANGLE = [("y", "E8 name y"), ("n", "E8 name n"), ("t * t", "E10 type"), ("t / (1 / 0)", "E12 const divide"), ("pi / 3", "E12 const exact")]


class BodyForm(Form):
    """A statement in the body of a gate."""

    def case(self, chosen):
        text, place, _ = self.filled(**{blank: fault for blank, fault, _ in chosen})
        if not chosen:
            return text + " }" + TAIL, refused("E8 name later", len(text) + 4)
        return text + " }" + TAIL, refused(chosen[0][2], place)


FORMS += [
    BodyForm(BODY, "<modifier><gate>(<angle><more>) <first>, <second><others>;",
             {"modifier": "inv @ ", "gate": "crz", "angle": "t / 2", "more": "", "first": "s", "second": "u", "others": ""},
             [("modifier", [f for f in MODIFIER if "n" not in f[0]]), ("gate", [("g", "E8 name g")]), ("more", [(", 0", "E14 arity 1 2")]), ("angle", BODY_ANGLE),
              ("others", [(", s", "E14 arity 2 3")]), ("first", [("y", "E8 name y"), ("t", "E8 name t")]), ("second", [("y", "E8 name y"), ("s", "E11 form qubit")])]),
    BodyForm(BODY, "u2(<first>, <second>) <qubit>;", {"first": "t", "second": "-t + pi", "qubit": "s"},
             [("first", BODY_ANGLE), ("second", BODY_ANGLE), ("qubit", [("y", "E8 name y"), ("t", "E8 name t")])]),
    BodyForm(BODY, "barrier <first>, <second>;", {"first": "s", "second": "u"},
             [("first", [("y", "E8 name y"), ("t", "E8 name t")]), ("second", [("y", "E8 name y"), ("n", "E8 name n")])]),
]


def programs():
    """Faults of a whole program: its version, its statements in the order of text, its qubits, its slots, and its inputs."""
    parts = [("OPENQASM 3;", "OPENQASM 2.0;", "E7 p:1:1 version"), ("int n;", "int n = y;", "E8 p:1:15 name y"),
             ("qubit[2] q;", "qubit[17] q;", "E15 qubits 17"), ("bit b;", "array[int, 1024] b;", "E16 slots 1026"), ("bit c;", "input int w;", "E19 w missing")]
    wide = len("OPENQASM 2.0;")
    for bits in range(1, 1 << len(parts)):
        text = " ".join((bad if bits >> n & 1 else fine).ljust(wide) if n == 0 else (bad if bits >> n & 1 else fine) for n, (fine, bad, _) in enumerate(parts))
        told = next(refusal for n, (_, _, refusal) in enumerate(parts) if bits >> n & 1)
        yield text, told


def cases():
    for form in FORMS:
        yield from form.cases()
    yield from programs()
