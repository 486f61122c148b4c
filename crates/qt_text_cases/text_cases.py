"""Writes the rows of `qt_text_cases` and the answers that are wanted, as `stdin` and `stdout` beside this file.

The answers come from the tables below, which are those of the language: how each token is spelled, which terminal a spelling has,
and which number a literal is. Places are counted here: lines from 1, columns in characters from 1, and ends in bytes.
"""

import pathlib

RESERVED = [
    ("OPENQASM", "OpenQasm"), ("include", "Include"), ("qubit", "Qubit"), ("qreg", "Qreg"), ("bit", "Bit"), ("creg", "Creg"),
    ("bool", "Bool"), ("int", "Int"), ("uint", "Uint"), ("angle", "Angle"), ("array", "Array"), ("const", "Const"), ("let", "Let"),
    ("input", "Input"), ("output", "Output"), ("gate", "Gate"), ("def", "Def"), ("return", "Return"), ("measure", "Measure"),
    ("reset", "Reset"), ("barrier", "Barrier"), ("if", "If"), ("else", "Else"), ("while", "While"), ("for", "For"), ("in", "In"),
    ("break", "Break"), ("continue", "Continue"), ("end", "EndWord"), ("ctrl", "Ctrl"), ("negctrl", "NegCtrl"), ("inv", "Inv"),
    ("pow", "Pow"), ("gphase", "GPhase"), ("true", "True"), ("false", "False"), ("sizeof", "SizeOf"), ("float", "Float"),
    ("complex", "Complex"), ("duration", "Duration"), ("stretch", "Stretch"), ("delay", "Delay"), ("box", "Box"),
    ("durationof", "DurationOf"), ("cal", "Cal"), ("defcal", "DefCal"), ("defcalgrammar", "DefCalGrammar"), ("extern", "Extern"),
    ("pragma", "Pragma"), ("euler", "Euler"), ("switch", "Switch"), ("case", "Case"), ("default", "Default"),
]

SYMBOLS = [
    ("(", "LeftParen"), (")", "RightParen"), ("[", "LeftBracket"), ("]", "RightBracket"), ("{", "LeftBrace"), ("}", "RightBrace"),
    (";", "Semicolon"), (",", "Comma"), (":", "Colon"), ("@", "At"), ("->", "Arrow"), ("=", "Assign"), ("==", "EqualEqual"),
    ("!=", "NotEqual"), ("<", "Less"), ("<=", "LessEqual"), (">", "Greater"), (">=", "GreaterEqual"), ("<<", "ShiftLeft"),
    (">>", "ShiftRight"), ("+", "Plus"), ("-", "Minus"), ("*", "Star"), ("/", "Slash"), ("%", "Percent"), ("**", "StarStar"),
    ("++", "PlusPlus"), ("&", "And"), ("&&", "AndAnd"), ("|", "Or"), ("||", "OrOr"), ("^", "Caret"), ("!", "Bang"), ("~", "Tilde"),
    ("+=", "PlusAssign"), ("-=", "MinusAssign"), ("*=", "StarAssign"), ("/=", "SlashAssign"), ("%=", "PercentAssign"),
    ("**=", "StarStarAssign"), ("&=", "AndAssign"), ("|=", "OrAssign"), ("^=", "CaretAssign"), ("<<=", "ShiftLeftAssign"),
    (">>=", "ShiftRightAssign"),
]

OTHERS = [
    ("pi", "Pi"), ("π", "Pi"), ("tau", "Tau"), ("τ", "Tau"), ("ℇ", "Euler"), ("#pragma", "HashPragma"), ("#dim", "HashDim"),
    ("#pragmas", "Hash"), ("#Dim", "Hash"), ("$12", "Hardware"), ("x1", "Name"), ("pi2", "Name"), ("included", "Name"),
    ("7", "Integer"), ("18446744073709551616", "Wide"), ("2.5", "Decimal"), ("1e3", "Decimal"), ("3ns", "Timing"), ("2.5µs", "Timing"),
    ("4im", "Imaginary"), ('"0"', "BitText"), ("'0110_1'", "BitText"), ('""', "Text"), ('"_1"', "Text"), ('"1_"', "Text"),
    ('"1__0"', "Text"), ('"12"', "Text"), ('"stdgates.inc"', "Text"), ('"' + "10" * 32 + '"', "BitText"),
]

INTEGERS = [
    ("0", 0), ("7", 7), ("0012", 12), ("1_000_000", 1000000), ("18446744073709551615", 18446744073709551615), ("0x1F", 31),
    ("0XdeadBEEF", 3735928559), ("0xFFFF_FFFF_FFFF_FFFF", 18446744073709551615), ("0b1", 1), ("0B1010_0101", 165), ("0o17", 15),
    ("0o7_7_7", 511),
]

BIT_STRINGS = [
    ("'0'", 0, 1), ("'1'", 1, 1), ("'10'", 2, 2), ("'01'", 1, 2), ("'0110_1'", 13, 5), ("'1000_0000'", 128, 8),
    ("'" + "1" * 64 + "'", 18446744073709551615, 64), ("'1" + "0" * 63 + "'", 9223372036854775808, 64), ("'" + "0" * 63 + "1'", 1, 64),
]

# Terminals that are refused by name.
FEATURES = {
    "Float": "Float", "Complex": "Complex", "Duration": "Duration", "Stretch": "Stretch", "Delay": "Delay", "Box": "Box",
    "DurationOf": "DurationOf", "Cal": "Cal", "DefCal": "DefCal", "DefCalGrammar": "DefCalGrammar", "Extern": "Extern",
    "Pragma": "Pragma", "Euler": "Euler", "Switch": "Switch", "Case": "Case", "Default": "Default", "Decimal": "Decimal",
    "Timing": "Timing", "Imaginary": "Imaginary", "Hardware": "Hardware", "Wide": "Wide", "HashPragma": "Pragma", "HashDim": "Dim",
    "Hash": "Hash",
}

OPERATORS = {
    "OrOr", "AndAnd", "Or", "Caret", "And", "EqualEqual", "NotEqual", "Less", "LessEqual", "Greater", "GreaterEqual", "ShiftLeft",
    "ShiftRight", "Plus", "Minus", "Star", "Slash", "Percent", "StarStar", "Bang", "Tilde",
}

# The terminals in the order of their numbers: the end has 0.
KINDS = [
    "End", "Name", "Integer", "Decimal", "BitText", "Text", "Pi", "Tau", "Euler", "Wide", "Timing", "Imaginary", "Hardware",
    "HashPragma", "HashDim", "Hash",
]
CODES = {
    name: code
    for code, name in enumerate(KINDS + [t for _, t in RESERVED if t != "Euler"] + [t for _, t in SYMBOLS])
}

LEXED = [
    ("", ""),
    ("a<<=1", "Name a\nSymbol <<=\nInteger 1"),
    ("<<=<<<=<", "Symbol <<=\nSymbol <<\nSymbol <=\nSymbol <"),
    ("***=->-+++=", "Symbol **\nSymbol *=\nSymbol ->\nSymbol -\nSymbol ++\nSymbol +="),
    ("!===>>>=&&&=", "Symbol !=\nSymbol ==\nSymbol >>\nSymbol >=\nSymbol &&\nSymbol &="),
    ("included int8 _x in\r\nint", "Name included\nName int8\nName _x\nReserved in\nReserved int"),
    ("pi π tau τ ℇ", "Constant pi\nConstant π\nConstant tau\nConstant τ\nEuler ℇ"),
    ("pi2 π2 taus", "Name pi2\nConstant π\nInteger 2\nName taus"),
    ("0x1F 0XaB 0b1_0 0B1 0o17", "Integer 0x1F\nInteger 0XaB\nInteger 0b1_0\nInteger 0B1\nInteger 0o17"),
    ("1__0 1_", "Integer 1\nName __0\nInteger 1\nName _"),
    ("0b12 0x 0x_1 0O1", "Integer 0b1\nInteger 2\nInteger 0\nName x\nInteger 0\nName x_1\nInteger 0\nName O1"),
    ("1e 1.e 1e+ 0x1e5", "Integer 1\nName e\nDecimal 1.\nName e\nInteger 1\nName e\nSymbol +\nInteger 0x1e5"),
    ("1_0.5", "Integer 1_0\nDecimal .5"),
    (".5 5. 1e5 1.5e-3 2.E+1", "Decimal .5\nDecimal 5.\nDecimal 1e5\nDecimal 1.5e-3\nDecimal 2.E+1"),
    ("3.0.1", "Decimal 3.0\nDecimal .1"),
    ("0x1dt 0xdt 0x1_dt 0x12dt5", "Timing 0x1dt\nInteger 0xd\nName t\nInteger 0x1_d\nName t\nTiming 0x12dt\nInteger 5"),
    ("4dt 10ns 1us 10µs 2.5ms 3s", "Timing 4dt\nTiming 10ns\nTiming 1us\nTiming 10µs\nTiming 2.5ms\nTiming 3s"),
    ("10 ns 1m", "Integer 10\nName ns\nInteger 1\nName m"),
    ("3im 1.5im 1e5im 2i", "Imaginary 3im\nImaginary 1.5im\nImaginary 1e5im\nInteger 2\nName i"),
    ("18446744073709551615 18446744073709551616", "Integer 18446744073709551615\nWide 18446744073709551616"),
    ("0xFFFF_FFFF_FFFF_FFFF 0x1_0000_0000_0000_0000", "Integer 0xFFFF_FFFF_FFFF_FFFF\nWide 0x1_0000_0000_0000_0000"),
    ("00000000000000000000001 99999999999999999999s", "Integer 00000000000000000000001\nTiming 99999999999999999999s"),
    ("\"0_1\"'\"'\"//\"''", "Text \"0_1\"\nText '\"'\nText \"//\"\nText ''"),
    (
        " ".join(["'" + "10" * 32 + "'", "'" + "10" * 32 + "1'", '"' + "1" + "_0" * 63 + '"', '"' + "1" + "_0" * 64 + '"']),
        "Text '" + "10" * 32 + "'\nWide '" + "10" * 32 + "1'\nText \"1" + "_0" * 63 + "\"\nWide \"1" + "_0" * 64 + '"',
    ),
    (
        " ".join(["'" + "0" * 64 + "__1'", "'" + "0" * 64 + "2'", "'" + "10" * 32 + "1_'", "'_" + "10" * 32 + "1'"]),
        "Text '" + "0" * 64 + "__1'\nText '" + "0" * 64 + "2'\nText '" + "10" * 32 + "1_'\nText '_" + "10" * 32 + "1'",
    ),
    ("$0$12 #pragma #dim #a_b", "Hardware $0\nHardware $12\nHash #pragma\nHash #dim\nHash #a\nName _b"),
    ("a/* b **/c//d */ §\ne", "Name a\nName c\nName e"),
    ("/**/f/*/ */g/ *h", "Name f\nName g\nSymbol /\nSymbol *\nName h"),
    ("//", ""),
    ("x\t[0]", "Name x\nSymbol [\nInteger 0\nSymbol ]"),
    (" ".join(word for word, _ in RESERVED), "\n".join("Reserved " + word for word, _ in RESERVED)),
    (" ".join(symbol for symbol, _ in SYMBOLS), "\n".join("Symbol " + symbol for symbol, _ in SYMBOLS)),
    ("a<<=π\r\n τ\n\n/*\n*/ b", "Name a\nSymbol <<=\nConstant π\nConstant τ\nName b"),
]

REFUSED = [
    ('"ab', 1, 1), ("a 'b\n'", 1, 3), ("'a\"", 1, 1), ("x /* a\n *", 1, 3), ("/*/", 1, 1), ("/* */ /*", 1, 7), ("1 µ", 1, 3),
    ("1µm", 1, 2), ("\u03bcs", 1, 1), ("a\0b", 1, 2), ("\ufeffa", 1, 1), ("é", 1, 1), ("π§", 1, 2), ("τ /*µ*/ \"", 1, 9),
    ("ℇℇ'π' ?", 1, 7), ("a\nb\n  \\", 3, 3), ("\r\r\n$", 2, 1), ("$a", 1, 1), ("#1", 1, 1), ("..", 1, 1), ("// §\n§", 2, 1),
    ("/* π\nπ */ `", 2, 6), ('"π" $', 1, 5),
]

ROWS = []


def row(call, text, answer):
    written = text.replace("\\", "\\\\").replace("\n", "\\n").replace("\r", "\\r").replace("\0", "\\0")
    ROWS.append(((call + " " + written) if written else call, answer))


def place(text, at):
    """The line and the column of the character at a place."""
    before = text[:at]
    return before.count("\n") + 1, at - (before.rfind("\n") + 1) + 1


def spans(text, spellings):
    """Where each of these spellings stands, from the left; between them stand blanks and comments."""
    at = 0
    for spelling in spellings:
        while not text.startswith(spelling, at):
            if text.startswith("/*", at):
                at = text.index("*/", at + 2) + 2
            elif text.startswith("//", at):
                at = text.index("\n", at)
            else:
                assert text[at] in " \t\r\n", (text, spelling)
                at += 1
        yield at, at + len(spelling)
        at += len(spelling)


def in_bytes(text, at):
    return len(text[:at].encode())


def lexed(text, lines):
    """The answer to `lex`: kind, spelling, first byte and end, and place."""
    tokens = [line.split(" ", 1) for line in lines.split("\n") if line]
    answer = ""
    for (kind, spelling), (start, end) in zip(tokens, spans(text, [spelling for _, spelling in tokens])):
        line, column = place(text, start)
        answer += f"{kind} {spelling} {in_bytes(text, start)} {in_bytes(text, end)} 7:{line}:{column};"
    line, column = place(text, len(text))
    size = len(text.encode())
    return answer + f"End  {size} {size} 7:{line}:{column};"


def terminal_told(terminal, spelling, line, column, operators, value):
    parts = [terminal, str(CODES[terminal])]
    if terminal != "End":
        parts.append("itself")
    if terminal in OPERATORS:
        parts.append("operator")
    if terminal in FEATURES:
        parts.append(FEATURES[terminal])
    return " ".join(parts) + f" {spelling} {line}:{column} {operators}{value};"


def value_of(terminal, spelling):
    """The number of an integer, the bits and the length of a bit string, what stands between quotes; that of a semicolon is empty."""
    if terminal == "Integer":
        plain = spelling.replace("_", "").lower()
        base = {"0x": 16, "0b": 2, "0o": 8}.get(plain[:2], 10)
        return f" = {int(plain[2:] if base != 10 else plain, base)}"
    if terminal == "BitText":
        digits = spelling[1:-1].replace("_", "")
        return f" = {int(digits, 2)} of {len(digits)}"
    if terminal in ("Text", "Semicolon"):
        return f" = {spelling[1:-1]}"
    return ""


def terminals(text, tokens, now=None):
    """The answer to `terminals`, and with other terminals in place of some of them that to `replaced`."""
    answer = f"{len(tokens) + 1};"
    operators = 0
    for number, ((spelling, terminal), (start, _)) in enumerate(zip(tokens, spans(text, [spelling for spelling, _ in tokens]))):
        line, column = place(text, start)
        shown = (now or {}).get(number, terminal)
        answer += terminal_told(shown, spelling, line, column, operators, value_of(shown, spelling))
        operators += terminal in OPERATORS
    line, column = place(text, len(text))
    answer += terminal_told("End", "", line, column, operators, "")
    return answer + terminal_told("End", "", 1, 1, 0, "")


def shelf_answer(texts, failing, calls, counts):
    """The answer to fetches of a shelf in memory that fails at these calls, or of one that never fails."""
    answer = ""
    for number, (name, most) in enumerate(calls, 1):
        if counts and (number in failing or name not in texts):
            answer += 'Err(Failed) ">";'
        else:
            answer += 'Ok(()) ">' + texts.get(name, "")[:most].replace("\n", "\\n") + '";'
    if counts:
        answer += f"calls {len(calls)};" + "".join(f"{name} {most};" for name, most in calls)
    return answer


def outside():
    for call, text in [("fetch failed", "failed"), ("fetch memory", "out of memory"), ("put failed", "failed"), ("put memory", "out of memory")]:
        row("fault", call, text)
    texts = {"coin.qasm": "qubit q;\n", "gates.inc": "gate g a {}\n"}
    all_calls = [("coin.qasm", 1000), ("coin.qasm", 1000), ("coin.qasm", 5), ("other.qasm", 1000), ("gates.inc", 1000), ("gates.inc", 1000)]
    # Calls 2 and 5 fail, each one alone, none, and a bound of 0.
    for failing in [{2, 5}, {1}, {2}, {3}, {4}, {5}, {6}, {7}]:
        written = ",".join(str(number) for number in sorted(failing))
        row("shelf", written + " " + ";".join(f"{name} {most}" for name, most in all_calls), shelf_answer(texts, failing, all_calls, True))
    row("shelf", "- gates.inc 0", shelf_answer(texts, set(), [("gates.inc", 0)], True))
    sure_calls = [("coin.qasm", 1000), ("coin.qasm", 5), ("other.qasm", 1000)]
    row("sure_shelf", ";".join(f"{name} {most}" for name, most in sure_calls), shelf_answer({"coin.qasm": "qubit q;\n"}, set(), sure_calls, False))
    first, second = "c=0 (1+0r)/2^1\\n", "c=1 (1+0r)/2^1\\n"
    for call, kept, results, held in [
        (2, 3, "Ok(());Err(Failed)", first + "c=1"),
        (1, 0, "Err(Failed);Ok(())", second),
        (1, 99, "Err(Failed);Ok(())", first + second),
        (3, 0, "Ok(());Ok(())", first + second),
    ]:
        row("sink", f"{call} {kept}", f'{results};"{held}";calls 2;15;15;')
    row("sure_sink", "", f'Ok(());Ok(());"{first + second}";')


def labels():
    row("labels", "θ_1 θ_2", "θ_1;true;false")
    row("lengths", "2 3", "2;3;")
    places = [(0, 1, 1), (0, 1, 2), (0, 2, 1), (0, 10, 1), (1, 1, 1), (1, 1, 9), (2, 1, 1)]
    for one, other in zip(places, places[1:]):
        row("order", " ".join(str(n) for n in one + other), "true;false")
    row("order", "1 2 3 1 2 3", "false;false")
    features = [
        "Float", "Complex", "Duration", "Stretch", "Delay", "Box", "DurationOf", "Cal", "DefCal", "DefCalGrammar", "Extern", "Pragma",
        "Euler", "Switch", "Case", "Default", "Decimal", "Timing", "Imaginary", "Hardware", "Wide", "Dim", "Hash", "Annotation",
    ]
    row("features", "", "".join(f"{feature} {feature.lower()};" for feature in features))
    causes = [
        "Loop", "Return", "Target", "Qubit", "Register", "Call", "Dimensions", "Variable", "Divide", "Exact", "Range", "Missing", "Bad",
        "Unknown",
    ]
    row("causes", "", "".join(f"{cause} {cause.lower()};" for cause in causes))
    row("refusals", "q q", "true;false;false")
    row("refusals", "q r", "false;false;false")


def tokens():
    for text, lines in LEXED:
        row("lex", text, lexed(text, lines))
        row("first_fault", text, "None")
    for text, line, column in REFUSED:
        told = f"(Place {{ file: {{}}, line: {line}, column: {column} }})"
        row("lex", text, "Token" + told.replace("{}", "7"))
        row("first_fault", text, "Some" + told.replace("{}", "3"))


def all_terminals():
    for text, terminal in RESERVED + SYMBOLS + OTHERS:
        row("terminals", text, terminals(text, [(text, terminal)]))
    for text, number in INTEGERS:
        assert value_of("Integer", text) == f" = {number}"
        row("terminals", text, terminals(text, [(text, "Integer")]))
    for text, number, count in BIT_STRINGS:
        assert value_of("BitText", text) == f" = {number} of {count}"
        row("terminals", text, terminals(text, [(text, "BitText")]))
    text = "x = -a ** 2\n <<= 'b';"
    found = [
        ("x", "Name"), ("=", "Assign"), ("-", "Minus"), ("a", "Name"), ("**", "StarStar"), ("2", "Integer"), ("<<=", "ShiftLeftAssign"),
        ("'b'", "Text"), (";", "Semicolon"),
    ]
    row("terminals", text, terminals(text, found))
    text = "@ x - 1"
    row("replaced", text, terminals(text, [("@", "At"), ("x", "Name"), ("-", "Minus"), ("1", "Integer")], {0: "Barrier"}))


def main():
    outside()
    labels()
    tokens()
    all_terminals()
    ROWS.append(("paint x", "no row"))
    here = pathlib.Path(__file__).parent
    (here / "stdin").write_text("".join(line + "\n" for line, _ in ROWS))
    (here / "stdout").write_text("".join(answer + "\n" for _, answer in ROWS))
    print(len(ROWS), "rows")


main()
