#!/usr/bin/env python3
"""Computes the definitions of typing and meaning on programs and compares the answers with wanted ones.

    python3 definitions/check_definitions.py [CASES.json | PAGE.md] [--only NAME] [--seconds N] [--plain]

CASES.json is a list of cases, by default cases.json beside this file. PAGE.md has its cases in its tables: rows of two cells, a text in
backquotes and its answer in backquotes, a line each. A case has a `name`, a `mode`, a `text`, and what is `wanted`; it may
have `settings` (a list of NAME=VALUE) and `fuel` (100000). In the mode `check` the answer is `ok qubits Q slots S size Z` or the line of a
refusal; in the mode `run` it is the report without its line of states, or the line of a fault or a refusal. Places stand as p:line:column.
A case takes at most N seconds (60). With --plain the definitions of matrices and of the ring are computed as well, which is slow.

A block is printed for each difference; the last line is `N agree, M differ, K left out`. The status is 1 where one differs."""

import argparse
import json
import os
import re
import sys
import threading
import time

import library
from antt import Clock, Record, TooLong, call, word
from programs import Program, Unread, codes

HERE = os.path.dirname(os.path.abspath(__file__))
MEANING = "Rattle.qt_meaning.specs.Distribution"
REAL = "Rattle.qt_root2.specs.Real"

# ---- refusals of typing

CAUSES = {"E11": "form", "E12": "const"}
SETTING_CAUSES = {"Missing": "missing", "Bad": "bad", "Unknown": "unknown"}


def place_text(place):
    return f"p:{place['line']}:{place['column']}"


def refusal_text(refusal):
    name, parts = refusal.name, refusal.parts
    if name in ("E15", "E16"):
        return f"{name} {'qubits' if name == 'E15' else 'slots'} {parts[0]}"
    if name == "E19":
        return f"{name} {bytes(parts[0]).decode()} {SETTING_CAUSES[parts[1].name]}"
    head = f"{name} {place_text(parts[0])}"
    if name in CAUSES:
        return f"{head} {CAUSES[name]} {parts[1].name.lower()}"
    if name == "E14":
        return f"{head} arity {parts[1]} {parts[2]}"
    if name in ("E8", "E9"):
        return f"{head} {'name' if name == 'E8' else 'twice'} {bytes(parts[1]).decode()}"
    return f"{head} {'version' if name == 'E7' else 'type'}"


def typing(case):
    """The typed program, or the refusal."""
    settings = [setting.split("=", 1) for setting in case.get("settings", [])]
    given = tuple(Record(name=codes(name), value=codes(value)) for name, value in settings)
    return call(word("Rattle.qt_typing.specs.Programs", "typing_of"), given, Program(case["text"], case.get("files")).tree())


# ---- which fault is told

FAULTS = {"Divide": "V2 {} divide", "Index": "V3 {} index", "Step": "V4 {} step", "BadAngle": "V5 {} angle",
          "SameQubit": "V7 {} same qubit"}


def layer(leaf):
    """How many choices lie before a leaf."""
    return sum(event.name == "Chose" for event in leaf["point"]["trail"])


def fault_text(leaves, fuel):
    """The first layer with a leaf that isn't an end decides; in it, want of fuel, and else the fault with the least place and number."""
    bad = [leaf for leaf in leaves if leaf["signal"].name in ("Dry", "Faulted")]
    first = [leaf["signal"] for leaf in bad if layer(leaf) == min(map(layer, bad))]
    if not first:
        return None
    if any(signal.name == "Dry" for signal in first):
        return f"V1 fuel {fuel}"
    faults = [(place["line"], place["column"], FAULTS[fault.name], place) for fault, place in (signal.parts for signal in first)]
    _, _, text, place = min(faults, key=lambda fault: fault[:3])
    return text.format(place_text(place))


# ---- reports

def number_of(kind, bits):
    return call(word("Rattle.qt_meaning.specs.Values", "number_of"), kind, bits).number


def value_text(kind, number):
    if kind.name == "Bool":
        return "true" if number else "false"
    return format(number, f"0{kind.parts[0]}b") if kind.name == "Bit" else str(number)


def array_text(texts, lengths):
    """The elements in braces, the last index fastest."""
    if not lengths:
        return texts[0]
    size = len(texts) // lengths[0]
    return "{" + ",".join(array_text(texts[i:i + size], lengths[1:]) for i in range(0, len(texts), size)) + "}"


def values_of(outputs, bits):
    """The numbers of all outputs, by which lines are sorted, and their text."""
    numbers, texts, bits = [], [], list(bits)
    for output in outputs:
        count = call(word(MEANING, "element_count"), output["lengths"])
        elements = [number_of(output["kind"], bits.pop(0)) for _ in range(count)]
        numbers += elements
        shown = [value_text(output["kind"], number) for number in elements]
        texts.append(bytes(output["name"]).decode() + "=" + array_text(shown, output["lengths"]))
    return numbers, " ".join(texts) or "-"


def real_text(real):
    a, b = real["a"].number, real["b"].number
    return f"({a}{'-' if b < 0 else '+'}{abs(b)}r)/2^{real['k']}"


def report(typed, leaves):
    outputs, total, lines = typed["outputs"], word(REAL, "zero_real"), []
    ended = [leaf for leaf in leaves if call(word(MEANING, "has_ended"), leaf["signal"])]
    for bits in {call(word(MEANING, "output_value"), outputs, leaf["point"]["store"]) for leaf in ended}:
        probability = call(word(MEANING, "share"), outputs, leaves, bits)
        total = call(word(REAL, "plus_real"), total, probability)
        numbers, text = values_of(outputs, bits)
        lines.append((numbers, f"{text} {real_text(probability)}\n"))
    return "".join(line for _, line in sorted(lines)) + f"total {real_text(total)}\n"


# ---- cases

def row_case(line):
    """The case that a row of a page's table is, if it is one: a refusal and `ok` are told by the check, all else by a run."""
    row = re.fullmatch(r"\| `([^`]+)` \|((?: `[^`]+`)+) \|", line)
    if row is None or not re.match(r" `(ok |[EV][0-9]+ |.*=.* \(.*r\)/2)", row[2]):
        return None
    lines = [line.replace("p.qasm:", "p:") for line in re.findall(r"`([^`]+)`", row[2])]
    if lines[0].startswith(("ok ", "E", "V")):
        return {"name": row[1], "mode": "run" if lines[0][0] == "V" else "check", "text": row[1], "wanted": lines[0]}
    return {"name": row[1], "mode": "run", "text": row[1], "wanted": "\n".join(lines + ["total (1+0r)/2^0", ""])}


def cases_of(path):
    with open(path, encoding="utf-8") as file:
        if path.endswith(".md"):
            return [case for case in map(row_case, file.read().splitlines()) if case]
        return json.load(file)


def answer(case):
    result = typing(case)
    if result.name == "Err":
        return refusal_text(result.parts[0])
    typed = result.parts[0]
    if case["mode"] == "check":
        return f"ok qubits {typed['qubits']} slots {typed['slots']} size {typed['size']}"
    fuel = case.get("fuel", 100000)
    leaves = call(word(MEANING, "leaves_of"), typed, fuel)
    return fault_text(leaves, fuel) or report(typed, leaves)


def compare(cases, seconds):
    """How many agree, differ and are left out."""
    counts = {"agree": 0, "differ": 0, "left out": 0}
    for case in cases:
        Clock.end = time.time() + seconds
        try:
            found = answer(case)
        except (TooLong, Unread, OverflowError) as reason:
            print(f"{case['name']} is left out: {type(reason).__name__} {reason}")
            counts["left out"] += 1
            continue
        counts["agree" if found == case["wanted"] else "differ"] += 1
        if found != case["wanted"]:
            print(f"{case['name']}:\n{case['text']}\nwanted {case['wanted']!r}\nfound  {found!r}", flush=True)
    print(", ".join(f"{count} {name}" for name, count in counts.items()))
    return 1 if counts["differ"] else 0


def main():
    options = argparse.ArgumentParser(description=__doc__, formatter_class=argparse.RawDescriptionHelpFormatter)
    options.add_argument("cases", nargs="?", default=os.path.join(HERE, "cases.json"))
    options.add_argument("--only", default="")
    options.add_argument("--seconds", type=float, default=60)
    options.add_argument("--plain", action="store_true")
    given = options.parse_args()
    library.replace_slow_words(not given.plain)
    cases = [case for case in cases_of(given.cases) if given.only in case["name"]]
    status = []
    # definitions go deep: a thread may have a greater stack
    sys.setrecursionlimit(200000)
    threading.stack_size(512 * 1024 * 1024)
    thread = threading.Thread(target=lambda: status.append(compare(cases, given.seconds)))
    thread.start()
    thread.join()
    return status[0] if status else 1


if __name__ == "__main__":
    sys.exit(main())
