#!/usr/bin/env python3
"""Computes the flat code of programs by its definitions, runs it by a machine over exact numbers, and compares what it does with wanted
answers, and with the leaves of the meaning.

    python3 definitions/check_flat_code.py [CASES.json] [--only NAME] [--seconds N] [--meaning N]

CASES.json is a list of cases as check_definitions.py takes them, by default cases.json beside this file, or of cases with `words`, `files`,
`out` and `err`; only those that are run count, without JSON, and where no refusal of a text but of an angle or the size is wanted. A program
that typing refuses is passed over. A case takes at most N seconds (20). With --meaning N the leaves of the code are compared with those of the meaning as well, where these take at most N seconds: the same
signals, places, fuel, slots and trails in the same order.

The code is tested too: it has as many lines as its length says, each slot and qubit is one of the program's, and each jump goes ahead or to a
Tick. A block is printed for each difference; the last line counts the cases. The status is 1 where one differs."""

import argparse
import json
import os
import re
import sys
import threading
import time

import library
from antt import Clock, Made, Record, TooLong, call, word
from check_definitions import fault_text, place_text, typing, values_of
from machine import Machine, place_key, reduced
from programs import Unread

HERE = os.path.dirname(os.path.abspath(__file__))
CODE = "Rattle.qt_flat_code.specs."
MEANING = "Rattle.qt_meaning.specs.Distribution"


# ---- the code

def flattened(typed):
    return call(word(CODE + "Flattening", "flattened"), typed)


def tested(typed, parts):
    """What is wrong with the parts, if something is."""
    wanted = call(word(CODE + "Programs", "main_length"), typed) + 1
    if len(parts["instructions"]) != wanted or len(parts["places"]) != wanted:
        return f"{len(parts['instructions'])} instructions and {len(parts['places'])} places, where the length is {wanted}"
    if len(parts["start"]) != parts["slots"]:
        return f"{len(parts['start'])} values for {parts['slots']} slots"
    for i, instruction in enumerate(parts["instructions"]):
        for slot in slots_in(instruction):
            if slot >= parts["slots"]:
                return f"slot {slot} of {parts['slots']} in instruction {i}, {instruction!r}"
    return None


def slots_in(instruction):
    name, parts = instruction.name, instruction.parts
    if name == "Get":
        return [parts[1]]
    if name == "Put":
        return [parts[0]]
    if name in ("GetAt", "PutAt"):
        first, count = (parts[1], parts[2]) if name == "GetAt" else (parts[0], parts[1])
        return [first, first + count - 1]
    if name == "Measure" and parts[1].name != "Nowhere":
        return [parts[1].parts[0]]
    return []


# ---- what the machine tells

def choices(leaf):
    return sum(event[0] == "chose" for event in leaf.trail)


def refused(leaves, fuel):
    """The fault or the want of fuel, told as those of the meaning are."""
    told = []
    for leaf in leaves:
        signal = Made("Faulted", (Made(leaf.signal), leaf.place)) if leaf.place else Made(leaf.signal)
        told.append(Record(signal=signal, point=Record(trail=tuple(Made("Chose") for _ in range(choices(leaf))))))
    return fault_text(told, fuel)


def output_of(parts, leaf):
    bits = []
    for field in parts["layout"]:
        count = 1
        for length in field["lengths"]:
            count *= length
        bits += leaf.slots[field["slot"]:field["slot"] + count]
    return tuple(bits)


def added(x, y):
    (a, b, k), (c, d, m) = x, y
    most = max(k, m)
    return reduced(a * 2 ** (most - k) + c * 2 ** (most - m), b * 2 ** (most - k) + d * 2 ** (most - m), most)


def real_text(real):
    a, b, k = real
    return f"({a}{'-' if b < 0 else '+'}{abs(b)}r)/2^{k}"


def report(parts, leaves):
    shares, total = {}, (0, 0, 0)
    for leaf in leaves:
        norm = leaf.state.norm()
        bits = output_of(parts, leaf)
        shares[bits] = added(shares.get(bits, (0, 0, 0)), norm)
        total = added(total, norm)
    lines = []
    for bits, share in shares.items():
        numbers, text = values_of(parts["layout"], bits)
        lines.append((numbers, f"{text} {real_text(share)}\n"))
    return "".join(line for _, line in sorted(lines)) + f"total {real_text(total)}\n"


def answer(typed, fuel):
    """What the code does, and its leaves; or what flattening refuses."""
    result = flattened(typed)
    if result.name == "TooLong":
        return f"E17 size {result.parts[0]}", None
    if result.name == "WrongAngle":
        place, units = result.parts
        return f"E13 {place_text(place)} angle {units.number}", None
    parts = result.parts[0]
    wrong = tested(typed, parts)
    if wrong:
        return wrong, None
    leaves = Machine(parts).leaves(fuel)
    return refused(leaves, fuel) or report(parts, leaves), leaves


# ---- the leaves of the meaning

def event_key(event):
    if event.name == "Chose":
        place, bit, fuel, number, store = event.parts
        return ("chose", place_key(place), bit, fuel, number, tuple(store))
    primitive, place = event.parts
    ones, zeros, *rest = primitive.parts
    qubit = (rest.pop(0),) if primitive.name == "Turned" else ()
    return ("did", tuple(sorted(ones)), tuple(sorted(zeros)), qubit, tuple(angle % 8 for angle in rest), place_key(place))


def leaf_key(leaf):
    """What is compared of a leaf of the meaning."""
    signal, point = leaf["signal"], leaf["point"]
    trail = tuple(map(event_key, point["trail"]))
    if signal.name == "Dry":
        return ("Dry", trail)
    if signal.name == "Faulted":
        return (signal.parts[0].name, place_key(signal.parts[1]), trail)
    return ("Ended", point["fuel"], tuple(point["store"]), trail)


def machine_key(leaf):
    if leaf.signal == "Dry":
        return ("Dry", leaf.trail)
    if leaf.place:
        return (leaf.signal, place_key(leaf.place), leaf.trail)
    return ("Ended", leaf.fuel, leaf.slots, leaf.trail)


def meaning_differs(typed, fuel, leaves):
    wanted = [leaf_key(leaf) for leaf in call(word(MEANING, "leaves_of"), typed, fuel)]
    found = [machine_key(leaf) for leaf in leaves]
    for i, (x, y) in enumerate(zip(wanted, found)):
        if x != y:
            return f"leaf {i} of the meaning is {x}\nof the code          {y}"
    return None if len(wanted) == len(found) else f"{len(wanted)} leaves of the meaning, {len(found)} of the code"


# ---- cases

def from_words(case):
    """A case of the whole program as one of a run, or None where it is no such one."""
    words = list(case["words"])
    told = case["out"] or case["err"]
    if words[:2] != ["run", "p.qasm"] or "--json" in words or re.match("[ESWOM]", told) and told[:3] not in ("E13", "E17"):
        return None
    settings, fuel, rest = [], 100000, words[2:]
    while rest:
        option = rest.pop(0)
        if option in ("--fuel", "--workers"):
            value = rest.pop(0)
            fuel = int(value) if option == "--fuel" else fuel
        elif "=" in option and not option.startswith("-"):
            settings.append(option)
        else:
            return None
    out = "".join(line for line in case["out"].splitlines(True) if not line.startswith("states "))
    wanted = out or case["err"].replace("p.qasm:", "p:").strip()
    return {"name": case["id"], "mode": "run", "text": case["files"]["p.qasm"], "files": case["files"], "settings": settings, "fuel": fuel, "wanted": wanted}


def cases_of(path):
    with open(path, encoding="utf-8") as file:
        cases = json.load(file)
    if "words" in cases[0]:
        cases = filter(None, map(from_words, cases))
    return [case for case in cases if case["mode"] == "run"]


class Counts(dict):
    def one_more(self, name):
        self[name] = self.get(name, 0) + 1


def compare_meaning(case, typed, leaves, seconds, counts):
    Clock.end = time.time() + seconds
    try:
        difference = meaning_differs(typed, case.get("fuel", 100000), leaves)
    except (TooLong, OverflowError, RecursionError):
        counts.one_more("without meaning")
        return
    counts.one_more("as the meaning" if difference is None else "not as the meaning")
    if difference:
        print(f"{case['name']}:\n{case['text']}\n{difference}"[:4000], flush=True)


def compare_case(case, seconds, meaning, counts):
    Clock.end = time.time() + seconds
    try:
        result = typing(case)
        if result.name == "Err":
            counts.one_more("refused")
            return
        typed = result.parts[0]
        found, leaves = answer(typed, case.get("fuel", 100000))
    except (TooLong, Unread, OverflowError, RecursionError, KeyError) as reason:
        print(f"{case['name']} is left out: {type(reason).__name__} {reason}"[:300])
        counts.one_more("left out")
        return
    counts.one_more("agree" if found == case["wanted"] else "differ")
    if found != case["wanted"]:
        print(f"{case['name']}:\n{case['text']}\nwanted {case['wanted']!r}\nfound  {found!r}", flush=True)
    if meaning and leaves is not None:
        compare_meaning(case, typed, leaves, meaning, counts)


def compare(cases, seconds, meaning):
    counts = Counts()
    for case in cases:
        compare_case(case, seconds, meaning, counts)
    print(", ".join(f"{count} {name}" for name, count in counts.items()))
    return 1 if "differ" in counts or "not as the meaning" in counts else 0


def main():
    options = argparse.ArgumentParser(description=__doc__, formatter_class=argparse.RawDescriptionHelpFormatter)
    options.add_argument("cases", nargs="?", default=os.path.join(HERE, "cases.json"))
    options.add_argument("--only", default="")
    options.add_argument("--seconds", type=float, default=20)
    options.add_argument("--meaning", type=float, default=0)
    given = options.parse_args()
    library.replace_slow_words()
    cases = [case for case in cases_of(given.cases) if given.only in case["name"]]
    status = []
    # definitions go deep: a thread may have a greater stack
    sys.setrecursionlimit(200000)
    threading.stack_size(512 * 1024 * 1024)
    thread = threading.Thread(target=lambda: status.append(compare(cases, given.seconds, given.meaning)))
    thread.start()
    thread.join()
    return status[0] if status else 1


if __name__ == "__main__":
    sys.exit(main())
