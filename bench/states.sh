#!/usr/bin/env bash
# Times gates, canonical forms, outcomes and hashing of states by the proved program qt_state_bench, which it builds first: a row of a
# table in Markdown for each. The yardstick is a copy of the same amplitudes in the same run, by the program and by Python.
top=$(cd "$(dirname "${BASH_SOURCE[0]}")/.." && pwd) || exit 1
folder=$(mktemp -d) || exit 1
trap 'rm -rf "$folder"' EXIT
if ! (cd "$top/crates/qt_state_bench" && rt run <stdin) >"$folder/answers" 2>"$folder/notes"; then
  tail -n 20 "$folder/notes" >&2
  exit 1
fi
python3 - "$top/crates/qt_state_bench/out/qt_state_bench" <<'PYTHON'
import os
import subprocess
import sys
import time

PROGRAM = sys.argv[1]
WORKS = [(word, qubits) for qubits in (6, 16) for word in ("copy", "h", "x", "t", "cx")]
WORKS += [(word, 16) for word in ("canon", "split", "hash")]
RUNS = 5
# a run is to take so many seconds of the processor
LONG = 0.15


def run(word, qubits, times):
    """The seconds of the processor that the program takes for the work."""
    row = f"{word} {qubits} {times}\n".encode()
    child = subprocess.Popen([PROGRAM], stdin=subprocess.PIPE, stdout=subprocess.PIPE)
    child.stdin.write(row)
    child.stdin.close()
    answer = child.stdout.read()
    _, ended, usage = os.wait4(child.pid, 0)
    if os.waitstatus_to_exitcode(ended) != 0 or answer in (b"", b"no row\n"):
        sys.exit(f"states.sh: no answer to {row}")
    return usage.ru_utime + usage.ru_stime


def enough(word, qubits):
    """How many times are long enough."""
    times, none = 4, run(word, qubits, 0)
    while run(word, qubits, times) - none < LONG:
        times *= 2
    return times


def python_copy(size):
    """The nanoseconds of a copy of so many bytes by Python, the least of the runs."""
    buffer, times, least = bytearray(size), max(8, (1 << 27) // size), None
    for _ in range(RUNS):
        begun = time.process_time()
        for _ in range(times):
            bytes(buffer)
        spent = time.process_time() - begun
        least = spent if least is None else min(least, spent)
    return least / times * 1e9


counts = {work: enough(*work) for work in WORKS}
few, many = {}, {}
for _ in range(RUNS):
    for work, times in counts.items():
        few[work] = min(few.get(work, 1e9), run(*work, times))
        many[work] = min(many.get(work, 1e9), run(*work, 3 * times))
spent = {work: (many[work] - few[work]) / (2 * times) * 1e9 for work, times in counts.items()}

print("| Work | Qubits | Nanoseconds | An amplitude | To a copy | Bytes a nanosecond |")
print("|---|---|---|---|---|---|")
for word, qubits in WORKS:
    took, copy, size = spent[word, qubits], spent["copy", qubits], 32 << qubits
    print(f"| `{word}` | {qubits} | {took:,.0f} | {took / (1 << qubits):.2f} | {took / copy:.1f} | {size / took:.2f} |")
    if word == "copy":
        took = python_copy(size)
        print(f"| a copy by Python | {qubits} | {took:,.0f} | {took / (1 << qubits):.2f} | {took / copy:.1f} | {size / took:.2f} |")
PYTHON
