#!/usr/bin/env bash
# Times reading and formatting of generated texts from 16 KiB to 1 MiB by the proved program, and measures its memory: a line a size.
# Reading is `run` of a text of no form that is served, which ends once it is read. The yardstick is `sort` of the same lines.
top=$(cd "$(dirname "${BASH_SOURCE[0]}")/.." && pwd) || exit 1
program=$top/crates/qt_cli/out/qt_cli
if [ ! -x "$program" ]; then
  echo "front.sh: './build' makes the proved program first" >&2
  exit 1
fi
folder=$(mktemp -d) || exit 1
trap 'rm -rf "$folder"' EXIT
cd "$folder" && exec python3 - "$program" <<'PYTHON'
import os
import subprocess
import sys

program = sys.argv[1]
# the status of `run` for a text that is read and isn't of a form that is served
FORM = 1
LINES = [
    "bit[4] b{n} = \"01_10\"; // a register\n",
    "const uint[32] k{n} = 0x1F + 2 ** 3 - (7 * {n}) % 5;\n",
    "if (b[{n}] == 1 && k{n} < 12) {{ x q[{n}]; }} else {{ ctrl(2) @ inv @ rz(pi / 4) q[0], q[1], q[2]; }}\n",
    "for int i in [0:2:k{n}] {{ cx q[i], q[i + 1]; c[i] = measure q[i]; }}\n",
    "/* a comment\n   of two lines */ y{n} += popcount(b{n}) << 2;\n",
]


def text(size):
    lines, length, n = [], 0, 0
    while length < size:
        line = LINES[n % len(LINES)].format(n=n)
        lines.append(line)
        length += len(line)
        n += 1
    return "".join(lines)


def measured(words, name, wanted):
    """The least seconds of five runs that end with the wanted status, and the most memory in bytes."""
    least, most = None, 0
    for _ in range(5):
        with open(os.devnull, "wb") as out:
            child = subprocess.Popen(words + [name], stdout=out, stderr=out)
            _, ended, usage = os.wait4(child.pid, 0)
        if os.waitstatus_to_exitcode(ended) != wanted:
            sys.exit(f"front.sh: {words} {name} ended with another status than {wanted}")
        seconds = usage.ru_utime + usage.ru_stime
        least = seconds if least is None else min(least, seconds)
        most = max(most, usage.ru_maxrss * 1024)
    return least, most


with open("empty.qasm", "w"):
    pass
_, base = measured([program, "run"], "empty.qasm", FORM)
print("   bytes   read s  to half  format s  to read  memory/byte  read to sort")
before = None
for step in range(7):
    name = f"text{step}.qasm"
    body = text((16 << step) * 1024 - 200)
    with open(name, "w") as file:
        file.write(body)
    read, memory = measured([program, "run"], name, FORM)
    formatted, _ = measured([program, "format"], name, 0)
    yardstick, _ = measured(["sort"], name, 0)
    ratio = f"{read / before:7.2f}" if before else "      -"
    print(f"{len(body):8} {read:8.4f}  {ratio}  {formatted:8.4f}  {formatted / read:7.2f}  {(memory - base) / len(body):11.1f}  {read / yardstick:12.1f}")
    before = read
PYTHON
