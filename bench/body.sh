#!/usr/bin/env bash
# How long the walker takes for bodies that use up to their 1,000,000 units of fuel, and how much memory.
# Build the program first: cd crates/ocr && rt run -- run < ../../examples/first.ocr
# usage: bench/body.sh [PROGRAM]
set -euo pipefail
cd "$(dirname "$0")/.."
program=${1:-crates/ocr/out/ocr}
folder=$(mktemp -d)
trap 'rm -rf "$folder"' EXIT

python3 - "$folder" <<'PYTHON'
import sys

folder = sys.argv[1]


def body(name, text):
    with open(f"{folder}/{name}.ocr", "w") as out:
        out.write("fn mainEdt {\n" + text + "\n}\n")


def loop(turns, inner):
    return f"let i = 0; while i < {turns} {{ {inner} i = i + 1; }} print i;"


# a turn is 8 units
body("loop", loop(124999, ""))

# a loop without end stops for want of fuel
body("endless", "let i = 0; while 1 { i = i + 1; }")

# 255 tokens: 254 signs before a number, 63 levels of brackets, 127 operators in a row
body("signs", loop(3700, "let x = " + "!" * 254 + "1;"))
body("brackets", loop(7200, "let x = " + "1 + (" * 63 + "1" + ")" * 63 + ";"))
body("chain", loop(3700, "let x = " + " + ".join(["1"] * 128) + ";"))

# 64 variables, of which the last is read and written
names = [f"v{n}" for n in range(63)]
body("variables", "".join(f"let {x} = 1; " for x in names) + loop(3700, "".join(f"{x} = {y} + 1; " for x, y in zip(names, names[::-1]))))

# 64 nested blocks: the function's, the loop's, and 62 more
body("blocks", loop(7400, "if 1 { " * 62 + "}" * 62))

# a text of a megabyte: many statements, each done once
body("long", "print 1;\n" * 116000)
PYTHON

python3 - "$program" "$folder" <<'PYTHON'
import os
import pathlib
import resource
import sys
import time

program, folder = sys.argv[1:]
print(f"{'body':<12}{'status':>7}{'seconds':>9}{'MB':>8}{'bytes':>9}")
for text in sorted(pathlib.Path(folder).glob("*.ocr")):
    output = text.with_suffix(".out")
    start = time.monotonic()
    child = os.fork()
    if child == 0:
        os.dup2(os.open(text, os.O_RDONLY), 0)
        os.dup2(os.open(output, os.O_WRONLY | os.O_CREAT, 0o644), 1)
        os.execv(program, [program, "run"])
    _, status, used = os.wait4(child, 0)
    seconds = time.monotonic() - start
    code = os.waitstatus_to_exitcode(status)
    print(f"{text.stem:<12}{code:>7}{seconds:>9.3f}{used.ru_maxrss / 1024:>8.1f}{output.stat().st_size:>9}")
PYTHON
