#!/usr/bin/env python3
"""Counts the instructions of the whole program with one worker, by valgrind: for a unit of fuel in a loop of 8 units a turn,
and in one of 24 with operators and tests; for a turn of a body that prints; and for an EDT that is made and run. Each is the
difference between two sizes of one task program, so what a run takes besides is not in it. Fails where one is above its
bound.

Build the program first: cd crates/ocr && rt run -- run < ../../examples/first.ocr, which leaves it as crates/ocr/out/ocr.
Then, in any folder:  bench/instructions.py [PROGRAM]
"""
import pathlib
import re
import subprocess
import sys
import tempfile

TOP = pathlib.Path(__file__).resolve().parent.parent

UNIT = "fn mainEdt { let i = 0; while i < N { i = i + 1; } print 7; }"

MIXED = """fn mainEdt {
  let i = 0; let j = 7; let k = 0;
  while i < N { i = i + 1; j = (j * 3 + i) % 1000003; if j < 500000 { k = k + j; } else { k = k - 1; } }
  print k;
}"""

PRINT = "fn mainEdt { let i = 0; while i < N { print i; i = i + 1; } }"

# An EDT has 14 units in the loop that makes it, and 3 entries.
EDT = """fn a { }
fn mainEdt {
  let t = ocrEdtTemplateCreate(a, 0, 0);
  let k = 0;
  while k < N { ocrEdtCreate(t, 0, [], 0, [], 0); k = k + 1; }
}"""

# What is counted, its task program, the two sizes, how many there are to a turn, and the most instructions that one may take.
ROWS = [
    ("unit", UNIT, 10_000, 110_000, 8, 16),
    ("unit, mixed", MIXED, 5_000, 35_000, 24, 21),
    ("turn that prints", PRINT, 1_000, 11_000, 1, 700),
    ("EDT made and run", EDT, 500, 3_500, 1, 2_758),
]


def instructions(program, text):
    """How many a run of the task program takes."""
    with tempfile.TemporaryFile("w+") as source:
        source.write(text)
        source.seek(0)
        words = ["valgrind", "--tool=callgrind", "--callgrind-out-file=/dev/null", program, "run", "--workers", "1"]
        run = subprocess.run(words, stdin=source, stdout=subprocess.DEVNULL, stderr=subprocess.PIPE, text=True)
    if run.returncode != 0:
        sys.exit(f"instructions: a run ended with status {run.returncode}: {run.stderr.rstrip().splitlines()[-1:]}")
    return int(re.search(r"Collected : (\d+)", run.stderr)[1])


def each(program, text, low, high, by):
    less, more = (instructions(program, text.replace("N", str(size))) for size in (low, high))
    return (more - less) / (high - low) / by


def main():
    program = sys.argv[1] if len(sys.argv) > 1 else str(TOP / "crates/ocr/out/ocr")
    failed = False
    print(f"{'':<18}{'instructions':>14}{'bound':>8}")
    for name, text, low, high, by, most in ROWS:
        count = each(program, text, low, high, by)
        print(f"{name:<18}{count:>14.1f}{most:>8}")
        if count > most:
            print(f"  more than {most}")
            failed = True
    sys.exit(failed)


main()
