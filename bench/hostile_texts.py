#!/usr/bin/env python3
"""What a hostile text costs: texts of 1 MiB that are made to be slow, by the seconds of the processor and the most memory
that the program takes, for a byte of the text, against a plain text of as many bytes. Fails where one takes more than three
times as long as the plain text, where it is not linear, or where it ends with another status than it should. Linear: a byte
takes at most twice the time and three times the memory of one of a text of the same kind and a quarter of the size; a square
would have four times each. (A table that grows has up to half of its room free, and what a run takes that reads nothing
hides some of a small text.)

The texts are those of bench/texts.py and the ones below. What is large is not run: reading, parsing, checking and the code
of the program are measured, and the run ends at once. Of each text the least of three runs is taken.

Build the program first: cd crates/ocr && rt run -- run < stdin, which leaves it as crates/ocr/out/ocr.
Then, in any folder:  bench/hostile_texts.py [--bytes N] [--check] [PROGRAM [WORD]]
N: the bytes of each text, 1,048,576 if not given; --check: statuses alone, for a slow build; WORD: only the texts whose
names have it.
"""
import argparse
import os
import pathlib
import subprocess
import sys
import tempfile

import texts

TOP = pathlib.Path(__file__).resolve().parent.parent
MOST = 3.0
# How many times as much a byte may cost as in a text of a quarter of the size.
SLOWER, LARGER = 2.0, 3.0
RUNS = 3
PLAIN = "plain"
# What the clock tells of a run that reads nothing: below this, in seconds and in kilobytes, a text costs as good as nothing.
LEAST_SECONDS = 0.01
LEAST_KILOBYTES = 1024

# The texts that are refused, by their status; all others end with 0.
REFUSED = {"one_letter_names": 3, "open_brackets": 3, "open_brackets_in_an_expression": 3, "functions_of_one_name": 3,
           "long_lists": 3}


def plain():
    """Functions such as people write."""
    return texts.numbered("", "fn step_N {\n  let sum = 0;\n  let i = 0;\n  while i < 10 {\n    sum = sum + load(depv[0], i) * 3;\n"
                              "    i = i + 1;\n  }\n  print sum;\n}\n", texts.MAIN)


def shared(front, pieces, end):
    """As many of each of the pieces as fit, those of one kind after those of the other."""
    room = texts.MOST - len(front) - len(end)
    made = [[] for _ in pieces]
    number = 0
    while True:
        more = [piece.replace("N", str(number)) for piece in pieces]
        room -= sum(map(len, more))
        if room < 0:
            return front + "".join("".join(part) for part in made) + end
        for part, piece in zip(made, more):
            part.append(piece)
        number += 1


def templates_of_all():
    """As many functions as calls, in one of them, that name each of them."""
    half = shared("", ["fn fN{}", "ocrEdtTemplateCreate(fN,0,0);"], "")
    at = half.index("ocrEdt")
    calls = half[at:]
    return half[:at] + "fn g{" + calls[: calls.rindex(";", 0, len(calls) - 20) + 1] + "}" + texts.MAIN


def templates_of_the_last():
    """As many functions as calls, one in each, that name the last of them."""
    return texts.numbered("", "fn fN{ocrEdtTemplateCreate(mainEdt,0,0);}", texts.MAIN)


def templates_and_variables():
    """Calls that name functions, and then uses of a variable that came after all of them."""
    half = shared("", ["fn fN{}", "ocrEdtTemplateCreate(fN,0,0);", "a=a;a=a;a=a;"], "")
    at = half.index("ocrEdt")
    uses = half.index("a=a;")
    body = half[at:uses] + "let a=1;" + half[uses:]
    return half[:at] + "fn g{" + body[:-36] + "}" + texts.MAIN


def templates_of_long_names():
    return texts.numbered("", "fn " + "a" * 200 + "N{ocrEdtTemplateCreate(" + "a" * 200 + "N,0,0);}", texts.MAIN)


def calls_in_calls():
    """Calls whose arguments are calls."""
    return texts.body("print " + "load(1," * 50 + "1" + ")" * 50 + ";")


def output_names():
    return texts.body("ocrEdtCreate(1,0,[],0,[],0,&o);", "let o=0;")


def exclamations():
    return texts.body("print " + "!-~" * 85 + "1;")


OWN = (templates_of_all, templates_of_the_last, templates_and_variables, templates_of_long_names, calls_in_calls,
       output_names, exclamations)


def run_once(program, path):
    """The status, the processor's seconds and the kilobytes of a run."""
    with open(path, "rb") as text:
        child = subprocess.Popen([program, "run"], stdin=text, stdout=subprocess.DEVNULL, stderr=subprocess.DEVNULL)
        _, status, used = os.wait4(child.pid, 0)
    return os.waitstatus_to_exitcode(status), used.ru_utime + used.ru_stime, used.ru_maxrss


def measured(program, path, runs):
    least = [run_once(program, path) for _ in range(runs)]
    return least[0][0], min(seconds for _, seconds, _ in least), min(memory for _, _, memory in least)


def costs(program, path, maker, size, runs, nothing):
    """The bytes of the maker's text of this size, the status that it ends with, and the seconds and the bytes of memory
    that a byte of it takes."""
    texts.MOST = size
    text = maker().encode()
    assert len(text) <= size, maker.__name__
    path.write_bytes(text)
    status, seconds, memory = measured(program, path, runs)
    cost = max(seconds - nothing[0], LEAST_SECONDS) / len(text)
    return len(text), status, cost, max(memory - nothing[1], LEAST_KILOBYTES) * 1024 / len(text)


def faults(name, status, slow, grown):
    """What is wrong with a text that took so many times as long as a plain one, and grew so."""
    if status != REFUSED.get(name, 0):
        yield f"not status {REFUSED.get(name, 0)}"
    if slow > MOST:
        yield f"more than {MOST} times as long as a plain text"
    if grown and (grown[0] > SLOWER or grown[1] > LARGER):
        yield f"not linear: {grown[0]:.2f} times the time for a byte, and {grown[1]:.2f} times the memory"


def main():
    arguments = argparse.ArgumentParser()
    arguments.add_argument("--bytes", type=int, default=1 << 20)
    arguments.add_argument("--check", action="store_true")
    arguments.add_argument("program", nargs="?", default=TOP / "crates/ocr/out/ocr")
    arguments.add_argument("word", nargs="?", default="")
    given = arguments.parse_args()
    makers = {PLAIN: plain, **texts.MAKERS, **{maker.__name__: maker for maker in OWN}}
    wrong = 0
    with tempfile.TemporaryDirectory() as folder:
        path = pathlib.Path(folder) / "text"
        path.write_bytes(texts.MAIN.encode())
        nothing = measured(given.program, path, RUNS)[1:]
        print(f"{'text':32} {'bytes':>8} {'status':>6} {'ns a byte':>10} {'times':>6} {'B a byte':>9} {'times':>6}")
        for name, maker in makers.items():
            if name != PLAIN and given.word not in name:
                continue
            runs = 1 if given.check else RUNS
            size, status, cost, room = costs(given.program, path, maker, given.bytes, runs, nothing)
            if name == PLAIN:
                plain_cost, plain_room = cost, room
            slow, grown = cost / plain_cost, None
            print(f"{name:32} {size:8} {status:6} {cost * 1e9:10.1f} {slow:6.2f} {room:9.1f} {room / plain_room:6.2f}", flush=True)
            if not given.check and not REFUSED.get(name, 0):
                _, _, less_cost, less_room = costs(given.program, path, maker, given.bytes // 4, runs, nothing)
                grown = cost / less_cost, room / less_room
            for fault in faults(name, status, 0 if given.check else slow, grown):
                print(f"  {fault}")
                wrong += 1
    sys.exit(1 if wrong else 0)


if __name__ == "__main__":
    main()
