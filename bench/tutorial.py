#!/usr/bin/env python3
"""Fails where a program, an output or a line of a journal in docs/TUTORIAL.md is not as it stands there.

Build the program first: cd crates/ocr && rt run -- run < ../../examples/first.ocr, which leaves it as crates/ocr/out/ocr.
Then, in any folder:  bench/tutorial.py [PROGRAM]

The heading of a step names its program, which is shown first, without the comment at its head. A later block is a command
after `$ `, with all that it writes. The lines of a table are all lines of the journal of the step's first command.
"""
import pathlib
import re
import subprocess
import sys

TOP = pathlib.Path(__file__).resolve().parent.parent
PROGRAM = pathlib.Path(sys.argv[1] if len(sys.argv) > 1 else TOP / "crates/ocr/out/ocr").resolve()


def written(command, *more):
    """What the command `ocr .. < FILE` writes with more words, the line on standard error last."""
    words, file = command.split(" < ")
    with open(TOP / "examples" / file) as text:
        done = subprocess.run([PROGRAM, *words.split()[1:], *more], stdin=text, capture_output=True, text=True)
    return done.stdout + done.stderr


def wrong(step):
    """What a step says that is not so."""
    heading = step.splitlines()[0]
    name = re.search(r"`(\w+\.ocr)`", heading)[1]
    program, *blocks = re.findall(r"^```\n(.*?)^```$", step, re.S | re.M)
    if program != re.sub(r"\A(#.*\n)*", "", (TOP / "examples" / name).read_text()):
        yield f"{heading}: the program is not {name}"
    commands = []
    for block in blocks:
        command, output = block.removeprefix("$ ").split("\n", 1)
        commands.append(command)
        if written(command) != output:
            yield f"{heading}: {command} writes something else"
    rows = re.findall(r"^\| (`\d+ .*?) \| ", step, re.M)
    lines = [line for row in rows for line in re.findall(r"`(.*?)`", row)]
    if lines and lines != re.findall(r"^\d+ [a-z].*", written(commands[0], "--journal").partition("\njournal ")[2], re.M):
        yield f"{heading}: the journal has other lines"


def main():
    steps = re.split(r"^## ", (TOP / "docs/TUTORIAL.md").read_text(), flags=re.M)[1:]
    found = [text for step in steps for text in wrong(step)]
    if found:
        sys.exit("\n".join(found))
    print(f"{len(steps)} steps are as they stand in docs/TUTORIAL.md")


main()
