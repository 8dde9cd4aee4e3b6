#!/usr/bin/env python3
"""Makes the texts that bench/text.sh measures: python3 texts.py FOLDER [NAME..] writes FOLDER/NAME for each
maker below, or for those that are named.

A maker is a function under `@text`, which gives the text of its name. What is large stands in a function that is not
run, so that reading, parsing and checking are measured alone, and the run ends at once.
"""

import sys
from pathlib import Path

# The most bytes that a text may have.
MOST = 1 << 20

MAIN = "fn mainEdt{ocrShutdown();}"

MAKERS = {}


def text(maker):
    MAKERS[maker.__name__] = maker
    return maker


def filled(front, piece, end=""):
    """The front, the piece as often as it goes, and the end."""
    times = (MOST - len(front) - len(end)) // len(piece)
    return front + piece * times + end


def numbered(front, piece, end=""):
    """As `filled`, with a number in each piece in the place of N."""
    pieces = []
    room = MOST - len(front) - len(end)
    number = 0
    while True:
        next_piece = piece.replace("N", str(number))
        if room < len(next_piece):
            return front + "".join(pieces) + end
        pieces.append(next_piece)
        room -= len(next_piece)
        number += 1


def body(piece, front=""):
    """A function that is not run, full of the piece."""
    return filled("fn f{" + front, piece, "}" + MAIN)


@text
def one_letter_names():
    return filled("", "a ")


@text
def open_brackets():
    return filled("", "(")


@text
def open_brackets_in_an_expression():
    return filled("fn f{print ", "(")


@text
def assignments():
    return body("a=a;", "let a=1;")


@text
def prints():
    return body("print 1;")


@text
def shutdowns():
    return body("ocrShutdown();")


@text
def long_sums():
    return body("print " + "1+" * 127 + "1;")


@text
def signs():
    return body("print " + "-" * 255 + "1;")


@text
def brackets_in_brackets():
    return body("print " + "(" * 127 + "1" + ")" * 127 + ";")


@text
def nested_blocks():
    return body("if 1{" * 63 + "}" * 63)


@text
def nested_loops():
    return body("while 0{" * 63 + "}" * 63)


@text
def empty_else_blocks():
    return body("if 1{}else{}")


@text
def comment_lines():
    return filled(MAIN, "#\n")


@text
def one_comment():
    return filled(MAIN + "#", "x")


@text
def blanks():
    return filled(MAIN, " ")


@text
def one_number():
    return filled("fn f{print ", "0", "1;}" + MAIN)


@text
def one_name():
    return filled("fn ", "a", "{}" + MAIN)


@text
def functions():
    return numbered("", "fn fN{}", MAIN)


@text
def functions_of_one_name():
    return numbered("fn g{}", "fn fN{}", "fn g{}" + MAIN)


@text
def functions_of_long_names():
    return numbered("", "fn " + "a" * 1000 + "N{}", MAIN)


@text
def sixty_four_names():
    lets = "".join(f"let name{i}={i};" for i in range(64))
    return body("name63=name0;", lets)


@text
def sixty_four_long_names():
    names = ["a" * 1000 + f"{i:02}" for i in range(64)]
    lets = "".join(f"let {name}={i};" for i, name in enumerate(names))
    return body(f"{names[63]}={names[62]};", lets)


@text
def names_in_blocks():
    return numbered("", "fn fN{let a=1;if a{let b=a;}if a{let c=a;}}", MAIN)


@text
def calls_that_are_not_built():
    return body("store(1,2,load(3,4));")


@text
def long_lists():
    return body("ocrEdtCreate(1,2,[" + ",".join("1" * 16) + "],3,[" + ",".join("1" * 32) + "],0,&o);")


if __name__ == "__main__":
    folder = Path(sys.argv[1])
    for name in sys.argv[2:] or MAKERS:
        made = MAKERS[name]().encode()
        assert len(made) <= MOST, name
        (folder / name).write_bytes(made)
