#!/usr/bin/env python3
"""Takes the programs of examples/ into the tests of crates/ocr_tests_run, each with its output and its status.

usage: bench/examples.py            writes crates/ocr_tests_run/src/examples.rt
       bench/examples.py --check    fails where that file is not what it would write

NAME.ocr is a program, NAME.stdout what it must write, worked out by hand, and NAME.status its status where it is not 0.
"""
import pathlib
import sys

TOP = pathlib.Path(__file__).resolve().parent.parent
TESTS = TOP / "crates/ocr_tests_run/src/examples.rt"
# a constant of the tests has at most so many programs (and 10,000 expressions, of which each byte is one)
MOST = 10
HEAD = """// The programs of examples/, each with what it writes and its status, as bench/examples.py takes
// them from there.

/// A program's text, its output and its status.
pub type Example = (&'static [u8], &'static [u8], u8);

"""


def literal(text):
    text = text.replace("\\", "\\\\").replace('"', '\\"')
    return 'b"' + text + '"'


def constant(name, text):
    """As rt fmt lays it out: a first line of more than 100 columns goes below its name."""
    head = f"const {name}: &[u8] ="
    value = literal(text)
    fits = len(f"{head} {value.splitlines()[0]}") <= 100
    return f"{head} {value};\n" if fits else f"{head}\n    {value};\n"


def table():
    names, items, sizes = [], [], []
    for path in sorted((TOP / "examples").glob("*.ocr")):
        name = path.stem.upper()
        status = path.with_suffix(".status")
        code = int(status.read_text()) if status.exists() else 0
        output = path.with_suffix(".stdout").read_text()
        names.append(name)
        items.append(constant(name, path.read_text()))
        items.append(constant(f"{name}_OUT", output))
        items.append(f"const {name}_STATUS: u8 = {code};\n")
        sizes.append(len(path.read_bytes()) + len(output))
    # three groups of about as many bytes each
    thirds = [third_of(sizes, 1), third_of(sizes, 2)]
    items.append(rows("EXAMPLES", "The first third of the programs.", names[: thirds[0]]))
    items.append(rows("MORE_EXAMPLES", "The second third.", names[thirds[0] : thirds[1]]))
    items.append(rows("LAST_EXAMPLES", "The last third.", names[thirds[1] :]))
    return HEAD + "\n".join(items)


def third_of(sizes, number):
    """How many of the programs stand before the one with which so many thirds of all bytes are passed."""
    return next(i for i in range(len(sizes)) if 3 * sum(sizes[: i + 1]) > number * sum(sizes))


def rows(table, comment, names):
    if len(names) > MOST:
        sys.exit(f"examples: {table} would have {len(names)} programs, and {MOST} are the most")
    lines = "".join(f"    ({n}, {n}_OUT, {n}_STATUS),\n" for n in names)
    return f"/// {comment}\npub const {table}: [Example; {len(names)}] = [\n{lines}];\n"


def main():
    wanted = table()
    if sys.argv[1:] == ["--check"]:
        if TESTS.read_text() != wanted:
            sys.exit("examples: crates/ocr_tests_run/src/examples.rt is not that of examples/")
        return
    TESTS.write_text(wanted)


main()
