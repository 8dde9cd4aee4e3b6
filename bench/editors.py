#!/usr/bin/env python3
"""Takes the lists of names in the syntax files of editors/ into the tests of crates/ocr_tests_text.

usage: bench/editors.py            writes crates/ocr_tests_text/src/editors.rt
       bench/editors.py --check    fails where that file is not what it would write

Both files must have the same names: reserved words, calls and constants. A test compares them with the grammar's.
"""
import json
import pathlib
import re
import sys
import textwrap

TOP = pathlib.Path(__file__).resolve().parent.parent
TESTS = TOP / "crates/ocr_tests_text/src/editors.rt"
HEAD = """// The names in the files of editors/, as bench/editors.py takes them from there.
"""
SCOPES = {"WORDS": "keyword.control.ocr", "CALLS": "support.function.ocr", "CONSTANTS": "constant.language.ocr"}
COMMENTS = {"WORDS": "Words of the language.", "CALLS": "Names of calls.", "CONSTANTS": "Names of constants."}
GROUPS = {"WORDS": "ocrWord", "CALLS": "ocrCall", "CONSTANTS": "ocrConstant"}


def in_vim(group):
    lines = re.findall(rf"^syn keyword {group} (.*)$", (TOP / "editors/ocr.vim").read_text(), re.M)
    return " ".join(lines).split()


def in_textmate(scope):
    grammar = json.loads((TOP / "editors/ocr.tmLanguage.json").read_text())
    match = next(p["match"] for p in grammar["patterns"] if p["name"] == scope)
    return re.fullmatch(r"\\b\((.*)\)\\b", match)[1].split("|")


def lines(names):
    """As rt fmt lays them out: short items side by side, and else one a line."""
    items = [f'b"{n}",' for n in names]
    if max(len(n) for n in names) > 10:
        return "".join(f"    {i}\n" for i in items)
    return textwrap.fill(" ".join(items), 100, initial_indent="    ", subsequent_indent="    ") + "\n"


def table():
    text = HEAD
    for name in GROUPS:
        names = in_vim(GROUPS[name])
        if sorted(names) != sorted(in_textmate(SCOPES[name])):
            sys.exit(f"editors: the two files have other {name.lower()}")
        text += f"\n/// {COMMENTS[name]}\npub const {name}: [&[u8]; {len(names)}] = [\n{lines(names)}];\n"
    return text


def main():
    wanted = table()
    if sys.argv[1:] == ["--check"]:
        if TESTS.read_text() != wanted:
            sys.exit("editors: crates/ocr_tests_text/src/editors.rt is not that of editors/")
        return
    TESTS.write_text(wanted)


main()
