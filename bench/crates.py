#!/usr/bin/env python3
"""Looks at crates.txt: which of its names are cited nowhere in their crates, and in how many ways one comes down from each
crate to those below it. `rt` sums a library's files anew on each of these ways, twice where it builds the library, so their
number is time of every gate: about a thousandth of a second each.

In any folder:  bench/crates.py            the sum, the crates with the most ways, and the names that nothing cites
                bench/crates.py --check N  fails where a name is cited nowhere, or where there are more than N ways
"""
import functools
import pathlib
import re
import sys

TOP = pathlib.Path(__file__).resolve().parent.parent
CITED = re.compile(r"\b([a-z]\w*)::|\bRattle\.([a-z]\w*)|\buse ([a-z]\w*);")


def listed():
    """The names of each line of crates.txt, by the line's crate."""
    lines = (TOP / "crates.txt").read_text(encoding="utf-8").splitlines()
    pairs = (line.partition(":") for line in lines if line.strip() and not line.startswith("#"))
    return {crate.split()[0]: names.split() for crate, _, names in pairs}


def cited(crate):
    """What the crate's code, definitions and proofs cite."""
    files = [file for part in ("src", "specs", "proofs") for file in (TOP / "crates" / crate / part).rglob("*")]
    texts = [file.read_text(encoding="utf-8") for file in files if file.suffix in (".rt", ".antt")]
    return {name for text in texts for found in CITED.findall(text) for name in found}


def main():
    below = listed()

    @functools.lru_cache(None)
    def ways(crate):
        return 1 + sum(ways(name) for name in below[crate] if name in below)

    idle = [(crate, name) for crate, names in below.items() for name in set(names) - cited(crate)]
    for crate in sorted(below, key=ways, reverse=True)[:8]:
        print(f"{ways(crate):8}  {crate}")
    total = sum(map(ways, below))
    print(f"{total:8}  ways in all")
    for crate, name in sorted(idle):
        print(f"{crate} lists {name}, and cites it nowhere")
    if "--check" in sys.argv:
        return 1 if idle or total > int(sys.argv[sys.argv.index("--check") + 1]) else 0
    return 0


if __name__ == "__main__":
    sys.exit(main())
