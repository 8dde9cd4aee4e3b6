#!/usr/bin/env python3
"""Counts what one has to read to believe the headline: the definitions (specs/) that the contract of `ocr_main`
reaches, the contract itself, and the Rust types, traits and constants that these cite.

It starts at the names between `pub fn ocr_main` and its body, and follows names from block to block (a block is what
stands between two empty lines). A field leads to what its type cites, its name nowhere. A Rust type leads to the types
of its fields, or to its `Value` where contracts see it by a model, and a trait to what its members with clauses name.
A variable that bears the name of a definition counts as that, so a few lines may be too many. Empty lines, imports and
the toolchain are not counted. It fails where a name leads nowhere.

In any folder:  bench/trusted.py          a line a file, and the sums
                bench/trusted.py --check N    fails where the sum of all is above N
"""
import collections
import functools
import os
import re
import sys

ROOT = os.path.join(os.path.dirname(os.path.dirname(os.path.abspath(__file__))), "crates")
TOP = ("ocr_run", "top")
GHOST_USE = re.compile(
    r"^ *(?:pub |ghost )?use Rattle\.(ocr_\w+)\.specs\.([\w.]+?)(?:\.\{(.*)\})?(?: as (\w+))?;?$", re.M)
USE = re.compile(r"^(?:pub )?use (\w+)((?:::\w+)*?)::(?:\{([^}]*)\}|(\w+));", re.M)
TOKEN = re.compile(r'"(?:[^"\\]|\\.)*"|--.*|[()\[\]{};,]|[^\s()\[\]{};,"]+')
MARKS = ("abbrev", "unfoldable", "pub", "record", "data")
# What cites nothing in src/: comments, imports, the names of fields and of clauses.
SILENT = re.compile(r"//.*|^\s*ghost use .*|\b\w+(?=: )|\b(?:ensures|requires) \w+ (?=\{)", re.M)


def text_of(path):
    with open(path, encoding="utf-8") as it:
        return it.read()


def lines_in(lines):
    return sum(1 for line in lines if line.strip())


def split_names(text):
    """The names of an import, each with the name that it has here."""
    for name in text.split(","):
        whole, _, here = name.strip().partition(" as ")
        if whole:
            yield whole, here or whole


def source_of(crate, path):
    """Where the names under a path are: in a file of specs/, those of a type of src/, or the constants of its file."""
    first, *parts = path.split(".")
    if first != "declared":
        return "specs", crate, path, None
    if parts[-1] in ("TheVariants", "TheInside"):
        parts.pop()
    *folders, name = parts
    return "src", crate, "/".join(folders) or "lib", None if name == "TheConstants" else name


class File:
    """What a file takes from specs/ of any crate, and from the types of src/ that contracts name."""

    def __init__(self, path):
        self.text = text_of(path)
        self.length, self.taken, self.aliases = self.text.count("\n"), {}, {}
        for crate, path, names, alias in GHOST_USE.findall(self.text):
            source = source_of(crate, path)
            if not names:
                self.aliases[alias or path.rpartition(".")[2]] = source
            for whole, here in split_names(names):
                self.taken[here] = (*source[:3], source[3] or whole)

    def target(self, token):
        """What a token names, or None where it is neither taken nor behind an alias."""
        head, _, rest = token.partition(".")
        if head in self.aliases and rest:
            *place, name = self.aliases[head]
            return (*place, name or rest.partition(".")[0])
        return self.taken.get(head)


class Statement:
    """A signature, a clause, a field or a case, with the block in which it begins and the statement around it."""

    def __init__(self, block, indent, tokens, around):
        marks = next((k for k, it in enumerate(tokens) if it not in MARKS), len(tokens))
        self.block, self.indent, self.around = block, indent, around
        self.marks, self.tokens = tokens[:marks], tokens[marks:]

    def goes_on(self, indent):
        depth = sum((it in "([{") - (it in ")]}") for it in self.tokens)
        return depth > 0 or (indent > self.indent and not self.has_parts())

    def has_parts(self):
        return self.tokens[-1] in ("where", "mutual")

    def is_of(self, mark):
        return self.around is not None and mark in self.around.marks

    def names(self):
        """The names that lead to its block."""
        if self.is_of("record"):
            return self.around.tokens[:1]
        if self.is_of("data"):
            return self.tokens[:self.tokens.index(":")] + self.around.tokens[:1]
        return [] if self.tokens[0] in ("mutual", "module", "unfolding") else self.tokens[:1]

    def cited(self):
        """Its tokens, but for the names of fields."""
        start = self.tokens.index(":") if self.is_of("record") else 0
        for k, token in enumerate(self.tokens):
            is_label = self.tokens[k + 1:k + 2] == ["="] and self.tokens[k - 1] in ("{", ";")
            if k >= start and not is_label:
                yield token
        if self.around:
            yield from self.around.cited()


class Definitions(File):
    """A file of specs/."""

    def __init__(self, path):
        super().__init__(path)
        self.counts, self.statements, self.blocks = [], [], collections.defaultdict(set)
        for number, block in enumerate(re.split(r"\n\s*\n", self.text)):
            lines = [line for line in block.split("\n") if not re.match(r"(?:pub )?use ", line)]
            self.counts.append(lines_in(lines))
            for line in lines:
                self.add(number, len(line) - len(line.lstrip()), line)
        for it in self.statements:
            for name in it.names():
                self.blocks[name].add(it.block)

    def add(self, block, indent, line):
        tokens = [it for it in TOKEN.findall(line) if it[0] != '"' and it[:2] != "--"]
        around = self.statements[-1] if self.statements else None
        if not tokens:
            return
        if around and around.goes_on(indent):
            around.tokens += tokens
            return
        while around and not (around.has_parts() and indent > around.indent):
            around = around.around
        self.statements.append(Statement(block, indent, tokens, around))

    def cited(self, block, place):
        """What a block cites."""
        tokens = {token for it in self.statements if it.block == block for token in it.cited()}
        found = {self.target(token) for token in tokens} - {None}
        heads = {token.partition(".")[0] for token in tokens if not self.target(token)}
        return found | {("specs", *place, head) for head in heads if head in self.blocks}


class Code(File):
    """A file of src/."""

    def __init__(self, path):
        super().__init__(path)
        self.lines, self.uses = self.text.split("\n"), {}
        for root, path, names, name in USE.findall(self.text):
            for whole, here in split_names(names or name):
                self.uses[here] = (root, path.split("::")[1:], whole)

    def item(self, head):
        """The lines of an item, from its comments to its end; none where there is no such item."""
        first = next((k for k, line in enumerate(self.lines) if re.match(head, line)), None)
        if first is None:
            return []
        last = next(k for k in range(first, len(self.lines)) if re.match(r"\S.*[;}]$|}$", self.lines[k]))
        while self.lines[first - 1].startswith(("//", "#[")):
            first -= 1
        return self.lines[first:last + 1]

    def declared(self, name):
        return self.item(rf"(?:pub(?:\(\w+\))? )?(?:struct|enum|trait|const|type) {name}\b")

    def value(self, name):
        """What contracts see where the type has a model."""
        model = self.item(rf"impl(?:<.*>)? Model for {name}\b")
        return [line for line in model if re.match(r"\s+ghost Value = ", line)]

    def told(self, name):
        """The part of an item that tells what it is."""
        text = "\n".join(self.value(name) or self.declared(name))
        if re.search(r"^(?:pub )?enum ", text, re.M):
            return re.sub(r"^    [A-Z]\w*", "", text, flags=re.M)
        if re.search(r"^(?:pub )?trait ", text, re.M):
            members = SILENT.sub("", text).split(";\n")
            return "\n".join(it for it in members if re.search(r"\b(?:ghost|ensures|requires)\b", it))
        return text

    def cited(self, text, place):
        """What a text of this file cites."""
        found = set()
        for token in re.findall(r"[^\W\d]\w*(?:\.\w+)*", SILENT.sub("", text)):
            head = token.partition(".")[0]
            if self.target(token):
                found.add(self.target(token))
            elif head in self.uses:
                found.add(origin(place[0], *self.uses[head]))
            elif self.declared(head):
                found.add(("src", *place, head))
        return found - {None}


@functools.lru_cache(None)
def code_of(crate, file):
    return Code(os.path.join(ROOT, crate, "src", file + ".rt"))


def origin(crate, root, path, name):
    """Where an import comes from, through those that hand it on; None for the toolchain."""
    if root.startswith("ocr_"):
        crate = root
    elif os.path.exists(os.path.join(ROOT, crate, "src", root + ".rt")):
        path = [root, *path]
    elif root != "crate":
        return None
    file = "/".join(path) or "lib"
    code = code_of(crate, file)
    return origin(crate, *code.uses[name]) if name in code.uses else ("src", crate, file, name)


def all_definitions():
    found = {}
    for crate in os.listdir(ROOT):
        folder = os.path.join(ROOT, crate, "specs")
        for file in os.listdir(folder) if os.path.isdir(folder) else []:
            if file.endswith(".antt") and file != "Lib.antt":
                found[crate, file[:-5]] = Definitions(os.path.join(folder, file))
    return found


def contract():
    """The lines of `ocr_main` before its body."""
    lines = code_of(*TOP).item(r"pub fn ocr_main\b")
    return lines[:lines.index("{")]


def reach(known):
    """The blocks of specs/ and the items of src/ that are reached, by their files."""
    blocks, items = collections.defaultdict(set), collections.defaultdict(set)
    todo, seen = code_of(*TOP).cited("\n".join(contract()), TOP), set()
    while todo:
        kind, crate, file, name = target = todo.pop()
        seen.add(target)
        found = set()
        if kind == "src" and code_of(crate, file).declared(name):
            code = code_of(crate, file)
            items[crate, file].add(name)
            found = code.cited(code.told(name), (crate, file))
        elif kind == "specs" and name in known[crate, file].blocks:
            for block in known[crate, file].blocks[name] - blocks[crate, file]:
                blocks[crate, file].add(block)
                found |= known[crate, file].cited(block, (crate, file))
        elif kind == "specs" and name in known[crate, file].taken:
            found = {known[crate, file].taken[name]}
        else:
            sys.exit(f"{crate}/{kind}/{file} has no {name}")
        todo |= found - seen
    return {place: it for place, it in blocks.items() if it}, items


def report(title, rows):
    """Prints a line a file: its place, the lines that are reached, and all its lines."""
    print(title)
    for place, count, length in rows:
        print(f"{count:5d} of {length:4d}  {'/'.join(place)}")
    total = sum(count for _, count, _ in rows)
    if len(rows) > 1:
        print(f"{total:5d} of {sum(length for *_, length in rows):4d}  in {len(rows)} files")
    print()
    return total


def main():
    known = all_definitions()
    blocks, items = reach(known)
    total = report("Definitions (specs/)", [
        (place, sum(known[place].counts[it] for it in blocks[place]), known[place].length) for place in sorted(blocks)])
    total += report("The contract of ocr_main (src/)", [(TOP, lines_in(contract()), code_of(*TOP).length)])
    total += report("Types, traits and constants (src/)", [
        (place, sum(lines_in(code_of(*place).declared(it) + code_of(*place).value(it)) for it in items[place]),
         code_of(*place).length) for place in sorted(items)])
    print(f"{total:5d} lines to read")
    if sys.argv[1:2] == ["--check"] and total > int(sys.argv[2]):
        sys.exit(f"more than {sys.argv[2]} lines have to be read")


if __name__ == "__main__":
    main()
