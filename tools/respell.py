#!/usr/bin/env python3
"""Spells the repository's own definitions and lemmas as this Rattle does: words in snake case.

usage: respell.py ROOT          rewrites crates/*/{src,specs,proofs} and crates/*/must-fail, and the code spans of the pages
       respell.py --table ROOT  prints the table that words.tsv holds, from the names that ROOT declares

Run it once, after port.py. words.tsv, beside this file, has a row a name: old, a tab, new; a third column names the one
module in which the row holds, where the old spelling means something else in others.
Functions of src/, C's names, strings, inputs and outputs are not in the table.
"""

import collections
import os
import re
import sys

WORD = r"[^\s(){}.;,@\"«»\[\]|]+"
TOKEN = re.compile(r"--[^\n]*|\"(?:[^\"\\\n]|\\.)*\"|" + WORD)
DECLARED = re.compile(r"(?m)^ *(?:(?:abbrev|unfoldable|pub|ruleset)\s+)*(" + WORD + r")(?: \{[^{}\n]*\})* :(?= |$)")
RUST = re.compile(r"//[^\n]*|b?\"(?:[^\"\\\n]|\\.)*\"|" + r"[A-Za-z_ρσ][\w'-]*")
WHOLE = re.compile(r"(?m)^\s*(?:pub |ghost )?use (Rattle\.[\w+.'-]+)(?: as ([\w'-]+))?;?\s*$")
USE = re.compile(r"(?m)^\s*(?:pub |ghost )?use (Rattle\.[\w+.'-]+)\.\{([^}]*)\}", re.S)
SPAN = re.compile(r"`[^`\n]+`")


def snake(name):
    return re.sub(r"(?<=[a-z0-9])[A-Z]", lambda m: "_" + m[0].lower(), name).replace("-", "_")


def module_of(path, root):
    """Rattle.CRATE.specs.M of a file that is no function's, else None."""
    parts = os.path.relpath(path, os.path.join(root, "crates")).split(os.sep)
    if len(parts) == 3 and parts[1] in ("specs", "proofs") and parts[2].endswith(".antt"):
        return ".".join(["Rattle", parts[0], parts[1], parts[2][:-5]])
    return None


def files(root, ends):
    for folder, dirs, names in os.walk(os.path.join(root, "crates")):
        dirs[:] = sorted(d for d in dirs if d not in ("out", "target", "data"))
        for name in sorted(names):
            if name.endswith(ends):
                yield os.path.join(folder, name)


def read(path):
    with open(path, encoding="utf-8", newline="") as f:
        return f.read()


def table(root):
    where = collections.defaultdict(set)
    for path in files(root, ".antt"):
        module = module_of(path, root)
        if module:
            for m in DECLARED.finditer(read(path)):
                where[m[1]].add(module)
    library = set()
    for path in files(root, (".antt", ".rt")):
        for m in re.finditer(r"(?m)^\s*(?:pub |ghost )?use ((?:mathlib|lib|native|borrow|Prim|Rattle\.std|Rattle\.core|Rattle\.io|denote)[\w.+'-]*)\.\{([^}]*)\}", read(path)):
            for one in m[2].split(","):
                library.add(one.strip().split(" as ")[0].strip())
    taken = collections.defaultdict(set)
    for name in where:
        taken[snake(name) if re.match(r"[a-zρσ]", name) else name].add(name)
    for new, names in sorted(taken.items()):
        in_specs = lambda n: any(".specs." in m for m in where[n])
        order = sorted(names, key=lambda n: (not in_specs(n), n != new, "-" in n, n))
        for i, old in enumerate(order):
            to = new + ["", "_lem", "_law"][i]
            if old == to or old in library:
                continue
            if old == new:
                for module in sorted(where[old]):
                    print(f"{old}\t{to}\t{module}")
            else:
                print(f"{old}\t{to}")


def rows():
    plain, scoped = {}, collections.defaultdict(dict)
    with open(os.path.join(os.path.dirname(os.path.abspath(__file__)), "words.tsv"), encoding="utf-8") as f:
        for line in f:
            cells = line.rstrip("\n").split("\t")
            if len(cells) == 2:
                plain[cells[0]] = cells[1]
            elif len(cells) == 3:
                scoped[cells[0]][cells[2]] = cells[1]
    return plain, scoped


class Speller:
    def __init__(self, root):
        self.root = root
        self.plain, self.scoped = rows()

    def names(self, path, text):
        """What turns in this file: the plain rows, and the scoped ones that it declares or imports."""
        names = dict(self.plain)
        module = module_of(path, self.root)
        for old, homes in self.scoped.items():
            if module in homes:
                names[old] = homes[module]
        for m in USE.finditer(text):
            for one in m[2].split(","):
                old = one.strip().split(" as ")[0].strip()
                if old in self.scoped and m[1] in self.scoped[old]:
                    names[old] = self.scoped[old][m[1]]
        return names

    def antt(self, path, text):
        names = self.names(path, text)

        def turn(m):
            word = m[0]
            if word.startswith("--"):
                return re.sub(r"[a-z][a-z0-9]*(?:[A-Z][a-z0-9]*)+", lambda w: names.get(w[0], w[0]), word)
            return names.get(word, word)

        for m in WHOLE.finditer(text):
            head = m[2] or m[1].split(".")[-1]
            for old, homes in self.scoped.items():
                if m[1] in homes:
                    text = re.sub(rf"(?<![\w.'-]){head}\.{old}(?![\w'-])", f"{head}.{homes[m[1]]}", text)
        return TOKEN.sub(turn, text)

    def rust(self, path, text):
        names = self.names(path, text)
        out, at = [], 0
        for start, end in ghosts(text):
            out.append(self.code(text[at:start], names))
            out.append(TOKEN.sub(lambda m: names.get(m[0], m[0]), text[start:end]))
            at = end
        out.append(self.code(text[at:], names))
        return "".join(out)

    def code(self, text, names):
        def turn(m):
            word = m[0]
            if word.startswith("//"):
                return re.sub(r"[a-z][a-z0-9]*(?:[A-Z][a-z0-9]*)+", lambda w: names.get(w[0], w[0]), word)
            return word

        return RUST.sub(turn, text)

    def page(self, text):
        def span(m):
            return re.sub(r"[A-Za-z][\w'-]*[\w']", lambda w: self.plain.get(w[0], w[0]), m[0])

        return SPAN.sub(span, text)


def ghosts(text):
    """The ghost use items, clauses and ghost members of a source."""
    for m in re.finditer(r"(?m)^\s*(?:pub )?ghost use [^;]*;|(?:requires|ensures)\*?\s*(?:\w+\s*)?\{|\bghost\s+\w+\s*(?::|=)\s*\{", text):
        if m[0].rstrip().endswith(";"):
            yield m.start(), m.end()
            continue
        depth, at = 1, m.end()
        while depth and at < len(text):
            depth += {"{": 1, "}": -1}.get(text[at], 0)
            at += 1
        yield m.end(), at


def main():
    if sys.argv[1] == "--table":
        table(sys.argv[2])
        return
    root = sys.argv[1]
    speller = Speller(root)
    changed = 0
    for path in files(root, (".antt", ".rt", ".edit")):
        text = read(path)
        if path.endswith(".antt"):
            new = speller.antt(path, text)
        elif path.endswith(".rt"):
            new = speller.rust(path, text)
        else:
            new = speller.antt(path, text)
        if new != text:
            changed += 1
            with open(path, "w", encoding="utf-8", newline="") as f:
                f.write(new)
    print(f"{changed} files changed")


if __name__ == "__main__":
    main()
