#!/usr/bin/env python3
"""Respells the names of this repository's own definitions and lemmas in snake case.

usage: python3 tools/respell_names.py        once, at the top, right after the toolchain's port.py

A name that specs/ or proofs/ declares in camel case or with dashes gets underscores, wherever it is
used: in specs/, proofs/, the clauses of src/, the edits, and between backquotes in comments. Types and
modules keep their capitals, and so do functions of src/, exported C names, strings, inputs and outputs.
A lemma that would have a definition's name gets `_lem`.
"""

import collections
import glob
import re
import sys

NAME = r"[^\s(){}:,;\[\].`\"]+"
DECLARED = re.compile(
    r"^\s*(?:infix[lr]? \d+ )?(?:unfoldable )?(?:abbrev )?(?:pub )?(?:mut )?(?:data |record |ruleset )?"
    r"(" + NAME + r")(?: " + NAME + r")* :(?: |$)",
    re.M,
)
PIECE = re.compile(r'--[^\n]*|//[^\n]*|"(?:[^"\\\n]|\\.)*"|' + NAME, re.M)


def snake(name):
    name = re.sub(r"(?<=[a-z0-9'])([A-Z])", lambda m: "_" + m.group(1).lower(), name)
    return name.replace("-", "_")


def is_old(name):
    return "-" in name.strip("-") and len(name) > 1 or (not name[0].isupper() and re.search(r"[a-z0-9][A-Z]", name))


def files(pattern):
    return sorted(p for p in glob.glob(pattern, recursive=True) if "/out/" not in p)


def read(path):
    with open(path, encoding="utf-8") as f:
        return f.read()


def declared(antt):
    """The names that the files declare, with the files; answers to goals in a function's own folder are named by the toolchain."""
    names = collections.defaultdict(set)
    for path in antt:
        text = read(path)
        for m in DECLARED.finditer(text):
            rest = text[m.end() : m.end() + 80].lstrip()
            if re.search(r"/proofs/.+/", path) and re.match(r"(tie|goal|[a-z_]+)\.(Need|Given|goal|invariant|decreases)", rest):
                continue
            name = m.group(1)
            names[name].add(path)
            if name.startswith("◌") or name.endswith("◌"):
                for part in name.split("◌"):
                    if part:
                        names[part].add(path)
    return names


def turned(names):
    """What each old name becomes, and the lemmas whose name a definition takes."""
    found = {n for n in names if is_old(n)}
    by_new = collections.defaultdict(list)
    for n in sorted(found):
        by_new[snake(n)].append(n)
    turn, pushed = {}, {}
    for new, olds in sorted(by_new.items()):
        definitions = [n for n in olds if "-" not in n]
        if definitions and new in names:
            pushed[new] = new + "_lem"
        for n in olds:
            clashes = "-" in n and (bool(definitions) or new in names)
            turn[n] = new + "_lem" if clashes else new
            if clashes:
                print(f"falls together: {n} -> {turn[n]}")
    for new, lemma in pushed.items():
        print(f"falls together: {new} -> {lemma}, where it is a lemma")
    return turn, pushed


def lemmas_of(path, text, names, pushed):
    """The lemmas that give their name to a definition, as far as this file declares them or takes them from a file that does."""
    here = set()
    for n in pushed:
        makers = {p for p in names[n] if "/proofs/" in p}
        if path in makers:
            here.add(n)
        for m in re.finditer(r"use Rattle\.(\w+)\.proofs\.([\w.]+)\.\{([^}]*)\}", text):
            maker = f"crates/{m.group(1)}/proofs/{m.group(2).replace('.', '/')}.antt"
            if maker in makers and n in re.split(r"[\s,]+", m.group(3)):
                here.add(n)
    return here


def respell(path, text, turn, lemmas):
    def word(w, after_dot):
        if w in lemmas and not after_dot:
            return w + "_lem"
        if w in turn:
            # a step of a function's proof has the name of the function that is called
            stepped = after_dot and re.search(r"/proofs/[^/]+/", path)
            return snake(w) if stepped else turn[w]
        if "◌" in w and len(w) > 1:
            return "◌".join(turn.get(p, p) for p in w.split("◌"))
        return w

    def piece(m):
        t = m.group(0)
        if t.startswith('"'):
            return t
        if t.startswith(("--", "//")):
            return re.sub(r"`[^`\n]*`", lambda q: re.sub(NAME, lambda n: word(n.group(0), False), q.group(0)), t)
        return word(t, m.start() > 0 and text[m.start() - 1] == "." and m.start() > 1 and not text[m.start() - 2].isspace())

    return PIECE.sub(piece, text)


def main():
    antt = files("crates/**/*.antt")
    names = declared(antt)
    turn, pushed = turned(names)
    n = 0
    for path in antt + files("crates/**/*.rt") + files("crates/**/*.edit"):
        old = read(path)
        new = respell(path, old, turn, lemmas_of(path, old, names, pushed))
        if new != old:
            n += 1
            with open(path, "w", encoding="utf-8") as f:
                f.write(new)
    print(f"{len(turn)} names respelled in {n} files")


if __name__ == "__main__":
    sys.exit(main())
