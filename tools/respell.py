#!/usr/bin/env python3
"""Brings the repository's own names in contracts, definitions and proofs to the spelling of today's Rattle.

usage: tools/respell.py [--check] [--list] [ROOT]

It ran once, after the kit's port.py, on the whole repository (docs/PORT.md). Functions, lemmas, fields and constructors get snake case; what results in a
type gets upper camel case. Names of src/, exported names, strings, inputs and outputs keep their spelling: no identifier of the code has a dash or a lower
camel form. Two names that would fall together, and names that would hide a field or a parameter of the code, are told apart by the table APART.
"""
import collections
import os
import re
import sys

TOKEN = re.compile(r"[^\s(){}.;,@\"«»:`\[\]|/\\*!?=<>…]+")
CAMEL = re.compile(r"[a-z][a-z0-9₀-₉]*(?:[A-Z][a-z0-9₀-₉]*)+'*")
DECLARED = re.compile(r"^(\s*)((?:abbrev |unfoldable |pub |axiom )*)([^\s(){}.;,:=]+(?:\s+[^\s(){}.;,:=→]+)*)\s*:(?:\s(.*)|$)")
WORDS = {"pub", "abbrev", "unfoldable", "where", "record", "data", "use", "mod", "module", "axiom", "infixl", "infixr", "infix", "let", "in"}

# Names that would fall together with another of the same spelling.
# A lemma that would have its function's name gets `_lem` by the rule in table_of.
APART = {
    "or-else": "or_else_lem",
    "same-words": "same_words_lem",
    "idle-fits": "idle_fits_met",
    "class-try": "class_try_met",
    "class-set-up": "class_set_up_met",
    "class-clear": "class_clear_met",
    "turned-away": "turned_away_met",
    "turnedAway": "turn_aways",
    "turnsAway": "does_turn_away",
    "settlesAt": "settling_at",
}


def files(root, ends, skip=("out", "target", ".git")):
    for folder, dirs, names in os.walk(root):
        dirs[:] = sorted(d for d in dirs if d not in skip)
        for name in sorted(names):
            if name.endswith(ends):
                yield os.path.join(folder, name)


def code_of(line):
    return re.sub(r"(?<![^\s(){};,])--.*", "", line.rstrip("\n"))


def snake(name):
    return re.sub(r"(?<=[A-Za-z0-9₀-₉])([A-Z])", lambda m: "_" + m.group(1).lower(), name.replace("-", "_"))


def declared(root):
    """The names that specs/ and the lemma files declare, each with the end of its type."""
    found = {}
    for path in files(os.path.join(root, "crates"), (".antt",)):
        if os.path.basename(path) in ("Lib.antt", "Proof.antt"):
            continue
        with open(path, encoding="utf-8") as f:
            lines = [code_of(l) for l in f]
        for i, line in enumerate(lines):
            m = DECLARED.match(line)
            if not m or line.lstrip().startswith(("use ", "mod ", "pub mod ", "record ", "data ", "pub record ", "pub data ", "module ", "--")):
                continue
            depth = len(m.group(1))
            kind = m.group(4) or ""
            for more in lines[i + 1 :]:
                if not more.strip() or len(more) - len(more.lstrip()) <= depth:
                    break
                kind += " " + more.strip()
            for name in m.group(3).split():
                if name not in WORDS:
                    found.setdefault(name, kind)
    return found


def table_of(root):
    names = declared(root)
    table = {}
    for name, kind in names.items():
        if CAMEL.fullmatch(name) and re.search(r"(^|→\s*)Type \d\s*$", kind):
            table[name] = name[0].upper() + name[1:]
        elif "-" in name and re.fullmatch(r"[a-z][A-Za-z0-9₀-₉_-]*'*", name):
            table[name] = snake(name)
    for path in files(os.path.join(root, "crates"), (".antt", ".rt")):
        if path.endswith(".rt"):
            continue
        with open(path, encoding="utf-8") as f:
            for line in f:
                for t in TOKEN.findall(code_of(line)):
                    if CAMEL.fullmatch(t):
                        table.setdefault(t, snake(t))
    table.update(APART)
    camels = {b for a, b in table.items() if "-" not in a}
    for a, b in table.items():
        if "-" in a and b in camels:
            table[a] = b + "_lem"
    return table


def turned(text, table):
    return TOKEN.sub(lambda m: table.get(m.group(0), m.group(0)), text)


def elsewhere(text, table, known):
    """A text that port.py did not read, as a page or an edit: there a name turns too where the tree declares what it turns to."""

    def word(m):
        name = m.group(0)
        if name in table:
            return table[name]
        return snake(name) if (CAMEL.fullmatch(name) or "-" in name) and snake(name) in known else name

    return TOKEN.sub(word, text)


def locals_turned(text):
    """The variables of a lemma file: a name with a dash that the file does not import, and that is no member of something."""
    imports = {w for m in re.finditer(r"(?m)^use [^{\n]*\{([^}]*)\}", text) for w in re.split(r"[,\s]+", m.group(1))}
    out = []
    for line in text.splitlines(keepends=True):
        code = code_of(line)

        def word(m):
            name = m.group(0)
            mine = "-" in name and re.fullmatch(r"[a-z][A-Za-z0-9₀-₉_-]*'*", name) and name not in imports and code[m.start() - 1 : m.start()] != "."
            return snake(name) if mine else name

        out.append(line if line.startswith(("use ", "mod ", "pub mod ", "--")) else TOKEN.sub(word, code) + line[len(code) :])
    return "".join(out)


def turn(path, table, known):
    with open(path, encoding="utf-8") as f:
        old = f.read()
    if path.endswith(".md"):
        # in pages the names stand in code spans; a span with a path or a command keeps its text
        new = re.sub(r"`[^`\n]+`", lambda m: m.group(0) if "/" in m.group(0) else elsewhere(m.group(0), table, known), old)
    elif path.endswith(".edit"):
        spans = lambda l: re.sub(r"`[^`\n]+`", lambda m: elsewhere(m.group(0), table, known), l)
        new = "".join(elsewhere(l, table, known) if l.startswith(("old:", "new:")) else spans(l) for l in old.splitlines(keepends=True))
    elif path.endswith(".rt"):
        camel = {a: b for a, b in table.items() if "-" not in a}
        new = "".join(l if '"' in l else turned(l, camel) for l in old.splitlines(keepends=True))
    else:
        new = turned(old, table)
        if not path.endswith("Proof.antt"):
            new = locals_turned(new)
    return old, new


def main(argv):
    check = "--check" in argv
    root = next((a for a in argv if not a.startswith("--")), ".")
    table = table_of(root)
    together = collections.defaultdict(list)
    for a, b in table.items():
        together[b].append(a)
    for b, olds in sorted(together.items()):
        if len(olds) > 1:
            print(f"fall together: {b}: {' '.join(olds)}")
    if "--list" in argv:
        for a, b in sorted(table.items()):
            print(f"{a}\t{b}")
        return 0
    known = set(declared(root)) | set(table.values())
    changed = 0
    for path in files(root, (".antt", ".rt", ".edit", ".md")):
        if "/docs/PORT" in path:
            continue
        old, new = turn(path, table, known)
        if old != new:
            changed += 1
            if not check:
                with open(path, "w", encoding="utf-8") as f:
                    f.write(new)
    print(f"{len(table)} names, {changed} files")
    return 0


if __name__ == "__main__":
    raise SystemExit(main(sys.argv[1:]))
