#!/usr/bin/env python3
"""Brings the repository's own definitions and lemmas to the spelling of the library: words in snake case, types and facts
in camel case, a dash only between two names. Run once, at the top, after the toolchain's own port.

usage: python3 tools/respell.py [--dry]

What is renamed: definitions, lemmas and record fields that files of specs/ and proofs/ declare. Functions of src/, names
that the toolchain makes (goals, steps), strings and comments keep their spelling.
"""
import os
import re
import sys

WORD = re.compile(r"(?<![\w'-])[A-Za-z_][\w']*(?:-[\w']+)*")
HEAD = re.compile(r"^(?P<in> *)(?:abbrev |unfoldable )?(?:pub )?(?P<names>[A-Za-z_][\w'-]*(?: [A-Za-z_][\w'-]*)*) : ")
LIBRARY_NAMES = {"length", "take", "drop", "append", "all", "any", "sum", "map", "set", "reverse", "replicate", "ones", "not", "leading"}


def files(root, *ends):
    for folder, dirs, names in os.walk(os.path.join(root, "crates")):
        dirs[:] = sorted(d for d in dirs if d not in ("out", "target"))
        for n in sorted(names):
            if n.endswith(ends):
                yield os.path.join(folder, n)


def is_made(path):
    """Whether the file's top names are the toolchain's: the goals of one function."""
    return os.path.basename(path) in ("Answers.antt", "Invariants.antt", "Proof.antt")


def declared(root):
    """The names that files of specs/ and proofs/ declare, and those of them that are no fields of records."""
    found, functions = {}, set()
    for p in files(root, ".antt"):
        record = False
        for line in open(p, encoding="utf-8"):
            if line.lstrip().startswith("--"):
                continue
            if re.match(r"^ *(?:abbrev |unfoldable )?(?:pub )?record ", line):
                record = True
                continue
            if line[:1] not in (" ", "\n"):
                record = False
            m = HEAD.match(line)
            if not m or len(m["in"]) not in ((0, 2) if not record else (2, 4)):
                continue
            if is_made(p) and (re.search(r": (?:need|goal)s?\.", line) or m["names"].startswith(("invariant-", "measure-", "μ-", "returns"))):
                continue
            for n in m["names"].split():
                found.setdefault(n, set()).add(p)
                if not record:
                    functions.add(n)
    return found, functions


def snake(name):
    return re.sub(r"(?<=[a-z0-9])([A-Z])", lambda m: "_" + m[1].lower(), name)


def spelled(name, known):
    if name[0].isupper():
        return name
    parts = name.split("-")
    if len(parts) == 2 and all(snake(x) in known for x in parts):
        return snake(parts[0]) + "-" + snake(parts[1])
    out = parts[0]
    for q in parts[1:]:
        out += ("-" if out[-1].isdigit() and q[0].isdigit() else "_") + q
    return snake(out)


def renaming(root):
    own, functions = declared(root)
    known = {snake(n) for n in functions if "-" not in n} | LIBRARY_NAMES
    names = {n: spelled(n, known) for n in own if spelled(n, known) != n}
    functions = {n for n in own if "-" not in n} | {b for a, b in names.items() if "-" not in a}
    # a lemma that would have its function's name
    return {a: b + "_lem" if "-" in a and b in functions else b for a, b in names.items()}, own


def turn(text, names, comment):
    """Every word of the text that is renamed, but in comments and strings."""
    out = []
    for line in text.split("\n"):
        at = line.find(comment)
        while at >= 0 and not (at == 0 or line[at - 1] == " "):
            at = line.find(comment, at + 1)
        code, rest = (line, "") if at < 0 else (line[:at], line[at:])
        pieces = re.split(r'("(?:[^"\\]|\\.)*")', code)
        out.append("".join(x if x.startswith('"') else WORD.sub(lambda m: names.get(m[0], m[0]), x) for x in pieces) + rest)
    return "\n".join(out)


def main(argv):
    root = "."
    names, own = renaming(root)
    new = {}
    for a, b in sorted(names.items()):
        new.setdefault(b, []).append(a)
    for b, olds in sorted(new.items()):
        if len(olds) > 1 or b in own:
            print("falls together:", b, olds, sorted(own.get(b, [])))
    if "--dry" in argv:
        for a, b in sorted(names.items()):
            print(a, "->", b)
        return 0
    for p in files(root, ".antt", ".rt"):
        with open(p, encoding="utf-8") as f:
            text = f.read()
        turned = turn(text, names, "--" if p.endswith(".antt") else "//")
        if turned != text:
            with open(p, "w", encoding="utf-8") as f:
                f.write(turned)
    return 0


if __name__ == "__main__":
    raise SystemExit(main(sys.argv[1:]))
