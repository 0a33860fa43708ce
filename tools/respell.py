#!/usr/bin/env python3
"""Brings the repository's own definitions and lemmas to today's spelling: words in snake case, a prime as an apostrophe.

usage: python3 tools/respell.py [--list] [ROOT]      run once, right after port.py; --list prints the names and writes nothing

Names are those that .antt files declare. Types, facts and modules (an upper-case letter first) stay, and so do functions of src/, strings, and names
that Rattle makes (goals and steps, which only Proof.antt files name). Where a lemma would fall together with a definition it gets `_lem`.
"""
import collections
import os
import re
import sys

NAME = r"[^\s(){}\[\],;.«»:λ`\"]+"
DECL = re.compile(r"^(\s*)(?:(?:abbrev|unfoldable|pub) )*(" + NAME + r") :(?: |$)")
TOKEN = re.compile(NAME)
GOAL = re.compile(r" : (?:\{[^}]*\} → )?(?:tie\.|statement\b|goal\.)")


def files(root, ending):
    for folder, dirs, names in os.walk(os.path.join(root, "crates")):
        dirs[:] = sorted(d for d in dirs if d != "out")
        for n in sorted(names):
            if n.endswith(ending):
                yield os.path.join(folder, n)


def read(p):
    with open(p, encoding="utf-8") as f:
        return f.read()


def is_camel(n):
    return re.fullmatch(r"[a-z][A-Za-z0-9₀-₉']*[A-Z][A-Za-z0-9₀-₉']*", n) is not None


def is_kebab(n):
    return re.fullmatch(r"[a-zA-Z0-9₀-₉_']+(-[a-zA-Z0-9₀-₉_']+)+", n) is not None and not n[0].isupper()


def snake(n):
    parts = []
    for part in n.split("-"):
        if not part[:1].isupper():
            part = re.sub(r"(?<=[a-z0-9₀-₉])([A-Z])", lambda m: "_" + m[1].lower(), part)
            part = re.sub(r"(?<=[A-Z])([A-Z])(?![a-z])", lambda m: m[1].lower(), part)
        parts.append(part)
    out = parts[0]
    for a, b in zip(parts, parts[1:]):
        # a fact or a type keeps its capital and its dash
        out += ("-" if b[:1].isupper() or a[:1].isupper() else "_") + b
    return out


def declared(root):
    """Each name that is to change, with the files that declare it; and every other name, with its files."""
    change, others = collections.defaultdict(set), collections.defaultdict(set)
    for p in files(root, ".antt"):
        for line in read(p).splitlines():
            m = DECL.match(line)
            if not m or line.lstrip().startswith("--"):
                continue
            n = m[2]
            if p.endswith("Proof.antt") and (GOAL.search(line) or re.search(r"-spec$", n)):
                continue
            (change if is_camel(n) or is_kebab(n) else others)[n].add(p)
    return change, others


def table(root):
    change, others = declared(root)
    taken = set(others)
    out = {}
    # a lemma that port.py spelled as a definition is to be spelled
    for n in sorted(n for n in change if is_camel(n) and snake(n) in taken):
        lemma = snake(n)
        taken.discard(lemma)
        out[lemma] = lemma + "_lem"
        taken.add(out[lemma])
    for n in sorted(change, key=lambda n: (not is_camel(n), n)):
        new = snake(n)
        if new in taken:
            new = new + "_lem"
        if new in taken:
            raise SystemExit(f"{n}: {new} is taken")
        taken.add(new)
        out[n] = new
    return out, change, others


def steps(root):
    """Names that Rattle gives the steps of functions, which look like lemmas' names in Proof.antt files."""
    out = set()
    for p in files(root, ".rt"):
        for m in re.finditer(r"\bfn (\w+)", read(p)):
            out.add(m[1].replace("_", "-"))
    return out


def turn_antt(p, text, names, fields):
    made = p.endswith("Proof.antt")
    out = []
    for line in text.splitlines(keepends=True):
        cut = re.search(r"(^|\s)--(?=\s|$|-)", line)
        code, comment = (line[: cut.start()], line[cut.start():]) if cut else (line, "")

        use = re.match(r"\s*(?:pub )?use ", code)

        def one(m):
            n = m[0]
            if n not in names:
                return n
            before = code[: m.start()]
            if use and code[m.end():m.end() + 1] == ".":
                return n
            if made and before.endswith(".") and n not in fields and not use:
                return n
            return names[n]

        code = TOKEN.sub(one, code)
        comment = re.sub(r"`[^`]*`", lambda m: TOKEN.sub(lambda k: names.get(k[0], k[0]), m[0]), comment)
        comment = TOKEN.sub(lambda k: names[k[0]] if k[0] in names and is_camel(k[0]) else k[0], comment)
        out.append(code + comment)
    return "".join(out)


def turn_rt(text, names):
    out = []
    for line in text.splitlines(keepends=True):
        cut = re.search(r"(?<!:)//", line)
        code, comment = (line[: cut.start()], line[cut.start():]) if cut else (line, "")
        pieces = re.split(r'("(?:[^"\\]|\\.)*")', code)
        for i in range(0, len(pieces), 2):
            pieces[i] = TOKEN.sub(lambda m: names.get(m[0], m[0]), pieces[i])
        comment = re.sub(r"`[^`]*`", lambda m: TOKEN.sub(lambda k: names.get(k[0], k[0]), m[0]), comment)
        comment = TOKEN.sub(lambda k: names[k[0]] if k[0] in names and is_camel(k[0]) else k[0], comment)
        out.append("".join(pieces) + comment)
    return "".join(out)


def main(argv):
    listing = "--list" in argv
    argv = [a for a in argv if a != "--list"]
    root = argv[0] if argv else "."
    names, change, others = table(root)
    fields = {n for n in change if any("/specs/" in p for p in change[n])} - steps(root)
    if listing:
        for n in names:
            print(n, names[n])
        return
    for p in list(files(root, ".antt")):
        t = read(p)
        u = turn_antt(p, t, names, fields)
        if u != t:
            with open(p, "w", encoding="utf-8") as f:
                f.write(u)
    # src/ names no lemma
    names = {n: new for n, new in names.items() if is_camel(n) or is_kebab(n)}
    for p in list(files(root, ".rt")):
        t = read(p)
        u = turn_rt(t, names)
        if u != t:
            with open(p, "w", encoding="utf-8") as f:
                f.write(u)


main(sys.argv[1:])
