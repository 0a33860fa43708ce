#!/usr/bin/env python3
"""What tools/respell.py named badly: constructors that got a lemma's `_lem`. Run once, after it; later proofs are in the new form already."""
import os
import re


def texts():
    for folder, _, names in os.walk("crates"):
        if "/out" in folder:
            continue
        for n in sorted(names):
            if n.endswith((".antt", ".rt")):
                p = os.path.join(folder, n)
                with open(p, encoding="utf-8") as f:
                    yield p, f.read()


def renamed(text, old, new):
    return re.sub(r"(?<![\w'-])" + old + r"(?![\w'-])", new, text)


for p, t in list(texts()):
    u = t
    if p.endswith("back/specs/laws/Category.antt"):
        u = renamed(renamed(u, "unless_false", "unless_false_bytes"), "make_cont", "make_cont_bytes")
    if p.endswith(".antt") and (p.endswith("basic_program/specs/laws/Spots.antt") or "specs.laws.Spots.{" in u):
        for n in ("plain", "branch", "save", "return", "call"):
            u = renamed(u, n + "_t", n + "_twin")
    for n in ("unless_false", "make_cont", "plain_t", "branch_t", "save_t", "closed_arms", "open_arms", "too_large", "many_entries"):
        u = renamed(u, n + "_lem", n)
    if u != t:
        with open(p, "w", encoding="utf-8") as f:
            f.write(u)
