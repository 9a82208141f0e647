#!/usr/bin/env python3
"""Spells the definitions and lemmas of this repository anew, by respelled.tsv beside this file.

usage: python3 tools/respell_names.py    at the top, once, behind the toolchain's own script for older repositories

A row of the table is an old name, a tab and the new one: words in snake case, types in upper camel case. A lemma that would
have its function's name gets _lem. What turns, as whole words that stand behind no dot:
  crates/*/specs and crates/*/proofs   all
  crates/*/src                         names in camel case, which no item of the program has; names with a dash in `ghost use`
                                       lines and in clauses alone
  README.md, docs/*.md                 names in code spans, but for names with a dash in lower case
Strings, inputs, outputs and edits stay.
"""

import os
import re

HERE = os.path.dirname(os.path.realpath(__file__))
TOP = os.path.dirname(HERE)
WORD = re.compile(r'(?<![^\s(){};,@"«»])[^\s(){}.;,@"«»]+')
# Two lemmas whose names functions have too: they turn in the proofs of these crates alone.
LEMMAS = {"node_at": ("graphs", "graph_reader", "graph_writer", "walker"), "row_count": ("graph_reader", "graph_writer")}

with open(os.path.join(HERE, "respelled.tsv"), encoding="utf-8") as rows:
    TABLE = dict(row.rstrip("\n").split("\t") for row in rows)


def turned(text, crate=None):
    def word(m):
        w = m[0]
        if w in LEMMAS and crate not in LEMMAS[w]:
            return w
        return TABLE.get(w, w)

    return WORD.sub(word, text)


def antt(text, crate, proofs):
    return turned(text, crate if proofs else None)


def rust(text):
    """Clauses and ghost lines turn whole; elsewhere, in comments, names in camel case alone."""
    camel = {k: v for k, v in TABLE.items() if "-" not in k and k not in LEMMAS}
    dashed = {k: v for k, v in TABLE.items() if "-" in k}
    text = re.sub(r"(?<![\w.\"])[a-z]\w*(?![\w\"])", lambda m: camel.get(m[0], m[0]), text)
    ghost = re.compile(r"ghost use[^;]*;|ghost \w+\s*[:=]\s*\{[^\n]*\}|(?:requires|ensures)\*?\s*\w*\s*\{[^\n]*\}")
    return ghost.sub(lambda m: WORD.sub(lambda w: dashed.get(w[0], w[0]), m[0]), text)


def page(text):
    def span(m):
        return WORD.sub(lambda w: TABLE[w[0]] if w[0] in TABLE and ("-" not in w[0] or w[0][0].isupper()) and w[0] not in LEMMAS else w[0], m[0])

    return re.sub(r"`[^`\n]+`", span, text)


def main():
    for folder, folders, files in os.walk(os.path.join(TOP, "crates")):
        folders[:] = [f for f in folders if f not in ("out", "must-fail", "data")]
        parts = os.path.relpath(folder, TOP).split(os.sep)
        for name in files:
            path = os.path.join(folder, name)
            if name.endswith(".antt"):
                change(path, lambda t: antt(t, parts[1], parts[2] == "proofs"))
            elif name.endswith(".rt"):
                change(path, rust)
    for path in [os.path.join(TOP, "README.md")] + [os.path.join(TOP, "docs", f) for f in sorted(os.listdir(os.path.join(TOP, "docs"))) if f.endswith(".md")]:
        change(path, page)


def change(path, how):
    with open(path, encoding="utf-8") as f:
        old = f.read()
    new = how(old)
    if new != old:
        with open(path, "w", encoding="utf-8") as f:
            f.write(new)


main()
