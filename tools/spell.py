#!/usr/bin/env python3
"""Spells the repository's own names of specs/ and proofs/ as today's Rattle does: words in snake case, where they were in camel case.

usage: python3 tools/spell.py        at the top of the repository, after port.py, once

A name is turned wherever it stands in a clause, a definition, a proof, a comment or a must-fail edit of crates/. Parts that a dash
joins are turned one by one: `allAt-append` is `all_at-append`. Names of Rust (src/) have no camel case and stay. A definition may
have its function's name; a lemma that would have its definition's gets `_lem`. Where two definitions or lemmas of one file would fall
together, both are told, and nothing is written.
"""
import os
import re

TOKEN = re.compile(r"[^\s(){}\[\],;.\u03bb«»\"`⟨⟩|:]+")
CAMEL = re.compile(r"^[a-z][a-z0-9]*[A-Z]")
# A definition that is a word and no lemma, with a dash in it.
DEFINED = re.compile(r"^\s*(?:abbrev|unfoldable) (?:pub )?([a-z]\w*(?:-\w+)+) :", re.M)
# Another spelling than the rule's: names that port.py turned inside other names, or that would fall together with another.
GIVEN = {"getD-all": "get_or-all"}
# Lemmas that would have their definition's name.
LEMMAS = ("effect_words", "term_words", "own_behind", "line_word")
NOT_IN = ("checking/proofs/line_at/", "checking/proofs/line_passes/", "checking/proofs/fits/")


def snake(word):
    return re.sub(r"(?<=[a-z0-9])([A-Z])", lambda m: "_" + m.group(1).lower(), word)


def spelled(token):
    if token in GIVEN:
        return GIVEN[token]
    parts = token.split("-")
    return "-".join(snake(p) if CAMEL.match(p) else p for p in parts)


def lemmas(path, text):
    if path.endswith(".antt") and not any(n in path for n in NOT_IN):
        for name in LEMMAS:
            text = re.sub(r"(?<![\w.`:/-])" + name + r"(?![\w.`-])", name + "_lem", text)
    return text


def files():
    for folder, dirs, names in os.walk("crates"):
        dirs[:] = sorted(d for d in dirs if d != "out")
        for n in sorted(names):
            if n.endswith((".antt", ".rt", ".edit")):
                yield os.path.join(folder, n)


def main():
    tokens, texts = {}, {}
    for p in files():
        with open(p, encoding="utf-8") as f:
            texts[p] = lemmas(p, f.read())
        for t in TOKEN.findall(texts[p]):
            tokens.setdefault(t, p)
    words = {m.group(1) for p, text in texts.items() if "/specs/" in p for m in DEFINED.finditer(text)}
    turned = {t: spelled(t) for t in tokens if any(CAMEL.match(part) for part in t.split("-"))}
    taken = set(tokens) | set(turned.values())
    turned |= {t: snake(t).replace("-", "_") for t in words if t.replace("-", "_") not in taken}
    together = []
    for p, text in texts.items():
        if p.endswith(".antt"):
            free = re.sub(r"--.*|Rattle\.[\w.'+-]+", " ", text)
            here = {m.group(0) for m in TOKEN.finditer(free) if not (m.start() and free[m.start() - 1] == ".")}
            together += [(t, s) for t, s in turned.items() if t in here and s in here]
    news = {}
    for t, s in turned.items():
        news.setdefault(s, []).append(t)
    together += [(a, s) for s, ts in news.items() if len(ts) > 1 for a in ts]
    if together:
        for t, s in sorted(set(together)):
            print(f"{t} would fall together with {s}")
        return 1
    for p, text in texts.items():
        new = TOKEN.sub(lambda m: turned.get(m.group(0), m.group(0)), text)
        with open(p, encoding="utf-8") as f:
            old = f.read()
        if new != old:
            with open(p, "w", encoding="utf-8") as f:
                f.write(new)
    print(f"{len(turned)} names turned")
    return 0


if __name__ == "__main__":
    raise SystemExit(main())
