#!/usr/bin/env python3
"""The places in crates/*/src that docs/DESIGN-PASS.md counts, point by point, and in crates/*/proofs for the last point.

    python3 tools/places.py            the counts
    python3 tools/places.py -v [N..]   and each place, of the points named

Each count is of candidates: what a pattern finds is a place, or is kept with a reason that the page or a line `// Kept: ..` beside it has."""

import collections
import glob
import re
import sys

TESTS = re.compile(r"^#\[cfg\(test\)\]", re.M)
WORD = re.compile(r"[A-Za-z_][A-Za-z_0-9]*")
TOKEN = re.compile(r"b?\"(?:\\.|[^\"])*\"|b?'(?:\\.|[^'\\])'|'[a-z_]+\b|[A-Za-z_][A-Za-z_0-9]*|[0-9][0-9_]*(?:[a-z][a-z0-9]*)?|\S")
KEPT_WORDS = set("as break const continue else enum false fn for if impl in let loop match mut pub ref return self Self struct true type use while where "
                 "Some None Ok Err Option Result u8 u32 u64 usize bool".split())


class Function:
    """A function: where it stands, its head up to its body, its clauses, and its body."""

    def __init__(self, path, line, name, params, clauses, body):
        self.path, self.line, self.name = path, line, name
        self.params, self.clauses, self.body = params, clauses, body

    def where(self):
        return f"{self.path}:{self.line} {self.name}"


def closing(text, at):
    """Behind the bracket that closes the one at `at`."""
    pairs = {"(": ")", "{": "}", "[": "]"}
    depth, close = 0, pairs[text[at]]
    for i in range(at, len(text)):
        depth += (text[i] == text[at]) - (text[i] == close)
        if depth == 0:
            return i + 1
    return len(text)


def functions(path, text):
    for m in re.finditer(r"^[ ]*(?:pub )?(?:extern \"C\" )?fn ([A-Za-z_0-9]+)(<[^\n(]*>)?\(", text, re.M):
        end = closing(text, m.end() - 1)
        params = [p.strip() for p in re.split(r",\s*(?![^(<\[]*[)>\]])", text[m.end():end - 1]) if p.strip()]
        clauses, at = [], end
        while True:
            c = re.compile(r"\s*(?:->[^\n{]*\n)?\s*(requires|ensures)(?: [a-z_0-9]+)? (?=\{)").match(text, at)
            if not c:
                break
            stop = closing(text, c.end())
            clauses.append((c.group(1), text[c.end() + 1:stop - 1].strip()))
            at = stop
        brace = text.find("{", at)
        if brace < 0 or ";" in text[end:brace].split("\n")[0]:
            continue
        yield Function(path, text.count("\n", 0, m.start()) + 1, m.group(1), params, clauses, text[brace:closing(text, brace)])


def shape(f):
    """The body with each name that is no keyword, and each literal, as one sign: twins have one shape."""
    signs = []
    for t in TOKEN.findall(re.sub(r"//[^\n]*", "", f.body)):
        signs.append("x" if WORD.fullmatch(t) and t not in KEPT_WORDS else "0" if t[0].isdigit() or t[0] in "\"'" or t[:2] in ("b\"", "b'") else t)
    return " ".join(signs)


def facts(clause):
    """The facts of a clause, apart."""
    depth, begin = 0, 0
    for i, c in enumerate(clause):
        depth += (c in "({[") - (c in ")}]")
        if c == "×" and depth == 0:
            yield clause[begin:i].strip()
            begin = i + 1
    yield clause[begin:].strip()


def main():
    loud = "-v" in sys.argv
    asked = {a for a in sys.argv[1:] if a != "-v"}
    found = collections.OrderedDict()

    def place(point, where):
        found.setdefault(point, []).append(where)

    every = []
    for path in sorted(glob.glob("crates/*/src/*.rt")):
        whole = open(path, encoding="utf-8").read()
        text = whole[:m.start()] if (m := TESTS.search(whole)) else whole
        every += functions(path, text)
        lines = text.split("\n")
        for n, line in enumerate(lines, 1):
            code, here = line.split("//")[0], f"{path}:{n} {line.strip()}"
            if re.match(r"\s+(Refused|Failed|Nothing|Accepted|Written|Yes|No)\b(\(.*\))?,$", code):
                place("1a cases of an own Option or Result", here)
            if re.match(r"\s*return 0;$", code):
                place("1b answers 0 early", here)
            if re.search(r"(==|!=|<=?) [1-9][0-9]* \{", code) or re.search(r"if [0-9]+ <=? \w+ \{", code):
                place("1c tests against a number", here)
            if re.match(r"\s*(pub )?(whole|number): ", code):
                place("1d a flag or a number of its own beside a value", here)
            if re.match(r"\s+[a-z_.]+ [+-]= 1;$", code):
                place("3 counted by hand", here)
            if re.search(r"\bas u(8|16|32|64|size)\b", code):
                place("4 conversions by `as`", here)
            if re.search(r"fn (lower|higher|equal|one|both|all[0-9]|cap|loaded|outside|larger|smaller)\b", code):
                place("4 comparing and choosing by hand", here)
            if re.search(r"\[0u?[0-9a-z]*; 1\]", code):
                place("6 an empty slice of an array of one", here)
    for f in every:
        if re.search(r"[0-9]$", f.name):
            place("2 named by a number", f.where())
        names = [p.split(":")[0].strip() for p in f.params]
        for (kind, clause) in f.clauses:
            if kind == "requires":
                for fact in facts(clause):
                    m = re.fullmatch(r"\(?(\w+) ≤ length (\w+)\.now\)?", fact)
                    if m and m.group(1) in names and m.group(2) in names and m.group(1) in ("n", "k", "count", "end"):
                        place("6 a slice with its length", f.where())
    alike = collections.defaultdict(list)
    for f in every:
        if len(s := shape(f)) > 60:
            alike[s].append(f)
    for group in alike.values():
        if len(group) > 1:
            place("2 bodies of one shape", " = ".join(f.where() for f in group))
    told = collections.defaultdict(set)
    for f in every:
        for kind, clause in f.clauses:
            if kind == "requires":
                for fact in facts(clause):
                    head = re.match(r"\(?([A-Z]\w+)\b", fact)
                    if head:
                        told[head.group(1)].add(f.where())
    for head, who in sorted(told.items()):
        if len(who) >= 3:
            place("5 a fact that three functions or more require", f"{head}: {len(who)}")
    takes = collections.defaultdict(set)
    for f in every:
        for p in set(p for p in f.params if ":" in p):
            takes[p].add(f.where())
    for p, who in sorted(takes.items()):
        with_it = sorted(q for q, others in takes.items() if q != p and who <= others)
        if len(who) >= 3 and with_it:
            place("5 a parameter that never comes without others", f"{p} with {', '.join(with_it)}: {len(who)}")
    answers = sorted(glob.glob("crates/*/proofs/**/Answers.antt", recursive=True))
    for path in answers:
        for n, line in enumerate(open(path, encoding="utf-8"), 1):
            if re.match(r"pub \S+ : goal\.", line):
                place("8 answers", f"{path}:{n} {line.strip()}")
    for point, places in sorted(found.items()):
        print(f"{point}: {len(places)}")
        if loud and (not asked or any(point.startswith(a) for a in asked)):
            for p in places:
                print(f"    {p}")
    print(f"functions: {len(every)}; kept by a line beside them: {sum(open(p, encoding='utf-8').read().count('// Kept: ') for p in glob.glob('crates/*/src/*.rt'))}")


main()
