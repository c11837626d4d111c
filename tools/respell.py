#!/usr/bin/env python3
"""Brings this repository's own definitions, fields, constructors and lemmas to snake case: `refusalOf` and `refusal-of` are `refusal_of`.

usage: tools/respell.py [--dry]      at the top of the repository, once, after port.py

Types and modules keep their names, and so do functions of src/, exported names, strings, inputs and outputs. Names of the library are left
alone. The names are read off the signatures in specs/ and proofs/; the same change is made in clauses, in must-fail edits and, between
backticks, in the pages. Two names that would fall together stop it, and nothing is written.
"""
import glob
import re
import sys

# Names that cannot be what the rule makes of them: a built-in word, or a name that stands already.
OTHER = {
    "first_of": "first_applying",  # a tactic of antt
    "earlyStall": "early_stall_place",  # a field has the name
    "in_one": "in_one_lem",  # laws, beside the definitions inOne and inLines
    "in_lines": "in_lines_lem",
}

ATOM = re.compile(r"[^\s(){}\[\],;.⟨⟩:«»`|\"]+")
SIGNATURE = re.compile(r"\s*(?:pub |abbrev |unfoldable )*((?:[^\s(){}\[\],;.:]+\s+)*[^\s(){}\[\],;.:]+)\s*:(?:\s|$)")
WORDS = {"pub", "abbrev", "unfoldable", "data", "record", "let", "infix", "module", "where", "use"}


def snake(name):
    name = re.sub(r"(?<=[a-z0-9])(?=[A-Z])", "_", name)
    return name.replace("-", "_").lower()


def files(*patterns):
    found = []
    for p in patterns:
        found += glob.glob(p, recursive=True)
    return sorted(f for f in found if "/out/" not in f and "/target/" not in f)


def read(path):
    with open(path, encoding="utf-8") as f:
        return f.read()


def declared(laws):
    names = set()
    for path in laws:
        for line in read(path).split("\n"):
            m = SIGNATURE.match(line)
            if m and not line.lstrip().startswith(("--", "use ", "(")):
                names |= set(m.group(1).split()) - WORDS
    return names


def library(texts):
    names = set()
    for t in texts:
        for m in re.finditer(r"use (?:Rattle\.std|borrow|Prim|native|mathlib|lib|core|logic)[\w.]*\.\{([^}]*)\}", t):
            for item in m.group(1).split(","):
                names |= set(item.split())
    return names


def main():
    antt = files("crates/*/specs/**/*.antt", "crates/*/proofs/**/*.antt")
    rt = files("crates/*/src/**/*.rt")
    edits = files("crates/*/must-fail/*.edit")
    pages = files("README.md", "docs/**/*.md")
    laws = [p for p in antt if not p.endswith("/Proof.antt")]
    texts = {p: read(p) for p in antt + rt + edits + pages}
    own = declared(laws)
    kept = library(texts[p] for p in antt)
    change = {}
    defined = {snake(n) for n in own if "-" not in n}
    for n in own:
        if n in kept or "◌" in n or n[0].isupper() or not re.search(r"[a-z0-9]", n):
            continue
        to = OTHER.get(n) or snake(n)
        if "-" in n and to in defined:
            to += "_lem"  # a law that would have its definition's name
        if to != n:
            change[n] = to
    # names that fall together in a file: a new one that stands there already, or two that become one
    together = []
    for p in antt + rt:
        atoms = set(ATOM.findall(texts[p]))
        becomes = {}
        for a in atoms:
            becomes.setdefault(change.get(a, a), []).append(a)
        together += [(p, to, sorted(ns)) for to, ns in becomes.items() if len(ns) > 1]
    for p, to, ns in together:
        print("together:", p, to, ns)
    if "--dry" in sys.argv or together and "--force" not in sys.argv:
        print(len(change), "names")
        return 1

    def turn(text):
        return ATOM.sub(lambda m: change.get(m.group(0), m.group(0)), text)

    # port.py turns no edit: what it did to the files, in an edit's lines
    done = {n: snake(n) for p in edits for n in ATOM.findall(texts[p]) if n not in change and re.match(r"[a-z]+[A-Z]", n) and snake(n) in own}
    done |= {"getD": "get_or"}

    def spelt(line):
        line = ATOM.sub(lambda m: change.get(done.get(m.group(0), m.group(0)), done.get(m.group(0), change.get(m.group(0), m.group(0)))), line)
        line = re.sub(r"(?<=[\w)])[ ]\.(?=[a-z«])", ".", line)
        line = re.sub(r"(?<![\w.])\((\w+(?:\.[\w«»]+)+)\)", r"\1", line)
        return re.sub(r"\{ λ r\. ⌜ (.*) ⌝ \}", lambda m: "{ " + re.sub(r"\br\b", "result", m.group(1)) + " }", line)

    for p, t in texts.items():
        if p.endswith(".md"):
            new = re.sub(r"`[^`\n]+`", lambda m: turn(m.group(0)), t)
        elif p.endswith(".antt"):
            new = "\n".join(re.sub(r"`[^`]+`", lambda m: turn(m.group(0)), l) if l.lstrip().startswith("--") else turn(l) for l in t.split("\n"))
        elif p.endswith(".rt"):
            new = "\n".join(l if l.lstrip().startswith("//") and "`" not in l else (re.sub(r"`[^`]+`", lambda m: turn(m.group(0)), l) if l.lstrip().startswith("//") else turn(l)) for l in t.split("\n"))
        else:
            new = "\n".join(spelt(l) if l.startswith(("old:", "new:")) else l for l in t.split("\n"))
        if new != t:
            with open(p, "w", encoding="utf-8") as f:
                f.write(new)
    print(len(change), "names")
    return 0


if __name__ == "__main__":
    raise SystemExit(main())
