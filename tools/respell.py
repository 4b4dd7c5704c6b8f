#!/usr/bin/env python3
"""Respells the repository's own names of specs/ and proofs/: words in snake case, as PORTING.md's part 3 has it.

usage: python3 tools/respell.py [FOLDER]      (once, after port.py; FOLDER has crates/, and is the one above this script's if none is given)

A name counts as the repository's own where a file of specs/ or proofs/ declares it: at the left of a ':', as a record's field, or by a 'let'.
Names of the library, names that Rattle makes of a source (behind a '.'), names of src/, strings and types keep their spelling. Where a lemma
and a definition would fall together, the lemma gets '_law' behind it. In must-fail/ edits the same names are respelled.
"""

import collections
import os
import re
import sys

ROOT = os.path.abspath(sys.argv[1] if len(sys.argv) > 1 else os.path.join(os.path.dirname(os.path.abspath(__file__)), ".."))
WORD = re.compile(r"[^\s(){}\[\].,;:λ→=≡×+*/<>≤≥∷⊎↔¬∙∧∨∀∃⊢⟨⟩←↦|\"'`!#&@?\\◌]+'*")
DECLARED = re.compile(r"^\s*(?:(?:pub|abbrev|unfoldable)\s+)*((?:[\w-]+'*\s+)*[\w-]+'*)\s+:(?:\s|$)")
TYPE = re.compile(r"^\s*(?:pub\s+)?(?:record|data)\s+([\w-]+'*)")
LET = re.compile(r"(?:^|[\s(])let\s+([\w-]+'*)\s*(?::\s|=)")
USE = re.compile(r"^\s*(?:pub\s+)?(?:ghost\s+)?use\s+([^\s{;]+?)(?:\.\{([^}]*)\}|(?:\s+as\s+([\w-]+)))?;?\s*$")
MADE = re.compile(r"\.proofs\.(?:\+?\w+\.)*\+?\w+\.(?:Goals|Given|Tie|Reads|Lts|Statement)\b")
KEYWORDS = {"pub", "abbrev", "unfoldable", "record", "data", "where", "mod", "use", "let", "in"}


def snake(name):
    """A name as Rattle's own are spelled: a type's words in camel case, another's in snake case."""
    if name[0].isupper() and not re.fullmatch(r"[A-Z0-9'-]+", name):
        return "".join(p[:1].upper() + p[1:] for p in name.split("-"))
    name = name.replace("-", "_")
    return re.sub(r"(?<=[a-z0-9])([A-Z])", lambda m: "_" + m.group(1).lower(), name)


def antt_files():
    for folder, dirs, files in os.walk(os.path.join(ROOT, "crates")):
        dirs[:] = sorted(d for d in dirs if d not in ("out", ".git"))
        for f in sorted(files):
            if f.endswith(".antt"):
                yield os.path.join(folder, f)


def read(path):
    with open(path, encoding="utf-8") as f:
        return f.read()


def code_of(line):
    """The line without its comment."""
    at = line.find("-- ") if not line.lstrip().startswith("--") else 0
    return line[:at] if at >= 0 else line


def own_names(texts):
    """The names that files declare, with whether a declaration at a line's begin in specs/ has it; and the fields of records."""
    names, fields, in_specs = set(), set(), set()
    for path, text in texts.items():
        body = None
        for line in text.split("\n"):
            code = code_of(line)
            m = DECLARED.match(code)
            if body is not None and code.strip() and len(code) - len(code.lstrip()) <= body:
                body = None
            if m:
                for n in m.group(1).split():
                    if n in KEYWORDS or re.match("(invariant|decreases)-", n):
                        continue
                    names.add(n)
                    if body is not None:
                        fields.add(n)
                    if "/specs/" in path and not line.startswith(" "):
                        in_specs.add(n)
            if re.match(r"\s*(pub\s+)?record\s+\S+.*where\s*$", code):
                body = len(code) - len(code.lstrip())
            names.update(LET.findall(code))
            names.update(TYPE.findall(code))
    return names, fields, in_specs


def imports(text):
    """What a file brings in from elsewhere than the repository, and the words that stand for modules in it."""
    foreign, modules = set(), set()
    for line in text.split("\n"):
        m = USE.match(line)
        if not m:
            continue
        path, items, alias = m.groups()
        own = path.startswith("Rattle.") and path.split(".")[1] in CRATES and not MADE.search(path + ".")
        if alias:
            (modules if own else foreign).add(alias)
        for it in (items or "").split(","):
            words = it.split()
            if words and not own:
                foreign.add(words[-1])
            if len(words) == 3 and not own:
                foreign.add(words[0])
    return foreign, modules


def turned(text, new, fields, foreign, modules, rust):
    """The text with each own name respelled."""
    out = []
    for line in text.split("\n"):
        pieces = re.split(r"(\"(?:[^\"\\]|\\.)*\"|b?'(?:[^'\\]|\\.)')", line) if rust else [line]
        for i, piece in enumerate(pieces):
            if i % 2 == 0:
                comment = rust and "//" in "".join(pieces[:i]) + piece.split("//")[0] + ("//" if piece.lstrip().startswith("//") else "")

                def one(m, piece=piece, comment=comment):
                    w = m.group(0)
                    if w not in new:
                        return w
                    if comment and "-" in w and not w.isupper():
                        return w
                    before = piece[:m.start()]
                    if before.endswith("."):
                        chain = re.search(r"([\w'-]+)((?:\.[\w'+-]+)*)\.$", before)
                        head = chain.group(1) if chain else ""
                        if head == "Rattle":
                            if MADE.search(chain.group(0)):
                                return w
                        elif not (head in modules and not chain.group(2)) and w not in fields:
                            return w
                    elif w in foreign:
                        return w
                    return new[w]

                pieces[i] = WORD.sub(one, piece)
        out.append("".join(pieces))
    return "\n".join(out)


CRATES = {c for c in os.listdir(os.path.join(ROOT, "crates"))}


def main():
    texts = {p: read(p) for p in antt_files()}
    names, fields, in_specs = own_names(texts)
    new, taken = {}, collections.defaultdict(list)
    for n in sorted(names):
        taken[snake(n)].append(n)
    for to, olds in sorted(taken.items()):
        keep = max(olds, key=lambda n: (n in in_specs, bool(re.search("[a-z0-9][A-Z]", n)), n == to))
        for n in olds:
            name = to if n == keep else to + "_law"
            if n != keep:
                print(f"falls together: {' '.join(olds)}: {n} becomes {name}")
            if name != n:
                new[n] = name
    for p, text in texts.items():
        foreign, modules = imports(text)
        then = turned(text, new, fields, foreign, modules, False)
        words = set(WORD.findall(text))
        for w in words & set(new):
            if new[w] in foreign and w not in foreign:
                print(f"meets the library's: {os.path.relpath(p, ROOT)}: {w} becomes {new[w]}")
            elif new[w] in words and new[w] not in names:
                print(f"meets a local name: {os.path.relpath(p, ROOT)}: {w} becomes {new[w]}")
        if then != text:
            with open(p, "w", encoding="utf-8") as f:
                f.write(then)
    for folder, dirs, files in os.walk(os.path.join(ROOT, "crates")):
        dirs[:] = sorted(d for d in dirs if d not in ("out", ".git"))
        for f in sorted(files):
            p = os.path.join(folder, f)
            if f.endswith(".rt") or f.endswith(".edit"):
                text = read(p)
                foreign, modules = imports(text) if f.endswith(".rt") else (set(), set())
                then = turned(text, new, fields, foreign, modules, True)
                if then != text:
                    with open(p, "w", encoding="utf-8") as g:
                        g.write(then)
    print(f"{len(new)} names of {len(names)}")


if __name__ == "__main__":
    main()
