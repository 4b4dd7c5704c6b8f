#!/usr/bin/env python3
"""Counts the places in src/ that an older form of Rattle left, point by point.

    python3 tools/places.py [--list]

Each rule reads the text alone: what it finds is a place to look at, not a fault.
"""
import collections
import glob
import itertools
import re
import sys

LIST = "--list" in sys.argv[1:]


def sources():
    for path in sorted(glob.glob("crates/*/src/**/*.rt", recursive=True)):
        yield path.split("/")[1], open(path, encoding="utf-8").read()


def functions(text):
    """Each function: its comment, name, head (parameters and contract) and body, by the layout that rt fmt gives."""
    lines = text.split("\n")
    i = 0
    while i < len(lines):
        start = re.match(r"( *)(?:pub )?(?:extern \"C\" )?fn (\w+)", lines[i])
        if not start:
            i += 1
            continue
        indent, name = start.groups()
        doc = []
        k = i - 1
        while k >= 0 and re.match(r" *(//|#\[)", lines[k]):
            doc.insert(0, lines[k])
            k -= 1
        j = i
        while j < len(lines) and lines[j] != indent + "{" and not lines[j].endswith(" {") and not lines[j].endswith(";"):
            j += 1
        head = "\n".join(lines[i:j + 1])
        end = j
        while end < len(lines) and lines[end] != indent + "}":
            end += 1
        yield "\n".join(doc), name, head, "\n".join(lines[j + 1:end])
        i = end + 1


def enums(text):
    for m in re.finditer(r"^(?:pub )?enum (\w+) \{\n(.*?)^\}", text, re.M | re.S):
        cases = re.findall(r"^    (\w+)(.*?)(?:,$|\{$)", m.group(2), re.M)
        yield m.group(1), cases


found = collections.OrderedDict((point, []) for point in (
    "1 enums of the shape of Option or Result", "1 numbers that stand for none", "1 numbers for refusals",
    "2 functions alike but for names and constants", "2 types alike but for names and types",
    "3 loops that count by hand", "3 loops that step by hand",
    "4 library work by hand", "5 facts in three or more contracts", "5 parameters that travel together",
    "6 buffers with a place or a count beside", "7 switches on which step to run"))

NONE = re.compile(r"^(No[A-Z]\w*|Nothing|Unknown|Refused|Failed|NotYet|NotSuch|Short|Outside|Beyond|Wrong|TooLong|Kept|Yes)$")
SENTINEL = re.compile(r"\b(or|and) (0|sixteen|`NO_\w+`|`NONE`|`NO_PAIR`)(,| where| for|\.| of)|\bor the length where there is none")
SHAPES = collections.defaultdict(list)
TYPES = collections.defaultdict(list)

for crate, text in sources():
    for name, cases in enums(text):
        payload = [c for c in cases if c[1].strip() not in ("", ",")]
        names = [c[0] for c in cases]
        if (len(cases) == 2 and payload) or (len(cases) < 8 and any(NONE.match(n) for n in names)):
            found["1 enums of the shape of Option or Result"].append(f"{crate}::{name}")
    for m in re.finditer(r"^(?:pub )?struct (\w+) \{\n(.*?)^\}", text, re.M | re.S):
        fields = re.findall(r"^    (?:pub )?(\w+): ([^,]*),$", m.group(2), re.M)
        if len(fields) > 1:
            TYPES[tuple(f for f, _ in fields)].append(f"{crate}::{m.group(1)}")
        kinds = [t for _, t in fields]
        if any(re.match(r"\[", t) for t in kinds) and "usize" in kinds:
            found["6 buffers with a place or a count beside"].append(f"{crate}::{m.group(1)}")
        if any(re.match(r"class0$", f) for f, _ in fields):
            found["6 buffers with a place or a count beside"].append(f"{crate}::{m.group(1)} (a field for each class)")
        for f, t in fields:
            if t == "u8" and f in ("why", "refusal"):
                found["1 numbers for refusals"].append(f"{crate}::{m.group(1)}.{f}")
    facts = collections.defaultdict(list)
    groups = collections.defaultdict(list)
    for doc, name, head, body in functions(text):
        where = f"{crate}::{name}"
        result = re.search(r"-> (usize|u8|u16|u32|u64)\b", head)
        if result and SENTINEL.search(doc.replace("\n", " ").replace("// ", "")):
            found["1 numbers that stand for none"].append(where)
        if re.search(r"\b(refusal|why): u8\b", head) or (result and name in ("verdict",)):
            found["1 numbers for refusals"].append(where)
        for loop in re.finditer(r"^( *)while ([^\n]*?) \{\n(.*?)^\1\}", body, re.M | re.S):
            if re.search(r"\b(\w+) [+-]= 1;", loop.group(3)) and re.search(r"\b(\w+) [+-]= 1;", loop.group(3)).group(1) in loop.group(2):
                found["3 loops that count by hand"].append(where)
            else:
                found["3 loops that step by hand"].append(where)
        for loop in re.finditer(r"^( *)(?:let \w+ = )?loop \{\n(.*?)^\1\}", body, re.M | re.S):
            found["3 loops that count by hand"].append(where)
        calls = re.findall(r"\b(check::same|lists::lesser|lesser|listeners::same|wide|bit)\(", body)
        found["4 library work by hand"] += [f"{where}: {c}" for c in calls]
        if name in ("same", "lesser", "wide", "bit", "all_zero", "decline_number", "refusal_number", "signed", "unsigned", "joined", "split"):
            found["4 library work by hand"].append(where)
        params = re.findall(r"\b(\w+): (&mut \[u8\]|&\[u8\]|[\w:]+)", head.split(")")[0])
        flat = [f"{n}: {t}" for n, t in params]
        if "out: &mut [u8]" in flat and "at: usize" in flat:
            found["6 buffers with a place or a count beside"].append(where)
        for three in itertools.combinations(sorted(set(flat)), 3):
            groups[three].append(where)
        for clause in re.findall(r"^ *requires (?:\w+ )?\{ (.*?) \}$", head, re.M | re.S):
            for fact in re.split(r" × ", re.sub(r"[()]", "", clause)):
                facts[re.sub(r"\.(old|now)\b", "", fact.strip())].append(where)
        if re.search(r"^ *match (job|told|way) \{", body, re.M) or re.search(r"^    heard: bool,$", head, re.M):
            found["7 switches on which step to run"].append(where)
        shape = re.sub(r"b?\"[^\"]*\"|\b\d\w*\b", "#", body)
        shape = re.sub(r"\b(?!if\b|else\b|while\b|return\b|match\b|let\b|mut\b|loop\b|break\b)[A-Za-z_]\w*(::\w+)*", "x", shape)
        if shape.count("\n") >= 2:
            SHAPES[shape].append(where)
    for fact, places in facts.items():
        if len(set(places)) >= 3:
            found["5 facts in three or more contracts"].append(f"{crate}: {fact} ({len(set(places))})")
    travel = collections.defaultdict(set)
    for three, places in groups.items():
        if len(places) >= 4:
            travel[tuple(sorted(set(places)))] |= set(three)
    for places, names in travel.items():
        found["5 parameters that travel together"].append(f"{crate}: {', '.join(sorted(names))} ({len(places)})")

for places in SHAPES.values():
    if len(places) > 1:
        found["2 functions alike but for names and constants"].append(" ".join(places))
for fields, places in TYPES.items():
    if len(places) > 1:
        found["2 types alike but for names and types"].append(" ".join(places))

for point, places in found.items():
    print(f"{len(places):4}  {point}")
    if LIST:
        for place in places:
            print(f"          {place}")
