#!/usr/bin/env python3
"""Counts the places that docs/DESIGN-PASS.md speaks of, in the sources of a checkout.

usage: tools/design-counts.py [--list] [CHECKOUT]

With --list each place is printed before its point's count. The counts are by patterns of the text: they find where to look, and a place that
one of them names may be as it should be.
"""
import collections
import glob
import os
import re
import sys

words = [w for w in sys.argv[1:] if w != "--list"]
listed = "--list" in sys.argv[1:]
top = words[0] if words else os.path.join(os.path.dirname(os.path.abspath(__file__)), "..")


def crate(path):
    return path.split("/crates/")[1].split("/")[0]


sources = {p: open(p, encoding="utf-8").read() for p in sorted(glob.glob(top + "/crates/*/src/**/*.rt", recursive=True))}
answers = {p: open(p, encoding="utf-8").read() for p in sorted(glob.glob(top + "/crates/*/proofs/**/Answers.antt", recursive=True))}


def plain(text):
    return re.sub(r"//[^\n]*", "", text)


def functions(text):
    for m in re.finditer(r"^ *(?:pub )?(?:extern \"C\" )?fn (\w+)(.*?)^( *)\}", text, re.M | re.S):
        head, _, body = m.group(2).partition("\n{\n") if "\n{\n" in m.group(2) else m.group(2).partition("{\n")
        yield m.group(1), head, body


def point(name, places):
    if listed:
        for p in places:
            print("   ", p)
    print("%s: %d" % (name, len(places)))


own, numbers, pairs, literals, loops, counted, maps, arrays, parallel, steps, lone = ([] for _ in range(11))
twins = collections.defaultdict(list)
facts = collections.defaultdict(set)
together = collections.defaultdict(set)
for path, text in sources.items():
    c, code = crate(path), plain(text)
    for m in re.finditer(r"enum (\w+) \{(.*?)\n\}", code, re.S):
        variants = [v.strip() for v in m.group(2).strip().split("\n") if v.strip()]
        if 1 < len(variants) <= 3 and any("(" in v for v in variants):
            own.append("%s::%s" % (c, m.group(1)))
    if c == "answer":
        numbers += ["answer::" + n for n in re.findall(r"^pub const (\w+): u32", code, re.M)]
    pairs += ["%s: %s" % (c, m) for m in re.findall(r"\(number, place\)|number: u32, place: \w+", code)]
    literals += ["%s: %s" % (c, m) for m in re.findall(r"number: [A-Z]+,", code)]
    for name, head, body in functions(code):
        where = "%s::%s" % (c, name)
        for v in re.findall(r"^ *while (.*) \{", body, re.M):
            loops.append("%s: while %s" % (where, v))
            if any(re.search(r"\b%s [+-]= 1;" % w, body) for w in re.findall(r"\b[a-z]\w*\b", v)):
                counted.append("%s: while %s" % (where, v))
        arms = re.findall(r"^ {8}([A-Z]\w+::\w+(?:\([^)]*\))?) => (.*),$", body, re.M)
        if re.match(r" *match \w+ \{\n(?: {8}.* => [\w:]+(?:\([^()]*\))?,\n)+ {4}\}\n$", body) and arms:
            maps.append(where)
        if re.search(r"^ {4}match (kind|table|edit|work|state|side|step)\b", body, re.M) and not (maps and maps[-1] == where):
            steps.append(where)
        arrays += ["%s: %s" % (where, a) for a in re.findall(r"= (\[0\w*; \w+\])", body)]
        shape = re.sub(r"\b\d[\w]*\b", "N", re.sub(r"\b(u8|u16|u32|u64|usize)\b", "T", re.sub(r"\b[A-Z][A-Z_0-9]+\b", "C", re.sub(r"_u\d+\b|_\d+\b", "", body))))
        shape = re.sub(r"::[A-Z]\w+", "::V", shape)
        if shape.count("\n") > 1 and not re.match(r" *\w+::\w+\([^{}]*\)\n$", body):
            twins[re.sub(r"\s+", " ", shape)].append(where)
        for clause in re.findall(r"requires (?:\w+ )?\{ (.*) \}", head):
            for fact in clause.split(" × "):
                facts[c, fact.strip().strip("()")].add(name)
        parameters = re.search(r"\((.*?)\)(?: ->|\n|$)", head, re.S)
        names = [re.sub(r"\s+", " ", a.strip()) for a in parameters.group(1).split(",")] if parameters else []
        for a, b in zip(names, names[1:]):
            if a and b and "self" not in a:
                together[c, a + ", " + b].add(name)
        slices = re.findall(r"(\w+): &(?:mut )?\[(\w+)\]", head)
        if len([s for s in slices if s[0] in ("keys", "ids", "order", "spare", "held")]) > 1:
            parallel.append(where)
    for m in re.finditer(r"#\[derive\(Clone, Copy\)\]\n(?:pub )?(?:struct|enum) (\w+)", code):
        lone.append("%s::%s" % (c, m.group(1)))

repeated = []
for path, text in answers.items():
    for line, n in collections.Counter(l.strip() for l in text.split("\n") if l.strip().startswith("let ") and len(l) > 60).items():
        if n > 2:
            repeated.append("%s, %d times: %s" % (path.split("/crates/")[1], n, line[:80]))

point("1 own enums of two or three variants, one of which carries a value", own)
point("1 constants that are refusals", numbers)
point("1 a number and a place handed on as two values", pairs)
point("1 answers written out with a number by its constant", literals)
point("2 functions that differ from another in types, sizes or constants alone", [f for group in twins.values() if len(group) > 1 for f in group])
point("3 while loops", loops)
point("3 while loops that count by hand", counted)
point("4 functions that only give a value for each variant", maps)
point("4 types that derive nothing but Clone and Copy", lone)
point("5 facts asked by three or more functions of a crate", ["%s: %s (%d)" % (k[0], k[1], len(v)) for k, v in facts.items() if len(v) > 2])
point("5 neighbouring parameters of three or more functions of a crate", ["%s: %s (%d)" % (k[0], k[1], len(v)) for k, v in together.items() if len(v) > 2])
point("6 arrays of a fixed length", arrays)
point("6 functions over two arrays that go together", parallel)
point("7 functions that choose a step by a kind", steps)
point("8 answers", [0 for t in answers.values() for _ in re.findall(r"^pub \S+ : goal\.", t, re.M)] if not listed else [])
point("8 lines that an answer file has three times or more", repeated)
