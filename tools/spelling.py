#!/usr/bin/env python3
"""Brings the repository's own names in specs/ and proofs/ to the spelling of today's Rattle: words in snake case, a dash only between two names.

usage: python3 tools/spelling.py [--list]     once, at the top, right behind port.py; --list says what it would turn and changes nothing

Turned are the names that an .antt file of the repository declares: definitions, constructors, fields, laws and answers. Types, modules, the numbers that the source
spells in capitals, and names of Rattle itself keep their spelling. So does a dashed name whose new spelling another name has. They are turned in .antt files, in .rt files
(where such a name stands in clauses and `ghost use` lines alone), in must-fail edits, and in pages between backticks.
"""
import collections
import glob
import re
import sys

PART = r"A-Za-zℕ₀-₉0-9_'′\-"
NAME = re.compile(rf"(?<![{PART}])[a-z][{PART}]*")
# words of the library that stand in names of laws
LIBRARY = set(
    """append length take drop map keep set sort insert inserts reverse flat sum weigh join split cats put get_or concat filter splice cond leb eqb ltb min max
    add sub mul div mod zero suc pow le lt""".split()
)
# whose plain spelling another name has already
CHOSEN = {
    "inOrder": "in_key_order",
    "isKnown": "is_known_section",
    "isList": "is_list_body",
    "leftOver": "left_over_checks",
    "nothingYet": "nothing_so_far",
    "partLength": "length_of_part",
    "segmentAt": "segment_in",
    "withEntries": "with_list",
}
# words of the command `cim` that pages name
COMMANDS = {"add-device", "add-devices", "add-disk", "remove-device", "remove-disk", "replace-device"}
DECLARED = re.compile(r"^\s*(?:(?:pub|abbrev|unfoldable|irreducible)\s+)*([a-z][^\s:(){}=.;,]*)\s*(?:\([^)]*\)\s*|\{[^}]*\}\s*)*:(?=\s)")
DEFINED = re.compile(r"^\s*(?:abbrev|unfoldable)\s+(?:pub\s+)?([A-Za-z][^\s:(]*)|^\s*(?:pub\s+)?(?:record|data)\s+([A-Za-z][^\s:(]*)")
USE = re.compile(r"^\s*(?:ghost |pub )*use\s+([^\s{;]+?)\.?\{([^}]*)\}")


def snake(part):
    return re.sub(r"(?<=[a-z0-9])([A-Z])", lambda m: "_" + m.group(1).lower(), part.replace("getD", "get_or"))


def antt_files():
    return sorted(f for d in ("specs", "proofs") for f in glob.glob(f"crates/*/{d}/**/*.antt", recursive=True))


def rt_files():
    return sorted(glob.glob("crates/*/src/**/*.rt", recursive=True))


def read_names():
    names, words, library = set(), set(), set()
    for f in antt_files() + rt_files():
        for line in open(f):
            if line.lstrip().startswith(("--", "//")):
                continue
            m = USE.match(line)
            if m and not m.group(1).startswith("Rattle.") or m and m.group(1).startswith("Rattle.std"):
                for w in m.group(2).split(","):
                    library.add(w.split(" as ")[0].strip())
            if f.endswith(".antt"):
                m = DECLARED.match(line)
                if m:
                    names.add(m.group(1))
                m = DEFINED.match(line)
                if m and "/specs/" in f:
                    words.add(m.group(1) or m.group(2))
    return names, words, library


def turned(name, known):
    parts = [snake(p) for p in name.split("-")]
    out = parts[0]
    for left, right in zip(parts, parts[1:]):
        out += ("-" if (left in known and right in known) or right.isdigit() else "_") + right
    return out


def table():
    names, words, library = read_names()
    known = {snake(w) for w in words if w[0].islower()} | LIBRARY
    new, olds = {}, collections.defaultdict(list)
    for n in sorted(names - library):
        t = turned(n, known)
        if t != n:
            olds[t].append(n)
    for t, ns in olds.items():
        taken = t in names or t in library
        plain = [n for n in ns if "-" not in n]
        for n in ns:
            if "-" not in n:
                new[n] = CHOSEN.get(n, t)
                if n not in CHOSEN and (taken or len(plain) > 1):
                    sys.exit(f"{n}: another name is spelled {t}: choose one")
            elif not taken and len(ns) == 1:
                new[n] = t
            else:
                # the dash stays, since another name is spelled so
                kept = "-".join(snake(p) for p in n.split("-"))
                if kept != n:
                    new[n] = kept
    return new


def turn(text, new):
    return NAME.sub(lambda m: new.get(m.group(0), m.group(0)), text)


def main():
    new = table()
    if "--list" in sys.argv:
        for n, t in sorted(new.items()):
            print(n, t)
        return
    for f in antt_files() + rt_files() + sorted(glob.glob("crates/*/must-fail/*.edit")):
        old = open(f).read()
        text = turn(old, new)
        if text != old:
            open(f, "w").write(text)
    for f in sorted(glob.glob("README.md") + glob.glob("docs/*.md") + glob.glob("docs/landings/*.md")):
        old = open(f).read()
        text = re.sub(r"`[^`\n]+`", lambda m: turn(m.group(0), {n: t for n, t in new.items() if n not in COMMANDS}), old)
        if text != old:
            open(f, "w").write(text)
    print(len(new), "names turned")


if __name__ == "__main__":
    main()
