#!/usr/bin/env python3
"""respell.py [--check]: turns the repository's own names of antt to the spelling of today's Rattle, once, after port.py.

Run at the top of the repository. Definitions, fields, constructors and variables that were in lowerCamel are in snake case (`statesOf`: `states_of`).
Of a law whose name has dashes, a dash stays where it joins two names of functions, definitions, fields or constructors (`get-put`), and a
plain word hangs on by `_` (`added_after`); a field's name has no dash. A law that port.py gave a capital because its first word is a type's name too is in small
letters, as the others. A name that would meet another that stands, gets an ending: `_lem` for a law, a word of OTHERS else.
Names of Rust functions, of types and modules, texts in quotes, and what Rattle makes (`c.x`, `tie.x`) stay. Comments, the pages, the edits and the Rust
programs' comments that name the state's fields follow.
With --check nothing is written: the table of names is printed."""

import collections
import glob
import os
import re
import sys

TOP = os.path.realpath(os.path.join(os.path.dirname(os.path.realpath(__file__)), ".."))
CHECK = "--check" in sys.argv
WORD = r"[^\s(){}.;,@\"«»\[\]]+"
MADE = ("c", "w", "l", "tie", "goal")  # heads of what Rattle makes: what stands right behind them keeps its spelling
COMMENT = re.compile(r'(?<![^\s(){}.;,@"«»])--[^\n]*')
DECLARES = re.compile(r"^((?:(?:pub|abbrev|unfoldable|pattern|opaque|axiom) )*)(" + WORD + r")(?: \{[^{}]*\})*\s*(:(?=\s|$).*|$)")
INNER = re.compile(r"^\s+(?:pub )?((?:" + WORD + r" )*" + WORD + r") :(?=\s)")
# Laws whose names port.py spelled so that a definition's would meet them; a field whose namesake is another record's; laws that port.py gave a
# capital; and laws of the list that is `get_or` today.
OTHERS = {
    "above_before": "above_before_lem",
    "cell_in": "cell_in_lem",
    "in_use": "in_use_lem",
    "quantumEnd": "quantum_end",
    "inUse": "in_use",
    "Return-asks": "return_asks",
    "Pushed-none": "pushed_none",
    "Placed-same": "placed_same",
    "Did-then": "did_then",
    "take-Cells": "take-cells",
    "drop-Cells": "drop-cells",
    "get_d_set": "get_or-set",
    "getD-set-kept": "get_or-set_kept",
    "get_d_past": "get_or-past",
}


def read(path):
    with open(path, encoding="utf-8") as f:
        return f.read()


def tree(*patterns):
    found = []
    for p in patterns:
        found += glob.glob(os.path.join(TOP, p), recursive=True)
    return sorted(f for f in found if "/out/" not in f and os.path.isfile(f))


ANTT = tree("crates/*/specs/**/*.antt", "crates/*/proofs/**/*.antt")
RT = tree("crates/*/src/**/*.rt")


def code(text):
    return COMMENT.sub("", text)


def snake(name):
    s = re.sub(r"(?<=[a-z0-9])([A-Z])", lambda m: "_" + m[1].lower(), name)
    return s.replace("′", "'")


def is_camel(name):
    return re.match(r"^[a-z][\w'₀-₉-]*$", name) and re.search(r"[A-Z]", name) and "-" not in name


def of_kit(text):
    """The names that a text takes from the kit."""
    kit = set()
    for _, names in re.findall(r"use ((?:Prim|lib|mathlib|native|borrow|Rattle\.std)[\w.]*)\.\{([^}]*)\}", text):
        for n in names.split(","):
            kit |= set(n.split())
    return kit


def from_kit():
    return set().union(*(of_kit(read(f)) for f in ANTT + RT))


def declared():
    tops, fields, inner, tokens = {}, set(), set(), set()
    for f in ANTT:
        kind = None
        proof = f.endswith("/Proof.antt")
        text = code(read(f))
        tokens |= set(re.findall(WORD, text))
        for line in text.split("\n"):
            if line[:1].strip():
                m = re.match(r"^(?:(?:pub|abbrev|unfoldable) )*(data|record)\b", line)
                kind = m[1] if m else None
                m = DECLARES.match(line)
                if m and line.strip() and not (proof and "tie." in m[3]):
                    tops.setdefault(m[2], []).append((f, m[3]))
            else:
                m = INNER.match(line)
                if m:
                    for n in m[1].split():
                        (fields if kind == "record" else inner).add(n)
                        if kind == "data":
                            tops.setdefault(n, []).append((f, "constructor"))
    return tops, fields, inner, tokens


def main():
    kit = from_kit()
    tops, fields, inner, tokens = declared()
    functions = set()
    for f in RT:
        functions |= set(re.findall(r"\bfn (\w+)", read(f)))
    types = {re.match(r"[A-Za-z]+", t)[0] for t in tokens if re.match(r"^[A-Z][A-Za-z]*$", t)}
    camel = {t for t in tokens if is_camel(t) and t not in kit and not t.startswith("λ")}
    for f in RT:
        clauses = "\n".join(re.findall(r"(?m)^ghost use [^;]*;", read(f)))
        camel |= {t for t in re.findall(WORD, clauses) if is_camel(t) and t not in kit}
    table = {t: snake(t) for t in camel}
    plain = {snake(n) for n in tops if "-" not in n and re.match(r"^[a-z]", n)} | functions | {snake(n) for n in fields if "-" not in n}
    plain |= {"zero", "suc", "none", "some", "true", "false", "length", "take", "drop", "append", "get", "set", "not", "eqb", "map", "reverse", "replicate"}

    def law(name):
        parts = [snake(p) for p in name.split("-")]
        parts[0] = re.sub(r"^[A-Z]", lambda m: m[0].lower(), parts[0])
        units, i = [], 0
        while i < len(parts):  # the longest names first
            for j in range(len(parts), i, -1):
                word = "_".join(parts[i:j])
                if word in plain:
                    units.append((word, True))
                    i = j
                    break
            else:
                units.append((parts[i], False))
                i += 1
        out = units[0][0]
        for a, b in zip(units, units[1:]):
            out += ("-" if a[1] and b[1] else "_") + b[0]
        return out

    dashed = {}
    for n in tops:
        if "-" in n[1:] and n[0] != "-":
            if re.match(r"^[A-Z]", n) and n.split("-")[0] not in types:
                continue
            dashed[n] = n.replace("-", "_") if n.endswith("-spec") and all(f.endswith("/Proof.antt") for f, _ in tops[n]) else law(n)
    for n in inner:
        if "-" in n[1:]:
            dashed.setdefault(n, law(n))
    for n in fields:
        if "-" in n[1:]:
            dashed[n] = snake(n).replace("-", "_")
    # port.py gave these a capital in specs/ and not in the proofs: `Copy-start`, `copy_start`
    for n in [d for d in dashed if re.match(r"^[A-Z]", d)]:
        small = n[0].lower() + n[1:]
        for other in (small, small.replace("-", "_"), n.replace("-", "_")):
            if other != n and (other in tokens):
                dashed.setdefault(other, dashed[n])
    table.update(dashed)
    table.update({a: b for a, b in OTHERS.items() if a in tokens})
    table = {a: b for a, b in table.items() if a != b}
    # names that fall together
    news = collections.defaultdict(set)
    for a, b in table.items():
        news[b].add(a)
    used = {}  # by file, the names that stand there behind no dot
    for f in ANTT:
        used[f] = set(re.findall(r"(?<![^\s(){};,@\"«»\[\]])" + WORD, code(read(f))))
    clashes = []
    for b, olds in sorted(news.items()):
        law_names = {a for a in olds if "-" in a and (a in tops or a in inner) and a not in fields and a not in camel}
        rest = olds - law_names
        for a in sorted(olds):
            if re.match(r"^[A-Z]", a):
                continue
            both = [f for f in used if a in used[f] and (b in used[f] or a in law_names and rest & used[f])]
            if not both and not (a in law_names and (rest or b in tops)):
                continue
            if a in OTHERS:
                table[a] = OTHERS[a]
            elif a in law_names:
                table[a] = b + "_lem"
            else:
                clashes.append((a, b, len(both), *[f.split("/crates/")[1] for f in both[:3]]))
    if CHECK:
        for a, b in sorted(table.items()):
            print(f"{a}\t{b}")
        print(f"{len(table)} names; {len(camel)} in lowerCamel, {len(dashed)} with dashes")
    for c in clashes:
        print("MEETS", *c)
    if clashes and not CHECK:
        sys.exit("names fall together: write them into OTHERS")
    if CHECK:
        return

    dots = {n for n in table if n in fields or n in camel}

    def turn(text):
        """The code of an antt text, or a clause."""

        def word(m):
            name = m[0]
            if name not in table:
                return name
            before = text[: m.start()]
            if before.endswith("."):
                head = re.search(r"([^\s(){};,@\"«»\[\]]*)\.$", before)[1].split(".")
                if head and head[0] in MADE and all(h in ("before", "args", "fn", "new", "initial") for h in head[1:]) and name not in camel:
                    return name
                if name not in dots and head != [""] and not re.search(r"(?m)^\s*(?:pub )?use [^\n]*$", before[-400:].split("\n")[-1]) and not re.match(r"^[a-z]\w*$", head[-1]):
                    return name
                if name not in dots and head[0] in MADE:
                    return name
            return table[name]

        return re.sub(WORD, word, text)

    quoted = re.compile(r'"(?:[^"\\\n]|\\.)*"')

    def pieces(text, skip, inside):
        """turns what skip does not match; what it matches goes through inside"""
        out, at = [], 0
        for m in skip.finditer(text):
            out += [turn(text[at : m.start()]), inside(m[0])]
            at = m.end()
        return "".join(out) + turn(text[at:])

    bare = re.compile(r"(?<![\w'-])(" + "|".join(sorted(map(re.escape, camel), key=len, reverse=True)) + r")(?![\w'-])")
    today = {table.get(n, n) for n in set(tops) | fields | inner}

    def by_port(m):
        """A name that port.py turned in the code."""
        underscores = snake(m[0]).replace("-", "_")
        return underscores if snake(m[0]) not in today and underscores in today else m[0]

    def prose(text):
        """A comment or a page: names in backquotes, and names in lowerCamel anywhere."""
        text = re.sub(r"`[^`\n]+`", lambda m: "`" + re.sub(r"(?<![\w./])[a-z][\w']*(?:-[\w']+)+(?![\w./])", by_port, turn(m[0][1:-1])) + "`", text)
        text = bare.sub(lambda m: table.get(m[0], m[0]), text)
        return re.sub(r"(?<![\w:.])[a-z]+[A-Z][A-Za-z]*(?![\w(])", by_port, text)

    skip = re.compile(COMMENT.pattern + "|" + quoted.pattern)
    for f in ANTT:
        old = read(f)
        kept = {n: table.pop(n) for n in of_kit(old) if n in table}  # the kit's, of the same spelling as another file's own
        new = pieces(old, skip, lambda s: prose(s) if s.startswith("--") else s)
        table.update(kept)
        write(f, old, new)
    for f in RT:
        old = read(f)
        new = re.sub(r"(?m)^\s*//[^\n]*", lambda m: prose(m[0]), old)
        new = re.sub(r"(?m)^ghost use [^;]*;", lambda m: turn(m[0]), new)
        new = bare.sub(lambda m: table.get(m[0], m[0]), new)
        write(f, old, new)
    for f in tree("crates/*/must-fail/*.edit", "definition/wrong/*.txt"):
        old = read(f)
        new = pieces(old, re.compile(r"(?m)^(?:#|--)[^\n]*|" + quoted.pattern), lambda s: prose(s) if s[0] in "#-" else s)
        write(f, old, new)
    for f in tree("outside/src/*.rs", "differential/src/*.rs"):
        old = read(f)
        write(f, old, re.sub(r"(?m)^\s*//[^\n]*", lambda m: prose(m[0]), old))
    for f in tree("README.md", "docs/*.md", "definition/*.sh", "trials/**/*.txt", "trials/*.sh", "bench/*", "outside/README.md"):
        old = read(f)
        write(f, old, prose(old))


def write(f, old, new):
    if old != new:
        with open(f, "w", encoding="utf-8") as out:
            out.write(new)


main()
