#!/usr/bin/env python3
"""places.py [--counts] [--table] [--kit FOLDER] [POINT..]: counts the places in crates/*/src (point 8: in proofs/) that the design pass looks at.

Run it at any commit. For each point, 1 to 8, it prints the places by kind, as crate/file.rt:function, and how many they are; with --counts only how many.
Most kinds are found by pattern, in the code without its comments. What only a reader finds stands in the tables of docs/DESIGN-PASS.md: of each
row it prints which of its names still stand in src/, and whether the row calls them changed or kept. A name that stands may be rewritten, so a row
that is changed is to be read again. What a pattern finds and no row of the same point names is printed as not listed. With --kit, the folder of the
kit that has the libraries' folders, it also looks for laws that the kit has. With --table it prints the table of the points alone, from the page's rows.

The patterns take in what only looks like a place (a `-> Index` that is no link, a u8 constant that is a limit): a reader tells them apart."""

import collections
import glob
import os
import re
import signal
import sys

signal.signal(signal.SIGPIPE, signal.SIG_DFL)
TOP = os.path.realpath(os.path.join(os.path.dirname(os.path.realpath(__file__)), ".."))
PAGE = os.path.join(TOP, "docs", "DESIGN-PASS.md")
COUNTS = "--counts" in sys.argv
KIT = sys.argv[sys.argv.index("--kit") + 1] if "--kit" in sys.argv else ""
ONLY = {int(a) for a in sys.argv[1:] if a.isdigit()}
POINTS = {
    1: "own Option and Result, flags with a value, numbers for kinds and refusals",
    2: "twins",
    3: "loops counted by hand",
    4: "equality, order, copying, conversion and printing by hand",
    5: "facts in many contracts, parameters that travel together",
    6: "buffers with a length beside them, searches by hand, arenas of indices",
    7: "switches on a number, tables",
    8: "proofs",
}


def read(path):
    with open(path, encoding="utf-8") as f:
        return f.read()


# ---- the code

Function = collections.namedtuple("Function", "crate file name params result requires ensures body")
Type = collections.namedtuple("Type", "crate file name kind derives fields")
Const = collections.namedtuple("Const", "crate file name type value at")


def blank(text):
    """The text without comments, and with the inside of texts in quotes blank."""

    def word(m):
        if m[0].startswith("//"):
            return " " * len(m[0])
        if m[0][0] == "'" or m[0].startswith("b'"):
            return m[0].replace("{", "_").replace("}", "_")
        return m[0][: m[0].index('"') + 1] + "_" * (len(m[0]) - m[0].index('"') - 2) + '"'

    return re.sub(r"//[^\n]*|b?\"(?:[^\"\\]|\\.)*\"|b?'(?:[^'\\\n]|\\.)'", word, text)


def closing(text, at):
    """Where the bracket at `at` closes."""
    pairs = {"(": ")", "{": "}", "[": "]"}
    close, depth = pairs[text[at]], 0
    for i in range(at, len(text)):
        if text[i] == text[at]:
            depth += 1
        elif text[i] == close:
            depth -= 1
            if depth == 0:
                return i
    return len(text) - 1


def split(text, by=","):
    """Parts between commas that stand in no bracket."""
    out, depth, last = [], 0, 0
    for i, c in enumerate(text):
        if c in "([{<":
            depth += 1
        elif c in ")]}>" and text[i - 1 : i + 1] not in ("->", "=>"):
            depth -= 1
        elif c == by and depth == 0:
            out.append(text[last:i])
            last = i + 1
    return [p.strip() for p in out + [text[last:]] if p.strip()]


def params_of(text):
    out = []
    for p in split(text):
        p = re.sub(r"\s+", " ", p)
        if re.match(r"^&?(?:'\w+ )?(?:mut )?self$", p):
            out.append(("self", p))
        elif ":" in p:
            name, ty = p.split(":", 1)
            out.append((name.strip().removeprefix("mut "), ty.strip()))
    return tuple(out)


def functions_of(crate, file, text):
    owners = []  # impl and trait blocks: where they begin and end, and whose they are
    for m in re.finditer(r"(?m)^[ ]*(?:pub )?(?:unsafe )?(impl|trait)\b([^{;]*)\{", text):
        head = m[2].split(" where ")[0]
        head = re.sub(r"^\s*<[^>]*>", "", head) if m[1] == "impl" else head
        name = re.search(r"(?:\bfor\s+)?([\w<>,' &\[\]]+?)\s*$", head.split(":")[0].strip())
        owner = (head.split(" for ")[-1] if " for " in head else name[1] if name else head).strip()
        owners.append((m.start(), closing(text, m.end() - 1), re.sub(r"<.*", "", owner)))
    for m in re.finditer(r"\bfn (\w+)", text):
        at = m.end()
        if text[at : at + 1] == "<":
            depth = 0
            while at < len(text):
                depth += {"<": 1, ">": -1}.get(text[at], 0) if text[at - 1 : at + 1] != "->" else 0
                at += 1
                if depth == 0:
                    break
        if text[at : at + 1] != "(":
            continue  # a type `fn(..)`
        end = closing(text, at)
        params = params_of(text[at + 1 : end])
        at = end + 1
        clauses = {"requires": [], "ensures": []}
        head = re.compile(r"\s*(requires|ensures|ghost|decreases|measure)\b[^{};]*\{")
        to = re.compile(r"\s*(?:->\s*((?:\[[^\]]*\]|[^{;])*?))?(?=\s*(?:requires|ensures|ghost|decreases|measure|where)\b|\s*\{|\s*;)").match(text, at)
        result = (to[1] or "").strip() if to else ""
        at = to.end() if to else at
        while c := head.match(text, at):
            end = closing(text, c.end() - 1)
            clauses.setdefault(c[1], []).append(text[c.end() : end].strip())
            at = end + 1
        rest = re.compile(r"[^{;]*([{;])").match(text, at)
        if not rest:
            continue
        body = "" if rest[1] == ";" else text[rest.end() : closing(text, rest.end() - 1)]
        name = m[1]
        for a, b, owner in owners:
            if a < m.start() < b:
                name = owner + "::" + name
        yield Function(crate, file, name, params, result, clauses["requires"], clauses["ensures"], body)


def types_of(crate, file, text):
    for m in re.finditer(r"((?:#\[[^\]]*\]\s*)*)(?:pub )?(struct|enum) (\w+)(?:<[^>]*>)?\s*([({;])", text):
        derives = {d.strip().split("::")[-1] for g in re.findall(r"derive\(([^)]*)\)", m[1]) for d in g.split(",") if d.strip()}
        inner = text[m.end() : closing(text, m.end() - 1)] if m[4] != ";" else ""
        fields = [re.sub(r"\s+", " ", f).removeprefix("pub ") for f in split(inner) if not re.match(r"\s*(?:pub )?ghost\b", f)]
        yield Type(crate, file, m[3], m[2], derives, fields)


def consts_of(crate, file, text):
    for m in re.finditer(r"(?m)^\s*(?:pub )?const (\w+): ([^=;]+(?:;[^=]*)?)=([^;]*);", text):
        yield Const(crate, file, m[1], m[2].strip(), re.sub(r"\s+", " ", m[3]).strip(), m.start())


FUNCTIONS, TYPES, CONSTS, TEXTS = [], [], [], {}
for path in sorted(glob.glob(os.path.join(TOP, "crates", "*", "src", "**", "*.rt"), recursive=True)):
    crate = os.path.relpath(path, TOP).split(os.sep)[1]
    file = os.path.relpath(path, os.path.join(TOP, "crates", crate, "src"))
    TEXTS[crate, file] = blank(read(path))
    FUNCTIONS += functions_of(crate, file, TEXTS[crate, file])
    TYPES += types_of(crate, file, TEXTS[crate, file])
    CONSTS += consts_of(crate, file, TEXTS[crate, file])
NUMBERS = {"u8", "u16", "u32", "u64", "usize"}
LINKS = {"u16"}  # what a link may be, were it a number: names of the 16-bit number
for _ in range(3):  # also through names of names
    for text in TEXTS.values():
        for name, ty in re.findall(r"\btype (\w+) = (\w+);", text):
            if ty in NUMBERS:
                NUMBERS.add(name)
            if ty in LINKS:
                LINKS.add(name)
LINKS -= {"Count"}
NUMBER = r"(?:" + "|".join(sorted(NUMBERS)) + ")"
LINK = r"(?:" + "|".join(sorted(LINKS)) + ")"
NAMES = {(x.crate, x.name) for x in FUNCTIONS + TYPES + CONSTS} | {(x.crate, x.name.split("::")[-1]) for x in FUNCTIONS}


def place(x, name=None):
    return f"{x.crate}/{x.file}:{name or x.name}"


def hits(pattern):
    """The functions in whose bodies the pattern stands, and how often."""
    return [(place(f), n) for f in FUNCTIONS if (n := len(re.findall(pattern, f.body)))]


# ---- patterns, by point and kind: lists of (place, how often)

KINDS = collections.OrderedDict()


def kind(point, name):
    def add(find):
        KINDS[point, name] = list(find())
        return find

    return add


def tokens(body):
    return re.findall(r"[A-Za-z_]\w*|\d[\d_]*|::|->|=>|[<>=!]=|[-+*/%]=|&&|\|\||[^\s\w]", body)


WORDS = {"let", "mut", "if", "else", "while", "loop", "for", "in", "return", "match", "break", "true", "false", "as"}


def shape(body):
    """A body with names and numbers left out: paths count as a name."""
    out = []
    for t in tokens(body):
        if t in WORDS or not re.match(r"\w", t):
            out.append(t)
        else:
            out.append("0" if t[0].isdigit() else "x")
    text = re.sub(r"x(?: :: x)+", "x", " ".join(out))
    return re.sub(r"\b0\b", "x", text)


@kind(1, "a refusal as a number: Refused { number } made or matched")
def _():
    return hits(r"\bRefused\s*[({]")


@kind(1, "an enum with a case for none, for a refusal or for an error, or of two cases one of which holds a value")
def _():
    for t in TYPES:
        if t.kind == "enum":
            names = [re.match(r"\w+", re.sub(r"^(?:#\[[^\]]*\] *)*", "", f))[0] for f in t.fields]
            empty = [n for n in names if re.match(r"^(None|Nothing|Nobody|Refused|Meets|Invalid|Err\w*|Bad\w*|No[A-Z]\w*|Not[A-Z]\w*|InUse)$", n)]
            two = len(t.fields) == 2 and any("{" in f or "(" in f for f in t.fields)
            if (empty or two) and t.name != "Refusal" and not t.name.endswith("Error"):
                yield place(t), max(1, len(empty))


@kind(1, "a struct with a flag and a value beside it")
def _():
    for t in TYPES:
        if t.kind == "struct" and len(t.fields) > 1 and any(re.search(r": bool$", f) for f in t.fields):
            yield place(t), 1


FLAGS = {t.name for t in TYPES if t.kind == "struct" and len(t.fields) > 1 and any(re.search(r": bool$", f) for f in t.fields)}


@kind(1, "a function whose result is a flag with a value beside it")
def _():
    return [(place(f), 1) for f in FUNCTIONS if set(re.findall(r"\w+", f.result)) & FLAGS or re.search(r"\(bool, |, bool\)", f.result)]


@kind(1, "a u8 constant, or one of three constants or more of one type of numbers in a row")
def _():
    by_file = collections.defaultdict(list)
    for c in CONSTS:
        by_file[c.crate, c.file].append(c)
    for (crate, file), cs in by_file.items():
        text = TEXTS[crate, file]
        runs, run = [], []
        for c in sorted(cs, key=lambda c: c.at):
            if run and run[-1].type == c.type and not re.search(r"\bfn\b|\bstruct\b|\benum\b", text[run[-1].at : c.at]):
                run.append(c)
            else:
                runs.append(run)
                run = [c]
        for run in runs + [run]:
            for c in run:
                if re.match(r"^(u8|u16|u32|u64|usize)$", c.type) and (c.type == "u8" or len(run) > 2):
                    yield place(c), 1


KIND_WORD = re.compile(r"\b(kind|how|state|tag|number|mark|form|call|region|inner|refusal|reason|flags): (" + NUMBER + r")\b")


@kind(1, "a number for a kind: a parameter or a field kind, how, state, tag, number, mark, form, call, region, inner or flags")
def _():
    for x in FUNCTIONS:
        n = sum(1 for a, t in x.params if KIND_WORD.match(f"{a}: {t}"))
        if n:
            yield place(x), n
    for t in TYPES:
        n = sum(len(KIND_WORD.findall(f)) for f in t.fields)
        if n:
            yield place(t), n


def constants(crate):
    """The u8 constants as a crate writes them: its own by name, the others' behind their crate's name."""
    own = [c.name for c in CONSTS if c.type == "u8" and c.crate == crate]
    others = [c.crate + "::" + c.name for c in CONSTS if c.type == "u8" and c.crate != crate]
    return r"(?<![\w:])(?:" + "|".join(sorted(own + others, key=len, reverse=True) or ["-"]) + r")\b"


CONSTANT = {crate: constants(crate) for crate in {f.crate for f in FUNCTIONS}}


@kind(1, "a number tested against a u8 constant, or stored or answered as one")
def _():
    for f in FUNCTIONS:
        c = CONSTANT[f.crate]
        tests = re.findall(r"[=!<>]=? " + c + "|" + c + r" (?:[=!<>]=|[<>]) |" + c + " =>", f.body)
        given = re.findall(r"(?:return|=>|\w:) " + c + r"(?=[,;\s}])|\bset\d*\([^;()]*, " + c + r"\s*\)", f.body)
        if tests or given:
            yield place(f), len(tests) + len(given)


@kind(1, "a field named by a region and an offset: two u8 constants side by side in a call")
def _():
    for f in FUNCTIONS:
        c = CONSTANT[f.crate]
        n = len(re.findall(c + r",\s*(?:" + c + r"|0),\s", f.body))
        if n:
            yield place(f), n


@kind(1, "a result that may be a link as a number: -> Index")
def _():
    return [(place(f), 1) for f in FUNCTIONS if f.result in LINKS]


@kind(1, "a Result whose error is a number, or an Err of a number")
def _():
    for f in FUNCTIONS:
        n = len(re.findall(r"Result<[^<>]*, " + NUMBER + ">", f.result)) + len(re.findall(r"\bErr\(\d", f.body))
        if n:
            yield place(f), n


INDEX_RESULT = {f.name.split("::")[-1] for f in FUNCTIONS if f.result in LINKS} | {"get16", "load16"}


def link_uses(f):
    """How often a body takes 1 from a link, adds 1 to make one, or tests one against 0."""
    n = 0
    bound = set(re.findall(r"let (?:mut )?(\w+)(?:: \w+)? =\s*(?:\w+::)*(?:" + "|".join(sorted(INDEX_RESULT)) + r")\(", f.body))
    bound |= set(re.findall(r"let (?:mut )?(\w+) = \w+\.(?:head|tail|link|next|prev|first|last|older|younger|exits|parent_at)\b", f.body))
    bound |= {a for a, t in f.params if t in LINKS}
    for v in bound:
        minus = len(re.findall(r"\b" + v + r" - 1\b", f.body))
        zero = len(re.findall(r"\b" + v + r" [=!]= 0\b", f.body))
        if v in {a for a, _ in f.params} and not (minus and zero):
            zero = 0 if not minus else zero
            minus = minus if v in ("link", "at", "head", "tail", "next") else 0
        n += minus + zero
    n += len(re.findall(r"(?:set16\([^;]*, |: |[=!]= )\b[a-z] \+ 1\b", f.body))
    return n


@kind(1, "a link as a number in a body: link - 1, i + 1 stored, link == 0")
def _():
    return [(place(f), n) for f in FUNCTIONS if (n := link_uses(f))]


@kind(2, "functions whose names end in a width: 8, 16, 32, 64")
def _():
    return [(place(f), 1) for f in FUNCTIONS if re.search(r"[a-z](8|16|32|64)$", f.name)]


SHAPES = collections.defaultdict(list)
for f in FUNCTIONS:
    s = shape(f.body)
    if len(s.split()) >= 22:
        SHAPES[s].append(f)


@kind(2, "functions whose bodies are the same but for names and numbers (22 words or more); how often: the size of the group")
def _():
    for s, fs in SHAPES.items():
        if len(fs) > 1:
            for f in fs:
                yield place(f), len(fs)


@kind(2, "types of the same fields or the same types of fields")
def _():
    seen = collections.defaultdict(list)
    for t in TYPES:
        if t.kind == "struct" and len(t.fields) > 1:
            seen["names", tuple(f.split(":")[0] for f in t.fields)].append(t)
            seen["types", tuple(f.split(":")[-1] for f in t.fields)].append(t)
    done = set()
    for ts in seen.values():
        if len(ts) > 1:
            for t in ts:
                if place(t) not in done:
                    done.add(place(t))
                    yield place(t), len(ts)


def loops():
    """Each `while` and `loop`: the function, the kind, the head and the body."""
    for f in FUNCTIONS:
        for m in re.finditer(r"\b(while|loop)\b([^{]*)\{", f.body):
            head, inner = m[2].strip(), f.body[m.end() : closing(f.body, m.end() - 1)]
            if m[1] == "loop":
                what = "loop"
            elif re.search(r"\blet\b", head):
                what = "while let"
            elif re.match(r"^\w+ != 0$", head):
                what = "along links"
            else:
                words = set(re.findall(r"\b[a-z]\w*(?:\.\w+)?", head))
                if any(re.search(r"\b" + re.escape(w) + r" [-+*/]= ", inner) for w in words):
                    what = "an index or a count"
                else:
                    what = "other"
            yield f, what, head, inner


for WHAT in ("an index or a count", "along links", "loop", "other", "while let"):

    @kind(3, "for information, today's form: while let" if WHAT == "while let" else f"while and loop: {WHAT}")
    def _(WHAT=WHAT):
        n = collections.Counter(place(f) for f, what, *_ in loops() if what == WHAT)
        return n.items()


@kind(3, "for information, today's form: for")
def _():
    return hits(r"\bfor [^;{]* in ")


@kind(4, "a type that derives neither Debug nor PartialEq")
def _():
    return [(place(t), 1) for t in TYPES if not t.derives & {"Debug", "PartialEq"}]


@kind(4, "a cast: as u8 .. as usize, as Index, as Count")
def _():
    return hits(r"\bas " + NUMBER + r"\b")


@kind(4, "a test written as branches: return false, return true, { false }, { true }")
def _():
    return hits(r"\breturn (?:false|true)\s*;|\{\s*(?:false|true)\s*\}")


@kind(4, "bytes or words copied or filled one by one")
def _():
    for f, what, head, inner in loops():
        steps = [s.strip() for s in inner.split(";") if s.strip()]
        rest = [s for s in steps if not re.match(r"^\w+ \+= 1$", s) and not re.match(r"^let \w+ = \w+\[[^\]]*\]$", s)]
        if len(rest) == 1 and re.match(r"^(?:\w+\[[^\]]*\] = [^;]*|(?:\w+::)*store\d*\(.*\))$", rest[0], re.S):
            yield place(f), 1


@kind(5, "the bytes and their sizes as two parameters: s: &[u8], z: Sizes, or the same types by other names")
def _():
    for f in FUNCTIONS:
        types = [re.sub(r"'\w+ ", "", t) for _, t in f.params]
        if any(a.endswith("[u8]") and b == "Sizes" for a, b in zip(types, types[1:])):
            yield place(f), 1


def head_word(clause):
    """The predicates of a clause: the head of each factor of a product."""
    out = []
    for part in re.split(r"×", clause):
        m = re.match(r"^[\s(]*([A-Z]\w*)\b", part)
        if m:
            out.append(m[1])
        elif part.strip():
            out.append("a comparison")
    return out


def imports(crate, file):
    """Where each word of a file's clauses comes from."""
    out = {}
    for path, names in re.findall(r"ghost use ([\w.]+)\.\{([^}]*)\}", TEXTS[crate, file]):
        for n in split(names):
            out[n] = path.removeprefix("Rattle.").replace(".specs.", ".") + "." + n
    return out


FACTS, ENSURED = collections.defaultdict(set), collections.defaultdict(set)
for f in FUNCTIONS:
    known = imports(f.crate, f.file)
    for clauses, facts in ((f.requires, FACTS), (f.ensures, ENSURED)):
        for c in clauses:
            for w in head_word(c):
                if w != "a comparison":
                    facts[known.get(w, w)].add((f.crate, place(f)))


def definitions(crate, module):
    """The definitions of a file of specs/: for each, the capital words of its text, by where they come from."""
    path = os.path.join(TOP, "crates", crate, "specs", *module.split(".")) + ".antt"
    if not os.path.exists(path):
        return {}
    text, known, out = re.sub(r"--[^\n]*", "", read(path)), {}, collections.defaultdict(set)
    for c, m, names in re.findall(r"use Rattle\.(\w+)\.specs\.([\w.]+)\.\{([^}]*)\}", text):
        known.update({n: (c, m, n) for n in split(names)})
    blocks = re.split(r"\n(?=\S)", text)
    heads = [(re.match(r"(?:(?:pub|abbrev|unfoldable|opaque|record|data) )*([A-Z]\w*)", b), b) for b in blocks]
    known.update({m[1]: (crate, module, m[1]) for m, _ in heads if m})
    for m, b in heads:
        if m:
            out[m[1]] |= {known[w] for w in re.findall(r"\b[A-Z]\w*", b[m.end() :]) if w in known and known[w] != known[m[1]]}
    return out


READ = {}


def within(fact):
    """All facts that stand in the definition of a fact, itself among them."""
    seen, todo = set(), [fact]
    while todo:
        c, m, n = todo.pop()
        if (c, m, n) not in seen:
            seen.add((c, m, n))
            if (c, m) not in READ:
                READ[c, m] = definitions(c, m)
            todo += READ[c, m].get(n, ())
    return seen


def held():
    """For each fact, the functions that require it by way of the definitions too."""
    out = collections.defaultdict(set)
    for w, fs in FACTS.items():
        if w.count(".") > 1:
            c, rest = w.split(".", 1)
            for fact in within((c, *rest.rsplit(".", 1))):
                out[".".join(fact)] |= fs
    for w in [w for w in out if w.startswith(("std.", "machine.Machine.")) or ".declared." in w]:
        del out[w]
    for w in list(out):  # what is only a part of another fact that the same functions require
        c, rest = w.split(".", 1)
        for c, m, n in within((c, *rest.rsplit(".", 1))):
            part = f"{c}.{m}.{n}"
            if part != w and part in out and w in out and out[part] == out[w]:
                del out[part]
    return out


@kind(5, "a function that requires a fact which three functions or more require")
def _():
    for w, fs in sorted(FACTS.items(), key=lambda x: -len(x[1])):
        if len(fs) > 2:
            for _, p in sorted(fs):
                yield f"{p} ({w.split('.')[-1]})", 1


def travellers():
    """Sets of two parameters or more, by name and type, one of which three functions or more of a crate take, and never without the others."""
    out = collections.defaultdict(list)
    for crate in sorted({f.crate for f in FUNCTIONS}):
        taken = collections.defaultdict(list)
        for f in FUNCTIONS:
            for p in f.params:
                if f.crate == crate and p[0] != "self":
                    taken[p].append(f)
        sets = {}
        for p, fs in taken.items():
            together = frozenset.intersection(*(frozenset(f.params) for f in fs))
            if len(fs) > 2 and len(together) > 1 and len(fs) > len(sets.get(together, [])):
                sets[together] = fs
        for together, fs in sets.items():
            out[together] += fs
    return sorted(out.items(), key=lambda x: (-len(x[1]), -len(x[0])))


LENGTH_WORD = r"^(n|at|have|from|to|end|len|length|count|used|k|most|room)$"


@kind(6, "a parameter that is a buffer with a number beside it: n, at, from, have, to, end, length")
def _():
    for f in FUNCTIONS:
        buffers = [a for a, t in f.params if re.match(r"^&(?:'\w+ )?(?:mut )?\[", t) and (a, t) not in (("s", "&[u8]"), ("s", "&mut [u8]"))]
        numbers = [a for a, t in f.params if re.match(LENGTH_WORD, a) and re.match("^" + NUMBER + "$", t)]
        if buffers and numbers:
            yield place(f), 1


@kind(6, "a type that holds a length or a place of a buffer that stands elsewhere")
def _():
    for t in TYPES:
        n = sum(len(re.findall(r"\b(?:n|at|have|from|end|next|length|used): (?:usize|u8)\b", f)) for f in t.fields)
        if n:
            yield place(t), n


@kind(6, "a fixed array as a local or a result")
def _():
    for f in FUNCTIONS:
        n = len(re.findall(r"= \[[^\];\n]+; *[^\]\n]+\]", f.body)) + len(re.findall(r"\[[^\];]+; *[^\]]+\]", f.result))
        if n:
            yield place(f), n


@kind(7, "three arms or more with a number, or three tests or more of a variable against numbers")
def _():
    for f in FUNCTIONS:
        arms = len(re.findall(r"(?m)^\s*(?:\d[\d_]*|(?:\w+::)?[A-Z][A-Z_]+)(?: \| [\w:]+)* =>", f.body))
        tests = collections.Counter(re.findall(r"\bif (\w+) ==? (?:\d[\d_]*|(?:\w+::)?[A-Z][A-Z_]+)\b", f.body))
        most = max([arms] + list(tests.values()))
        if most > 2:
            yield place(f), most


@kind(7, "a table: a constant that is an array")
def _():
    return [(place(c), 1) for c in CONSTS if c.type.startswith("[")]


# ---- proofs


def answers_of(path):
    """The answers of a file: the goal's name and the right side, on one line."""
    text = re.sub(r"(?m)^\s*--[^\n]*\n", "", read(path))
    for block in re.split(r"\n(?=\S)", text):
        m = re.match(r"^([\w'₀-₉-]+)\s+((?:[^\s=]+\s+)*)=\s*(.*)$", block, re.S)
        if m and not block.startswith(("use ", "pub ")):
            yield m[1], re.sub(r"\s+", " ", m[3]).strip()


PROOFS = sorted(glob.glob(os.path.join(TOP, "crates", "*", "proofs", "**", "*.antt"), recursive=True))


def proof_name(path):
    crate = os.path.relpath(path, TOP).split(os.sep)[1]
    return crate, os.path.relpath(path, os.path.join(TOP, "crates", crate, "proofs"))


SRC = {f.crate for f in FUNCTIONS}


@kind(8, "lines of answers, invariants and lemmas in proofs/, in crates with functions")
def _():
    n = collections.Counter()
    for p in PROOFS:
        crate, file = proof_name(p)
        if crate in SRC:
            n[f"{crate}/proofs"] += read(p).count("\n")
    return n.items()


ANSWERS = [(*proof_name(p), g, r) for p in PROOFS if p.endswith("Answers.antt") for g, r in answers_of(p)]


@kind(8, "answers")
def _():
    return collections.Counter(f"{c}/proofs" for c, *_ in ANSWERS).items()


@kind(8, "an answer that names no law: a bare search, grind, omega or refl")
def _():
    n = collections.Counter()
    for c, file, g, r in ANSWERS:
        if re.match(r"^\(?(?:λ [\w ]+\. )?(?:search rules|search|grind(?: arith)?|omega arith|omega|refl|tt|record \{ \w+ = λ _\. omega arith \})\)?$", r):
            n[f"{c}/proofs/{file.split('/')[0]}"] += 1
    return n.items()


@kind(8, "an answer that is a search by one law of the crate (`using` on the function may find it)")
def _():
    n = collections.Counter()
    for c, file, g, r in ANSWERS:
        if re.match(r"^search [\w'₀-₉-]+$", r) and r != "search rules":
            n[f"{c}/proofs/{file.split('/')[0]}"] += 1
    return n.items()


def worn(r):
    """A right side with the names of calls, variables and tests left out."""
    r = re.sub(r"\bc\.[\w.'-]+", "c", r)
    return re.sub(r"\b\d+\b", "0", r)


@kind(8, "an answer whose right side three answers or more of the crate have, but for names of calls")
def _():
    seen = collections.Counter((c, worn(r)) for c, _, _, r in ANSWERS)
    n = collections.Counter()
    for c, file, g, r in ANSWERS:
        if seen[c, worn(r)] > 2 and len(worn(r)) > 12:
            n[f"{c}/proofs/{file.split('/')[0]}"] += 1
    return n.items()


@kind(8, "lemmas of the crate's own in proofs/*.antt")
def _():
    n = collections.Counter()
    for p in PROOFS:
        crate, file = proof_name(p)
        if crate in SRC and "/" not in file and file != "Lib.antt":
            n[f"{crate}/proofs/{file}"] += len(re.findall(r"(?m)^(?:pub )?[\w'₀-₉-]+\s*(?:\{[^{}]*\}\s*)*:(?:\s|$)", read(p)))
    return n.items()


def lemmas_of(path):
    """The laws of a file: name and statement."""
    text = re.sub(r"--[^\n]*", "", read(path))
    for block in re.split(r"\n(?=\S)", text):
        m = re.match(r"^(?:(?:pub|abbrev|unfoldable) )*([\w'₀-₉-]+)\s*:\s(.*)$", block, re.S)
        if m and re.search("[≡≤<↔⊥]", m[2]) and not m[2].rstrip().endswith("Type 0"):
            yield m[1], re.sub(r"\s+", " ", m[2]).strip()


def said(statement):
    """A statement with its variables named by their order of use, and types of elements taken for ℕ: two laws that say the same have the same."""
    of_types = r"[{(]([^(){}:]+?) : Type \w+[)}]\s*(?:→\s*)?"
    types = set(" ".join(re.findall(of_types, statement)).split())
    words = re.findall(r"[\w'₀-₉]+(?:-[\w'₀-₉]+)*|\S", re.sub(of_types, "", statement))
    text = " ".join("ℕ" if w in types else w for w in words).replace("{", "(").replace("}", ")")
    each = lambda m: "".join(f"( {n} : {m[2]} ) " for n in m[1].split())
    text = re.sub(r"\( ((?:[\w'₀-₉-]+ )+): ((?:[^()]|\([^()]*\))*?) \) ?", each, text)
    binders = dict(re.findall(r"\( ([\w'₀-₉-]+) : ([^()]*?) \)", text))
    body = re.sub(r"^(?:→ )+", "", re.sub(r"\( [\w'₀-₉-]+ : [^()]*? \) ?(?:→ )?", "", text))
    order = {}
    for w in body.split():
        if w in binders:
            order.setdefault(w, f"_{len(order)}")
    return " ".join(order.get(w, w) for w in body.split()) + " | " + " ".join(sorted(f"{n}:{binders[w]}" for w, n in order.items()))


SPECS = sorted(glob.glob(os.path.join(TOP, "crates", "*", "specs", "**", "*.antt"), recursive=True))
LAWS = [(os.path.relpath(p, os.path.join(TOP, "crates")), n, said(t)) for p in SPECS + PROOFS if "/" not in proof_name(p)[1] or p in SPECS for n, t in lemmas_of(p)]


@kind(8, "a law that another crate has in the same words (of the smaller ones, candidates for one place)")
def _():
    seen = collections.defaultdict(list)
    for file, n, t in LAWS:
        seen[t].append((file, n))
    for t, fs in seen.items():
        if len({f.split("/")[0] for f, _ in fs}) > 1:
            for f, n in fs:
                yield f"{f}:{n}", len(fs)


if KIT:

    @kind(8, "a law that a proof file of the kit has in the same words")
    def _():
        kit = collections.defaultdict(list)
        for p in glob.glob(os.path.join(KIT, "*", "proofs", "**", "*.antt"), recursive=True):
            for n, t in lemmas_of(p):
                kit[said(t)].append(os.path.relpath(p, KIT) + ":" + n)
        for file, n, t in LAWS:
            if t in kit:
                of_std = [k for k in kit[t] if k.startswith("std/proofs/lemmas/")]
                yield f"{file}:{n} = {(of_std or kit[t])[0]}", 1


# ---- the page's tables: | 2.4 | crate: name, name; crate: name | what | state |

Row = collections.namedtuple("Row", "point id places what state")
NAMES |= {(file.split("/")[0], os.path.splitext(os.path.basename(file))[0] + "." + n) for file, n, _ in LAWS} | {(proof_name(p)[0], "proofs") for p in PROOFS}


def rows():
    if not os.path.exists(PAGE):
        return
    for line in read(PAGE).split("\n"):
        m = re.match(r"^\| (\d)\.(\d+) \| (.*?) \| (.*?) \| (.*?) \|$", line)
        if m:
            places = []
            for part in m[3].split(";"):
                crate, _, names = part.partition(":")
                places += [(crate.strip(), n.strip()) for n in names.split(",") if n.strip()]
            yield Row(int(m[1]), f"{m[1]}.{m[2]}", places, m[4], m[5])


def totals(table):
    """The table of the points: rows and places, and how they stand by the first words of each row's state. A row that calls itself no place counts for nothing.
    A row that is cut in two, by its state, stands twice with one number: of twins it is one group, which counts in the column of each part."""
    print("| Point | Places found | Changed | Kept with a reason | Still to do |")
    print("|---|---|---|---|---|")
    for point, title in POINTS.items():
        mine = [r for r in table if r.point == point and not r.state.startswith("no place")]
        what = lambda rs: f"{len({r.id for r in rs})} groups, {sum(len(r.places) for r in rs)} places" if point == 2 else str(sum(len(r.places) for r in rs))
        of = lambda word: what([r for r in mine if r.state.startswith(word)])
        print(f"| {point}. {title} | {what(mine)} | {of('changed')} | {of('kept')} | {of('to do')} |")


def main():
    table = list(rows())
    if "--table" in sys.argv:
        return totals(table)
    for point, title in POINTS.items():
        if ONLY and point not in ONLY:
            continue
        print(f"== point {point}: {title}")
        listed = {p for r in table if r.point == point for p in r.places}
        for (p, name), found in KINDS.items():
            if p != point:
                continue
            unlisted = [a for a, _ in found if point < 8 and not name.startswith("for information") and not on_page(a, listed)]
            more = sum(n for _, n in found)
            beside = "" if more == len(found) or "group" in name else f" ({more} in all)"
            print(f"  {len(found):4} {name}{beside}" + (f"; {len(unlisted)} not listed" if table and unlisted else ""))
            if not COUNTS:
                for a, n in found:
                    print(f"         {a}" + (f" x{n}" if n > 1 else "") + (" NOT LISTED" if table and a in unlisted else ""))
        if point == 2 and not COUNTS:
            for s, fs in SHAPES.items():
                if len(fs) > 1:
                    print("         same:", ", ".join(place(f) for f in fs))
        if point == 5:
            for word, facts in (("require", FACTS), ("ensure", ENSURED)):
                print(f"  facts that three functions or more {word}: how many functions, in how many crates")
                for w, fs in sorted(facts.items(), key=lambda x: (-len(x[1]), x[0])):
                    if len(fs) > 2 and "." in w and not w.startswith("std."):
                        print(f"       {w}: {len(fs)} in {len({c for c, _ in fs})}")
            print("  facts that thirty functions or more require by way of definitions too")
            for w, fs in sorted(held().items(), key=lambda x: (-len(x[1]), x[0])):
                if len(fs) > 29:
                    print(f"       {w}: {len(fs)} in {len({c for c, _ in fs})}")
            print("  parameters one of which never goes without the others in a crate: how many functions, in how many crates")
            for w, users in travellers():
                print(f"       {', '.join(sorted(a + ': ' + t for a, t in w))}: {len(users)} in {len({f.crate for f in users})}")
        mine = [r for r in table if r.point == point]
        if mine:
            gone = lambda r: [n for c, n in r.places if (c, n) not in NAMES]
            n = sum(len(r.places) for r in mine)
            left = sum(len(r.places) - len(gone(r)) for r in mine)
            states = collections.Counter()
            for r in mine:
                states[re.match(r"[^:]*", r.state)[0]] += len(r.places)
            print(f"  {len(mine):4} rows of the page, {n} places, of which {left} names stand; " + ", ".join(f"{k}: {v}" for k, v in sorted(states.items())))
            if not COUNTS:
                for r in mine:
                    stand = [f"{c}:{n}" for c, n in r.places if (c, n) in NAMES]
                    print(f"         {r.id} [{r.state}] stand: {', '.join(stand) or 'none'}" + (f"; gone: {', '.join(gone(r))}" if gone(r) else ""))


def on_page(a, listed):
    crate = a.split("/")[0]
    name = re.sub(r" \(.*", "", a.split(":", 1)[1]) if ":" in a else ""
    return (crate, name) in listed or (crate, name.split("::")[-1]) in listed


main()
