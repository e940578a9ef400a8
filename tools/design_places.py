#!/usr/bin/env python3
"""Lists the places in crates/*/src that docs/DESIGN-PASS.md counts, point by point.
    python3 tools/design_places.py [CHECKOUT] [--list]
Without --list only the counts. A comment between `//` and the line's end is not read."""
import collections
import glob
import os
import re
import sys

args = [a for a in sys.argv[1:] if not a.startswith("--")]
root = args[0] if args else "."
show = "--list" in sys.argv


def source(path):
    return "\n".join(re.sub(r"//.*", "", line) for line in open(path, encoding="utf-8").read().split("\n"))


files = {os.path.relpath(p, root): source(p) for p in sorted(glob.glob(os.path.join(root, "crates/*/src/*.rt")))}


def grep(pattern):
    return [(path, 1 + text.count("\n", 0, m.start()), " ".join(m.group(0).split())) for path, text in files.items() for m in re.finditer(pattern, text, re.M)]


def closing(text, at):
    """The place behind the bracket that closes the one at `at`."""
    depth = 0
    for i in range(at, len(text)):
        depth += text[i] in "({["
        depth -= text[i] in ")}]"
        if depth == 0:
            return i + 1
    return len(text)


Function = collections.namedtuple("Function", "path line name params requires body")


def functions():
    for path, text in files.items():
        for m in re.finditer(r"\bfn (\w+)(?:<[^(]*>)?\(", text):
            end = closing(text, m.end() - 1)
            params = [" ".join(p.split()) for p in re.split(r",\s*(?![^<(\[]*[>)\]])", text[m.end():end - 1]) if p.strip()]
            at, requires = end, []
            while True:
                clause = re.compile(r"\s*(?:->\s*[^{}]*?)?\s*(requires|ensures\*?|where)\b[^{]*\{").match(text, at)
                if not clause:
                    break
                stop = closing(text, clause.end() - 1)
                if clause.group(1) == "requires":
                    requires.append(text[clause.end():stop - 1])
                at = stop
            brace = text.find("{", at)
            semi = text.find(";", at)
            body = "" if brace < 0 or 0 <= semi < brace else text[brace:closing(text, brace)]
            yield Function(path, 1 + text.count("\n", 0, m.start()), m.group(1), params, requires, body)


FUNCTIONS = list(functions())


KEYWORDS = set("as break continue else false for if in let loop match mut return true while".split())


def twins():
    """Functions whose bodies are the same where each number and each name is read as one sign."""
    groups = collections.defaultdict(list)
    for f in FUNCTIONS:
        body = re.sub(r"b'[^']+'|b\"[^\"]*\"|\b\d\w*\b", "0", f.body)
        body = re.sub(r"\b(?:\w+::)*([A-Za-z_]\w*)", lambda m: m.group(1) if m.group(1) in KEYWORDS else "n", body)
        body = " ".join(body.split())
        if len(body) > 48:
            groups[body].append(f)
    return [" = ".join("%s %s" % (f.path.split("/")[1], f.name) for f in g) for g in groups.values() if len(g) > 1]


def shared_facts():
    """A conjunct of a `requires` that stands in three or more functions of a crate."""
    found = collections.defaultdict(set)
    for f in FUNCTIONS:
        for clause in f.requires:
            for part in clause.split("×"):
                found[f.path.split("/")[1], " ".join(part.split()).strip("() ")].add((f.path, f.name))
    return ["%s: %s (%d)" % (crate, fact, len(fs)) for (crate, fact), fs in sorted(found.items()) if len(fs) >= 3]


def travelling():
    """Two parameters, beside each other, that stand so in four or more functions of a crate."""
    found = collections.defaultdict(set)
    for f in FUNCTIONS:
        for a, b in zip(f.params, f.params[1:]):
            if "self" not in a:
                found[f.path.split("/")[1], a, b].add((f.path, f.name))
    return ["%s: %s, %s (%d)" % (crate, a, b, len(fs)) for (crate, a, b), fs in sorted(found.items()) if len(fs) >= 4]


NUMBER = r"\b(?:number|kind|want|also|expected|found|st|start|k|letter|entry|mark|file)"
POINTS = [
    ("1 own enums", lambda: grep(r"^(pub )?enum \w+")),
    ("1 constants that number kinds, states, classes", lambda: grep(r"\bconst [A-Z_]+: (u8|u32) = \d+;")),
    ("1 parameters and fields that are such numbers", lambda: grep(NUMBER.replace("|start", "") + r": (u32|u8)\b")),
    ("1 refusals by a number", lambda: grep(r"number: \d+|refused(_at)?\(\d+|refuse\(\w+, \w+, \d+|(taken|present)\(\w+, \w+, \d+|Refused\(\d+\)")),
    ("2 twins", twins),
    ("3 while and loop", lambda: grep(r"^ *(while|loop)\b[^\n]*")),
    ("4 conversions and tests of the library's written by hand", lambda: grep(r"\bfn (wide|wide_byte|one|least|clear|clear_bytes|lower|letter|pick|some|same|starts|is_word|is_(digit|upper|letter|sign|blank|name_byte|char)|scalar)\b")),
    ("4 enums and structs without Debug and PartialEq", lambda: grep(r"#\[derive\(Clone, Copy\)\]")),
    ("5 facts in three or more functions of a crate", shared_facts),
    ("5 parameters that travel together, in four or more", travelling),
    ("6 arrays of a fixed length", lambda: grep(r"= \[[0-9xa-f_u]+; \w+\]")),
    ("7 flags that say which step to run", lambda: grep(r"\b\w+: bool\b")),
    ("7 chains of equal tests", lambda: grep(r"if \w+ == [\w:']+ \{\s*return [^;]*;\s*\}\s*if \w+ == ")),
]

for title, places in POINTS:
    found = places()
    print("%4d  %s" % (len(found), title))
    if show:
        for place in found:
            print("        " + (place if isinstance(place, str) else "%s:%d: %s" % place))
proofs = glob.glob(os.path.join(root, "crates/*/proofs/**/*.antt"), recursive=True)
lines = sum(1 for p in proofs for _ in open(p, encoding="utf-8"))
answers = sum(len(re.findall(r"^pub [^\n]*: goal\.", open(p, encoding="utf-8").read(), re.M)) for p in proofs)
print("%4d  8 answers in proofs, in %d lines of %d files" % (answers, lines, len(proofs)))
