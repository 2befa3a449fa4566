#!/usr/bin/env python3
"""Counts, in crates/*/src, the places that docs/DESIGN-PASS.md asks for; run at the top. With a point's number it lists them too."""
import collections
import glob
import re
import sys

FILES = {f: open(f).read() for f in sorted(glob.glob("crates/*/src/**/*.rt", recursive=True))}
PROOFS = sorted(glob.glob("crates/*/proofs/**/*.antt", recursive=True))


def code(text):
    """A file without its comments."""
    return re.sub(r"//[^\n]*", "", text)


def found(pattern, flags=0, where=code):
    """Each match: file, line, what stands there."""
    for name, text in FILES.items():
        body = where(text)
        for m in re.finditer(pattern, body, flags):
            yield name, body.count("\n", 0, m.start()) + 1, " ".join(m.group(0).split())[:100]


def enums():
    """Enums with a variant that says only that there is nothing, or why."""
    none = r"(Malformed|Nowhere|Misfit|Unknown|Stuck|Unfit|Refused|Deep|Beyond|Leaf|Heading)"
    for row in found(r"\benum \w+(<[^>]*>)? \{(?:[^{}]|\{[^{}]*\})*\n    " + none + r"\b", re.S):
        yield row


def signatures():
    """Functions: name, parameters, contract."""
    for name, text in FILES.items():
        body = code(text)
        for m in re.finditer(r"\bfn (\w+)(<[^(]*>)?\(([^)]*(?:\([^)]*\)[^)]*)*)\)([^{;]*(?:\{[^\n]*\}\n[^{;]*)*)\{\n", body):
            yield name, body.count("\n", 0, m.start()) + 1, m.group(1), m.group(3), m.group(4)


def facts():
    """Facts of a `requires` that stand in three contracts or more."""
    where = collections.defaultdict(list)
    for name, line, function, _, contract in signatures():
        crate = name.split("/")[1]
        for clause in re.findall(r"requires(?: \w+)? \{ (.*) \}", contract):
            for fact in {re.sub(r"^\(|\)$", "", f.strip()) for f in clause.split(" × ")}:
                where[crate, fact].append((name, line, f"{function}: {fact}"))
    for (_, _), rows in where.items():
        if len(rows) >= 3:
            yield rows[0][0], rows[0][1], f"{len(rows)} times, {rows[0][2]}"


def long_lists():
    """Functions of seven parameters or more."""
    for name, line, function, parameters, _ in signatures():
        many = len([p for p in parameters.split(",") if ":" in p or "self" in p])
        if many >= 7:
            yield name, line, f"{function}: {many}"


def twins():
    """Functions of a crate whose bodies are the same but for names, types and numbers."""
    shapes = collections.defaultdict(list)
    for name, text in FILES.items():
        body = code(text)
        for m in re.finditer(r"^( *)(?:pub )?fn (\w+)[^\n]*.*?^\1\}\n", body, re.S | re.M):
            shape = re.sub(r"(requires|ensures)[^\n]*", "", m.group(0))
            shape = shape[shape.index("\n{\n") if "\n{\n" in shape else shape.index("{\n"):]
            shape = re.sub(r"'[^']+'|b?\"[^\"]*\"|\b\d+\b", "0", shape)
            shape = re.sub(r"\b(?!if|else|while|for|return|let|mut|match|loop|in)[A-Za-z_]\w*\b", "x", shape)
            if shape.count("\n") >= 6:
                shapes[shape].append((name, body.count("\n", 0, m.start()) + 1, m.group(2)))
    for rows in shapes.values():
        for row in rows[1:]:
            yield row[0], row[1], f"{row[2]}, as {rows[0][2]}"


POINTS = {
    1: [
        ("own enums with a variant for nothing or for a refusal", lambda: enums()),
        ("a number 0 or a flag beside a value", lambda: found(r"\bnumber: 0,|\.number [!=]= 0|number: ended|\bopened: \w+,|\.opened\b|\bcompare: bool|\bstore: bool")),
        ("a number written for a refusal", lambda: found(r"\b(number:|failed\(|refused\(|Refused\(|return) ?(?:[3-9]|1\d)\b(?!\s*[*+])|^\s+(?:_|[A-Z]\w+(?:::\w+)?(?:\(_\))?) => (?:[3-9]|1\d),|^\s+1\d$", re.M)),
        ("constants for kinds of words", lambda: (r for r in found(r"^pub const [A-Z_]+: u32 = \d+;", re.M) if r[0].endswith("/tag.rt"))),
        ("an index at the end or beyond, for nothing", lambda: found(r"// [^\n]*(their count, where none|as many as there are, where it does not|how many there are, where it is not|the end, where there is none)", where=lambda t: t)),
    ],
    2: [("functions of one shape in a crate or above it", lambda: twins())],
    3: [("while loops", lambda: found(r"\bwhile\b(?! let)")), ("loop", lambda: found(r"\bloop \{"))],
    4: [
        ("made again by hand", lambda: found(r"\bfn (equal|both|larger|wide|small|feeds|is_digit|is_capital|is_small|is_printable|word|number|counted|settles|is_negation|say_rule|say_kind|truth_word|connective|heading_of|tag_of)\b")),
        ("a struct copied field by field", lambda: found(r"\w+: (\w+)\.\w+,\s*\w+: \1\.\w+,", re.S)),
    ],
    5: [("facts required in three contracts of a crate or more", lambda: facts()), ("functions of seven parameters or more", lambda: long_lists())],
    6: [
        ("arrays of numbers beside one another in a struct, or packed into one", lambda: found(r"\bpub \w+: \[u32; \w+\],|&mut \[u32; 131\]|\bnames: \[u32; 131\]")),
        ("a length or a place beside what it measures", lambda: found(r"\b(path: usize,\s*steps: usize|at: usize,\s*many: usize|names: usize,\s*many: usize|steps: usize\)|many: usize\))", re.S)),
    ],
    7: [("a match on which step, or a flag that chooses one", lambda: found(r"\bmatch (class|job|command)\b|\bsome: bool|\bevery: bool, kind"))],
    8: [],
}


def proofs():
    """Answers, invariants, lemmas and their lines."""
    answers = [f for f in PROOFS if f.endswith("/Answers.antt")]
    invariants = [f for f in PROOFS if f.endswith("/Invariants.antt")]
    others = [f for f in PROOFS if f not in answers and f not in invariants and not f.endswith("/Lib.antt")]
    lines = lambda files: sum(len(open(f).read().splitlines()) for f in files)
    goals = sum(len(re.findall(r"^ *pub \S+ : goal", open(f).read(), re.M)) for f in answers)
    lemmas = sum(len(re.findall(r"^ *(?:pub )?(?!use\b|mod\b|module\b|where\b|record\b|abbrev\b)[^\s:]+ : ", open(f).read(), re.M)) for f in others)
    print(f"8   answers: {goals} in {len(answers)} files, {lines(answers)} lines")
    print(f"    invariants: {len(invariants)} files, {lines(invariants)} lines")
    print(f"    lemmas: {lemmas} in {len(others)} files, {lines(others)} lines")


wanted = [int(a) for a in sys.argv[1:]]
for point, rows in POINTS.items():
    if wanted and point not in wanted:
        continue
    for what, count in rows:
        places = list(count())
        print(f"{point}   {what}: {len(places)}")
        for name, line, text in places if wanted else []:
            print(f"      {name}:{line}: {text}")
if not wanted or 8 in wanted:
    proofs()
