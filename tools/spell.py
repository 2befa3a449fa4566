#!/usr/bin/env python3
"""Spells the repository's own definitions and lemmas as today's Rattle does; run once, at the top, after port.py.

Words are in snake case, facts and types in upper camel case. In a lemma's name a dash stands between two names of
definitions, and a plain word is added with `_`. Names of src/ and strings stay.
"""
import collections
import glob
import re
import sys

CAMEL = re.compile(r"[a-z][a-z0-9]*(?:[A-Z][A-Za-z0-9]*)+$")
DEFINED = re.compile(r"\s*((?:(?:pub|abbrev|unfoldable|data|record|axiom)\s+)*)([^\s(){};.,\"]+)\s*(?:[({].*)?:(?:\s|$)")
TOKEN = re.compile(r'"(?:[^"\\]|\\.)*"|[^\s(){};,."`]+|[\s(){};,."`]')
TURNED = {"getD": "get_or", "flatMap": "flat_map"}


def files():
    antt = [f for d in ("specs", "proofs") for f in glob.glob(f"crates/*/{d}/**/*.antt", recursive=True)]
    return sorted(antt), sorted(glob.glob("crates/*/src/**/*.rt", recursive=True)), sorted(
        glob.glob("crates/*/must-fail/*.edit")), ["README.md"] + sorted(glob.glob("docs/*.md"))


def snake(word):
    if word in TURNED:
        return TURNED[word]
    if not CAMEL.match(word):
        return word
    return re.sub(r"(?<=[a-z0-9])([A-Z])", r"_\1", word).lower().replace("l_f", "lf") if word == "isLF" else re.sub(
        r"(?<=[a-z0-9])([A-Z])", r"_\1", word).lower()


def definitions(antt):
    words, types, lemmas, generated, proved, local = set(), set(), set(), set(), set(), set()
    for path in antt:
        proof = path.endswith("/Proof.antt")
        lines = open(path).read().split("\n")
        for number, line in enumerate(lines):
            if line.strip().startswith("--"):
                continue
            found = DEFINED.match(line)
            if not found:
                continue
            name = found.group(2)
            if proof and ("tie." in line or "statement" in line):
                generated.add(name)
                continue
            if re.match("[A-Z]", name):
                types.add(name)
            elif "/specs/" in path:
                words.add(name)
            elif line.startswith("pub ") or line.startswith("abbrev pub") or not line.startswith(" "):
                proved.add(name)
            if "-" in name:
                lemmas.add(name)
            elif CAMEL.match(name):
                local.add(snake(name))
            elif line.startswith("  "):
                proved.add(name)
    return words, types, lemmas, generated, proved, local


def lemma_name(name, words, types):
    """The parts of a kebab name: those that name a definition joined by dashes, plain words by `_`."""
    parts = name.split("-")
    if not re.match(r"[A-Za-z]", name):
        return None
    items, at = [], 0
    while at < len(parts):
        for size in range(len(parts) - at, 0, -1):
            word = "_".join(snake(p) for p in parts[at:at + size])
            fact = parts[at][:1].upper() + parts[at][1:]
            if word in words:
                items.append((word, True))
                break
            if size == 1 and CAMEL.match(parts[at]) and fact in types:
                items.append((fact, True))
                break
        else:
            size = 1
            items.append((snake(parts[at]), False))
        at += size
    made = items[0][0]
    for before, item in zip(items, items[1:]):
        made += ("-" if before[1] and item[1] else "_") + item[0]
    return made + "_lem" if made in words else made


def main():
    antt, code, edits, pages = files()
    words, types, lemmas, generated, proved, local = definitions(antt)
    spelled = {snake(w) for w in words}
    for word in "length take drop map length get_or set min append length sum not reverse member".split():
        spelled.add(word)
    turn = {}
    for name in sorted(lemmas - generated):
        made = lemma_name(name, spelled, types)
        made = made + "_lem" if made in local and not made.endswith("_lem") else made
        if made and made != name:
            turn[name] = made

    def late_of(text):
        """The lemmas of `late` that a file defines, or imports from a file of lemmas."""
        named = {n for line in re.findall(r"^use [^\n]*\.proofs\.[^\n]*\{([^}]*)\}", text, re.M) for n in re.split(r"[ ,]+", line)}
        return {n: new for n, new in late.items() if n in named or re.search(rf"^ *(?:pub )?{n} :", text, re.M)}

    def turned(token, path_part, in_proof):
        if token in now and not path_part:
            return now[token]
        if token in turn and not (path_part and in_proof):
            return turn[token]
        if "-" in token:
            parts = token.split("-")
            if any(CAMEL.match(p) or p in TURNED for p in parts):
                return "-".join(snake(p) for p in parts)
            return token
        return snake(token)

    def spell(text, in_proof, said):
        out, before = [], ""
        for token in TOKEN.findall(text):
            if token[0] == '"' and len(token) > 1:
                out.append(token)
            else:
                new = turned(token, before == ".", in_proof)
                if new != token or re.match(r"[A-Za-z]", token):
                    said.setdefault(new, set()).add(token)
                out.append(new)
            before = token
        return "".join(out)

    now = {}
    # lemmas that were in snake case already, and would now have their function's name
    late = {name: name + "_lem" for name in proved if name in local}

    clashes = 0
    results = {}
    for path in antt:
        said = {}
        proof = path.endswith("/Proof.antt")
        now.clear()
        now.update(late_of(open(path).read()))
        lines = []
        for line in open(path).read().split("\n"):
            lines.append(spell(line, proof and not line.startswith("use "), said))
        for new, olds in said.items():
            if len(olds) > 1 and not all(o.startswith("isLF") for o in olds):
                print("clash", path, new, sorted(olds))
                clashes += 1
        results[path] = "\n".join(lines)
    now.clear()
    for path in code:
        lines = []
        for line in open(path).read().split("\n"):
            lines.append(spell(line, True, {}) if not re.search(r'b?"', line) else line)
        results[path] = "\n".join(lines)
    for path in edits:
        lines = []
        for line in open(path).read().split("\n"):
            lines.append(spell(line, False, {}) if re.match("(old|new):", line) else line)
        results[path] = "\n".join(lines)
    for path in pages:
        parts = re.split(r"(`[^`\n]*`)", open(path).read())
        results[path] = "".join(spell(p[1:-1], False, {}).join("``") if p.startswith("`") and "/" not in p else p for p in parts)
    if "--list" in sys.argv:
        for name in sorted(turn):
            print(name, turn[name])
    made = collections.Counter(turn.values())
    for name, count in made.items():
        if count > 1:
            print("two lemmas", name, [o for o in turn if turn[o] == name])
    print(len(turn), "lemmas,", clashes, "clashes")
    if "--write" in sys.argv:
        for path, text in results.items():
            if text != open(path).read():
                open(path, "w").write(text)


main()
