#!/usr/bin/env python3
"""Counts, in crates/*/src of a checkout, the places that docs/DESIGN-PASS.md speaks of, point by point.

Usage: tools/forms.py [--list] [CHECKOUT]
"""
import collections
import glob
import os
import re
import sys

WORDS = r"(?:if|else|return|let|mut|while|loop|match|true|false|for|in|as|fn)\b"
FACTS = [
    r"allowed blocks \(length \w+\.\w+\) ≡ true",
    r"length \w+\.\w+ ≤ block_max",
    r"\w+ ≤ length t\.now",
    r"n ≡ get_or t\.now 0 0",
]
GROUPS = [("image", "blocks"), ("places", "unit"), ("t", "edition", "n"), ("block", "edition"), ("rest", "host")]


def sources(top):
    for path in sorted(glob.glob(os.path.join(top, "crates/*/src/**/*.rt"), recursive=True)):
        with open(path, encoding="utf-8") as file:
            yield os.path.relpath(path, top), file.read()


def functions(text):
    """(name, its lines before the body, its body)"""
    for found in re.finditer(r'^( *)(?:pub )?(?:extern "C" )?fn (\w+)', text, re.M):
        indent = found.group(1)
        start = text.find("\n" + indent + "{\n", found.start())
        inline = text.find(" {\n", found.start(), text.find("\n", found.start()) + 1)
        if inline >= 0 and (start < 0 or inline < start):
            start = inline
        end = text.find("\n" + indent + "}", start)
        if start >= 0 and end >= 0:
            yield found.group(2), text[found.start():start], text[start + 2:end]


def shape(body):
    body = re.sub(r"//.*", "", body)
    body = re.sub(r"0x[0-9A-Fa-f_]+|\b\d[\d_]*(?:u8|u16|u32|usize)?\b", "N", body)
    body = re.sub(r"\b(?!" + WORDS + r")[A-Za-z_]\w*", "x", body)
    return re.sub(r"\s+", " ", body)


def variants(body):
    body = re.sub(r"//.*|#\[.*\]", "", body)
    return re.findall(r"^    (\w+)(\(|\s*\{)?", body, re.M)


def lines(texts, pattern, but=None):
    for path, text in texts:
        for number, line in enumerate(text.split("\n"), 1):
            if re.search(pattern, line) and not (but and re.search(but, line)):
                yield f"{path}:{number}: {line.strip()}"


def structs(texts):
    for path, text in texts:
        for found in re.finditer(r"^(?:pub )?struct (\w+)[^;{]*\{\n(.*?)^\}", text, re.M | re.S):
            yield path, found.group(1), re.sub(r"//.*", "", found.group(2))


def counts(texts):
    enums = []
    for path, text in texts:
        for found in re.finditer(r"^(?:pub )?enum (\w+)[^{]*\{\n(.*?)^\}", text, re.M | re.S):
            kinds = [bool(fields) for _, fields in variants(found.group(2))]
            if len(kinds) in (2, 3) and any(kinds) and not all(kinds):
                enums.append(f"{path}: {found.group(1)}")
    yield "1 enums of two or three variants, some with fields and some without", enums
    yield "1 flags in structs", [f"{p}: {n}.{f}" for p, n, b in structs(texts) for f in re.findall(r"(\w+): bool", b)]
    yield "1 fields and parameters that are numbers for a kind", list(
        lines(texts, r"\b(answer|which|kind|by|edition|field): (u8|usize)\b(?!::)|\bconst (NONE|UNREAD)\b"))
    shapes = collections.defaultdict(list)
    for path, text in texts:
        for name, _, body in functions(text):
            if len(body) > 25:
                shapes[shape(body)].append(f"{path}: {name}")
    yield "2 functions whose bodies have one shape", [", ".join(s) for s in shapes.values() if len(s) > 1]
    yield "3 loops by while or loop", list(lines(texts, r"^\s*(while|loop)\b"))
    yield "4 bytes of numbers by arithmetic", list(
        lines(texts, r"% 256\) as|/ (256|16777216)\) as|\* (256|65536|16777216)\b|\b(256|65536) \*", r"ensures|requires|const"))
    yield "4 numbers within a newtype compared", list(lines(texts, r"\w\.0 (==|!=) |(==|!=) \w+\.0\b"))
    yield "4 conversions and equality as functions", list(
        lines(texts, r"\bfn (\w+_number|number|(stage|phase|flag)_byte|edition_by|(phase|flag|number)_in|same_(counts|places)|both|less|least|low|high|wide)\("))
    yield "4 ladders: a branch that returns true or false", list(lines(texts, r"^\s*return (true|false);"))
    for fact in FACTS:
        found = [f"{p}: {n}" for p, t in texts for n, head, _ in functions(t) if re.search(r"requires.*" + fact, head)]
        yield f"5 functions that require {fact}", found
    for group in GROUPS:
        found = [f"{p}: {n}" for p, t in texts for n, head, _ in functions(t)
                 if all(re.search(r"\b" + g + r": ", head) for g in group)]
        yield "5 functions with the parameters " + ", ".join(group), found
    yield "4 fields copied into variables (let x = y.x)", list(lines(texts, r"^\s*let (mut )?\w+ = \w+\.\w+;"))
    yield "6 arrays with a count beside them", [
        f"{p}: {n}" for p, n, b in structs(texts)
        if re.search(r": \[", b) and re.search(r"\b(count|size|digits|wipes|closes): ", b)]
    yield "7 matches on a number that says what to run", list(lines(texts, r"\bmatch (which|word)\b"))


def proofs(top):
    paths = glob.glob(os.path.join(top, "crates/*/proofs/*/**/Answers.antt"), recursive=True)
    answers = 0
    for path in paths:
        with open(path, encoding="utf-8") as file:
            answers += len(re.findall(r"^pub [^:\n]+ : goal\.", file.read(), re.M))
    return len(paths), answers


def main():
    wants = [a for a in sys.argv[1:] if a != "--list"]
    top = wants[0] if wants else os.path.join(os.path.dirname(os.path.abspath(__file__)), "..")
    for name, found in counts(list(sources(top))):
        print(f"{len(found):4} {name}")
        if "--list" in sys.argv:
            for place in found:
                print(f"       {place}")
    print("%4d %s" % (proofs(top)[0], "8 files of answers"))
    print("%4d %s" % (proofs(top)[1], "8 answers"))


main()
