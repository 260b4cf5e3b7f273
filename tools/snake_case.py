#!/usr/bin/env python3
"""Brings the repository's own antt names to today's spelling, once, right after port.py.

usage: tools/snake_case.py [FOLDER]

A definition, field or constructor of specs/ and proofs/ in lower camel case or with dashes is respelled in snake case; a dash stays in a
lemma's name between two names of functions. Types, and names that the kit's libraries have too, keep their spelling. It writes the .antt and
.rt files and must-fail edits of crates/, and what stands between backticks in README.md and docs/. A name that would fall together with
another keeps its old form, and is printed.
"""
import collections
import os
import re
import sys

WORD = r"[^\s(){}.;,:@\"«»\[\]\\`|]+"
TOKEN = re.compile(WORD)
# Not what follows a dot: a field, or a part of a path.
BARE = re.compile(r"(?<!\.)(?<![^\s(){}.;,:@\"«»\[\]\\`|])" + WORD)
DEF = re.compile(r"^( *)(?:abbrev |unfoldable |pub |data |record |ruleset )*(" + WORD + r")(?: [({][^:]*:[^:]*[)}])* : ")
USE = re.compile(r"^ *(?:pub )?(?:ghost )?use ([^{;\n]+?)(?:\.\{([^}]*)\})?;?$", re.M)
# What port.py turned in std's names stands in names made after them too.
PARTS = {"getD": "get_or", "allFF": "all_ff"}


def folders(top):
    crates = os.path.join(top, "crates")
    for name in sorted(os.listdir(crates)):
        yield os.path.join(crates, name)


def files(top, ends):
    for crate in folders(top):
        for folder, inner, names in os.walk(crate):
            inner[:] = sorted(d for d in inner if d != "out")
            for name in sorted(names):
                if name.endswith(ends):
                    yield os.path.join(folder, name)


def own(path, top):
    """The files that define names of ours: those of specs/, and the lemmas of proofs/, no function's own proof."""
    parts = os.path.relpath(path, os.path.join(top, "crates")).split(os.sep)
    return len(parts) == 3 and parts[1] in ("specs", "proofs") or len(parts) == 4 and parts[1] == "specs"


def snake(part):
    if part in PARTS:
        return PARTS[part]
    if not part[:1].islower():
        return part
    return re.sub(r"(?<=[a-z0-9])([A-Z]+)", lambda m: "_" + m[1].lower(), part)


def main(top):
    texts = {p: open(p, encoding="utf-8").read() for p in files(top, (".antt", ".rt", ".edit"))}
    defs, indented, tokens, foreign = collections.Counter(), set(), set(), set()
    for path, text in texts.items():
        # A function of src/ may share a word's name; a parameter or a local would hide the word.
        tokens |= set(re.findall(r"\b(\w+): ", text)) if path.endswith(".rt") else set() if path.endswith(".edit") else set(BARE.findall(text))
        for module, names in USE.findall(text):
            if not re.match(r"Rattle\.(?!std\b|core\b|io\b)", module):
                foreign |= set(TOKEN.findall(names)) | {module.split(".")[-1]}
        if path.endswith(".antt") and own(path, top):
            for line in text.split("\n"):
                found = DEF.match(line)
                if found and found[2] not in ("let", "use"):
                    defs[found[2]] += 1
                    if found[1]:
                        indented.add(found[2])
                for name in re.findall(r"^(?:abbrev )?(?:pub )?data (" + WORD + ")", line):
                    defs[name] += 1
    functions = {snake(n) for n in defs if "-" not in n} | {n for n in foreign if "-" not in n}
    new, taken = {}, set(tokens)
    # Those in camel case first: where a lemma comes to a function's name it gets an ending, and a field keeps its dashes.
    for name in sorted(defs, key=lambda n: ("-" in n, n)):
        if name in foreign or not name[:1].islower():
            continue
        parts = [snake(p) for p in name.split("-")]
        out = parts[0]
        for before, part in zip(parts, parts[1:]):
            joined = name not in indented and before in functions and part in functions
            out += ("-" if joined else "_") + part
        if out != name and out in taken and name not in indented:
            out += "_lem" if "-" in name else "_of"
        if out != name and out in taken:
            print(f"kept: {name}, since {out} is another name")
        elif out != name:
            new[name] = out
            taken.add(out)
    turn = lambda text: TOKEN.sub(lambda m: new.get(m[0], m[0]), text)
    for path, text in texts.items():
        if turn(text) != text:
            open(path, "w", encoding="utf-8").write(turn(text))
    pages = [os.path.join(top, "README.md")]
    for folder, _, names in os.walk(os.path.join(top, "docs")):
        pages += [os.path.join(folder, n) for n in sorted(names) if n.endswith(".md")]
    for path in pages:
        text = open(path, encoding="utf-8").read()
        turned = re.sub(r"`[^`\n]+`", lambda m: turn(m[0]), text)
        if turned != text:
            open(path, "w", encoding="utf-8").write(turned)
    print(f"{len(new)} names respelled")


if __name__ == "__main__":
    main(sys.argv[1] if len(sys.argv) > 1 else ".")
