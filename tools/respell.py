#!/usr/bin/env python3
"""Spells this repository's own definitions and lemmas as today's Rattle does: words in snake case, types in camel case.

usage: tools/respell.py [FOLDER]      once, after port.py, in a repository of the older spelling

A name is the repository's own if a text of specs/ or a lemma file of proofs/ has it and no library does. In a function's own
Answers.antt and Invariants.antt the names that Rattle makes stay: those right behind `goal.`, `given.`, `c.` and the like.
Names that would fall together with another name are spelled by the table APART. Functions, strings and outputs keep their names.
"""

import os
import re
import sys

NAME = re.compile(r"(?<![\w'′·-])[^\W\d_][\w'′]*(?:-[\w'′]+)+(?![\w-])|(?<![\w'′·-])getD[\w'′-]*")
COMMENT = re.compile(r"--[^\n]*|\"(?:[^\"\\\n]|\\.)*\"")
CODE_COMMENT = re.compile(r"//[^\n]*|b?\"(?:[^\"\\\n]|\\.)*\"|b?'(?:\\.|[^'\\])'")
USE = re.compile(r"use\s+([\w.'-]+)\.\{([^}]*)\}", re.S)
# Heads behind which Rattle's own labels stand.
HEADS = ("goal", "given", "c", "w", "l", "g", "m", "Goals", "Given", "Lts")

# Names that would fall together with another one in some file.
APART = {"bit-and": "bit_of_and", "bit-or": "bit_of_or", "bit-xor": "bit_of_xor"}


def texts(root):
    for folder, dirs, files in os.walk(os.path.join(root, "crates")):
        dirs[:] = sorted(d for d in dirs if d != "out")
        for f in sorted(files):
            if f.endswith((".antt", ".rt")):
                yield os.path.join(folder, f)


def read(path):
    with open(path, encoding="utf-8") as f:
        return f.read()


def is_function_proof(path):
    return "/proofs/" in path and path.endswith(("/Answers.antt", "/Invariants.antt", "/Proof.antt", "/Choices.antt"))


def code_of(path, text):
    """The text without comments and strings."""
    return (COMMENT if path.endswith(".antt") else CODE_COMMENT).sub(" ", text)


def respelled(name):
    if name in APART:
        return APART[name]
    parts = name.replace("getD", "get_or").split("-")
    if name[0].isupper():
        return "".join(p[:1].upper() + p[1:] for p in parts)
    return "_".join(parts)


def library_names(root):
    crates = set(os.listdir(os.path.join(root, "crates")))
    names = set()
    for path in texts(root):
        for m in USE.finditer(read(path)):
            parts = m.group(1).split(".")
            if parts[0] != "Rattle" or parts[1] not in crates:
                for item in m.group(2).split(","):
                    names.add(item.split(" as ")[0].strip())
    return names


def own_names(root):
    library = library_names(root)
    own = set()
    for path in texts(root):
        text = code_of(path, read(path))
        if path.endswith(".rt"):
            continue
        if is_function_proof(path):
            # only what such a file names itself
            found = re.findall(r"(?m)^\s*([^\s(){}:.]+)\s*:\s(?!goal\.|given\.)", text)
            found += re.findall(r"\b(?:let|in|where)\s+([^\s(){}:.,]+)\s*(?::|=)", text)
            found += re.findall(r"[({]([^\s(){}:.,]+)\s:\s", text)
            own |= {n for n in found if NAME.fullmatch(n) and not n.startswith("Inv-")}
        else:
            own |= set(NAME.findall(text))
    return {n for n in own if n not in library and respelled(n) != n}


def turned(path, text, own):
    antt = path.endswith(".antt")

    def name(m):
        n = m.group()
        if n not in own:
            return n
        before = text_now[0][: m.start()]
        if antt and is_function_proof(path):
            head = re.search(r"([\w'-]+)\.$", before)
            if head and (head.group(1) in HEADS or re.fullmatch(r"g\d*|κs|c\d+", head.group(1))):
                return n
            after = text_now[0][m.end() :]
            if re.match(r"\s*:\s*(?:goal|given)\.", after) or re.search(r"(?:^|\n)$", before) and re.search(r"(?m)^(?:abbrev )?(?:pub )?" + re.escape(n) + r"\s*:\s*(?:goal|given)\.", text_now[0]):
                return n
        return respelled(n)

    text_now = [text]
    skip = re.compile(r"\"(?:[^\"\\\n]|\\.)*\"") if antt else re.compile(r"b?\"(?:[^\"\\\n]|\\.)*\"|b?'(?:\\.|[^'\\])'")
    spans = [m.span() for m in skip.finditer(text)]

    def quiet(m):
        return any(a <= m.start() < b for a, b in spans)

    return NAME.sub(lambda m: m.group() if quiet(m) else name(m), text)


def main(argv):
    root = argv[0] if argv else "."
    own = own_names(root)
    changed = 0
    for path in texts(root):
        text = read(path)
        new = turned(path, text, own)
        if new != text:
            changed += 1
            with open(path, "w", encoding="utf-8") as f:
                f.write(new)
    print(f"{len(own)} names, {changed} files")
    return 0


if __name__ == "__main__":
    raise SystemExit(main(sys.argv[1:]))
