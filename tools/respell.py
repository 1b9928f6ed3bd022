#!/usr/bin/env python3
"""Respells the repository's own definitions and lemmas.

Words are in snake case (`le4-at` becomes `le4_at`), and facts and types in
upper camel case (`Tree-is-whole` becomes `TreeIsWhole`). A name is the
repository's own if a file of specs/ or proofs/ uses it and no import brings
it from the library. Names that Rattle makes for goals are left alone: they
stand only in the files of a function's proof, without an import. Strings
and comments keep their words.

    python3 tools/respell.py          respell crates/ in the folder where it runs
    python3 tools/respell.py --list   print each name and its new spelling
"""
import glob
import os
import re
import sys

NAME = re.compile(r"(?<![A-Za-z0-9_'\-])[A-Za-z][A-Za-z0-9_']*(?:-[A-Za-z0-9_']+)+(?![A-Za-z0-9_'\-])")
USE = re.compile(r"^\s*(?:ghost )?(?:pub )?use ([^;{]*)\{([^}]*)\}", re.M)
# `x ⊎-elim` and the like hold a symbol before the dash; they are the library's.
SYMBOL_BEFORE = re.compile(r"[^\x00-\x7f]$")
# Names without a dash that are spelled as functions and are facts.
FACTS = {"no_more": "NoMore"}


def own_crates():
    return {os.path.basename(c) for c in glob.glob("crates/*")}


def code(line, rt):
    """The part of a line whose names count: no comment, and of a .rt file only clauses and imports."""
    if rt:
        return line if re.match(r"\s*(ghost|requires|ensures|//)", line) else ""
    return line.split("--")[0]


def imports(text, crates):
    """The dashed names that a file imports: from the repository, and from elsewhere."""
    own, other = set(), set()
    for path, names in USE.findall(text):
        parts = path.strip().rstrip(".").split(".")
        ours = len(parts) > 1 and parts[0] == "Rattle" and parts[1] in crates
        # below proofs/, a module in lower case holds the goals of a function
        if ours and len(parts) > 3 and parts[2] == "proofs" and parts[3][0].islower():
            ours = False
        for item in names.split(","):
            for word in item.replace(" as ", " ").split():
                if NAME.fullmatch(word):
                    (own if ours else other).add(word)
    return own, other


def respelled(name):
    if name[0].isupper():
        return "".join(part[:1].upper() + part[1:] for part in name.split("-"))
    return name.replace("-", "_")


def is_goal_file(path):
    """A file in the folder of a function's proof."""
    return os.path.basename(path) in ("Answers.antt", "Invariants.antt", "Proof.antt")


def names_of(path, crates):
    text = open(path).read()
    own, other = imports(text, crates)
    if path.endswith(".rt"):
        return own
    found = set(own)
    for line in text.split("\n"):
        line = code(line, False)
        if is_goal_file(path):
            # locals of an answer: `let x =`, and helpers with a signature
            for m in re.finditer(r"\blet (%s)(?= |$)" % NAME.pattern, line):
                found.add(m.group(1))
            continue
        for m in NAME.finditer(line):
            if not SYMBOL_BEFORE.search(line[: m.start()]):
                found.add(m.group(0))
    return found - other


def library_names(paths, crates):
    return set().union(*(imports(open(p).read(), crates)[1] for p in paths))


def main():
    crates = own_crates()
    paths = sorted(
        p
        for c in glob.glob("crates/*")
        for kind in ("specs/**/*.antt", "proofs/**/*.antt", "src/**/*.rt")
        for p in glob.glob(os.path.join(c, kind), recursive=True)
    )
    own = set().union(*(names_of(p, crates) for p in paths)) - library_names(paths, crates)
    if "--list" in sys.argv:
        for name in sorted(own):
            print(name, respelled(name))
        return
    for path in paths:
        text = open(path).read()
        lines = []
        local = names_of(path, crates) & own
        for line in text.split("\n"):
            part = code(line, path.endswith(".rt"))
            new = NAME.sub(
                lambda m: respelled(m.group(0))
                if m.group(0) in local and not SYMBOL_BEFORE.search(part[: m.start()])
                else m.group(0),
                part,
            )
            lines.append(new + line[len(part):])
        new_text = "\n".join(lines).replace("′", "'")
        for name, fact in FACTS.items():
            new_text = re.sub(r"(?<![\w'-])%s(?![\w'-])" % name, fact, new_text)
        if new_text != text:
            open(path, "w").write(new_text)


main()
