#!/usr/bin/env python3
"""Spells the repository's own definitions and lemmas as today's Rattle does. Run once, behind the kit's port.py: see docs/PORT.md.

    tools/port_names.py [--dry]     rewrites crates/*/specs, crates/*/proofs and the ghost lines of crates/*/src

Definitions and lemmas are in snake case, facts and types in camel case; in a lemma's name a dash stays where it joins the names of two
definitions, as in `length-little`. Functions of src/, exported names, strings and the names that the check makes of them keep their spelling.
"""
import collections
import os
import re
import sys

TOP = os.path.dirname(os.path.dirname(os.path.abspath(__file__)))
CRATES = os.path.join(TOP, "crates")
NAME = r"[^\s(){}\[\].;,@\"«»]+"
TOKEN = re.compile(rf"(?<![^\s(){{}}\[\].;,@«»]){NAME}")
HEAD = re.compile(rf"^ *(?:(?:abbrev|unfoldable|opaque|pub|rec) )*({NAME})(?: \{{[^{{}}\n]*\}})* :(?= |$)")
RECORD = re.compile(rf"^ *(?:(?:abbrev|pub) )*(?:record|data) ({NAME})")
FUNCTION = re.compile(r"/proofs/.+/[^/]+\.antt$")
# words of lists that a lemma's name may join to a definition's
LIBRARY = {"length", "take", "drop", "append", "replicate", "set", "get_or", "cond", "not"}
# names that would fall together, or that say more than their words
SPECIAL = {"fromLittle": "from_little", "from-little": "from_little-little", "No-index": "LacksIndex", "No-key": "LacksKey"}


def texts(*ends):
    for folder, folders, files in os.walk(CRATES):
        folders[:] = sorted(name for name in folders if name != "out")
        for name in sorted(files):
            if name.endswith(ends):
                yield os.path.join(folder, name)


def read(path):
    with open(path, encoding="utf-8") as file:
        return file.read()


def declared():
    """Where each name is declared: in specs/, or in files of lemmas. What a function's own proof names is not among them."""
    specs, lemmas = set(), set()
    for path in texts(".antt"):
        if FUNCTION.search(path):
            continue
        to = specs if "/specs/" in path else lemmas
        for line in read(path).split("\n"):
            for form in (RECORD, HEAD):
                found = form.match(line)
                if found and found.group(1) not in ("let", "in", "where"):
                    to.add(found.group(1))
                    break
    return specs, lemmas


def camel(name):
    return "".join(word[:1].upper() + word[1:] for word in name.split("-"))


def snake(name):
    return re.sub(r"(?<=[-_])[A-Z](?![A-Za-z])|^[A-Z](?=[-_])", lambda letter: letter.group().lower(), name).replace("-", "_")


def joined(name, known):
    """A lemma's name: a dash stays between the names of two definitions."""
    words = name.split("-")
    for cut in range(1, len(words)):
        front, back = "-".join(words[:cut]), "-".join(words[cut:])
        if front in known and back in known:
            return snake(front) + "-" + snake(back)
    return snake(name)


def table():
    specs, lemmas = declared()
    known = specs | LIBRARY
    made = {}
    for name in specs | lemmas:
        if name in SPECIAL:
            made[name] = SPECIAL[name]
        elif "-" not in name:
            continue
        elif re.match(r"[A-Z][a-z]", name):
            made[name] = camel(name)
        else:
            made[name] = snake(name) if name in specs else joined(name, known)
    return {old: new for old, new in made.items() if old != new}, specs | lemmas


def together(made, every):
    """Names that would fall together."""
    by = collections.defaultdict(set)
    for name in every:
        by[made.get(name, name)].add(name)
    return {new: olds for new, olds in by.items() if len(olds) > 1}


def turned(text, made):
    return TOKEN.sub(lambda token: made.get(token.group(), token.group()), text)


def turned_source(text, made):
    """The ghost lines of a source, and what its clauses say."""
    lines, depth, ghost = [], 0, False
    for line in text.split("\n"):
        head = re.match(r"\s*(ghost use|requires|ensures|ghost)\b", line)
        if head:
            ghost, depth = True, 0
        if ghost:
            line = turned(line, made)
            depth += line.count("{") - line.count("}")
            if depth <= 0:
                ghost = False
        lines.append(line)
    return "\n".join(lines)


def main():
    made, every = table()
    clashes = together(made, every)
    for new, olds in sorted(clashes.items()):
        print(f"fall together: {', '.join(sorted(olds))}: {new}")
    if "--dry" in sys.argv:
        for old, new in sorted(made.items()):
            print(old, new)
        return 1 if clashes else 0
    if clashes:
        return 1
    for path in texts(".antt", ".rt"):
        old = read(path)
        new = turned(old, made) if path.endswith(".antt") else turned_source(old, made)
        if new != old:
            with open(path, "w", encoding="utf-8") as file:
                file.write(new)
    print(f"{len(made)} names")
    return 0


if __name__ == "__main__":
    sys.exit(main())
