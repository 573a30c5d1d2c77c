#!/usr/bin/env python3
"""Names that nothing cites: laws and definitions of the crates, functions of their code, imports.

    tools/laws.py

A `pub` name of crates/*/specs or crates/*/proofs is cited where another definition of its file, or a file that imports it, has it; the
answer to a goal has the goal's name, and the check cites it; a theorem that stands for itself is listed by name, between backticks, in
docs/PROMISES.md or docs/THEOREM.md. What is none of these is dead. So is a law without `pub` that its file does not use, a function or a
constant of crates/*/src that no code uses, and an imported name that its file does not have; a trait is had where one of its functions
is called, as `.put(` or `::at(`. What `#[tactic(..)]` names for a function's proof is cited there. A name listed among the theorems of
docs/PROMISES.md that no file defines is an error too. One line each: crate, file, name; exits 1 if there is any.
"""
import pathlib
import re
import sys

ROOT = pathlib.Path(__file__).resolve().parent.parent
LISTS = ("docs/PROMISES.md", "docs/THEOREM.md")
THEOREMS = "## Theorems over the definitions"
NAME = r"[^\s(){}\[\],;.:]+"
DEFINED = re.compile(rf"^ *((?:(?:unfoldable|abbrev|opaque) )*)(pub )?(data |record |ruleset )?({NAME})(?= )")
IMPORT = re.compile(r"^(?:ghost )?(?:pub )?use ([^{;\s]+?)(?:\.\{([^}]*)\})?(?: as (\S+?))?;?$")
ANSWER = re.compile(rf"^(?:abbrev )?pub ({NAME}) : \w+\.\1$")
ITEM = re.compile(r"^ *(?:pub )?(?:const|fn) (\w+)")
# a law or a definition that a function names for its proof, as crate::proofs::Hearing::kept_more
NAMED = re.compile(r"\b(\w+)::((?:proofs|specs)(?:::\w+)+)::(\w+)")
TRAIT = re.compile(r"pub trait (\w+)[^{]*\{(.*?)^\}", re.M | re.S)
KEYWORDS = {"use", "mod", "pub", "module", "where", "unfolding", "let", "instance", "infixl", "infixr", "infix"}


def words_of(text, code):
    """The names in a text: those of definitions and contracts, and those of code, where `wire::byte_at` has two."""
    words = re.findall(r"\[\]|[^\s(){}\[\],;.λ]+", text)
    return set(words) | set(re.findall(r"\w+", text) if code else ())


def bare(line):
    """A line without its comment."""
    return re.sub(r"(^|\s)(--|//).*", "", line)


class Definition:
    def __init__(self, name, public, first):
        self.name, self.public, self.first, self.last = name, public, first, first


class File:
    """A file of definitions: its imports, its definitions with their lines, and the words of each line."""

    def __init__(self, path):
        self.path = path
        self.crate, self.part = path.relative_to(ROOT / "crates").parts[:2]
        self.lines = [bare(line) for line in path.read_text(encoding="utf8").split("\n")]
        self.imports = self.imports_of()
        self.lines_of = self.words_outside()
        self.definitions = self.definitions_of() if path.suffix == ".antt" else []

    def words_outside(self):
        """The lines of each word, outside of imports."""
        found, away = {}, {at for at, *_ in self.imports}
        for at, line in enumerate(self.lines):
            for word in words_of(line, self.path.suffix == ".rt") if at not in away else ():
                found.setdefault(word, set()).add(at)
        return found

    def imports_of(self):
        """(line, module's path, name there, name here) for each imported name; no name there for a module under another name."""
        found = []
        for at, line in enumerate(self.lines):
            match = IMPORT.match(line)
            if not match:
                continue
            module, names, alias = match.groups()
            if names is None:
                found.append((at, module, None, alias or re.split(r"\.|::", module)[-1]))
                continue
            for name in filter(None, (n.strip() for n in names.split(","))):
                there, _, here = name.partition(" as ")
                found.append((at, module, there, here or there))
        return found

    def definitions_of(self):
        """The definitions that stand at the margin or in a section; fields, variants and what stands behind `where` are no such."""
        found, inner, section = [], None, 0
        for at, line in enumerate(self.lines):
            if not line.strip():
                continue
            depth = len(line) - len(line.lstrip())
            if re.match(r" *module ", line):
                section = depth + 2
                inner = None
                continue
            if depth < section:
                section = depth
            match = DEFINED.match(line)
            if match and depth == section and match[4] not in KEYWORDS and (any(match.groups()[:3]) or line[match.end() :].startswith(" :")):
                inner = Definition(match[4], bool(match[2]), at)
                found.append(inner)
            if inner:
                inner.last = at
        return found

    def used(self, name, own):
        """Whether the file has the name, or on one line each part of an operator, outside of imports and of some lines of its own."""
        found = set(self.lines_of.get(name, ()))
        parts = [self.lines_of.get(part, set()) for part in name.split("◌") if part]
        if "◌" in name and parts:
            found |= set.intersection(*parts)
        return any(at not in own for at in found)

    def calls(self, name):
        """Whether the file calls a trait's function of this name: by a value, or by its type or trait."""
        return any(re.search(rf"(?:\.|::){name}(?:::<[^()]*>)?\(", line) for line in self.lines)


def module_of(file):
    """The path by which a module names this file."""
    inside = file.path.relative_to(ROOT / "crates" / file.crate).with_suffix("")
    return ".".join(["Rattle", file.crate, *inside.parts])


def importers(files):
    """module's path -> (file, name there, name here) of each import of it."""
    found = {}
    for file in files:
        for _, module, there, here in file.imports:
            found.setdefault(module, []).append((file, there, here))
        for crate, inside, name in NAMED.findall("\n".join(file.lines)) if file.path.suffix == ".rt" else ():
            module = ".".join(["Rattle", file.crate if crate == "crate" else crate, *inside.split("::")])
            found.setdefault(module, []).append((file, name, name))
    return found


def cited(file, name, own, importing):
    """Whether anything but its own lines has the name: its file, a file that imports it, or one that has its module under a name."""
    if file.used(name, own):
        return True
    for other, there, here in importing.get(module_of(file), ()):
        if other is file:
            continue
        if there == name and other.used(here, ()):
            return True
        if there is None and re.search(re.escape(f"{here}.{name}") + r"(?![^\s(){}\[\],;.])", "\n".join(other.lines)):
            return True
    return False


def dead_laws(files, listed):
    importing = importers(files)
    for file in files:
        if file.path.suffix != ".antt":
            continue
        for d in file.definitions:
            own = range(d.first, d.last + 1)
            by_check = d.name.endswith("_spec") or ANSWER.match(file.lines[d.first])
            if d.public and not by_check and d.name not in listed and not cited(file, d.name, own, importing):
                yield file, d.first, f"{d.name}: cited nowhere and listed in none of {', '.join(LISTS)}"
            if not d.public and not file.used(d.name, own):
                yield file, d.first, f"{d.name}: not used in its file"


def dead_code(files):
    code = [f for f in files if f.path.suffix == ".rt"]
    for file in code:
        for at, line in enumerate(file.lines):
            match = ITEM.match(line)
            if match and match[1] != "main" and not any(f.used(match[1], [at] if f is file else ()) for f in code):
                yield file, at, f"{match[1]}: no code uses it"


def traits(files):
    """The functions of each trait."""
    found = {}
    for file in files:
        for name, body in TRAIT.findall("\n".join(file.lines)) if file.path.suffix == ".rt" else ():
            found[name] = re.findall(r"\bfn (\w+)", body)
    return found


def dead_imports(files):
    functions = traits(files)
    for file in files:
        for at, module, there, here in file.imports:
            trait = functions.get(there or re.split(r"\.|::", module)[-1], ()) if file.path.suffix == ".rt" else ()
            if not file.used(here, ()) and not any(file.calls(name) for name in trait):
                yield file, at, f"{there or module}: imported and not used"


def gone_theorems(files):
    """The names in the list of theorems that stand for nothing."""
    known = {d.name for file in files for d in file.definitions}
    text = (ROOT / LISTS[0]).read_text(encoding="utf8").split(THEOREMS)[-1].split("\n## ")[0]
    return [name for name in re.findall(r"`([^`/]+)`", text) if name not in known]


def main():
    crates = ROOT / "crates"
    paths = sorted(p for kind in ("specs", "proofs", "src") for p in crates.glob(f"*/{kind}/**/*") if p.suffix in (".antt", ".rt"))
    files = [File(p) for p in paths]
    listed = {n for name in LISTS for n in re.findall(r"`([^`]+)`", (ROOT / name).read_text(encoding="utf8"))}
    dead = [*dead_laws(files, listed), *dead_code(files), *dead_imports(files)]
    for file, at, what in dead:
        print(f"{file.crate}: {file.path.relative_to(crates / file.crate)}:{at + 1}: {what}")
    gone = gone_theorems(files)
    for name in gone:
        print(f"{LISTS[0]}: {name}: listed as a theorem, and no file of definitions or laws has it")
    print(f"laws: {sum(len(f.definitions) for f in files)} definitions and laws in {len(files)} files, {len(dead)} dead and {len(gone)} gone names")
    return 1 if dead or gone else 0


if __name__ == "__main__":
    sys.exit(main())
