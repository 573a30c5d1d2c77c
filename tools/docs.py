#!/usr/bin/env python3
"""Holds the documents to the sources: rules and their citations, must-fail edits, definitions that have to be believed.

    docs/RULES.md      each rule is cited by a definition in crates/*/specs (chapters 16 and 17 by any text), each cited rule
                       exists, and no comment of specs/ quotes instead of citing
    docs/PROMISES.md   the list of wrong programs, printed from the first comment line of each crates/NAME/must-fail/*.edit
    docs/THEOREM.md    the table of what a reader has to believe, worked out from the definitions; the first line of each specs file says
                       RULE or SHAPE, and this agrees

Without an argument it writes the two tables. With --check it writes nothing and fails if one differs.
"""
import glob
import os
import re
import sys

TOP = os.path.dirname(os.path.dirname(os.path.abspath(__file__)))
OTHER = ("16", "17")  # chapters of rules that any text may cite: forms of the code, the program talk


def read(name):
    with open(os.path.join(TOP, name), encoding="utf-8") as file:
        return file.read()


def files(*patterns):
    """The files of these names, without what the check left in a crate's out/."""
    found = (os.path.relpath(path, TOP) for pattern in patterns for path in glob.glob(os.path.join(TOP, pattern), recursive=True))
    return sorted(name for name in found if not re.match(r"crates/\w+/out/", name))


SPECS = [name for name in files("crates/*/specs/*.antt") if not name.endswith("/Lib.antt")]


# ---- rules

def cited(text):
    """The rules named in a text; 'R4.1 to R4.3' names all three."""
    found = set(re.findall(r"\bR\d+\.\d+\b", text))
    for chapter, first, other, last in re.findall(r"\bR(\d+)\.(\d+) to R(\d+)\.(\d+)\b", text):
        if chapter == other:
            found |= {"R%s.%d" % (chapter, n) for n in range(int(first), int(last) + 1)}
    return found


def rule_faults():
    rules = re.findall(r"^\| (R\d+\.\d+) \|", read("docs/RULES.md"), re.M)
    for rule in sorted({rule for rule in rules if rules.count(rule) > 1}):
        yield "docs/RULES.md: %s stands there twice" % rule
    texts = files("crates/**/*.antt", "crates/**/*.rt", "docs/**/*.md", "README.md", "include/*.h", "tests/**/*.rs", "ctest/*.c")
    by_specs, by_any = set(), set()
    for name in texts:
        if name == "docs/RULES.md":
            continue
        named = cited(read(name))
        by_any |= named
        by_specs |= named if "/specs/" in name else set()
        for rule in sorted(named - set(rules)):
            yield "%s: %s is no rule" % (name, rule)
    for rule in rules:
        if rule not in (by_any if rule[1:].split(".")[0] in OTHER else by_specs):
            yield "docs/RULES.md: %s is cited by no definition" % rule
    for name in SPECS:
        for number, line in enumerate(read(name).split("\n"), 1):
            if re.search(r'--.*"[^"]{12,}"', line):
                yield "%s:%d: a quotation; cite the rule" % (name, number)


# ---- must-fail edits

def edit_rows():
    """A table row for each edit: crate, edit, what is wrong in it."""
    rows = []
    for name in files("crates/*/must-fail/*.edit"):
        first = read(name).split("\n")[0]
        crate, edit = name.split("/")[1], os.path.basename(name)[:-len(".edit")]
        rows.append((crate, edit, first[2:].strip() if first.startswith("# ") else ""))
    return rows


def edit_faults():
    for crate, edit, wrong in edit_rows():
        if not wrong:
            yield "crates/%s/must-fail/%s.edit: its first line does not say what is wrong" % (crate, edit)


def edit_table():
    order = crate_order()
    rows = sorted(edit_rows(), key=lambda row: (order.index(row[0]), row[1]))
    return "| Crate | Edit | What is wrong in it |\n|---|---|---|\n" + "".join("| %s | `%s` | %s |\n" % row for row in rows)


# ---- what has to be believed

class Block:
    """One definition: its name and its lines."""

    def __init__(self, name):
        self.name, self.lines = name, []

    def is_data(self):
        return re.match(r"(?:pub )?data ", self.lines[0].strip())


SIGNATURE = re.compile(r"^(?:(?:unfoldable|abbrev|pub)\s+)*([^\s(){}:]+)\s+:\s")
TYPE = re.compile(r"^(?:pub\s+)?(?:record|data)\s+([^\s(){}:]+)")


def blocks_of(name):
    """The definitions of a specs file, its names with what they stand for, and its module aliases."""
    blocks, names, aliases = {}, {}, {}
    bodies, current = [0], None
    for line in read(name).split("\n"):
        code = line.split("-- ")[0].rstrip() if not line.strip().startswith("--") else ""
        if not code.strip():
            continue
        indent = len(code) - len(code.lstrip())
        text = code.strip()
        if text.startswith("use "):
            imported(text, names, aliases)
            continue
        while indent < bodies[-1]:
            bodies.pop()
        if text.startswith("module "):
            bodies.append(indent + 2)
            continue
        start = TYPE.match(text) or SIGNATURE.match(text)
        if indent == bodies[-1] and start:
            current = blocks.setdefault(start.group(1), Block(start.group(1)))
        elif current and current.is_data() and start:
            names[start.group(1)] = (name, current.name)
        if current:
            current.lines.append(code)
    for block in blocks:
        names[block] = (name, block)
    return blocks, names, aliases


def imported(text, names, aliases):
    """One line of `use`: names of this repository's specs, and of types that the code declares."""
    crate = re.match(r"use Rattle\.(\w+)\.", text)
    if not crate or crate.group(1) not in crate_order():
        return
    whole = re.match(r"use Rattle\.(\w+)\.specs\.(\w+) as (\S+)$", text)
    if whole:
        aliases[whole.group(3)] = "crates/%s/specs/%s.antt" % whole.group(1, 2)
        return
    some = re.match(r"use Rattle\.(\w+)\.specs\.([\w.]+)\.\{(.*)\}$", text)
    if not some:
        return
    crate, path, listed = some.groups()
    for item in listed.split(", "):
        name, _, alias = item.partition(" as ")
        if path.startswith("declared."):
            kind = [part for part in path.split(".")[1:] if part != "TheVariants"][-1]
            names[alias or name] = ("crates/%s/src" % crate, kind)
        else:
            names[alias or name] = ("crates/%s/specs/%s.antt" % (crate, path), name)


def declared_lines(folder, kind):
    """The lines of a struct or enum that the code declares."""
    for name in files(folder + "/*.rt"):
        found = re.search(r"^pub (?:struct|enum) %s \{\n(.*?)^\}" % kind, read(name), re.M | re.S)
        if found:
            return found.group(0).count("\n") + 1
    sys.exit("no type %s in %s" % (kind, folder))


class Definitions:
    def __init__(self):
        self.parsed = {name: blocks_of(name) for name in SPECS}

    def used(self, file, block):
        """What a definition names: (file, name) of each."""
        _, names, aliases = self.parsed[file]
        for token in re.findall(r"[^\s(){};,\[\]]+", " ".join(self.parsed[file][0][block].lines)):
            first = token.split(".")[0]
            if token in names:
                yield names[token]
            elif "." in token and first in aliases:
                yield aliases[first], token.split(".")[1]
            elif first in names:
                yield names[first]

    def home(self, file, name):
        """Where a name is defined: a constructor belongs to its data type."""
        if not file.endswith(".antt"):
            return file, name
        if name not in self.parsed[file][1]:
            sys.exit("no definition %s in %s" % (name, file))
        return self.parsed[file][1][name]

    def closure(self, roots, left_out):
        """All that the roots come to, but for what is left out."""
        seen, todo = set(), list(roots)
        while todo:
            at = self.home(*todo.pop())
            if at in seen or at in left_out:
                continue
            seen.add(at)
            if at[0].endswith(".antt"):
                todo += self.used(*at)
        return seen

    def lines(self, at):
        return len(self.parsed[at[0]][0][at[1]].lines) if at[0].endswith(".antt") else declared_lines(*at)


CALLS = [("crates/board/specs/Calls.antt", name) for name in ("message_call", "mailbox_call", "power_up_call", "sample_call", "image_call")]
FIRMWARE = "crates/demand3/specs/Firmware.antt"
# the questions of a reader: what is stated, and what the statement is about whatever it says, so that it need not be believed for it
ASKED = [
    ("Calls", CALLS, []),
    ("Demand 3", [(FIRMWARE, "Demand3Calls")], CALLS),
    ("Count of parts", [(FIRMWARE, "ReadOpened"), (FIRMWARE, "ExactParts")], CALLS),
    ("Table", [("crates/table/specs/Rule.antt", "table_ok"), ("crates/table/specs/Rows.antt", "rows")], []),
    ("Search", [("crates/table/specs/Halve.antt", name) for name in ("look_count", "told")] + [("crates/table/specs/Find.antt", "find_row")], []),
    ("Summary", [("crates/gauge/specs/Masks.antt", "Summed"), (FIRMWARE, "final"), (FIRMWARE, "power_on")], CALLS),
    ("Trip points", [("crates/crossed/specs/Crossed.antt", "straight"), (FIRMWARE, "final"), (FIRMWARE, "power_on")], CALLS),
    ("`talk`", [
        ("crates/dialogue/specs/Text.antt", "spoken"), ("crates/dialogue/specs/Lines.antt", "lines"),
        ("crates/talk/specs/Turns.antt", "taken"), ("crates/talk/specs/Run.antt", "after_lines")], CALLS),
    ("Boards", [
        ("crates/demand3/specs/%s.antt" % file, name) for file, names in (
            ("Promised", "Meets MailboxPromised PowerUpPromised SamplePromised ImagePromised"), ("Refused", "Aborts Sends Forgets Fakes"),
            ("Conversation", "gives expected"), ("Examples", "cases"), ("CoatingShop", "story"), ("Fab", "asked_in expected_in fab"),
            ("Relay", "relay"), ("Mailboxes", "given_in expected_of boxed_cases")) for name in names.split()], CALLS),
]


def believed():
    """The title of each question, and the lines of each file for it; all of them together come last."""
    definitions = Definitions()
    found = [(title, definitions.closure(roots, left_out)) for title, roots, left_out in ASKED]
    found.append(("All", set().union(*(closure for _, closure in found))))
    counts = []
    for title, closure in found:
        count = {}
        for at in closure:
            count[at[0]] = count.get(at[0], 0) + definitions.lines(at)
        counts.append((title, count))
    return counts


def crate_order():
    return re.findall(r"^(\w+)[^#:\n]*:", read("crates.txt"), re.M)


def believed_table(counts):
    order = crate_order()
    names = sorted(counts[-1][1], key=lambda name: (order.index(name.split("/")[1]), name))
    text = "| File | " + " | ".join(title for title, _ in counts) + " |\n|---|" + "---|" * len(counts) + "\n"
    for name in names:
        shown = name[len("crates/"):].replace(".antt", "").replace("/src", "/src, types")
        text += "| %s | %s |\n" % (shown, " | ".join(str(count.get(name, "")) for _, count in counts))
    return text + "| **all** | %s |\n" % " | ".join("**%d**" % sum(count.values()) for _, count in counts)


def mark_faults(counts):
    rules = counts[-1][1]
    for name in SPECS:
        first = read(name).split("\n")[0]
        mark = re.match(r"-- (RULE|SHAPE): ", first)
        if not mark:
            yield "%s: its first line does not say RULE or SHAPE" % name
        elif (mark.group(1) == "RULE") != (name in rules):
            yield "%s: is marked %s, and %s of it has to be believed" % (name, mark.group(1), "some" if name in rules else "nothing")


# ---- tables in the documents

def with_table(name, title, table):
    """The document with the table between its two marks."""
    text = read(name)
    found = re.search(r"(<!-- %s: printed by tools/docs.py -->\n\n).*?(\n<!-- end of %s -->)" % (title, title), text, re.S)
    if not found:
        sys.exit("%s has no marks for the table of %s" % (name, title))
    return text[:found.start()] + found.group(1) + table + found.group(2) + text[found.end():]


def main():
    counts = believed()
    tables = {
        "docs/PROMISES.md": with_table("docs/PROMISES.md", "edits", edit_table()),
        "docs/THEOREM.md": with_table("docs/THEOREM.md", "believed", believed_table(counts)),
    }
    faults = list(rule_faults()) + list(edit_faults()) + list(mark_faults(counts))
    for name, text in tables.items():
        if text != read(name):
            if "--check" in sys.argv:
                faults.append("%s: a table is not what the sources give (run tools/docs.py)" % name)
            else:
                with open(os.path.join(TOP, name), "w", encoding="utf-8") as file:
                    file.write(text)
    if faults:
        sys.exit("\n".join(faults))
    print("rules, edits and what has to be believed are as the documents say")


if __name__ == "__main__":
    main()
