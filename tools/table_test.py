#!/usr/bin/env python3
"""Tries tools/table.py on pages with one thing wrong. Its last line is 'N passed, M failed'; exits non-zero if one fails.

Each page is docs/object-table.md with an edit. The program runs on a copy, with --check and without: both times it has to name the
line and the reason, and to write nothing. Pages that are good in another way than today's are tried too.
"""
import os
import shutil
import subprocess
import sys
import tempfile

sys.dont_write_bytecode = True
import table

with open(os.path.join(table.TOP, table.PAGE), encoding="utf-8") as file:
    LINES = file.read().split("\n")
HEADER = LINES.index(table.HEADER) + 1
results = {True: 0, False: 0}

# name, row, column, what stands there, what is said
BAD_CELLS = [
    ("index in small letters", "600E:01", "Index", "600e", "Index is '600e', not four digits of capital hex"),
    ("index of five digits", "2003:00", "Index", "02003", "Index is '02003', not four digits of capital hex"),
    ("index of three digits", "2003:00", "Index", "203", "Index is '203', not four digits of capital hex"),
    ("subindex 100", "2003:00", "Sub", "100", "Sub is '100', not two digits of capital hex"),
    ("subindex of one digit", "2003:00", "Sub", "0", "Sub is '0', not two digits of capital hex"),
    ("unknown type", "2003:00", "Type", "SINT", "Type is 'SINT', not a type"),
    ("type in small letters", "2003:00", "Type", "usint", "Type is 'usint', not a type"),
    ("unknown access", "2003:00", "Access", "R", "Access is 'R', not RO, WO or RW"),
    ("nv for NV", "2001:00", "NV", "nv", "NV is 'nv', not NV or a dash"),
    ("yes for NV", "2001:00", "NV", "yes", "NV is 'yes', not NV or a dash"),
    ("length in words", "2003:00", "Length", "one", "Length is 'one', not a number of bytes"),
    ("length 0", "2001:00", "Length", "0", "Length is '0', not a number of bytes"),
    ("length in hex", "2001:00", "Length", "2F", "Length is '2F', not a number of bytes"),
    ("place in words", "2003:00", "Place", "next", "Place is 'next', not a number or a dash"),
    ("dash for a minimum", "2003:00", "Minimum", "-", "Minimum is '-', not 2 digits of capital hex"),
    ("dash for a default", "1000:00", "Default", "-", "Default is '-', not 8 digits of capital hex"),
    ("number for a dash, string", "2001:00", "Maximum", "00", "Maximum is '00', and a STRING has a dash there"),
    ("number for a dash, card", "2010:00", "Default", "00", "Default is '00', and a CARD has a dash there"),
    ("number for a dash, command", "FBF2:01", "Minimum", "0", "Minimum is '0', and a COMMAND has a dash there"),
    ("too few digits", "1000:00", "Minimum", "0", "Minimum is '0', not 8 digits of capital hex"),
    ("too many digits", "2003:00", "Maximum", "0001", "Maximum is '0001', not 2 digits of capital hex"),
    ("small digits", "1000:00", "Default", "0000138b", "Default is '0000138b', not 8 digits of capital hex"),
    ("minimum no number", "800E:11", "Minimum", "FFC00000", "Minimum is FFC00000, which is not a finite REAL"),
    ("maximum no number", "800E:11", "Maximum", "7FC00000", "Maximum is 7FC00000, which is not a finite REAL"),
    ("maximum the last no number", "800E:11", "Maximum", "7F800001", "Maximum is 7F800001, which is not a finite REAL"),
    ("maximum infinite", "6000:11", "Maximum", "7F800000", "Maximum is 7F800000, which is not a finite REAL"),
    ("default no number", "800E:11", "Default", "7FFFFFFF", "Default is 7FFFFFFF, which is not a finite REAL"),
    ("minimum minus zero", "800E:11", "Minimum", "80000000", "Minimum is minus zero: a limit is written 00000000"),
]

# name, row, cells by their columns, what is said
BROKEN_RULES = [
    ("a string too long", "2001:00", {"Length": "65"}, "has more than 64 bytes"),
    ("a length not its type's", "2003:00", {"Length": "2"}, "has a length that is not its type's"),
    ("a card of 32 bytes", "2010:00", {"Length": "32"}, "has a length that is not its type's"),
    ("an NV card", "2010:00", {"NV": "NV"}, "is NV, and the saved block has no field for its type"),
    ("an NV command", "FBF2:01", {"NV": "NV"}, "is NV, and the saved block has no field for its type"),
    ("an NV ULINT", "10F8:00", {"NV": "NV"}, "is NV, and the saved block has no field for its type"),
    ("limits out of order", "8005:11", {"Maximum": "00"}, "has limits out of order, or a default outside them"),
    ("limits of a REAL out of order", "8005:13", {"Minimum": "BF800000", "Maximum": "C0000000", "Default": "BF800000"},
     "has limits out of order, or a default outside them"),
    ("a default below", "8005:11", {"Default": "00"}, "has limits out of order, or a default outside them"),
    ("a default above", "800E:11", {"Default": "44BB8001"}, "has limits out of order, or a default outside them"),
    ("a BOOL up to 2", "8005:01", {"Maximum": "02"}, "is a BOOL whose maximum is above 1"),
    ("a ULINT with limits", "10F8:00", {"Maximum": "7FFFFFFFFFFFFFFF"},
     "is a ULINT that does not take every number of its 8 bytes"),
    ("a long default", "10F8:00", {"Default": "0000000100000000"},
     "has a default of more than 32 bits, which the columns do not hold"),
]


def note(name, good, why=""):
    results[good] += 1
    if not good:
        print(f"FAILED: {name}: {why}" if why else f"FAILED: {name}")


def number_of(key):
    """The number of the line of a row, named as in 2003:00."""
    index, sub = key.split(":")
    return next(n for n, line in enumerate(LINES, 1) if line.startswith(f"| {index} | {sub} |"))


def page(changes):
    """The page with some lines changed: number of a line to its new text, or None to leave it out."""
    return "\n".join(text for n, line in enumerate(LINES, 1) for text in [changes.get(n, line)] if text is not None)


def with_cell(key, column, text):
    """A row of today's page with another cell."""
    cells = LINES[number_of(key) - 1].split("|")
    cells[1 + table.COLUMNS.index(column)] = f" {text} "
    return "|".join(cells)


def copied(folder):
    """The tool and today's page in a folder, and all that it writes."""
    for name in ("tools/table.py", table.PAGE):
        os.makedirs(os.path.join(folder, os.path.dirname(name)), exist_ok=True)
        shutil.copy(os.path.join(table.TOP, name), os.path.join(folder, name))
    done = run(folder)
    note("today's page, everything written", done.returncode == 0, done.stderr)
    note("today's page, everything as in the repository", all(
        table.read_text(os.path.join(folder, name)) == table.read_text(os.path.join(table.TOP, name)) for name in files(folder)))


def run(folder, *words):
    return subprocess.run([sys.executable, os.path.join(folder, "tools", "table.py"), *words], capture_output=True, text=True)


def files(folder):
    """All files below a folder, and their bytes."""
    found = {}
    for top, _, names in os.walk(folder):
        for name in names:
            with open(os.path.join(top, name), "rb") as file:
                found[os.path.relpath(os.path.join(top, name), folder)] = file.read()
    return found


def lay(folder, text):
    with open(os.path.join(folder, table.PAGE), "w", encoding="utf-8", newline="") as file:
        file.write(text)


def refused(folder, name, text, number, reason):
    """A page that both ways of running refuse with one line, `docs/object-table.md:NUMBER: REASON`."""
    lay(folder, text)
    before = files(folder)
    expected = f"{table.PAGE}:{number}: {reason}\n" if number else f"{table.PAGE}: {reason}\n"
    for words in ([], ["--check"]):
        done = run(folder, *words)
        good = done.returncode == 1 and done.stderr == expected and not done.stdout and files(folder) == before
        note(" ".join([name] + words), good, f"said {done.stderr!r}, not {expected!r}")


def bad_cells(folder):
    """One cell of a row is not what it has to be."""
    for name, key, column, text, reason in BAD_CELLS:
        number = number_of(key)
        refused(folder, name, page({number: with_cell(key, column, text)}), number, reason)
    number = number_of("2003:00")
    both = with_cell("2003:00", "Length", "one").replace("| 00 | USINT", "| 0 | USINT")
    refused(folder, "two bad cells", page({number: both}), number,
            "Sub is '0', not two digits of capital hex; Length is 'one', not a number of bytes")


def bad_lines(folder):
    """A line of the table has not the shape of a row, or stands where none belongs."""
    number = number_of("2003:00")
    row = LINES[number - 1]
    for name, text, reason in [
            ("11 cells", row.replace(" house |", ""), "has 11 cells, not 12"),
            ("13 cells", row + " more |", "has 13 cells, not 12"),
            ("no blanks", row.replace("| 2003 |", "|2003|"), "Index has not one blank on each side of it"),
            ("no blank before", row.replace("| 00 | USINT", "| 00 |USINT"), "Type has not one blank on each side of it"),
            ("two blanks", row.replace("| USINT |", "| USINT  |"), "Type has not one blank on each side of it"),
            ("a tab", row.replace("| USINT |", "|\tUSINT |"), "Type has not one blank on each side of it"),
            ("no blanks at all", row.replace(" ", ""),
             "; ".join(f"{column} has not one blank on each side of it" for column in table.COLUMNS)),
            ("empty cell", row.replace("| Setup lock |", "||"), "Name has not one blank on each side of it"),
            ("cell of two blanks", row.replace("| Setup lock |", "|  |"), "Name has not one blank on each side of it"),
            ("no first bar", row[2:], "does not begin and end with a bar"),
            ("no last bar", row[:-2], "does not begin and end with a bar"),
            ("blanks before", " " + row, "does not begin and end with a bar"),
            ("blanks behind", row + " ", "does not begin and end with a bar"),
            ("a carriage return", row + "\r", "does not begin and end with a bar"),
            ("no bar at all", "more", "does not begin and end with a bar"),
            ("a second ruler", table.RULER,
             "; ".join(f"{column} has not one blank on each side of it" for column in table.COLUMNS)),
    ]:
        refused(folder, name, page({number: text}), number, reason)
    refused(folder, "a second header", page({number: f"{table.HEADER}\n{row}"}), number, "; ".join(
        f"{column} is '{column}', not {words}" for column, (_, words) in table.CELLS.items() if column != "NV"))
    refused(folder, "no header", page({HEADER: "| Index |"}), 1, f"the page has no line '{table.HEADER}'")
    refused(folder, "no ruler", page({HEADER + 1: None}), HEADER + 1, f"is not '{table.RULER}'")
    refused(folder, "a short ruler", page({HEADER + 1: "|---|"}), HEADER + 1, f"is not '{table.RULER}'")
    refused(folder, "a row before the table", page({3: row}), 3, "has a bar, and is outside the table")
    refused(folder, "a row behind the table", page({len(LINES): "\n" + row}), len(LINES) + 1, "has a bar, and is outside the table")
    last = number_of("FBF4:03")
    refused(folder, "an empty line in the table", page({last: "\n" + LINES[last - 1]}), last + 1, "has a bar, and is outside the table")


def broken_rules(folder):
    """Rows that are good by themselves and break the table's rule."""
    for name, key, cells, reason in BROKEN_RULES:
        number = number_of(key)
        row = LINES[number - 1]
        parts = row.split("|")
        for column, text in cells.items():
            parts[1 + table.COLUMNS.index(column)] = f" {text} "
        refused(folder, name, page({number: "|".join(parts)}), number, f"{key} {reason}")
    number = number_of("2003:00")
    row = LINES[number - 1]
    refused(folder, "a row twice", page({number: f"{row}\n{row}"}), number + 1, "2003:00 does not come after the row before it")
    for index in ("0001", "7000", "CFFF"):
        added = row.replace("| 2003 |", f"| {index} |")
        before = next(n for n, line in enumerate(LINES, 1) if n > HEADER + 1 and line[2:6] > index)
        refused(folder, f"a row {index} in an area without rows", page({before: f"{added}\n{LINES[before - 1]}"}), before,
                f"{index}:00 lies in an area without rows: open it in crates/table/specs/Areas.antt, crates/find/src/area.rt and tools/table.py")
    refused(folder, "rows turned round", page({number: LINES[number], number + 1: row}), number + 1,
            "2003:00 does not come after the row before it")


def with_rows(form, count):
    """The page with rows 2100:00, 2101:00 and so on."""
    number = number_of("2010:00")
    return page({number: "\n".join([LINES[number - 1]] + [f"| {0x2100 + n:04X} | 00 | {form}".format(n=n) for n in range(count)])})


def with_defaults(index, **defaults):
    """The page with other defaults of an object, by subindex, as `s11`."""
    keys = {f"{index}:{sub[1:]}": text for sub, text in defaults.items()}
    return page({number_of(key): with_cell(key, "Default", text) for key, text in keys.items()})


def trip_defaults(folder):
    """Defaults that leave a trip point crossed, and those that just do not."""
    for index in ("800E", "800F"):
        reason = f"the defaults of {index} leave its trip point crossed: its high side's is to be 00"
        refused(folder, f"{index}, both sides at 0", with_defaults(index, s01="01", s02="01"), 0, reason)
        refused(folder, f"{index}, zero and minus zero", with_defaults(index, s01="01", s02="01", s14="80000000"), 0, reason)
        refused(folder, f"{index}, low above high", with_defaults(index, s01="01", s02="01", s11="3F800000", s14="3F800001"), 0, reason)
        for sub in ("01", "02", "11", "14"):
            unmarked = page({number_of(f"{index}:{sub}"): with_cell(f"{index}:{sub}", "NV", "-")})
            lay(folder, unmarked)
            done = run(folder, "--check")
            wanted = f"{table.PAGE}: {index}:{sub} has no NV mark, and a crossed trip point of the saved block is known by it\n"
            note(f"{index}:{sub} not NV", done.returncode == 1 and wanted in done.stderr and "Traceback" not in done.stderr, done.stderr)
        refused(folder, f"{index}:13 not NV", page({number_of(f"{index}:13"): with_cell(f"{index}:13", "NV", "-")}), 0,
                "the settings of the two trip points are stored differently")
        for name, text in [
                ("low just below high", with_defaults(index, s01="01", s02="01", s11="3F800000", s14="3F7FFFFF")),
                ("the low side alone", with_defaults(index, s02="01", s14="3F800000"))]:
            lay(folder, text)
            done = run(folder)
            note(f"{index}, {name}", done.returncode == 0, done.stderr)


def whole_table(folder):
    """Pages whose every row is good, and that break the rule of the whole table."""
    rows = "there are {} rows: the table has at most 511, and one of 128 or fewer was never proved"
    for name, text, reason in [
            ("too many bytes of values", with_rows("STRING | RO | - | 64 | - | - | - | - | more | house |", 7),
             "the values end at byte 1047"),
            ("too many bits of the saved block",
             with_rows("UDINT | RW | NV | 4 | - | 00000000 | FFFFFFFF | 00000000 | more | house |", 100),
             "the saved block needs 4414 bits"),
            ("512 rows", with_rows("COMMAND | RW | - | 4 | - | - | - | - | more | house |", 383), rows.format(512)),
            ("128 rows", page({number_of("F9F5:01"): None}), rows.format(128)),
            ("too many pairs of limits", with_rows("USINT | RW | - | 1 | - | 00 | {n:02X} | 00 | more | house |", 70),
             "there are more than 64 pairs of limits"),
    ]:
        refused(folder, name, text, 0, reason)
    for key, name in (
            ("2003:00", "lock"), ("FBF2:01", "store_parameters"), ("800F:17", "high_hysteresis"), ("600E:02", "the one behind status_1")):
        number = number_of(key)
        text = page({number: LINES[number - 1].replace(f"| {key[:4]} | {key[5:]} |", f"| {key[:4]} | {int(key[5:], 16) + 4:02X} |")})
        lay(folder, text)
        done = run(folder, "--check")
        wanted = f"{table.PAGE}: there is no row {key}, which the code knows as {name}\n"
        note(f"no row {key}", done.returncode == 1 and wanted in done.stderr and "Traceback" not in done.stderr, done.stderr)
    string = next(row for row in table.read_rows(page({}))[0] if row["kind"] == "STRING")
    problems = list(table.row_problems(dict(string, nv=1, len=2, place=1022)))
    note("an NV string at the end of the values", ["four bytes" in words for words in problems] == [True], problems)


def good_pages(folder):
    """Pages that are good: places are worked out anew, also where rows were moved; a write-only row is imported."""
    number = number_of("2003:00")
    lay(folder, page({number: with_cell("2003:00", "Place", "-")}))
    done = run(folder, "--check")
    note("a place left out, --check", done.returncode == 1 and done.stderr.startswith("not what docs/object-table.md gives"), done.stderr)
    note("a place left out", run(folder).returncode == 0 and table.read_text(os.path.join(folder, table.PAGE)) == page({}))
    added = "| 2002 | 00 | UINT | RW | - | 2 | 0 | 0000 | FFFF | 0000 | Added | house |"
    lay(folder, page({number: f"{added}\n{LINES[number - 1]}"}))
    note("a row added", run(folder).returncode == 0)
    rows, wrong = table.read_rows(table.read_text(os.path.join(folder, table.PAGE)))
    places = [line.split("|")[7].strip() for line in table.read_text(os.path.join(folder, table.PAGE)).split("\n")[HEADER + 1:-1]]
    table.place_rows(rows)
    note("places behind it", not wrong and places == [table.place_shown(row) for row in rows])
    note("its own place", places[number - HEADER - 2:number - HEADER] == ["236", "238"], places[number - HEADER - 2:number - HEADER])
    for access, imported in (("WO", "RO, WO, RW}"), ("RW", "RO, RW}")):
        lay(folder, page({number_of("F9F5:01"): with_cell("F9F5:01", "Access", access)}))
        done = run(folder)
        text = table.read_text(os.path.join(folder, "crates/table/specs/Rows.antt"))
        note(f"access {access}", done.returncode == 0 and f"COMMAND, {imported}\n" in text, done.stderr)
    note("everything as before", run(folder, "--check").returncode == 0)
    done = run(folder, "--chek")
    note("an unknown word", done.returncode == 1 and "Traceback" not in done.stderr and run(folder, "--check").returncode == 0)


with tempfile.TemporaryDirectory() as copy:
    copied(copy)
    for tests in (bad_cells, bad_lines, broken_rules, whole_table, trip_defaults, good_pages):
        tests(copy)
print(f"{results[True]} passed, {results[False]} failed")
sys.exit(results[False] != 0)
