#!/usr/bin/env python3
"""The object table, from the page that people read to the shapes that the proofs and the code read.

docs/object-table.md is the only place where a row is written by hand. This tool works out each row's place,
holds the rows to the table's rule (and names the row that breaks it, which the prover does not), and writes

    docs/object-table.md           the column Place
    crates/table/specs/Rows.antt   the rows, one line each
    crates/find/src/columns.rt     the same as flat constant arrays, and arrays of the NV rows alone
    crates/find/specs/Pairs.antt   the pairs of limits that those arrays share
    crates/table/proofs/DefaultWords.antt the words that make the defaults out of zeros
    crates/table/specs/Places.antt the places that have names
    crates/table/src/place.rt      the same as constants
    crates/table/src/row.rt        the rows that have names
    crates/rows/stdout             what the program `rows` must print

With --check it writes nothing and fails if a file is not what it would write. A line of the page's table that is not a good row is
named with its number and the reason, and then nothing is written. tools/table_test.py tries each reason.
"""
import itertools
import os
import re
import sys
import textwrap

TOP = os.path.dirname(os.path.dirname(os.path.abspath(__file__)))
PAGE = "docs/object-table.md"
KINDS = ["BOOL", "USINT", "UINT", "UDINT", "ULINT", "REAL", "STRING", "CARD", "COMMAND"]
WIDTH = {"BOOL": 1, "USINT": 1, "UINT": 2, "UDINT": 4, "ULINT": 8, "REAL": 4, "CARD": 33}
ACCESS = {"RO": 1, "WO": 2, "RW": 3}
VALUES, BLOCK_BITS = 1024, 4096

# the page's table: its columns, and for cells that need no other cell to be judged a pattern and its name
COLUMNS = ["Index", "Sub", "Type", "Access", "NV", "Length", "Place", "Minimum", "Maximum", "Default", "Name", "Section"]
HEADER = "| %s |" % " | ".join(COLUMNS)
RULER = "|" + "---|" * len(COLUMNS)
CELLS = {
    "Index": ("[0-9A-F]{4}", "four digits of capital hex"), "Sub": ("[0-9A-F]{2}", "two digits of capital hex"),
    "Type": ("|".join(KINDS), "a type"), "Access": ("|".join(ACCESS), "RO, WO or RW"), "NV": ("NV|-", "NV or a dash"),
    "Length": ("[1-9][0-9]*", "a number of bytes"), "Place": ("[0-9]+|-", "a number or a dash")}

# entries whose places the code knows by name
PLACES = [
    ("lock", 0x2003, 0x00), ("input_value", 0x6000, 0x11), ("reading_valid", 0x6005, 0x01), ("overrange", 0x6005, 0x02),
    ("underrange", 0x6005, 0x03), ("status_1", 0x600E, 0x01), ("status_2", 0x600F, 0x01), ("settings_1", 0x800E, 0x01),
    ("settings_2", 0x800F, 0x01), ("sensor_error", 0x9005, 0x02), ("trip_input_1", 0x900E, 0x01),
    ("trip_input_2", 0x900F, 0x01), ("summary_byte", 0xF380, 0x00), ("active_word", 0xF383, 0x01),
    ("latched_status", 0xF390, 0x00), ("latched_word", 0xF393, 0x01), ("masks", 0xF3A1, 0x01), ("error_mask", 0xF3A3, 0x01),
    ("trip_outputs", 0xF641, 0x01), ("power_on_time", 0xF9F6, 0x00), ("reset_status", 0xFBF0, 0x02),
    ("exception_status", 0xFBF1, 0x02), ("store_status", 0xFBF2, 0x02), ("load_status", 0xFBF4, 0x02)]

# of these, code finds the place from another: the status entries stand in a row
NOT_READ = ["status_2"]

# rows that the code knows by name
ROWS = [("device_reset", 0xFBF0, 0x01), ("exception_reset", 0xFBF1, 0x01), ("store_parameters", 0xFBF2, 0x01), ("load_parameters", 0xFBF4, 0x01)]

# entries that stand one byte behind another: a trip point's low side behind its high one, a command's response behind its status
BEHIND = [
    ("status_1", 0x600E, 0x02), ("status_2", 0x600F, 0x02), ("reset_status", 0xFBF0, 0x03), ("exception_status", 0xFBF1, 0x03),
    ("store_status", 0xFBF2, 0x03), ("load_status", 0xFBF4, 0x03)]

# entries that stand behind each other: the test of a row, what they are, the name of their size, their first and last index
SPANS = [
    ("latched", "what an exception reset clears", "latched_size", 0xF390, 0xF398),
    ("is_mask", "the masks of the detail words", "masks_size", 0xF3A1, 0xF3A8),
    ("of_point_1", "the settings of trip point 1", "settings_1_size", 0x800E, 0x800E),
    ("of_point_2", "the settings of trip point 2", "settings_2_size", 0x800F, 0x800F)]

# a trip point's settings, counted from the first of them: the same in 800E and 800F
SETTINGS = [
    ("high_enable", 0x01), ("low_enable", 0x02), ("high_level", 0x11), ("low_level", 0x14), ("high_hysteresis", 0x17),
    ("low_hysteresis", 0x18)]

# the objects of the trip points, and the settings that a crossed one is known by
POINTS = (0x800E, 0x800F)
CROSSED_BY = SETTINGS[:4]

# areas of the index without rows (crates/table/specs/Areas.antt, crates/find/src/area.rt): their first and last index
EMPTY_AREAS = [(0x0000, 0x0FFF), (0x7000, 0x7FFF), (0xA000, 0xEFFF)]


def key(row):
    """Index and subindex in one number."""
    return row["index"] * 256 + row["sub"]


def is_number(row):
    return KINDS.index(row["kind"]) <= 5


def rank(row, value):
    """The place of a value in the order of its kind."""
    if row["kind"] != "REAL":
        return value
    return 2**31 + value if value < 2**31 else 2**32 - value


def table_lines(page):
    """The rows' lines with their numbers, and what is wrong about the others: the table is the header, the ruler and all lines up to an
    empty one, and no other line of the page has a bar."""
    lines = list(enumerate(page.split("\n"), 1))
    header = next((number for number, line in lines if line == HEADER), None)
    if header is None:
        return [], [(1, "the page has no line '%s'" % HEADER)]
    wrong = [] if lines[header:header + 1] == [(header + 1, RULER)] else [(header + 1, "is not '%s'" % RULER)]
    rows = list(itertools.takewhile(lambda numbered: numbered[1], lines[header + 1:]))
    others = lines[:header - 1] + lines[header + 1 + len(rows):]
    return rows, wrong + [(number, "has a bar, and is outside the table") for number, line in others if "|" in line]


def shape_problems(line):
    """What is wrong with a row before its cells are looked at."""
    cells = line.split("|")
    if len(cells) < 2 or cells[0] or cells[-1]:
        return ["does not begin and end with a bar"]
    if len(cells) - 2 != len(COLUMNS):
        return ["has %d cells, not %d" % (len(cells) - 2, len(COLUMNS))]
    return ["%s has not one blank on each side of it" % column for column, cell in zip(COLUMNS, cells[1:])
            if not cell.strip() or cell != " %s " % cell.strip()]


def number_problems(kind, column, text):
    """What is wrong with a limit or a default."""
    if not is_number({"kind": kind}):
        return [] if text == "-" else ["%s is '%s', and a %s has a dash there" % (column, text, kind)]
    digits = 2 * WIDTH[kind]
    if not re.fullmatch("[0-9A-F]{%d}" % digits, text):
        return ["%s is '%s', not %d digits of capital hex" % (column, text, digits)]
    number = int(text, 16)
    if kind == "REAL" and number % 2**31 >= 0x7F800000:
        return ["%s is %s, which is not a finite REAL" % (column, text)]
    if kind == "REAL" and column != "Default" and number == 2**31:
        return ["%s is minus zero: a limit is written 00000000" % column]
    return []


def cell_problems(cells):
    """What is wrong with the cells of a row, each by itself."""
    wrong = ["%s is '%s', not %s" % (column, cells[column], words) for column, (pattern, words) in CELLS.items()
             if not re.fullmatch(pattern, cells[column])]
    if cells["Type"] in KINDS:
        for column in ("Minimum", "Maximum", "Default"):
            wrong += number_problems(cells["Type"], column, cells[column])
    return wrong


def row_of(number, cells):
    value = lambda column: 0 if cells[column] == "-" else int(cells[column], 16)
    return {
        "line": number, "index": value("Index"), "sub": value("Sub"), "kind": cells["Type"], "access": cells["Access"],
        "nv": int(cells["NV"] == "NV"), "len": int(cells["Length"]), "low": value("Minimum"), "high": value("Maximum"),
        "def": value("Default"), "name": cells["Name"], "section": cells["Section"]}


def read_rows(page):
    """The rows of the page, and what is wrong with lines of its table, as (number of the line, words)."""
    lines, wrong = table_lines(page)
    rows = []
    for number, line in lines:
        problems = shape_problems(line)
        if not problems:
            cells = dict(zip(COLUMNS, (cell.strip() for cell in line.split("|")[1:])))
            problems = cell_problems(cells)
        if problems:
            wrong.append((number, "; ".join(problems)))
        else:
            rows.append(row_of(number, cells))
    return rows, wrong


def held(row):
    return 0 if row["kind"] in ("CARD", "COMMAND") else row["len"]


def place_rows(rows):
    place = 0
    for row in rows:
        row["place"] = place
        place += held(row)
    return place


def nv_rows(rows):
    return [row for row in rows if row["nv"]]


def block_width(row):
    """The bits that an NV entry takes in the saved block."""
    return 1 if row["kind"] == "BOOL" else 8 * row["len"]


def block_starts(rows):
    """The bit at which each NV entry begins, and the bit behind the last: layout and model come first."""
    starts = [8]
    for row in nv_rows(rows):
        starts.append(starts[-1] + block_width(row))
    return starts


def block_end(rows):
    return block_starts(rows)[-1]


def row_problems(row):
    """The table's rule for one row, in words."""
    if row["len"] > 64:
        yield "has more than 64 bytes"
    if WIDTH.get(row["kind"], row["len"]) != row["len"]:
        yield "has a length that is not its type's"
    if row["nv"] and row["kind"] in ("ULINT", "CARD", "COMMAND"):
        yield "is NV, and the saved block has no field for its type"
    if row["nv"] and row["kind"] == "STRING" and row["place"] + 4 > VALUES:
        yield "is an NV string, of which a store looks at four bytes, and they end behind the values"
    if not rank(row, row["low"]) <= rank(row, row["def"]) <= rank(row, row["high"]):
        yield "has limits out of order, or a default outside them"
    if row["kind"] == "BOOL" and row["high"] > 1:
        yield "is a BOOL whose maximum is above 1"
    if row["kind"] == "ULINT" and (row["low"], row["high"]) != (0, 2**64 - 1):
        yield "is a ULINT that does not take every number of its 8 bytes"
    if row["def"] >= 2**32:
        yield "has a default of more than 32 bits, which the columns do not hold"
    if any(first <= row["index"] <= last for first, last in EMPTY_AREAS):
        yield "lies in an area without rows: open it in crates/table/specs/Areas.antt, crates/find/src/area.rt and tools/table.py"


def table_problems(rows, end):
    """The table's rule as a whole, in words."""
    if end > VALUES:
        yield "the values end at byte %d" % end
    if block_end(rows) > BLOCK_BITS:
        yield "the saved block needs %d bits" % block_end(rows)
    if not 128 < len(rows) <= 511:
        yield "there are %d rows: the table has at most 511, and one of 128 or fewer was never proved" % len(rows)
    if len(limit_pairs(rows)[0]) > 64:
        yield "there are more than 64 pairs of limits"
    there = {(row["index"], row["sub"]) for row in rows}
    settings = [(name, index, sub) for index in POINTS for name, sub in SETTINGS]
    behind = [("the one behind " + name, index, sub) for name, index, sub in BEHIND]
    for name, index, sub in PLACES + behind + ROWS + settings:
        if (index, sub) not in there:
            yield "there is no row %04X:%02X, which the code knows as %s" % (index, sub, name)
    yield from point_problems(rows)


def fields_of(rows, index):
    """What a crossed trip point is known by: the rows of both enables, of high and low level, as far as they are there."""
    return [row for _, sub in CROSSED_BY for row in rows if (row["index"], row["sub"]) == (index, sub)]


def point_problems(rows):
    """The rule for the trip points, in words."""
    fields = [fields_of(rows, index) for index in POINTS]
    if any(len(four) != len(CROSSED_BY) for four in fields):
        return
    for row in sum(fields, []):
        if not row["nv"]:
            yield "%04X:%02X has no NV mark, and a crossed trip point of the saved block is known by it" % (row["index"], row["sub"])
    starts = [[nv_rows(rows).index(row) for row in four if row["nv"]] for four in fields]
    if len({tuple(n - start[0] for n in start) for start in starts if start}) > 1:
        yield "the settings of the two trip points are stored differently"
    for index, (high, low, top, bottom) in zip(POINTS, fields):
        if high["def"] and low["def"] and rank(bottom, bottom["def"]) >= rank(top, top["def"]):
            yield "the defaults of %04X leave its trip point crossed: its high side's is to be 00" % index


def broken_rules(rows, end):
    """Where the table's rule is broken, as (number of the line, or 0 for the whole table, words)."""
    previous = -1
    for row in rows:
        problems = list(row_problems(row))
        if key(row) <= previous:
            problems.insert(0, "does not come after the row before it")
        previous = key(row)
        for words in problems:
            yield row["line"], "%04X:%02X %s" % (row["index"], row["sub"], words)
    for words in table_problems(rows, end):
        yield 0, words


def shown(row, field):
    return "%0*X" % (2 * row["len"], row[field]) if is_number(row) else "-"


def place_shown(row):
    return str(row["place"]) if held(row) else "-"


def page_with_places(page, rows):
    lines = page.split("\n")
    for row in rows:
        cells = lines[row["line"] - 1].split("|")
        cells[1 + COLUMNS.index("Place")] = " %s " % place_shown(row)
        lines[row["line"] - 1] = "|".join(cells)
    return "\n".join(lines)


def look_count(rows, row):
    """How many rows the rule of halving (R1.8) looks at for the key of a row."""
    low, high, count = 0, len(rows), 1
    while (middle := low + (high - low) // 2) != rows.index(row):
        low, high = (middle + 1, high) if key(rows[middle]) < key(row) else (low, middle)
        count += 1
    return count


def printed(row, looks):
    return "%04X %02X %s %s %s %d %s %s %s %s %d\n" % (
        row["index"], row["sub"], row["kind"], row["access"], "NV" if row["nv"] else "-", row["len"],
        place_shown(row), shown(row, "low"), shown(row, "high"), shown(row, "def"), looks)


def accesses(rows):
    """The accesses that occur, for an import."""
    return ", ".join(access for access in ACCESS if any(row["access"] == access for row in rows))


def rows_antt(rows):
    lines = ["""-- RULE: THE OBJECT TABLE (R1.1): one line for each row, in the order of docs/object-table.md, from which tools/table.py writes this file.
-- index, subindex, type, access, NV mark, length, place, minimum, maximum, default. Assumes nothing.
use Rattle.std.specs.Prelude.{List, [], ◌∷◌, ℕ, get_or}
use Rattle.table.specs.Row.{Row, row, no_row, BOOL, USINT, UINT, UDINT, ULINT, REAL, STRING, CARD, COMMAND, """ + accesses(rows) + """}

unfoldable pub rows : List Row
rows =
"""]
    for row in rows:
        lines.append("    row 0x%04X 0x%02X %s %s %d %d %d 0x%X 0x%X 0x%X ∷\n" % (
            row["index"], row["sub"], row["kind"], row["access"], row["nv"], row["len"], row["place"],
            row["low"], row["high"], row["def"]))
    lines.append("""    []

abbrev pub row_count : ℕ
row_count = %d

-- the row of 2003:00, the setup lock
abbrev pub lock_row : ℕ
lock_row = %d

-- the row with a number; past the end a row of zeros
abbrev pub at_row : ℕ → Row
at_row r = get_or rows r no_row

-- the rows with an NV mark, and the bit of the saved block behind their entries: both are computed in the crate block
abbrev pub nv_count : ℕ
nv_count = %d

abbrev pub nv_end : ℕ
nv_end = %d
""" % (len(rows), [key(row) for row in rows].index(0x200300), len(nv_rows(rows)), block_end(rows)))
    for name, number, what in nv_settings(nv_rows(rows)):
        lines.append("\n-- %s\nabbrev pub %s : ℕ\n%s = %d\n" % (what, name, name, number))
    return "".join(lines)


def places(rows):
    """(name, number, what stands there) of each named place, and of each setting of a trip point."""
    at = {(row["index"], row["sub"]): row["place"] for row in rows}
    named = [(name, at[index, sub], "%04X:%02X" % (index, sub)) for name, index, sub in PLACES]
    for name, sub in SETTINGS:
        offset = at[0x800E, sub] - at[0x800E, 0x01]
        if offset != at[0x800F, sub] - at[0x800F, 0x01]:
            sys.exit("the settings of the two trip points are laid out differently")
        named.append((name, offset, "800E:%02X and 800F:%02X, counted from subindex 01" % (sub, sub)))
    for _, _, size, low, high in SPANS:
        number = sum(held(row) for row in rows if low <= row["index"] <= high)
        named.append((size, number, "the bytes of %s, which stand behind each other" % span_shown(low, high)))
    return named


def span_shown(low, high):
    return "%04X" % low if low == high else "%04X to %04X" % (low, high)


def span_test(low, high):
    """Whether a row is of these indices."""
    return "eqb r.index 0x%04X" % low if low == high else "both (leb 0x%04X r.index) (leb r.index 0x%04X)" % (low, high)


def places_antt(rows):
    text = """-- RULE: the places in the values that have names. tools/table.py writes this file; that they are the table's is computed in
-- proofs/Placed.antt, and that a row is told by such a span in the crate gauge. Assumes nothing.
use Rattle.std.specs.Prelude.{ℕ, ◌+◌, Bool, List, [], ◌∷◌, leb, eqb}
use Rattle.table.specs.Row.{Row}
use Rattle.table.specs.Walk.{both}
"""
    for name, number, what in places(rows):
        text += "\n-- %s\nabbrev pub %s : ℕ\n%s = %d\n" % (what, name, name, number)
    text += """
-- an entry, its place and its length
pub record Placed : Type 0 where
  pub index : ℕ
  pub sub : ℕ
  pub place : ℕ
  pub len : ℕ

abbrev pub placed : ℕ → ℕ → ℕ → ℕ → Placed
placed i s p n = record { index = i; sub = s; place = p; len = n }

unfoldable pub named_places : List Placed
named_places =
"""
    length = {(row["index"], row["sub"]): row["len"] for row in rows}
    for name, index, sub in PLACES:
        text += "    placed 0x%04X 0x%02X %s %d ∷\n" % (index, sub, name, length[index, sub])
    for name, index, sub in BEHIND:
        text += "    placed 0x%04X 0x%02X (%s + 1) %d ∷\n" % (index, sub, name, length[index, sub])
    for first, index in (("settings_1", 0x800E), ("settings_2", 0x800F)):
        for name, sub in SETTINGS:
            text += "    placed 0x%04X 0x%02X (%s + %s) %d ∷\n" % (index, sub, first, name, length[index, sub])
    text += "    []\n"
    for test, what, _, low, high in SPANS:
        text += """
-- %s: every subindex of %s
unfoldable pub %s : Row → Bool
%s r = %s
""" % (what, span_shown(low, high), test, test, span_test(low, high))
    return text


def place_rt(rows):
    text = "// The places in the values that have names, as far as code reads them. tools/table.py writes this file.\n"
    for name, number, what in places(rows):
        if name in NOT_READ:
            continue
        text += "\n// %s\npub const %s: usize = %d;\n" % (what, name.upper(), number)
    return text


def row_rt(rows):
    number = {(row["index"], row["sub"]): i for i, row in enumerate(rows)}
    text = "// The rows that have names. tools/table.py writes this file.\n"
    for name, index, sub in ROWS:
        text += "\n// %04X:%02X\npub const %s: usize = %d;\n" % (index, sub, name.upper(), number[index, sub])
    return text


def limit_pairs(rows):
    """The pairs of ranks of limits that occur, no limits first, and for each row the number of its pair; a ULINT takes every number."""
    own = [(0, 0) if row["kind"] == "ULINT" else (rank(row, row["low"]), rank(row, row["high"])) for row in rows]
    pairs = list(dict.fromkeys([(0, 0)] + own))
    return pairs, [pairs.index(pair) for pair in own]


def pairs_antt(rows):
    pairs, numbers = limit_pairs(rows)
    listed = lambda cells: " ∷ ".join(str(cell) for cell in cells) + " ∷ []"
    text = """-- SHAPE: the limits as the code has them: few pairs of ranks, and for each row the number of its pair. tools/table.py writes this
-- file from docs/object-table.md. Assumes nothing.
use Rattle.std.specs.Prelude.{List, [], ◌∷◌, ℕ}
"""
    for name, cells in (("pairs", numbers), ("minima", [low for low, _ in pairs]), ("maxima", [high for _, high in pairs])):
        text += "\nunfoldable pub %s : List ℕ\n%s = %s\n" % (name, name, listed(cells))
    return text + "\nabbrev pub pair_count : ℕ\npair_count = %d\n" % len(pairs)


def default_words(rows, end):
    """The places and numbers of the four-byte words that make the defaults out of zeros."""
    image = bytearray(end + 3)
    for row in rows:
        if held(row):
            image[row["place"]:row["place"] + held(row)] = row["def"].to_bytes(held(row), "little")
    words, at = [], 0
    while at < end:
        if image[at]:
            words.append((at, int.from_bytes(image[at:at + 4], "little")))
            at += 4
        else:
            at += 1
    return words


def words_antt(rows, end):
    words = default_words(rows, end)
    text = """-- The words that make the defaults out of zeros, as the code has them. tools/table.py writes this file; that they do is
-- computed in the crate entry. Assumes nothing.
use mathlib.Core.List.{List, [], ◌∷◌}
use Prim.Native.Nat.{ℕ}
"""
    for name, cells in (("word_places", [p for p, _ in words]), ("words", [w for _, w in words])):
        text += "\nunfoldable pub %s : List ℕ\n%s = %s∷ []\n" % (name, name, "".join("%d ∷ " % c for c in cells)[:-2])
    return text


def shape(row):
    """Type, access, NV mark and length in one number."""
    return KINDS.index(row["kind"]) + 16 * ACCESS[row["access"]] + 64 * row["nv"] + 128 * row["len"]


def laid_out(cells):
    """An array as rt fmt lays it out."""
    text = ", ".join(map(str, cells))
    if len(text) <= 60:
        return "[%s]" % text
    return "[\n%s\n]" % textwrap.fill(text + ",", 99, initial_indent="    ", subsequent_indent="    ")


def columns_rt(rows, end):
    pairs, numbers = limit_pairs(rows)
    words = default_words(rows, end)
    nv = nv_rows(rows)
    columns = [
        ("INDEX", "u16", [r["index"] for r in rows]),
        ("SUB", "u8", [r["sub"] for r in rows]),
        ("SHAPE", "u16", [shape(r) for r in rows]),
        ("PLACING", "u16", [r["place"] + VALUES * number for r, number in zip(rows, numbers)]),
        ("DEFAULT", "u32", [r["def"] for r in rows]),
        ("MINIMUM", "u32", [low for low, _ in pairs]),
        ("MAXIMUM", "u32", [high for _, high in pairs]),
        ("WORD_PLACE", "u16", [place for place, _ in words]),
        ("WORD", "u32", [word for _, word in words]),
        ("NV_KIND", "u8", [KINDS.index(r["kind"]) for r in nv]),
        ("NV_AT", "u16", block_starts(rows)),
        ("NV_CUT", "u8", [block_width(r) if is_number(r) else 32 for r in nv]),
        ("NV_PLACE", "u16", [r["place"] for r in nv]),
        ("NV_LOW", "u32", [rank(r, r["low"]) for r in nv]),
        ("NV_HIGH", "u32", [rank(r, r["high"]) if is_number(r) else 2**32 - 1 for r in nv]),
    ]
    text = """// The object table as flat constant arrays (R16.3). tools/table.py writes this file from docs/object-table.md.
// Columns are few and narrow: INDEX and SUB have each row's key, SHAPE its type, access,
// NV mark and length, and PLACING its place in the values and the number of its limits in MINIMUM and MAXIMUM, since few pairs serve all
// rows. A ULINT's limits are not there: it takes every number. WORD_PLACE and WORD have the words that make the defaults out of zeros.
// NV_.. has the NV rows alone: the bit of the saved block at which each entry begins (and the last ends), and its limits as places in
// the order of its type. NV_CUT has the bits that are looked at as a number: of a string the first 32, which its NV_LOW and NV_HIGH do
// not refuse. MINIMUM and MAXIMUM are places in that order too.
pub const ROWS: usize = %d;

pub const NV_ROWS: usize = %d;

// The bit of the saved block behind the last entry.
pub const NV_END: usize = %d;
""" % (len(rows), len(nv), block_end(rows))
    for name, number, what in nv_settings(nv):
        text += "\n// %s\npub const %s: usize = %d;\n" % (what, name.upper(), number)
    for name, kind, cells in columns:
        text += "\npub const %s: [%s; %d] = %s;\n" % (name, kind, len(cells), laid_out(cells))
    return text


def nv_settings(nv):
    """(name, number, what it is) of what a crossed trip point shows by, among the NV rows."""
    one, two = ([nv.index(row) for row in fields_of(nv, index)] for index in POINTS)
    named = [("nv_point_1", one[0], "800E:01, a number among the NV rows"), ("nv_point_2", two[0], "800F:01, a number among the NV rows")]
    return named + [("nv_" + name, number - one[0], "800E:%02X and 800F:%02X, so many NV rows behind subindex 01" % (sub, sub))
                    for (name, sub), number in zip(CROSSED_BY, one)]


def read_text(path):
    with open(path, encoding="utf-8", newline="") as file:
        return file.read()


def read_table(page):
    """The rows with their places, and the byte behind the last; a page with a bad line ends the program."""
    rows, wrong = read_rows(page)
    end = place_rows(rows)
    wrong = sorted(wrong) or list(broken_rules(rows, end))
    if wrong:
        sys.exit("\n".join(PAGE + (":%d: " % number if number else ": ") + words for number, words in wrong))
    return rows, end


def files_of(page, rows, end):
    """Each file that this tool writes, and its text."""
    return {
        PAGE: page_with_places(page, rows),
        "crates/table/specs/Rows.antt": rows_antt(rows),
        "crates/find/src/columns.rt": columns_rt(rows, end),
        "crates/find/specs/Pairs.antt": pairs_antt(rows),
        "crates/table/proofs/DefaultWords.antt": words_antt(rows, end),
        "crates/table/specs/Places.antt": places_antt(rows),
        "crates/table/src/place.rt": place_rt(rows),
        "crates/table/src/row.rt": row_rt(rows),
        "crates/rows/stdout": "".join(printed(row, look_count(rows, row)) for row in rows),
    }


def write(name, text):
    path = os.path.join(TOP, name)
    os.makedirs(os.path.dirname(path), exist_ok=True)
    with open(path, "w", encoding="utf-8", newline="") as file:
        file.write(text)


def main(words):
    if words not in ([], ["--check"]):
        sys.exit(__doc__)
    page = read_text(os.path.join(TOP, PAGE))
    rows, end = read_table(page)
    stale = {}
    for name, text in files_of(page, rows, end).items():
        path = os.path.join(TOP, name)
        if not os.path.exists(path) or read_text(path) != text:
            stale[name] = text
    if words and stale:
        sys.exit("not what docs/object-table.md gives (run tools/table.py): " + ", ".join(stale))
    for name, text in stale.items():
        write(name, text)
    looks = [look_count(rows, row) for row in rows]
    print("%d rows, %d bytes of values, %d bits of the saved block; at most %d looks for a row, %.2f in the mean" % (
        len(rows), end, block_end(rows), max(looks), sum(looks) / len(rows)))


if __name__ == "__main__":
    main(sys.argv[1:])
