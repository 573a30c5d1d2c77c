#!/usr/bin/env python3
"""What the code keeps in memory where a trip card or a saved block goes by.

    tools/arrays.py          what each crate keeps; exits 1 if something is none of those that are meant
    tools/arrays.py ROOT     the same of the sources in another folder

Card and block are worked on as packed bytes: no array has an element for each bit (R16.9). What a function keeps is what it has room for
in the LLVM module before anything is optimised, so parameters, results, unnamed values and fields of structs count too; what is lent
counts where it is kept. Arrays and structs are bytes there, at places that are multiples of their widest number's width. So of what has
two bytes or more, in a crate that has a card or a block in its hands, only what is listed here is meant, and what is lent: a slice is two
words. An enum without values is one byte. A verdict and a number's bytes have the form of two or four bools, so the functions that may keep
them are listed by name, with how many each keeps.
"""
import glob
import os
import re
import sys
import tempfile
from collections import Counter

sys.dont_write_bytecode = True
import lowered
import x86

# the crates that have neither in their hands
ELSEWHERE = ("table", "find", "entry", "trip", "sample", "gate", "command", "sdo", "dialogue")
LEAST, SLICE = 2, (16, 8)
# all that the library does
CALLS = """fn main() {
    let mut values = [0; board::VALUES_SIZE];
    let mut block = [0; board::BLOCK_SIZE];
    let mut state = [0; board::STATE_SIZE];
    let mut room = [0; 128];
    let said = [0; 128];
    board::gauge_power_up(board::FORM_EIGHT, &mut values, &block, &mut state);
    board::gauge_message(0, &said, &mut values, &mut block, &mut state, &mut room);
    board::gauge_mailbox(&said, &mut values, &mut block, &mut state, &mut room);
    board::gauge_sample(0.0, 1, 0, 0, &mut values, &mut state);
    board::gauge_image(&values, &mut room);
}
"""


def text_of(path):
    with open(path, encoding="utf-8") as file:
        return file.read()


def constant(root, file, name):
    return int(re.search(rf"^pub const {name}: usize = (\d+);$", text_of(os.path.join(root, "crates", file)), re.M).group(1))


def meant(root):
    """What is kept, by crate: how many bytes at multiples of what, and what they are."""
    rows = constant(root, "find/src/columns.rt", "NV_ROWS")
    end = constant(root, "find/src/columns.rt", "NV_END")
    fields = {(24, 4): "the fields of a trip point"}
    value = {(64, 1): "a transfer's value"}
    key = {(4, 2): "a key"}
    trips = {(4, 1): "all trips"}
    transfer = value | {(104, 8): "a transfer, with its value"}
    answer = {(8, 1): "an answer"}
    row = {(24, 8): "a row, if there is one"}
    verdict = {(2, 1): "a verdict, or how a write ends"}
    bounds = {(12, 4): "two limits"}
    said = {(24, 8): "what a message says"}
    reader = {(24, 8): "what is left of a datagram"}
    head = {(8, 2): "a mailbox's head"}
    mail = {(10, 2): "what a mailbox is"}
    return {
        "wire": {(2, 1): "two bytes of a number", (4, 1): "four bytes of a number, or flags"},
        "bits": {},
        "limits": verdict | {(8, 4): "two limits"},
        "crossed": {},
        "card": fields | value,
        "enter": fields | verdict,
        "block": bounds,
        "load": {(4 * rows, 4): "a number for each NV entry"},
        "store": bounds | {((end + 7) // 8 + 8, 1): "the bytes of a block"},
        "gauge": value | verdict,
        "transfer": transfer | key | row,
        "state": transfer | trips | {(2, 1): "a point's trips"},
        "line": transfer | key | answer | row | verdict,
        "reader": reader,
        "mailbox": head | mail | reader,
        "outbox": transfer | key | answer | row,
        "inbox": transfer | key | answer | row | verdict | {(8, 4): "a length, if one is announced"},
        "post": answer | said | head | key,
        "board": said | head | mail | trips | {(32, 8): "what is heard", (2, 1): "how a call ends"},
    }


# by crate, the functions that may keep two to four bytes at any place, and how often
FEW = {
    "wire": {"U16Number::at": 1, "U16Number::put": 2, "U32Number::at": 1, "U32Number::put": 2, "put_flags": 1},
    "limits": {"judge": 2, "judge_kind": 1, "judge_number": 2, "judge_real": 1, "judge_whole": 1},
    "enter": {"judge": 4, "judge_layout": 1, "judge_level": 1, "judge_levels": 5},
    "gauge": {"commit::check": 3, "commit::commit": 3, "commit::judge": 1},
    "state": {"drop_all": 1, "put_trips": 3, "trips_at": 5},
    "line": {"write::conclude": 1, "write::take_last": 1, "write::with_value": 1},
    "inbox": {"take_part": 1},
    "board": {"gauge_image": 1, "gauge_mailbox": 1, "gauge_message": 1, "gauge_power_up": 1, "gauge_sample": 1, "hear": 1, "number_of": 1,
              "open_mailbox": 1, "power_up": 1, "show_image": 1, "take_mailbox": 1, "take_sample": 3},
}


def is_few(size, places):
    """Has it the form of two to four bools?"""
    return size <= 4 and places == 1


def too_many(crate, locals_of):
    """The functions of a crate that keep more of two to four bytes than they may: (function, how many, how many it may)."""
    counts = Counter()
    for (size, places, function), number in locals_of.items():
        counts[function] += number if is_few(size, places) else 0
    for function, number in sorted(counts.items()):
        may = FEW.get(crate, {}).get(function.partition("::")[2], 0)
        if number > may:
            yield function, number, may


def kept(root):
    """(function, bytes, what their places are multiples of) for each local of each function of the library."""
    with tempfile.TemporaryDirectory() as folder:
        main = os.path.join(folder, "main.rt")
        with open(main, "w", encoding="utf-8") as file:
            file.write(CALLS)
        text, _ = lowered.lowered(root, "calls", main, ["core", "std"])
    inside = ""
    for line in text.split("\n"):
        begun = re.match(r'define [^@]*@"?([\w:]+)', line)
        if begun:
            inside = begun.group(1)
            yield inside, 0, 1
        local = re.search(r" = alloca (?:\[(\d+) x i8\]|i\d+|float|double|ptr), align (\d+)$", line)
        if local:
            yield inside, int(local.group(1) or 0), int(local.group(2))
        elif re.search(r"\balloca\b|\[\d+ x |<\d+ x ", line) and not line.startswith("@"):
            sys.exit(f"{inside} keeps something that is no number and no bytes: {line.strip()}")


def has_code(root, crate):
    """Has the library any function?"""
    files = glob.glob(os.path.join(root, "crates", crate, "src", "**", "*.rt"), recursive=True)
    return not any(file.endswith("main.rt") for file in files) and any(re.search(r"^ *(?:pub )?fn ", text_of(file), re.M) for file in files)


def faults(root):
    """Prints what each crate keeps; gives what is not meant, and crates of which this page says nothing."""
    allowed, found = meant(root), {}
    for function, size, places in kept(root):
        locals_of = found.setdefault(function.split("::")[0], Counter())
        locals_of.update([(size, places, function)] if size >= LEAST and (size, places) != SLICE else [])
    for crate in lowered.crates(root):
        if crate not in allowed and crate not in ELSEWHERE and has_code(root, crate):
            yield f"crate {crate} is not listed: has it a card or a block in its hands?"
    for crate, kinds in allowed.items():
        if crate not in found:
            yield f"crate {crate} has no function"
            continue
        seen = {(size, places) for size, places, _ in found[crate]}
        print(f"{crate}: " + ("; ".join(f"{kind[0]} bytes, {what}" for kind, what in kinds.items() if kind in seen) or "none"))
        for size, places, function in sorted(found[crate]):
            if (size, places) not in kinds:
                yield f"{function} keeps {size} bytes at multiples of {places}, and none such are meant in crate {crate}"
        meant_ones = Counter({local: number for local, number in found[crate].items() if local[:2] in kinds})
        for function, number, may in too_many(crate, meant_ones):
            yield f"{function} keeps two to four bytes at any place {number} times, and it may {may} times"


def main():
    found = list(faults(os.path.abspath(sys.argv[1]) if len(sys.argv) > 1 else x86.TOP))
    for fault in found:
        print(f"arrays: {fault}")
    return 1 if found else 0


if __name__ == "__main__":
    sys.exit(main())
