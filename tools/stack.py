#!/usr/bin/env python3
"""The stack that the trip card takes for itself, apart from what the search, the record and the message take.

    tools/stack.py              the functions of the card with the bytes of each; exits 1 if they have more than their goal together
    tools/stack.py ROOT         the same of the sources in another folder

In the library the compiler puts the card's functions into those that call them, so they have no frames of their own. Here the same
sources, those of the program talk, are compiled by the same compiler with the same words, but what one layer calls of another is kept
apart. `bench/run` shows how much each layer takes in the calls that have to do with the card.
"""
import os
import re
import subprocess
import sys

sys.dont_write_bytecode = True
import lowered
import x86

# what the card's functions may have together, with a return address each
GOAL = 200
LAYERS = {"card": "card", "enter": "card", "find": "search", "gate": "search", "transfer": "record", "state": "record",
          "block": "block", "load": "block", "store": "block"}
# these belong to the layer that calls them
HELPERS = ("wire", "bits", "limits", "crossed", "table")
PROGRAM = "talk"
CALL = "board::gauge_message"


def layer_of(function):
    return LAYERS.get(function.split("::")[0], "message")


def is_helper(function):
    return function.split("::")[0] in HELPERS


def doors(text):
    """The functions of a layer that are called from outside of it."""
    found, inside = {CALL}, ""
    for line in text.split("\n"):
        begun = re.match(r'define .*?@"([\w:]+)"\(', line)
        inside = begun.group(1) if begun else inside
        found.update(name for name in re.findall(r'\bcall [^@]*@"([\w:]+)"', line) if layer_of(name) not in ("message", layer_of(inside)))
    return found


def apart(root):
    """Compiles the program with its layers apart: the object, and the bytes of each function's frame."""
    own = lowered.crates(root)
    of_kit = ["core", "std", *(use for use in own[PROGRAM] if use not in own)]
    text, words = lowered.lowered(root, PROGRAM, os.path.join(root, "crates", PROGRAM, "src", "main.rt"), of_kit)
    folder = os.path.join(x86.TOP, "target", "stack")
    os.makedirs(folder, exist_ok=True)
    kept = doors(text)
    # without the red zone, since what stands there is no part of a frame
    marks = lambda m: m[1] + ("noinline " if m[2] in kept else "") + "noredzone {"
    text = re.sub(r'^(define .*?@"?([\w:]+)"?\(.*)\{$', marks, text, flags=re.M)
    path = lambda name: os.path.join(folder, name)
    with open(path("apart.ll"), "w") as file:
        file.write(text)
    words = [{"module.bc": path("apart.ll"), "module.o": path("apart.o")}.get(word, word) for word in words]
    x86.run([os.path.join(x86.toolchain(), "bin", "clang"), *words, "-fstack-usage"])
    frames = {}
    with open(path("apart.su")) as file:
        for line in file:
            name, size, kind = line.rstrip().split("\t")
            name = name.split(":", 1)[1]
            if kind != "static":
                sys.exit(f"{name}: its frame has no fixed size")
            frames[name] = int(size)
    return path("apart.o"), frames


def card_functions(frames):
    """The functions of the card, and helpers that it may call, with their bytes: the frame and the return address."""
    own = {name: size + 8 for name, size in frames.items() if layer_of(name) == "card" or is_helper(name)}
    if not any(layer_of(name) == "card" for name in own):
        sys.exit("no function of the card was found")
    return own


# ---- what a call takes, by layer

def opened(first, key, rest):
    return bytes([first]) + key + rest.ljust(4, b"\0")


def sent(key, value):
    """The messages of a write in parts."""
    messages = [opened(0x21, key, len(value).to_bytes(4, "little"))]
    for n in range(0, len(value), 7):
        part = value[n:n + 7]
        messages.append(bytes([n // 7 % 2 << 4 | 7 - len(part) << 1 | (n + 7 >= len(value))]) + part.ljust(7, b"\0"))
    return messages


def dialogues():
    """(name as the benchmark has it, messages of which the last is the call, its answer) of each call that has to do with the card."""
    card, store, load = bytes.fromhex("102000"), bytes.fromhex("F2FB01"), bytes.fromhex("F4FB01")
    # both points enabled, high levels 1, the other numbers 0; the last of them -1
    good = bytes([0x1C, 0xFE, *bytes(14), 0x03, 0x3F, 0x80, *bytes(14)])
    bad = good[:29] + bytes.fromhex("BF800000")
    saved = sent(card, good) + [opened(0x23, store, b"save")]
    return [
        ("message|card read, opening", [opened(0x40, card, b"")], "4110200021000000"),
        ("message|card write, last part", sent(card, good), "2000000000000000"),
        ("message|card write, last field bad, last part", sent(card, bad), "8010200032000906"),
        ("command|load", saved + [opened(0x23, load, b"load")], "60F4FB0100000000"),
    ]


def events(program, messages, answer):
    """What the program executes, loads and stores while it serves the messages: (kind, place, size) of each."""
    log = program + ".log"
    talk = "".join(f"0 {message.hex().upper()}\n" for message in messages)
    words = ["valgrind", "--tool=lackey", "--basic-counts=no", "--trace-mem=yes", f"--log-file={log}", program]
    done = subprocess.run(words, input=talk, text=True, stdout=subprocess.PIPE, check=True)
    if done.stdout.split("\n")[-2:] != [f"0 {answer}", ""]:
        sys.exit(f"not the answer that is measured, {answer}:\n{done.stdout}")
    found = []
    with open(log) as file:
        for line in file:
            words = re.match(r"(I | [LSM]) ([0-9a-f]+),(\d+)$", line.rstrip())
            if words:
                found.append((words[1].strip(), int(words[2], 16), int(words[3])))
    return found


class Frames:
    """The frames of a call that goes on, and the most bytes that each layer had: those below the first of its frames on top."""

    def __init__(self, returns):
        self.open, self.most = [("message", returns)], {}  # a layer, and the place of the return address

    def enter(self, function, returns):
        """A call; without a return address it is a jump, and the function takes the place of the one that ends with it."""
        layer = self.open[-1][0] if is_helper(function) else layer_of(function)
        if returns is None:
            returns = self.open.pop()[1]
        self.open.append((layer, returns))
        self.store(returns)

    def store(self, place):
        layer, first = self.open[-1][0], len(self.open) - 1
        while first > 0 and self.open[first - 1][0] == layer:
            first -= 1
        for name, top in ((layer, self.open[first][1]), ("all", self.open[0][1])):
            self.most[name] = max(self.most.get(name, 0), top + 8 - place)


def taken(program, entries, messages, answer):
    """The bytes of stack of the last call, by layer and all of them."""
    trace = events(program, messages, answer)
    begin = {name: place for place, name in entries.items()}[CALL]
    at = max(n for n, (kind, place, _) in enumerate(trace) if kind == "I" and place == begin)
    frames = Frames(trace[at - 1][1])
    pushed, over = None, False
    for kind, place, size in trace[at + 1:]:
        if kind == "I":
            if over:
                frames.open.pop()
            if not frames.open:
                return frames.most
            if place in entries:
                frames.enter(entries[place], pushed)
            pushed, over = None, False
        elif kind == "L":
            over = place == frames.open[-1][1]
        elif place < frames.open[0][1]:
            pushed = place if size == 8 else None
            frames.store(place)
    sys.exit("the call does not return")


def calls(code):
    """name of a call -> its bytes of stack by layer, in the object of a program with its layers apart."""
    program = code[:-len(".o")]
    x86.run(["gcc", "-no-pie", "-Wl,-z,now", code, *x86.c_parts(), "-o", program])
    entries = {}
    for line in x86.run(["nm", program], stdout=subprocess.PIPE).stdout.splitlines():
        words = line.split(None, 2)
        if len(words) == 3 and words[1] in "tT" and "::" in words[2]:
            entries[int(words[0], 16)] = words[2]
    return {name: taken(program, entries, messages, answer) for name, messages, answer in dialogues()}


def main():
    _, frames = apart(os.path.abspath(sys.argv[1]) if len(sys.argv) > 1 else x86.TOP)
    own = card_functions(frames)
    for name, size in sorted(own.items()):
        print(f"{name}: {size} bytes of stack")
    together = sum(own.values())
    print(f"the card's own functions together: {together} bytes of stack, goal under {GOAL}")
    return 0 if together < GOAL else 1


if __name__ == "__main__":
    sys.exit(main())
