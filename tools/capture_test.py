#!/usr/bin/env python3
"""Tries tools/capture.py on a few lines, byte by byte. Its last line is 'N passed, M failed'; exits non-zero if one fails.

What is expected is spelt out from the layouts: of a pcap file, of an EtherCAT frame with one datagram, of SocketCAN. dialogues/run makes
captures of whole dialogues.
"""
import os
import subprocess
import sys
import tempfile

CAPTURE = os.path.join(os.path.dirname(os.path.abspath(__file__)), "capture.py")
results = {True: 0, False: 0}

# a pcap file: magic, version 2.4, time zone, accuracy, longest frame, link type
OF_ETHERNET = "D4C3B2A1 0200 0400 00000000 00000000 9C000000 01000000"
OF_CAN = "D4C3B2A1 0200 0400 00000000 00000000 10000000 E3000000"
# to everybody, from the master and back, EtherType; 140 bytes of datagrams, type 1
ETHERCAT = "FFFFFFFFFFFF 020000000001 88A4 8C10"
# the lock is read, and is 0; the card is read; a subindex is absent
LOCK = "0A00 0000 00 13 0020 40 0320 00 00000000"
LOCK_IS_0 = "0A00 0000 00 13 0030 4F 0320 00 00000000"
CARD = "0A00 0110 00 23 0020 40 1020 00 00000000"
CARD_IS = "2B00 0110 00 23 0030 41 1020 00 21000000 10" + 32 * "00"
ABSENT = "0A00 0000 00 33 0020 40 0320 01 00000000"
ABORTED = "0A00 0000 00 33 0020 80 0320 01 11000906"


def packed(text):
    return text.replace(" ", "")


def at(micros, frame):
    """A frame in a pcap file: seconds, microseconds, bytes that are kept, bytes that there were."""
    size = len(packed(frame)) // 2
    return "".join(number.to_bytes(4, "little").hex() for number in (micros // 1000000, micros % 1000000, size, size)) + frame


def written(index, mailbox):
    """FPWR to station 1001h, address 1000h: 128 bytes, no interrupt; working counter 1."""
    return f"{ETHERCAT} 05 {index:02X} 0110 0010 8000 0000 {packed(mailbox):0<256} 0100"


def fetched(index, mailbox):
    """FPRD from address 1080h."""
    return f"{ETHERCAT} 04 {index:02X} 0110 8010 8000 0000 {packed(mailbox):0<256} 0100"


def note(name, good, why=""):
    results[good] += 1
    if not good:
        print(f"FAILED: {name}: {why}" if why else f"FAILED: {name}")


def made(options, pairs):
    """The tool on text lines and their replies; a reply of None is none. How it ended, and the file that it wrote, if it did."""
    with tempfile.TemporaryDirectory() as folder:
        paths = [os.path.join(folder, name) for name in ("dialogue", "answers", "capture")]
        for path, lines in zip(paths, zip(*pairs)):
            with open(path, "w", newline="", encoding="ascii") as file:
                file.writelines(line + "\n" for line in lines if line is not None)
        done = subprocess.run([sys.executable, CAPTURE, *options, *paths], capture_output=True, text=True)
        if not os.path.exists(paths[2]):
            return done, None
        with open(paths[2], "rb") as file:
            return done, file.read()


def same(name, options, pairs, head, frames):
    """A capture is, byte by byte, its head and its frames."""
    done, file = made(options, pairs)
    expected = bytes.fromhex(packed(head + "".join(frames)))
    differs = next((n for n, (a, b) in enumerate(zip(file or b"", expected)) if a != b), min(len(file or b""), len(expected)))
    note(name, done.returncode == 0 and file == expected, f"byte {differs} of {len(expected)}; {done.stderr}")


def refused(name, options, pairs, said):
    """No capture is written, and one line tells why."""
    done, file = made(options, pairs)
    note(name, done.returncode == 1 and file is None and done.stderr.endswith(f": {said}\n") and done.stderr.count("\n") == 1, done.stderr)


def line(number, text):
    return f"{number} {packed(text)}"


def mailboxes():
    asked, answered = line(0, LOCK), line(0, LOCK_IS_0)
    same("a mailbox and its answer", ["--mailbox"], [(asked, answered)], OF_ETHERNET, [
        at(0, written(0, LOCK)), at(500, fetched(1, LOCK_IS_0))])
    same("a longer answer, an address and a counter", ["--mailbox"], [(line(0, CARD), line(0, CARD_IS))], OF_ETHERNET, [
        at(0, written(0, CARD)), at(500, fetched(1, CARD_IS))])
    same("an abort", ["--mailbox"], [(line(0, ABSENT), line(0, ABORTED))], OF_ETHERNET, [
        at(0, written(0, ABSENT)), at(500, fetched(1, ABORTED))])
    same("no answer, refusals, what is left out", ["--mailbox"], [
        (asked + "\r", "0 -"), (asked.lower(), "0 !6"), ("0 0A", "0 !7"), ("", "?"), ("x", "?"),
        ("1 4003200000000000", "1 4F03200000000000"), ("1 8003200000000000", "1 -"), (asked, answered)], OF_ETHERNET, [
            at(0, written(0, LOCK)), at(1000, written(1, LOCK)), at(2000, written(2, "0A")),
            at(7000, written(3, LOCK)), at(7500, fetched(4, LOCK_IS_0))])
    same("a full mailbox", ["--mailbox"], [("0 " + 128 * "7A", "0 " + 128 * "7B")], OF_ETHERNET, [
        at(0, written(0, 128 * "7A")), at(500, fetched(1, 128 * "7B"))])
    same("the index begins anew behind 255", ["--mailbox"], 1001 * [(asked, "0 -")], OF_ETHERNET, [
        at(1000 * n, written(n % 256, LOCK)) for n in range(1001)])
    same("nothing", ["--mailbox"], [("", "?")], OF_ETHERNET, [])


def messages():
    same("eight bytes on both lines", [], [
        ("0 4003200000000000", "0 4F03200000000000"), ("1 8010200000000000", "1 -"), ("", "?")], OF_CAN, [
            at(0, "00000601 08 00 0000 4003200000000000"), at(500, "00000581 08 00 0000 4F03200000000000"),
            at(1000, "00000602 08 00 0000 8010200000000000")])


def no_answers():
    asked, answered = line(0, LOCK), line(0, LOCK_IS_0)
    refused("a mailbox as eight bytes", [], [(asked, answered)], f"line 1: {answered} is no answer to it")
    refused("eight bytes as a mailbox", ["--mailbox"], [("0 4003200000000000", "0 4F03200000000000")],
            "line 1: 0 4F03200000000000 is no answer to it")
    refused("a mailbox on line 1", ["--mailbox"], [(line(1, LOCK), line(1, LOCK_IS_0))], f"line 1: {line(1, LOCK_IS_0)} is no answer to it")
    refused("an answer of the other line", ["--mailbox"], [("", "?"), (asked, "1 4F03200000000000")],
            "line 2: 1 4F03200000000000 is no answer to it")
    refused("a text line without its reply", ["--mailbox"], [(asked, answered), (asked, None)], "2 lines of dialogue, 1 of answers")


mailboxes()
messages()
no_answers()
print(f"{results[True]} passed, {results[False]} failed")
sys.exit(results[False] != 0)
