#!/usr/bin/env python3
"""A dialogue as a capture file, for Wireshark to show.

    tools/capture.py DIALOGUE ANSWERS CAPTURE
    tools/capture.py --mailbox DIALOGUE ANSWERS CAPTURE

DIALOGUE is what the program was given, ANSWERS what it printed, CAPTURE the pcap file to write. A text line that was answered with `?` is
left out. Times are made up: a message every millisecond, its answer half a millisecond later.

Without --mailbox the program was `talk`, and the capture has CAN frames, for CANopen SDO. Line 0 is node 1, line 1 is node 2: a message
goes to 600h + node, its answer comes from 580h + node. Where `talk` printed `-` there is no answer.

With --mailbox it was `mailboxes`, and the capture has EtherCAT frames, for CoE. The master writes each mailbox of line 0 to the slave's
mailbox out, FPWR to 1000h, and reads the answer from its mailbox in, FPRD from 1080h; 128 bytes both, zeros filled up. Each frame is there
once, as it comes back from the slave, with working counter 1. Where the program printed `-` or a refusal (`!6`) nothing is read. Line 1 is
no EtherCAT and is left out. It is an option since the text does not tell: eight bytes on line 0 may be a short mailbox.
"""
import re
import struct
import sys

REQUEST = 0x600
ANSWER = 0x580
LINKTYPE_CAN_SOCKETCAN = 227
CAN_FRAME_SIZE = 16
# what a text line and its reply look like, in each form
EIGHT = re.compile(rb"([01]) ([0-9A-Fa-f]{16})"), re.compile(rb"([01]) (-|[0-9A-F]{16})")

MAILBOX_SIZE = 128
MAILBOX_OUT = 0x1000
MAILBOX_IN = 0x1080
STATION = 0x1001
FPRD = 4
FPWR = 5
DATAGRAMS = 1  # the type of an EtherCAT frame
ETHERTYPE = 0x88A4
EVERYBODY = bytes.fromhex("FFFFFFFFFFFF")
MASTER = bytes.fromhex("020000000001")  # a slave sets bit 1 of the sender's first byte in what comes back
LINKTYPE_ETHERNET = 1
ETHERCAT_FRAME_SIZE = 14 + 2 + 10 + MAILBOX_SIZE + 2
MAILBOX = re.compile(rb"(0) ((?:[0-9A-Fa-f]{2}){1,128})"), re.compile(rb"(0) (-|![0-9]|(?:[0-9A-F]{2}){16,128})")


def lines_of(text):
    """The lines as `talk` hears them: split at newlines, one carriage return at a line's end dropped, an empty rest is no line."""
    lines = text.split(b"\n")
    if lines[-1] == b"":
        lines.pop()
    return [line[:-1] if line.endswith(b"\r") else line for line in lines]


def pairs_of(dialogue, answers, tool):
    """(place, line, what it was told, what it answered) for each text line that was not answered with `?`; `tool` is the form of line 0."""
    asked, given = lines_of(dialogue), lines_of(answers)
    if len(asked) != len(given):
        raise ValueError(f"{len(asked)} lines of dialogue, {len(given)} of answers")
    for place, (text, reply) in enumerate(zip(asked, given)):
        if reply == b"?":
            continue
        said, answered = (shape.fullmatch(line) for shape, line in zip(tool if text.startswith(b"0") else EIGHT, (text, reply)))
        if not said or not answered or said[1] != answered[1]:
            raise ValueError(f"line {place + 1}: {reply.decode('ascii', 'replace')} is no answer to it")
        yield place, int(said[1]), bytes.fromhex(said[2].decode()), answered[2].decode()


def can_frame(number, data):
    """A frame as SocketCAN has it."""
    return struct.pack(">IBBH", number, len(data), 0, 0) + data


def can_frames(dialogue, answers):
    """(microseconds, frame) for each message and answer."""
    frames = []
    for place, line, message, reply in pairs_of(dialogue, answers, EIGHT):
        node = line + 1
        frames.append((1000 * place, can_frame(REQUEST + node, message)))
        if reply != "-":
            frames.append((1000 * place + 500, can_frame(ANSWER + node, bytes.fromhex(reply))))
    return frames


def ethercat_frame(command, index, address, mailbox):
    """A frame with one datagram: 11 bits of length and 4 of type, then command, index, station, address in it, 11 bits of length under
    marks that are not set (circulating, more follow), interrupt; the data; the working counter."""
    data = mailbox.ljust(MAILBOX_SIZE, b"\0")
    datagram = struct.pack("<BBHHHH", command, index % 256, STATION, address, len(data), 0) + data + struct.pack("<H", 1)
    return EVERYBODY + MASTER + struct.pack(">H", ETHERTYPE) + struct.pack("<H", DATAGRAMS << 12 | len(datagram)) + datagram


def ethercat_frames(dialogue, answers):
    """(microseconds, frame) for each mailbox of line 0 and its answer."""
    frames = []
    for place, line, message, reply in pairs_of(dialogue, answers, MAILBOX):
        if line == 1:
            continue
        frames.append((1000 * place, ethercat_frame(FPWR, len(frames), MAILBOX_OUT, message)))
        if reply[0] not in "-!":
            frames.append((1000 * place + 500, ethercat_frame(FPRD, len(frames), MAILBOX_IN, bytes.fromhex(reply))))
    return frames


def capture_of(link, longest, frames):
    """The pcap file: its header, then for each frame time and length, and the frame."""
    file = struct.pack("<IHHiIII", 0xA1B2C3D4, 2, 4, 0, 0, longest, link)
    for time, frame in frames:
        file += struct.pack("<IIII", time // 1000000, time % 1000000, len(frame), len(frame)) + frame
    return file


def main(words):
    frames_of, link, longest = can_frames, LINKTYPE_CAN_SOCKETCAN, CAN_FRAME_SIZE
    if words[:1] == ["--mailbox"]:
        frames_of, link, longest = ethercat_frames, LINKTYPE_ETHERNET, ETHERCAT_FRAME_SIZE
        words = words[1:]
    if len(words) != 3:
        sys.exit(__doc__)
    dialogue, answers, capture = words
    try:
        with open(dialogue, "rb") as asked, open(answers, "rb") as given:
            frames = frames_of(asked.read(), given.read())
        with open(capture, "wb") as file:
            file.write(capture_of(link, longest, frames))
    except OSError as wrong:
        sys.exit(f"{wrong.filename}: {wrong.strerror}")
    except ValueError as wrong:
        sys.exit(f"{dialogue}, {answers}: {wrong}")
    print(f"{capture}: {len(frames)} frames")


if __name__ == "__main__":
    main(sys.argv[1:])
