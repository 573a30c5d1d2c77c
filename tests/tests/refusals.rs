//! Every number that a call gives back, the order 4, 3, 2, 1 of a message and 4, 3, 6, 7, 2 of a mailbox, and what is left behind.

use board_tests::board::{code, mailbox_with, Board, Desk, Memory, EIGHT, MAILBOX};
use board_tests::model::code::*;
use board_tests::random::Random;
use board_tests::subject;

const ROOM: u8 = 0xC3;
/// The state's byte with the form of line 0.
const FORM: usize = 196;

/// Memory with something everywhere, a high side that is enabled, and line 0 in the middle of a card read.
fn busy() -> Memory {
    let mut r = Random::new(5);
    let mut memory = Memory { values: r.bytes(1024), block: r.bytes(512), state: r.bytes(256) };
    subject().power_up(EIGHT, &mut memory.values, &memory.block, &mut memory.state);
    let mut answer = [0; 8];
    for message in [[0x2F, 0x0E, 0x80, 0x01, 1, 0, 0, 0], [0x40, 0x10, 0x20, 0, 0, 0, 0, 0], [0x60, 0, 0, 0, 0, 0, 0, 0]] {
        let m = &mut memory;
        assert_eq!(subject().message(0, &message, &mut m.values, &mut m.block, &mut m.state, &mut answer), 0);
    }
    memory.values[1000..].fill(0x77);
    memory
}

fn sized(bytes: &[u8], size: usize) -> Vec<u8> {
    let mut bytes = bytes.to_vec();
    bytes.resize(size, 0x3C);
    bytes
}

/// The number that the order of R13.6 gives.
fn expected(values: usize, block: usize, state: &[u8], line: u32, room: usize, message: &[u8]) -> u32 {
    if values != 1024 || block != 512 || state.len() != 256 {
        4
    } else if line > 1 || line == 0 && state[FORM] != 0 {
        3
    } else if room < 8 {
        2
    } else if message.len() != 8 {
        1
    } else if message[0] >> 5 == 4 {
        5
    } else {
        0
    }
}

/// The state of a size, with a form of line 0.
fn state_of(memory: &Memory, size: usize, form: u8) -> Vec<u8> {
    let mut state = sized(&memory.state, size);
    if let Some(byte) = state.get_mut(FORM) {
        *byte = form;
    }
    state
}

#[test]
fn message_in_every_combination() {
    let memory = busy();
    let mut seen = [0; 6];
    for values in [0, 1, 1023, 1024, 1025, 2048] {
        for block in [0, 511, 512, 513] {
            for (state, form) in [(0, 0), (255, 0), (256, 0), (256, 1), (256, 0xFE), (257, 0), (257, 1)] {
                for line in [0, 1, 2, 255, 256, u32::MAX] {
                    for room in [0, 1, 7, 8, 9, 16] {
                        for length in [0, 1, 7, 8, 9, 16] {
                            for first in [0x70, 0x80, 0x9F, 0x40] {
                                let message = sized(&[first, 0x03, 0x20, 0, 0, 0, 0, 0], length);
                                let (mut v, mut b, mut s) =
                                    (sized(&memory.values, values), sized(&memory.block, block), state_of(&memory, state, form));
                                let before = (v.clone(), b.clone(), s.clone());
                                let mut answer = vec![ROOM; room];
                                let number = subject().message(line, &message, &mut v, &mut b, &mut s, &mut answer);
                                assert_eq!(number, expected(values, block, &before.2, line, room, &message));
                                seen[number as usize] += 1;
                                let written = if number == 0 { 8 } else { 0 };
                                assert!(answer[written..].iter().all(|&b| b == ROOM), "number {number} wrote behind the answer");
                                if number != 0 && number != 5 {
                                    assert!((&v, &b, &s) == (&before.0, &before.1, &before.2), "number {number} wrote");
                                }
                            }
                        }
                    }
                }
            }
        }
    }
    println!("numbers 0 to 5 were given {seen:?} times");
    assert!(seen.iter().all(|&n| n > 0));
}

/// The number of a mailbox on memory of these sizes.
fn expected_of_mailbox(mailbox: &[u8], sizes: [usize; 3], form: u8, room: usize) -> u32 {
    if sizes != [1024, 512, 256] {
        return 4;
    }
    if form == 0 {
        return 3;
    }
    let length = mailbox.get(..2).map_or(0, |bytes| u16::from_le_bytes([bytes[0], bytes[1]]));
    if mailbox.len() != 128 || !(10..=122).contains(&length) {
        return 6;
    }
    if mailbox[5] % 16 != 3 || mailbox[7] / 16 != 2 {
        return 7;
    }
    match room {
        0..=127 => 2,
        _ if mailbox[8] >> 5 == 4 => 5,
        _ => 0,
    }
}

/// Mailboxes of every size, length field, type, service and first byte that decide.
fn mailboxes() -> Vec<Vec<u8>> {
    let mut found = Vec::new();
    for length in [0, 9, 10, 11, 122, 123, 0x010A, 0xFFFFu16] {
        for kind in [0x13, 0xF3, 0x12, 0x00] {
            for service in [0x20, 0x2F, 0x30, 0x00] {
                for first in [0x40, 0x80, 0x9F] {
                    let mut mailbox = mailbox_with(&[first, 0x10, 0x20, 0, 0, 0, 0, 0]);
                    mailbox[..2].copy_from_slice(&length.to_le_bytes());
                    mailbox[5] = kind;
                    mailbox[7] = service;
                    found.extend([0, 1, 8, 127, 128, 129, 256].map(|size| sized(&mailbox, size)));
                }
            }
        }
    }
    found
}

#[test]
fn mailbox_in_every_combination() {
    let memory = busy();
    let mailboxes = mailboxes();
    let mut seen = [0; 8];
    let sizes =
        [[1024, 512, 256], [1023, 512, 256], [1025, 511, 256], [1024, 513, 256], [1024, 512, 255], [1024, 512, 257], [0, 0, 0]];
    for [values, block, state] in sizes {
        for form in [0, 1, 2, 0xFF] {
            let (v, b, s) = (sized(&memory.values, values), sized(&memory.block, block), state_of(&memory, state, form));
            let before = Memory { values: v, block: b, state: s };
            for mailbox in &mailboxes {
                for room in [0, 8, 127, 128, 129, 200] {
                    let (mut m, mut answer) = (before.clone(), vec![ROOM; room]);
                    let number = subject().mailbox(mailbox, &mut m.values, &mut m.block, &mut m.state, &mut answer);
                    assert_eq!(number, expected_of_mailbox(mailbox, [values, block, state], form, room), "{mailbox:02X?}");
                    seen[number as usize] += 1;
                    let written = if number == 0 { 128 } else { 0 };
                    assert!(answer[written..].iter().all(|&b| b == ROOM), "number {number} wrote behind the answer");
                    if number == 0 || number == 5 {
                        assert!(m.values == before.values && m.block == before.block && m.state[70..] == before.state[70..]);
                        assert!(m.state[..70].iter().all(|&b| b == 0), "number {number} leaves a transfer");
                    } else {
                        assert!(m == before, "number {number} wrote");
                    }
                }
            }
        }
    }
    println!("numbers 0 to 7 were given {seen:?} times by a mailbox");
    assert!(seen.iter().enumerate().all(|(number, &n)| (n > 0) == (number != 1)));
}

/// The form is chosen at power-up alone: by any number but 0 the mailbox. The state's other spare bytes are left.
#[test]
fn forms_of_power_up() {
    for (form, byte) in [(0, 0), (1, 1), (2, 1), (255, 1), (256, 1), (0x8000_0000, 1), (u32::MAX, 1)] {
        for had in [0, 1, 0x66] {
            let mut memory = busy();
            memory.state[FORM] = had;
            let before = memory.clone();
            assert_eq!(subject().power_up(form, &mut memory.values, &memory.block, &mut memory.state), 0);
            assert_eq!(memory.state[FORM], byte, "form {form}");
            assert!(memory.state[70..96] == before.state[70..96] && memory.state[166..192] == before.state[166..192]);
            assert!(memory.state[197..] == before.state[197..]);
        }
    }
}

/// A lent form byte counts as the mailbox if it is not 0, and no other call writes it.
#[test]
fn lent_forms() {
    for form in 0..=255u8 {
        let mut desk = Desk::in_form(MAILBOX, subject());
        desk.memory.state[FORM] = form;
        let (mut eight, mut room) = ([ROOM; 8], [ROOM; 128]);
        let m = &mut desk.memory;
        let read = [0x40, 0x03, 0x20, 0, 0, 0, 0, 0];
        let number = desk.board.message(0, &read, &mut m.values, &mut m.block, &mut m.state, &mut eight);
        assert_eq!(number, if form == 0 { 0 } else { 3 });
        let number = desk.board.mailbox(&mailbox_with(&read), &mut m.values, &mut m.block, &mut m.state, &mut room);
        assert_eq!(number, if form == 0 { 3 } else { 0 });
        assert_eq!(desk.read(1, 0x2003, 0), Ok(vec![0]));
        desk.sample(0.5, 1, 0, 1);
        desk.image();
        assert_eq!(desk.write(1, 0xFBF0, 1, b"teser\0"), Ok(()));
        assert_eq!(desk.memory.state[FORM], form, "a device reset keeps the form");
    }
}

#[test]
fn abort_is_no_refusal() {
    // a transfer is open on line 0, none on line 1: number 5 on both, the record all zero, nothing else changed
    for line in [0, 1] {
        for first in [0x80, 0x8F, 0x9F] {
            let mut memory = busy();
            let before = memory.clone();
            let mut answer = [ROOM; 12];
            let m = &mut memory;
            let number =
                subject().message(line, &[first, 1, 2, 3, 4, 5, 6, 7], &mut m.values, &mut m.block, &mut m.state, &mut answer);
            assert_eq!(number, 5);
            assert_eq!(answer, [ROOM; 12]);
            assert!(memory.values == before.values && memory.block == before.block);
            let start = 96 * line as usize;
            for at in 0..256 {
                let own = (start..start + 70).contains(&at);
                assert_eq!(memory.state[at], if own { 0 } else { before.state[at] }, "state byte {at}");
            }
        }
    }
}

#[test]
fn power_up_sample_and_image() {
    let memory = busy();
    for values in [0, 1023, 1024, 1025] {
        for state in [0, 255, 256, 257] {
            for block in [0, 511, 512, 513] {
                let (mut v, b, mut s) = (sized(&memory.values, values), sized(&memory.block, block), sized(&memory.state, state));
                let good = (values, block, state) == (1024, 512, 256);
                assert_eq!(subject().power_up(MAILBOX, &mut v, &b, &mut s), if good { 0 } else { 4 });
                if !good {
                    assert!(v == sized(&memory.values, values) && s == sized(&memory.state, state), "number 4 wrote");
                }
            }
            let (mut v, mut s) = (sized(&memory.values, values), sized(&memory.state, state));
            let good = (values, state) == (1024, 256);
            assert_eq!(subject().sample(0.5, 1, 1, 9, &mut v, &mut s), if good { 0 } else { 4 });
            if !good {
                assert!(v == sized(&memory.values, values) && s == sized(&memory.state, state), "number 4 wrote");
            }
        }
        for room in [0, 1, 9, 10, 11, 40] {
            let mut image = vec![ROOM; room];
            let number = subject().image(&sized(&memory.values, values), &mut image);
            assert_eq!(
                number,
                if values != 1024 {
                    4
                } else if room < 10 {
                    2
                } else {
                    0
                }
            );
            let written = if number == 0 { 10 } else { 0 };
            assert!(image[written..].iter().all(|&b| b == ROOM), "number {number} wrote behind the image");
        }
    }
}

#[test]
fn an_abort_answer_leaves_values_and_block() {
    let messages = [
        [0x60, 0, 0, 0, 0, 0, 0, 0],                // wrong toggle
        [0x00, 1, 2, 3, 4, 5, 6, 7],                // part of the other direction
        [0xE0, 0, 0, 0, 0, 0, 0, 0],                // unknown
        [0x40, 0x04, 0x20, 0, 0, 0, 0, 0],          // index absent
        [0x40, 0x03, 0x20, 1, 0, 0, 0, 0],          // subindex absent
        [0x23, 0x00, 0x10, 0, 1, 2, 3, 4],          // read-only
        [0x2B, 0x03, 0x20, 0, 1, 0, 0, 0],          // too long
        [0x2F, 0x11, 0x80, 0, 1, 0, 0, 0],          // index absent
        [0x2F, 0x0E, 0x80, 0x11, 1, 0, 0, 0],       // too short
        [0x2F, 0x03, 0x20, 0, 2, 0, 0, 0],          // above
        [0x2F, 0x05, 0x80, 0x11, 0, 0, 0, 0],       // below
        [0x23, 0x0E, 0x80, 0x11, 0, 0, 0xC0, 0x7F], // not a number
        [0x2F, 0x0E, 0x80, 0x02, 1, 0, 0, 0],       // crossed
    ];
    for message in messages {
        let mut memory = busy();
        let before = memory.clone();
        let mut answer = [ROOM; 9];
        let m = &mut memory;
        assert_eq!(subject().message(0, &message, &mut m.values, &mut m.block, &mut m.state, &mut answer), 0);
        assert_eq!((answer[0], answer[8]), (0x80, ROOM));
        assert!(memory.values == before.values && memory.block == before.block);
        assert!(memory.state[..70].iter().all(|&b| b == 0), "the abort keeps the record");
        assert!(memory.state[70..] == before.state[70..]);
    }
}

/// An abort answer by mailbox has its code, leaves values and block, and no transfer.
#[test]
fn a_mailbox_abort_answer_leaves_values_and_block() {
    let label = |first: u8, announced: u8, carried: usize| {
        let mut sdo = vec![first, 0x01, 0x20, 0, announced, 0, 0, 0];
        sdo.extend(vec![0x41; carried]);
        sdo
    };
    let sdos = [
        (vec![0x10, 1, 2, 3, 4, 5, 6, 7], TOGGLE),
        (vec![0x60, 0, 0, 0, 0, 0, 0, 0], NO_TRANSFER), // part of the other direction
        (vec![0xE0, 0, 0, 0, 0, 0, 0, 0], NO_TRANSFER), // unknown
        (vec![0x40, 0x04, 0x20, 0, 0, 0, 0, 0], NO_INDEX),
        (vec![0x40, 0x03, 0x20, 1, 0, 0, 0, 0], NO_SUBINDEX),
        (vec![0x21, 0x00, 0x10, 0, 4, 0, 0, 0, 1, 2, 3], READ_ONLY),
        (label(0x21, 33, 33), TOO_LONG),
        (label(0x21, 31, 31), TOO_SHORT),
        (label(0x21, 31, 32), TOO_SHORT), // though all came
        (label(0x21, 32, 33), TOO_LONG),  // surplus
        (label(0x20, 0, 33), TOO_LONG),   // surplus without a size
        (vec![0x21, 0x03, 0x20, 0, 1, 0, 0, 0, 2], ABOVE),
        (vec![0x2F, 0x0E, 0x80, 0x02, 1, 0, 0, 0], CROSSED),
        (vec![0x00; 120], TOO_LONG), // a part that overruns
    ];
    for (sdo, expected) in sdos {
        let mut desk = Desk::in_form(MAILBOX, subject());
        assert_eq!(desk.write(1, 0x800E, 0x01, &[1]), Ok(()));
        let before = desk.memory.clone();
        assert_eq!(desk.post(&label(0x21, 32, 20)).unwrap()[0], 0x60);
        let answer = desk.post(&sdo).unwrap();
        assert_eq!((answer.len(), answer[0]), (8, 0x80), "{sdo:02X?}");
        assert_eq!(code(answer.first_chunk().unwrap()), expected, "{sdo:02X?}");
        assert!(desk.memory == before, "{sdo:02X?}");
    }
}
