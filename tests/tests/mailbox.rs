//! The tool on the mailbox: dialogues that are written out, byte by byte.

use board_tests::board::{hex, Board, Desk, MAILBOX};
use board_tests::plain::{bits_of, bytes_of, lines};
use board_tests::subject;

fn desk() -> Desk<impl Board> {
    Desk::in_form(MAILBOX, subject())
}

/// Bytes written in hex.
fn bytes(text: &str) -> Vec<u8> {
    text.split_whitespace().map(|digits| u8::from_str_radix(digits, 16).unwrap()).collect()
}

/// A mailbox, whose first bytes are given, and the answer that it must get; both have zeros behind what is shown.
fn expect<B: Board>(desk: &mut Desk<B>, mailbox: &str, answer: &str) {
    let (mut sent, mut expected) = (bytes(mailbox), bytes(answer));
    sent.resize(128, 0);
    expected.resize(128, 0);
    let (m, mut room) = (&mut desk.memory, [0xA5; 140]);
    assert_eq!(desk.board.mailbox(&sent, &mut m.values, &mut m.block, &mut m.state, &mut room), 0, "{mailbox}");
    assert_eq!(hex(&room[..128]), hex(&expected), "to {mailbox}");
    assert_eq!(room[128..], [0xA5; 12], "later bytes of the room");
}

/// A part with no transfer: nothing is open on line 0.
fn expect_nothing_open<B: Board>(desk: &mut Desk<B>) {
    assert!(desk.memory.state[..70].iter().all(|&byte| byte == 0));
    assert_eq!(desk.post(&bytes("60 00 00 00 00 00 00 00")), Some(bytes("80 00 00 00 01 00 04 05")));
}

/// Example K's card, whole in one answer; its 33 bytes and the ten before them make the length field 43.
#[test]
fn a_card_in_one_mailbox() {
    let mut desk = desk();
    assert_eq!(desk.write(1, 0x800E, 0x02, &[1]), Ok(()));
    assert_eq!(desk.write(1, 0x800E, 0x14, &0.5f32.to_le_bytes()), Ok(()));
    assert_eq!(desk.write(1, 0x800E, 0x18, &0.125f32.to_le_bytes()), Ok(()));
    let card = "14 00 00 00 00 00 00 00 00 FC 00 00 00 F8 00 00 00 00 00 00 00 00 00 00 00 00 00 00 00 00 00 00 00";
    expect(
        &mut desk,
        "0A 00 01 10 00 53 00 20  40 10 20 00 00 00 00 00",
        &format!("2B 00 01 10 00 53 00 30  41 10 20 00 21 00 00 00  {card}"),
    );
    expect_nothing_open(&mut desk);
}

/// What stands in a request's other fields and behind its length field is not looked at.
#[test]
fn fields_that_do_not_count() {
    let mut desk = desk();
    let read = "4F 03 20 00";
    for (mailbox, answer) in [
        ("0A 00 00 00 00 03 00 20  40 03 20 00", "0A 00 00 00 00 03 00 30"),
        ("0A 00 34 12 FF 73 00 20  40 03 20 00", "0A 00 34 12 00 73 00 30"),
        ("0A 00 FF FF 00 F3 FF 2F  5F 03 20 00 FF FF FF FF", "0A 00 FF FF 00 73 00 30"),
        ("7A 00 01 00 3F 93 01 2E  40 03 20 00 01 02 03 04 05 06 07", "0A 00 01 00 00 13 00 30"),
        ("0A 00 01 00 C0 13 00 20  40 03 20 00 00 00 00 00 FF FF FF FF", "0A 00 01 00 00 13 00 30"),
    ] {
        // the same counter twice is served twice
        for _ in 0..2 {
            expect(&mut desk, mailbox, &format!("{answer} {read}"));
        }
    }
}

#[test]
fn a_label_in_one_mailbox() {
    let mut desk = desk();
    let label = "63 6F 61 74 69 6E 67 20 6C 69 6E 65 20 34 2C 20 63 68 61 6D 62 65 72 20 42 2C 20 67 61 75 67 65";
    expect(
        &mut desk,
        &format!("2A 00 01 10 00 13 00 20  21 01 20 00 20 00 00 00  {label}"),
        "0A 00 01 10 00 13 00 30  60 01 20 00",
    );
    expect_nothing_open(&mut desk);
    assert_eq!(desk.read(1, 0x2001, 0), Ok(b"coating line 4, chamber B, gauge".to_vec()));
    expect(
        &mut desk,
        "0A 00 01 10 00 23 00 20  40 01 20 00",
        &format!("2A 00 01 10 00 23 00 30  41 01 20 00 20 00 00 00  {label}"),
    );
}

/// An opening and its parts: whatever the opening carries, with a size and without, the parts bring the rest.
#[test]
fn a_label_in_an_opening_and_parts() {
    let label: Vec<u8> = (1..=32).collect();
    for carried in 0..=32 {
        for sized in [true, false] {
            for size in [1, 3, 7, 8, 20, 119] {
                let mut desk = desk();
                let mut opening = vec![0x20 | sized as u8, 0x01, 0x20, 0, if sized { 32 } else { 0 }, 0, 0, 0];
                opening.extend(&label[..carried]);
                assert_eq!(desk.post(&opening), Some(bytes("60 01 20 00 00 00 00 00")));
                let ended = sized && carried == 32;
                let parts: Vec<&[u8]> = if carried == 32 { vec![&[]] } else { label[carried..].chunks(size).collect() };
                for (n, part) in parts.iter().enumerate().filter(|_| !ended) {
                    assert!(desk.memory.values[..] == Desk::new(subject()).memory.values, "stored before its end");
                    let toggle = (n as u8 % 2) << 4;
                    let last = (n + 1 == parts.len()) as u8;
                    let mut sdo = vec![toggle | (7 - part.len().min(7) as u8) << 1 | last];
                    sdo.extend(*part);
                    sdo.resize(sdo.len().max(8), 0xEE);
                    assert_eq!(desk.post(&sdo), Some(vec![0x20 | toggle, 0, 0, 0, 0, 0, 0, 0]));
                }
                assert_eq!(desk.read(1, 0x2001, 0), Ok(label.clone()), "{carried} carried, sized {sized}, parts of {size}");
                expect_nothing_open(&mut desk);
            }
        }
    }
}

/// What an opening leaves in the record if parts have to follow.
#[test]
fn the_record_of_an_opening() {
    let mut desk = desk();
    let row = lines().iter().position(|line| line.index == 0x2001).unwrap() as u8;
    for first in [0x20, 0x21] {
        assert_eq!(desk.post(&[first, 0x01, 0x20, 0, 32, 0, 0, 0, 9, 8, 7]).unwrap()[0], 0x60);
        let mut record = [0; 70];
        record[..3].copy_from_slice(&[9, 8, 7]);
        record[64..].copy_from_slice(&[row, 0, 2, 32, 3, 0]);
        assert_eq!(desk.memory.state[..70], record);
    }
}

/// Every entry is read by one mailbox as in eight bytes, and written by one.
#[test]
fn each_entry_in_one_mailbox() {
    for line in lines() {
        let mut desk = desk();
        let value = desk.read(1, line.index, line.sub).unwrap();
        assert_eq!(desk.read_by_mailbox(line.index, line.sub), Ok(value.clone()), "{line:?}");
        expect_nothing_open(&mut desk);
        // a command word that is read is a wrong word, and is taken
        let outcome = if line.access == "RO" { Err(0x0601_0002) } else { Ok(()) };
        assert_eq!(desk.write_by_mailbox(line.index, line.sub, &value), outcome, "{line:?}");
        expect_nothing_open(&mut desk);
    }
}

#[test]
fn expedited_answers() {
    let mut desk = desk();
    for (request, answer) in [
        ("40 03 20 00", "4F 03 20 00"),
        ("2F 03 20 00 01", "60 03 20 00"),
        ("40 03 20 00", "4F 03 20 00 01"),
        ("40 05 90 02", "4B 05 90 02"),
        ("40 00 10 00", "43 00 10 00 8B 13"),
        ("40 F4 FB 01", "43 F4 FB 01 01"),
        ("22 03 20 00 00", "60 03 20 00"),
        ("23 0E 80 14 00 00 00 3F", "60 0E 80 14"),
        ("40 0E 80 14", "43 0E 80 14 00 00 00 3F"),
    ] {
        expect(&mut desk, &format!("0A 00 01 10 00 13 00 20 {request}"), &format!("0A 00 01 10 00 13 00 30 {answer}"));
        // bytes behind the eight change nothing
        expect(
            &mut desk,
            &format!("0D 00 01 10 00 13 00 20 {} EE EE EE", hex(&filled(request))),
            &format!("0A 00 01 10 00 13 00 30 {answer}"),
        );
    }
}

/// Eight bytes, with zeros behind what is shown.
fn filled(text: &str) -> Vec<u8> {
    let mut sdo = bytes(text);
    sdo.resize(8, 0);
    sdo
}

/// An abort answer has service 2, ten in the length field, index, subindex and code as in eight bytes.
#[test]
fn abort_answers() {
    let mut desk = desk();
    assert_eq!(desk.write(1, 0x2003, 0, &[1]), Ok(()));
    for (length, request, answer) in [
        ("0A", "60", "80 00 00 00 01 00 04 05"),
        ("0A", "00", "80 00 00 00 01 00 04 05"),
        ("0A", "E0 01 20 00", "80 00 00 00 01 00 04 05"),
        ("0A", "40 04 20 00", "80 04 20 00 00 00 02 06"),
        ("0A", "40 03 20 01", "80 03 20 01 11 00 09 06"),
        ("0E", "21 00 10 00 04 00 00 00 01 02 03 04", "80 00 10 00 02 00 01 06"),
        ("0C", "21 03 20 00 02 00 00 00 01 02", "80 03 20 00 12 00 07 06"),
        ("0C", "21 03 20 00 01 00 00 00 01 02", "80 03 20 00 12 00 07 06"),
        ("0C", "20 03 20 00 00 00 00 00 01 02", "80 03 20 00 12 00 07 06"),
        ("0E", "21 03 20 00 00 00 00 00 01 02 03 04", "80 03 20 00 13 00 07 06"),
        ("0B", "21 03 20 00 01 00 00 00 02", "80 03 20 00 31 00 09 06"),
        ("0E", "21 F4 FB 01 04 00 00 00 6C 6F 61 64", "80 F4 FB 01 22 00 00 08"),
    ] {
        let headers = "00 01 10 00 63 00";
        expect(&mut desk, &format!("{length} {headers} 20 {request}"), &format!("0A {headers} 20 {answer}"));
    }
    // a wrong toggle shows the key of its transfer
    assert_eq!(desk.post(&bytes("21 01 20 00 20 00 00 00 41")).unwrap()[0], 0x60);
    assert_eq!(desk.post(&bytes("10 41 41 41 41 41 41 41")), Some(bytes("80 01 20 00 00 00 03 05")));
    expect_nothing_open(&mut desk);
}

/// The limits of a card, the lock and a crossed trip point are judged when the opening ends the write.
#[test]
fn a_card_written_in_one_mailbox() {
    let mut desk = desk();
    let before = desk.memory.clone();
    let crossed = card([2.0, 0.5, 2.0, 0.125, 20.0, 5.0, 0.5, 0.0625]);
    assert_eq!(desk.write_by_mailbox(0x2010, 0, &crossed), Err(0x0609_0036));
    let outside = card([2.0, 0.5, 0.25, 0.125, 20.0, 5.0, 0.5, -1.0]);
    assert_eq!(desk.write_by_mailbox(0x2010, 0, &outside), Err(0x0609_0032));
    assert!(desk.memory == before);
    let good = card([2.0, 0.5, 0.25, 0.125, 20.0, 5.0, 0.5, 0.0625]);
    assert_eq!(desk.write_by_mailbox(0x2010, 0, &good), Ok(()));
    assert_eq!(desk.read(1, 0x2010, 0), Ok(good.clone()));
    assert_eq!(desk.write(1, 0x2003, 0, &[1]), Ok(()));
    assert_eq!(desk.write_by_mailbox(0x2010, 0, &good), Err(0x0800_0022));
}

/// A card with all sides enabled.
fn card(reals: [f32; 8]) -> Vec<u8> {
    let mut bits = bits_of(1, 4);
    for point in reals.chunks(4) {
        bits.extend([true, true]);
        bits.extend(point.iter().flat_map(|real| bits_of(real.to_bits() as u64, 32)));
    }
    bytes_of(&bits)
}

/// The coating shop with the tool on the mailbox. The laptop loads before the tool's read, between read and write-back, or between
/// the opening and the part of a write-back in two: the tool never gets or sets a pair that nobody set.
#[test]
fn the_coating_shop_by_mailbox() {
    let old = card([2.0, 0.5, 0.25, 0.125, 20.0, 5.0, 0.5, 0.0625]);
    let new = card([3.0, 0.75, 0.0625, 0.25, 30.0, 7.5, 1.0, 0.5]);
    for gap in 0..4 {
        for carried in [0, 1, 16, 32] {
            let mut desk = desk();
            assert_eq!(desk.write(1, 0x2010, 0, &new), Ok(()));
            assert_eq!(desk.write(1, 0xFBF2, 1, b"save"), Ok(()));
            assert_eq!(desk.write(1, 0x2010, 0, &old), Ok(()));
            let load_at = |desk: &mut Desk<_>, place: usize| {
                if place == gap {
                    assert_eq!(desk.hex(1, "23 F4 FB 01 6C 6F 61 64"), "60 F4 FB 01 00 00 00 00");
                    assert_eq!(desk.read(1, 0x2010, 0), Ok(new.clone()));
                }
            };
            load_at(&mut desk, 0);
            let got = desk.read_by_mailbox(0x2010, 0).unwrap();
            assert_eq!(got, if gap == 0 { new.clone() } else { old.clone() });
            load_at(&mut desk, 1);
            let mut opening = bytes("21 10 20 00 21 00 00 00");
            opening.extend(&got[..carried]);
            assert_eq!(desk.post(&opening), Some(bytes("60 10 20 00 00 00 00 00")));
            load_at(&mut desk, 2);
            // until its last part the write changes nothing
            let between = if gap <= 2 { new.clone() } else { old.clone() };
            assert_eq!(desk.read(1, 0x2010, 0), Ok(between));
            let mut part = vec![if carried == 32 { 0x0D } else { 0x01 }];
            part.extend(&got[carried..]);
            part.resize(part.len().max(8), 0);
            assert_eq!(desk.post(&part), Some(bytes("20 00 00 00 00 00 00 00")));
            load_at(&mut desk, 3);
            assert_eq!(desk.read_by_mailbox(0x2010, 0), Ok(if gap == 3 { new.clone() } else { got }));
        }
    }
}

/// A device reset by one mailbox is answered, keeps the form and drops the laptop's transfer.
#[test]
fn a_device_reset_by_mailbox() {
    let mut desk = desk();
    assert_eq!(desk.write_by_mailbox(0x2001, 0, &[0x41; 32]), Ok(()));
    assert_eq!(desk.hex(1, "40 10 20 00"), "41 10 20 00 21 00 00 00");
    expect(
        &mut desk,
        "10 00 01 10 00 13 00 20  21 F0 FB 01 06 00 00 00  74 65 73 65 72 00",
        "0A 00 01 10 00 13 00 30  60 F0 FB 01",
    );
    assert_eq!(desk.hex(1, "60"), "80 00 00 00 01 00 04 05");
    assert_eq!(desk.read_by_mailbox(0x2001, 0), Ok(vec![0; 32]));
    assert_eq!(desk.write(1, 0xFBF0, 1, b"teser\0"), Ok(()));
    assert_eq!(desk.read_by_mailbox(0x2001, 0), Ok(vec![0; 32]));
}

/// Commands by one mailbox: a word of five bytes, and words of four that are expedited or not.
#[test]
fn commands_by_mailbox() {
    let mut desk = desk();
    desk.sample(0.5, 1, 1, 1);
    assert_eq!(desk.read_by_mailbox(0xF393, 1), Ok(vec![1, 0, 0, 0]));
    assert_eq!(desk.write_by_mailbox(0xFBF1, 1, b"teser"), Ok(()));
    assert_eq!(desk.read_by_mailbox(0xF393, 1), Ok(vec![0; 4]));
    assert_eq!(desk.write_by_mailbox(0x2001, 0, &[0x41; 32]), Ok(()));
    assert_eq!(desk.write_by_mailbox(0xFBF2, 1, b"save"), Ok(()));
    assert_eq!(desk.write_by_mailbox(0x2001, 0, &[0x42; 32]), Ok(()));
    assert_eq!(desk.post(&bytes("23 F4 FB 01 6C 6F 61 64")), Some(bytes("60 F4 FB 01 00 00 00 00")));
    assert_eq!(desk.read_by_mailbox(0x2001, 0), Ok(vec![0x41; 32]));
    assert_eq!(desk.write_by_mailbox(0xFBF4, 1, b"LOAD"), Ok(()));
    assert_eq!(desk.read_by_mailbox(0xFBF4, 2), Ok(vec![2]));
}

/// A read that somebody else left open on line 0 is ended by one part.
#[test]
fn a_lent_read_by_mailbox() {
    for left in 0..=32usize {
        for toggle in [0u8, 1] {
            let mut desk = desk();
            let row = lines().iter().position(|line| line.index == 0x2001).unwrap() as u8;
            let held: Vec<u8> = (1..=64).collect();
            desk.memory.state[..64].copy_from_slice(&held);
            desk.memory.state[64..70].copy_from_slice(&[row, 0, 1, 32, 32 - left as u8, toggle]);
            let mut expected = vec![toggle << 4 | (7usize.saturating_sub(left) as u8) << 1 | 1];
            expected.extend(&held[32 - left..32]);
            expected.resize(expected.len().max(8), 0);
            assert_eq!(desk.post(&[0x60 | toggle << 4, 0, 0, 0, 0, 0, 0, 0]), Some(expected), "{left} left");
            expect_nothing_open(&mut desk);
        }
    }
}
