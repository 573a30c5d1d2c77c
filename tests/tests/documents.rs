//! The documents against each other and against the calls: the object table's two printed forms, its rule, the examples
//! A to U, the coating shop's story, exceptions and masks, crossed trip points.

use board_tests::board::{hex, Board, Desk, MAILBOX};
use board_tests::model::code;
use board_tests::model::table::{place, Kind, COUNT, FIELDS_END, ROWS};
use board_tests::plain::{bits_of, bytes_of, judge, lines, Plain};
use board_tests::subject;

const ROWS_PRINTED: &str = include_str!("../../crates/rows/stdout");

#[test]
fn the_page_and_the_printed_rows_are_alike() {
    let page: Vec<String> = lines()
        .iter()
        .map(|l| {
            let place = l.place.map_or("-".to_string(), |p| p.to_string());
            let nv = if l.nv { "NV" } else { "-" };
            let [low, high, default] = &l.printed;
            format!("{:04X} {:02X} {} {} {nv} {} {place} {low} {high} {default}", l.index, l.sub, l.kind, l.access, l.length)
        })
        .collect();
    // the last column is the search's, and the test `search` has it
    let printed: Vec<&str> = ROWS_PRINTED.lines().map(|line| line.rsplit_once(' ').unwrap().0).collect();
    assert_eq!(page, printed);
    println!("{} rows", page.len());
}

#[test]
fn the_table_keeps_its_rule() {
    let lines = lines();
    assert!(lines.len() <= 511);
    let mut used = [false; 1024];
    for line in &lines {
        assert!((1..=64).contains(&line.length), "{line:?}");
        match line.place {
            Some(place) => {
                for at in place..place + line.length {
                    assert!(!used[at], "{line:?} overlaps");
                    used[at] = true;
                }
            }
            None => assert!(line.kind == "CARD" || line.kind == "COMMAND", "{line:?}"),
        }
        if !matches!(line.kind.as_str(), "STRING" | "CARD" | "COMMAND") {
            assert_eq!(judge(line, &line.default()), Ok(()), "{line:?}");
            let width = 2 * line.length;
            assert!(line.printed.iter().all(|text| text.len() == width), "{line:?}");
        }
    }
    for pair in lines.windows(2) {
        assert!((pair[0].index, pair[0].sub) < (pair[1].index, pair[1].sub), "{pair:?}");
    }
    let bits: usize = lines.iter().filter(|l| l.nv).map(|l| if l.kind == "BOOL" { 1 } else { 8 * l.length }).sum();
    assert_eq!(FIELDS_END, 8 + bits);
    assert!(8 + bits <= 4096);
}

#[test]
fn the_independent_table_is_the_page() {
    let lines = lines();
    assert_eq!(COUNT, lines.len());
    for (row, line) in ROWS.iter().zip(&lines) {
        let kind = match line.kind.as_str() {
            "BOOL" => Kind::Bool,
            "USINT" => Kind::Usint,
            "UINT" => Kind::Uint,
            "UDINT" => Kind::Udint,
            "ULINT" => Kind::Ulint,
            "REAL" => Kind::Real,
            "STRING" => Kind::Str,
            "CARD" => Kind::Card,
            _ => Kind::Command,
        };
        assert_eq!(row.key, (line.index as u32) << 8 | line.sub as u32);
        assert_eq!((row.kind, row.len as usize, row.nv), (kind, line.length, line.nv));
        assert_eq!((row.readable, row.writable), (line.access != "WO", line.access != "RO"));
        assert_eq!((row.min, row.max), (line.minimum(), line.maximum()));
        assert_eq!(row.mask, line.name.ends_with(" Mask"), "{}", line.name);
        let point =
            line.name.split_once(", trip point ").filter(|_| line.access == "RW").map(|(_, n)| n.parse::<u8>().unwrap() - 1);
        assert_eq!(row.point, point, "{}", line.name);
        if let Some(place) = line.place {
            assert_eq!(row.place as usize, place);
        }
    }
}

/// Messages on one line and their answers, with zeros behind what is shown.
fn exchange<B: Board>(desk: &mut Desk<B>, line: u32, exchanges: &[(&str, &str)]) {
    for (message, answer) in exchanges {
        let mut expected: Vec<&str> = answer.split_whitespace().collect();
        expected.resize(8, "00");
        assert_eq!(desk.hex(line, message), expected.join(" "), "to {message}");
    }
}

/// A dialogue on one line, from power-up.
fn dialogue(line: u32, exchanges: &[(&str, &str)]) {
    exchange(&mut Desk::new(subject()), line, exchanges);
}

#[test]
fn examples_a_to_i() {
    for line in [0, 1] {
        // A to F
        dialogue(
            line,
            &[
                ("40 03 20 00", "4F 03 20 00"),
                ("2F 03 20 00 01", "60 03 20 00"),
                ("40 03 20 00", "4F 03 20 00 01"),
                ("2F 03 20 00 02", "80 03 20 00 31 00 09 06"),
                ("40 03 20 01", "80 03 20 01 11 00 09 06"),
                ("40 04 20 00", "80 04 20 00 00 00 02 06"),
                ("60", "80 00 00 00 01 00 04 05"),
            ],
        );
        // G
        dialogue(
            line,
            &[("40 10 20 00", "41 10 20 00 21"), ("70", "80 10 20 00 00 00 03 05"), ("60", "80 00 00 00 01 00 04 05")],
        );
        // H
        dialogue(
            line,
            &[
                ("21 10 20 00 22", "80 10 20 00 12 00 07 06"),
                ("21 10 20 00 20", "80 10 20 00 13 00 07 06"),
                ("21 10 20 00 21", "60 10 20 00"),
            ],
        );
        // I
        dialogue(line, &[("2F 03 20 00 01", "60 03 20 00"), ("23 F4 FB 01 6C 6F 61 64", "80 F4 FB 01 22 00 00 08")]);
    }
}

#[test]
fn example_j() {
    let mut desk = Desk::new(subject());
    assert_eq!(desk.hex(0, "40 01 20 00"), "41 01 20 00 20 00 00 00");
    assert_eq!(desk.hex(0, "60"), "00 00 00 00 00 00 00 00");
    assert_eq!(desk.hex(1, "21 01 20 00 20"), "60 01 20 00 00 00 00 00");
    for (part, answer) in [
        ("00 41 41 41 41 41 41 41", "20"),
        ("10 41 41 41 41 41 41 41", "30"),
        ("00 41 41 41 41 41 41 41", "20"),
        ("10 41 41 41 41 41 41 41", "30"),
        ("07 41 41 41 41", "20"),
    ] {
        assert_eq!(desk.hex(1, part), format!("{answer} 00 00 00 00 00 00 00"));
    }
    for (part, answer) in [("70", "10"), ("60", "00"), ("70", "10"), ("60", "07")] {
        assert_eq!(desk.hex(0, part), format!("{answer} 00 00 00 00 00 00 00"));
    }
    assert_eq!(desk.read(0, 0x2001, 0), Ok(vec![0x41; 32]));
    assert_eq!(desk.read(1, 0x2001, 0), Ok(vec![0x41; 32]));
}

#[test]
fn example_k() {
    let mut desk = Desk::new(subject());
    let reals = |x: f32| x.to_bits().to_le_bytes();
    assert_eq!(desk.write(0, 0x800E, 0x02, &[1]), Ok(()));
    assert_eq!(desk.write(0, 0x800E, 0x14, &reals(0.5)), Ok(()));
    assert_eq!(desk.write(0, 0x800E, 0x18, &reals(0.125)), Ok(()));
    for (pressure, on) in [(0.5, 0), (0.25, 1), (0.625, 1), (0.75, 0)] {
        desk.sample(pressure, 1, 0, 1);
        assert_eq!(desk.read(1, 0x600E, 0x02), Ok(vec![on]));
        assert_eq!(desk.read(1, 0x600E, 0x01), Ok(vec![0]));
        assert_eq!(desk.read(1, 0xF641, 0x01), Ok(vec![on << 1, 0, 0, 0]));
        assert_eq!(desk.memory.state[192..196], [0, on, 0, 0]);
        let p = reals(pressure);
        assert_eq!(desk.image(), [1, p[0], p[1], p[2], p[3], 0, on << 1, 0, 0, 0]);
    }
    let mut card = [0; 33];
    card[0] = 0x14;
    card[9] = 0xFC;
    card[13] = 0xF8;
    assert_eq!(desk.read(1, 0x2010, 0), Ok(card.to_vec()));
    desk.hex(0, "40 10 20 00");
    for (part, first) in [("60", "00"), ("70", "10"), ("60", "00"), ("70", "10"), ("60", "05")] {
        assert_eq!(desk.hex(0, part)[..2], *first);
    }
}

const RULES: &str = include_str!("../../docs/RULES.md");

/// Bytes as docs/RULES.md shows a mailbox: `41*32` is 32 bytes 41, and slashes stand behind headers and first eight bytes of the SDO.
fn shown(text: &str) -> Vec<u8> {
    let mut bytes = Vec::new();
    for word in text.split_whitespace() {
        if word == "/" {
            assert!([8, 16].contains(&bytes.len()), "a slash behind {} bytes of '{text}'", bytes.len());
            continue;
        }
        let (digits, times) = word.split_once('*').unwrap_or((word, "1"));
        bytes.resize(bytes.len() + times.parse::<usize>().unwrap(), u8::from_str_radix(digits, 16).unwrap());
    }
    bytes
}

/// Plays a row of the examples in mailboxes: what is sent, and the answer or the number that it must get.
fn play_row<B: Board>(desk: &mut Desk<B>, message: &str, answer: &str) {
    let [sent] = &quoted(message)[..] else {
        panic!("'{message}' has not one message");
    };
    let (mut sent, mut expected, by_message) = (shown(sent), [0xA5; 140], message.contains("the message call"));
    let size = match message {
        _ if by_message => 8,
        _ if message.contains("127 bytes") => 127,
        _ => 128,
    };
    assert!(sent.len() <= size, "'{message}' is too long");
    sent.resize(size, 0);
    let number = match (answer.strip_prefix("number "), &quoted(answer)[..]) {
        (Some(number), []) => number.strip_suffix(", none").unwrap().parse().unwrap(),
        (None, [bytes]) => {
            let bytes = shown(bytes);
            expected[..128].fill(0);
            expected[..bytes.len()].copy_from_slice(&bytes);
            0
        }
        _ => panic!("'{answer}' is no answer"),
    };
    let (before, m, mut room) = (desk.memory.clone(), &mut desk.memory, [0xA5; 140]);
    let given = if by_message {
        desk.board.message(0, &sent, &mut m.values, &mut m.block, &mut m.state, &mut room)
    } else {
        desk.board.mailbox(&sent, &mut m.values, &mut m.block, &mut m.state, &mut room)
    };
    assert_eq!((given, hex(&room)), (number, hex(&expected)), "to '{message}'");
    assert!(number == 0 || desk.memory == before, "'{message}' wrote");
}

/// Examples L to U, row by row from the page, each letter from power-up.
#[test]
fn examples_l_to_u_of_the_page() {
    let (_, section) = RULES.split_once("\n### In mailboxes\n").unwrap();
    let rows =
        section.lines().take_while(|text| !text.starts_with('#')).filter_map(|text| text.strip_prefix('|')?.strip_suffix('|'));
    let (mut desk, mut letters, mut played) = (Desk::in_form(MAILBOX, subject()), String::new(), 0);
    // behind the head of the table
    for row in rows.skip(2) {
        let [letter, message, answer] = row.split('|').map(str::trim).collect::<Vec<_>>()[..] else {
            panic!("'{row}' is no row");
        };
        letters.push_str(letter);
        if message.contains("form 0") {
            desk = Desk::new(subject());
        } else if !letter.is_empty() {
            desk = Desk::in_form(MAILBOX, subject());
        }
        play_row(&mut desk, message, answer);
        played += 1;
    }
    assert_eq!((&letters[..], played), ("LMNOPQRSTU", 18));
}

/// Bytes written between back quotes.
fn quoted(text: &str) -> Vec<String> {
    text.split('`').skip(1).step_by(2).map(str::to_string).collect()
}

const PAGE: &str = include_str!("../../docs/ABORT-CODES.md");

/// The codes of docs/ABORT-CODES.md, in the order of its table.
fn codes_of_the_page() -> Vec<u32> {
    PAGE.lines()
        .filter_map(|line| line.strip_prefix("| ")?.split(" |").next())
        .filter(|cell| cell.len() == 8)
        .filter_map(|cell| u32::from_str_radix(cell, 16).ok())
        .collect()
}

/// dialogues/every-code has an abort answer with each code of the page, in its order. The BAG552 has no write-only entry.
#[test]
fn abort_codes_of_the_dialogue() {
    let mut given = Vec::new();
    for answer in include_str!("../../dialogues/every-code.out").lines() {
        if let Some(code) = answer.get(2..).filter(|eight| eight.starts_with("80")).map(|eight| &eight[8..]) {
            let code = u32::from_str_radix(code, 16).unwrap().swap_bytes();
            if !given.contains(&code) {
                given.push(code);
            }
        }
    }
    let mut expected = codes_of_the_page();
    expected.retain(|&code| code != code::WRITE_ONLY);
    assert_eq!(given, expected);
}

/// docs/ABORT-CODES.md: each code's example is the board's answer, the codes stand in the order of the checks, and no code of the
/// independent board is left out.
#[test]
fn abort_codes_of_the_page() {
    let order = codes_of_the_page();
    assert_eq!(
        order,
        [
            code::NO_TRANSFER,
            code::TOGGLE,
            code::NO_INDEX,
            code::NO_SUBINDEX,
            code::WRITE_ONLY,
            code::READ_ONLY,
            code::TOO_LONG,
            code::TOO_SHORT,
            code::LOCKED,
            code::OUT_OF_RANGE,
            code::ABOVE,
            code::BELOW,
            code::CROSSED,
        ]
    );
    let mut tried = Vec::new();
    let mut heading = 0;
    for line in PAGE.lines() {
        if let Some(text) = line.strip_prefix("### ") {
            heading = u32::from_str_radix(text, 16).unwrap();
        }
        let Some(example) = line.strip_prefix("- **Example:**") else {
            continue;
        };
        let [message, answer, ..] = &quoted(example)[..] else {
            continue;
        };
        if heading == code::WRITE_ONLY {
            continue;
        }
        let mut desk = Desk::new(subject());
        match heading {
            code::TOGGLE => drop(desk.hex(0, "40 10 20 00")),
            code::LOCKED => assert_eq!(desk.write(1, 0x2003, 0, &[1]), Ok(())),
            code::CROSSED => assert_eq!(desk.write(1, 0x800E, 0x01, &[1]), Ok(())),
            _ => (),
        }
        assert_eq!(desk.hex(0, message), *answer, "example of {heading:08X}");
        let code: Vec<u8> = answer.split(' ').skip(4).map(|byte| u8::from_str_radix(byte, 16).unwrap()).collect();
        assert_eq!(code, heading.to_le_bytes(), "example of {heading:08X}");
        tried.push(heading);
    }
    order
        .iter()
        .filter(|&&code| code != code::WRITE_ONLY)
        .for_each(|code| assert!(tried.contains(code), "{code:08X} has no example"));
}

/// Every file of Rattle below a library's src/ and specs/; programs are not the board.
fn sources(folder: &std::path::Path, found: &mut Vec<std::path::PathBuf>) {
    for item in std::fs::read_dir(folder).unwrap() {
        let path = item.unwrap().path();
        if path.join("src/main.rt").exists() {
            continue;
        }
        let name = path.file_name().unwrap().to_str().unwrap().to_string();
        if path.is_dir() && name != "proofs" && name != "must-fail" {
            sources(&path, found);
        } else if name.ends_with(".rt") || name.ends_with(".antt") {
            found.push(path);
        }
    }
}

/// docs/ABORT-CODES.md lists exactly the abort codes that stand in the proved code and its definitions.
#[test]
fn abort_codes_of_the_code() {
    let crates = std::path::Path::new(env!("CARGO_MANIFEST_DIR")).join("../crates");
    let mut files = Vec::new();
    sources(&crates, &mut files);
    let mut codes = std::collections::BTreeSet::new();
    for file in files {
        let text = std::fs::read_to_string(file).unwrap();
        for part in text.split("0x0").skip(1) {
            let digits: String = part.chars().take_while(char::is_ascii_hexdigit).collect();
            if digits.len() == 7 && ('5'..='8').contains(&digits.chars().next().unwrap()) {
                codes.insert(format!("0{}", digits.to_uppercase()));
            }
        }
    }
    let listed: std::collections::BTreeSet<String> =
        PAGE.lines().filter_map(|line| line.strip_prefix("### ")).map(str::to_string).collect();
    assert_eq!(listed, codes);
}

/// The greatest stack of the calls of docs/PERFORMANCE.md whose names begin with a word, those by mailbox or the others.
fn deepest(word: &str, by_mailbox: bool) -> u32 {
    include_str!("../../docs/PERFORMANCE.md")
        .lines()
        .filter(|line| line.starts_with(&format!("| {word}")) && line.matches('|').count() == 7)
        .filter(|line| line.contains("mailbox") == by_mailbox)
        .filter_map(|line| line.trim_end_matches(" |").rsplit("| ").next()?.replace(',', "").parse().ok())
        .max()
        .unwrap()
}

/// docs/FIRMWARE.md has the depths of stack that docs/PERFORMANCE.md has.
#[test]
fn stack_of_the_firmware_page() {
    let thousands = |n: u32| if n < 1000 { n.to_string() } else { format!("{},{:03}", n / 1000, n % 1000) };
    let page = include_str!("../../docs/FIRMWARE.md");
    for said in [
        format!("deepest message takes {} bytes", thousands(deepest("", false))),
        format!("others {})", thousands(deepest("any message", false))),
        format!("the deepest mailbox {} (", thousands(deepest("", true))),
        format!("(others {})", thousands(deepest("any mailbox", true))),
        format!("power-up {},", thousands(deepest("power-up", false))),
        format!("a sample {},", thousands(deepest("any sample", false))),
    ] {
        assert!(page.contains(&said), "docs/FIRMWARE.md does not say '{said}'");
    }
}

/// include/gauge.h: the numbers and sizes that the calls have.
#[test]
fn constants_of_the_header() {
    let header = include_str!("../../include/gauge.h");
    let constants: Vec<(&str, u32)> = header
        .lines()
        .filter_map(|line| {
            let mut words = line.strip_prefix("#define GAUGE_")?.split_whitespace();
            Some((words.next()?, words.next()?.trim_end_matches('u').parse().ok()?))
        })
        .collect();
    let expected = [
        ("VERSION_MAJOR", 2),
        ("VERSION_MINOR", 0),
        ("VALUES_SIZE", 1024),
        ("BLOCK_SIZE", 512),
        ("STATE_SIZE", 256),
        ("MESSAGE_SIZE", 8),
        ("ANSWER_SIZE", 8),
        ("IMAGE_SIZE", 10),
        ("MAILBOX_SIZE", 128),
        ("FORM_EIGHT", 0),
        ("FORM_MAILBOX", 1),
        ("LINE_TOOL", 0),
        ("LINE_SERVICE", 1),
        ("DONE", 0),
        ("BAD_MESSAGE", 1),
        ("SHORT_ROOM", 2),
        ("BAD_LINE", 3),
        ("BAD_MEMORY", 4),
        ("CLIENT_ABORT", 5),
        ("BAD_MAILBOX", 6),
        ("NOT_SDO", 7),
    ];
    assert_eq!(constants, expected);
}

/// A card of a layout, with the four sides' enables and, in the card's order, levels and hystereses.
fn card_with(layout: u64, enables: [bool; 4], reals: [f32; 8]) -> Vec<u8> {
    let mut bits = bits_of(layout, 4);
    for (enables, reals) in enables.chunks(2).zip(reals.chunks(4)) {
        bits.extend(enables);
        bits.extend(reals.iter().flat_map(|real| bits_of(real.to_bits() as u64, 32)));
    }
    bytes_of(&bits)
}

/// A card with all sides enabled.
fn card_of(reals: [f32; 8]) -> Vec<u8> {
    card_with(1, [true; 4], reals)
}

/// A load on line 1 between the parts of a card read on line 0: the read is the old pair, whole; the next is the new pair, whole;
/// written back, either gives one of the two pairs. Tried at every place between the messages of the read.
#[test]
fn the_coating_shop() {
    let old = card_of([2.0, 0.5, 0.25, 0.125, 20.0, 5.0, 0.5, 0.0625]);
    let new = card_of([3.0, 0.75, 0.0625, 0.25, 30.0, 7.5, 1.0, 0.5]);
    for gap in 1..=5 {
        let mut desk = Desk::new(subject());
        assert_eq!(desk.write(1, 0x2010, 0, &new), Ok(()));
        assert_eq!(desk.write(1, 0xFBF2, 1, b"save"), Ok(()));
        assert_eq!(desk.read(1, 0xFBF2, 2), Ok(vec![0]));
        assert_eq!(desk.write(0, 0x2010, 0, &old), Ok(()));
        assert_eq!(desk.hex(0, "40 10 20 00"), "41 10 20 00 21 00 00 00");
        let mut got = Vec::new();
        for part in 0..5u8 {
            if part + 1 == gap {
                assert_eq!(desk.hex(1, "23 F4 FB 01 6C 6F 61 64"), "60 F4 FB 01 00 00 00 00");
                assert_eq!(desk.read(1, 0x2010, 0), Ok(new.clone()));
            }
            let answer = desk.say(0, [0x60 | (part % 2) << 4, 0, 0, 0, 0, 0, 0, 0]).unwrap();
            got.extend(&answer[1..8 - (answer[0] >> 1 & 7) as usize]);
        }
        assert_eq!(got, old);
        assert_eq!(desk.read(0, 0x2010, 0), Ok(new.clone()));
        assert_eq!(desk.write(0, 0x2010, 0, &got), Ok(()));
        assert_eq!(desk.read(1, 0x2010, 0), Ok(old.clone()));
        assert_eq!(desk.write(0, 0x2010, 0, &new), Ok(()));
        assert_eq!(desk.read(1, 0x2010, 0), Ok(new.clone()));
    }
}

/// What was stored comes back by load and by device reset, and the answer to a device reset is given before it.
#[test]
fn store_load_and_reset() {
    let mut desk = Desk::new(subject());
    let label = *b"coating line 4, chamber B, gauge";
    assert_eq!(desk.write(0, 0x2001, 0, &label), Ok(()));
    assert_eq!(desk.write(0, 0xFBF2, 1, b"save"), Ok(()));
    let nv: Vec<_> = lines().into_iter().filter(|l| l.nv).collect();
    let expected = Plain::pack(&nv, |l| if l.index == 0x2001 { label.to_vec() } else { l.default() });
    assert!(desk.memory.block == expected);
    assert_eq!(desk.write(0, 0x2001, 0, &[0x42; 32]), Ok(()));
    assert_eq!(desk.write(1, 0xFBF4, 1, b"load"), Ok(()));
    assert_eq!(desk.read(0, 0x2001, 0), Ok(label.to_vec()));
    assert_eq!(desk.write(0, 0x2001, 0, &[0x42; 32]), Ok(()));
    desk.hex(0, "40 01 20 00");
    assert_eq!(desk.write(1, 0xFBF0, 1, b"teser\0"), Ok(()));
    assert_eq!(desk.hex(0, "60"), "80 00 00 00 01 00 04 05");
    assert_eq!(desk.read(0, 0x2001, 0), Ok(label.to_vec()));
    // a damaged block: load gives status 2 and changes nothing, power-up takes the defaults
    desk.memory.block[511] = 1;
    assert_eq!(desk.write(0, 0x2001, 0, &[0x42; 32]), Ok(()));
    assert_eq!(desk.write(1, 0xFBF4, 1, b"load"), Ok(()));
    assert_eq!(desk.read(1, 0xFBF4, 2), Ok(vec![2]));
    assert_eq!(desk.read(1, 0xFBF4, 3), Ok(vec![2, 0]));
    assert_eq!(desk.read(0, 0x2001, 0), Ok(vec![0x42; 32]));
    assert_eq!(desk.power_up(), 0);
    assert_eq!(desk.read(0, 0x2001, 0), Ok(vec![0; 32]));
}

/// Faults are kept or dropped, latched and cleared, and shown in the summary byte.
#[test]
fn exception_words() {
    let mut desk = Desk::new(subject());
    desk.sample(1.0, 1, 0xFFFF_FFFF, 1);
    assert_eq!(desk.read(0, 0x9005, 2), Ok(vec![0x03, 0x06]));
    assert_eq!(desk.read(0, 0xF383, 1), Ok(vec![0x03, 0x06, 0, 0]));
    assert_eq!(desk.read(0, 0xF393, 1), Ok(vec![0x03, 0x06, 0, 0]));
    assert_eq!(desk.read(0, 0xF380, 0), Ok(vec![4]));
    assert_eq!(desk.image()[5], 4);
    desk.sample(1.0, 1, 1, 2);
    assert_eq!(desk.read(0, 0xF383, 1), Ok(vec![1, 0, 0, 0]));
    assert_eq!(desk.read(0, 0xF393, 1), Ok(vec![0x03, 0x06, 0, 0]));
    assert_eq!(desk.write(0, 0xFBF1, 1, b"teser"), Ok(()));
    assert_eq!(desk.read(0, 0xF393, 1), Ok(vec![0; 4]));
    assert_eq!(desk.read(0, 0xF380, 0), Ok(vec![4]));
    desk.sample(1.0, 1, 0, 3);
    assert_eq!(desk.read(0, 0xF380, 0), Ok(vec![0]));
    assert_eq!(desk.read(0, 0xF9F6, 0), Ok(vec![3, 0, 0, 0]));
}

const SUMMARY: usize = place(0xF380, 0);
const TOO_HOT: u32 = 1 << 10;
const FILAMENT: u32 = 1 << 0;

/// A whole number as it is read.
fn number<B: Board>(desk: &mut Desk<B>, index: u16, sub: u8) -> u32 {
    desk.read(0, index, sub).unwrap().iter().rev().fold(0, |n, &byte| n << 8 | byte as u32)
}

/// The summary byte, which is also in the image.
fn summary<B: Board>(desk: &mut Desk<B>) -> u32 {
    let byte = number(desk, 0xF380, 0);
    assert_eq!(desk.image()[5] as u32, byte);
    byte
}

/// The active word, which stands in two entries, and the latched word.
fn words<B: Board>(desk: &mut Desk<B>) -> (u32, u32) {
    let active = number(desk, 0xF383, 1);
    assert_eq!(number(desk, 0x9005, 2), active);
    (active, number(desk, 0xF393, 1))
}

fn set_mask<B: Board>(desk: &mut Desk<B>, mask: u32) {
    assert_eq!(desk.write(1, 0xF3A3, 1, &mask.to_le_bytes()), Ok(()));
}

/// The fab's story: the gauge is too hot, and service hides that. Summary byte and image follow at once and show what comes
/// besides; the words hide nothing.
#[test]
fn a_masked_fault() {
    let mut desk = Desk::new(subject());
    desk.sample(0.5, 1, TOO_HOT, 1);
    assert_eq!((summary(&mut desk), words(&mut desk)), (4, (TOO_HOT, TOO_HOT)));
    set_mask(&mut desk, TOO_HOT);
    assert_eq!((summary(&mut desk), words(&mut desk)), (0, (TOO_HOT, TOO_HOT)));
    desk.sample(0.5, 1, TOO_HOT, 2);
    assert_eq!((summary(&mut desk), words(&mut desk)), (0, (TOO_HOT, TOO_HOT)));
    let both = TOO_HOT | FILAMENT;
    desk.sample(0.5, 1, both, 3);
    assert_eq!((summary(&mut desk), words(&mut desk)), (4, (both, both)));
    desk.sample(0.5, 1, TOO_HOT, 4);
    assert_eq!((summary(&mut desk), words(&mut desk)), (0, (TOO_HOT, both)));
    // cleared under the mask, the latched word gets the hidden fault back with the next sample
    assert_eq!(desk.write(1, 0xFBF1, 1, b"teser"), Ok(()));
    assert_eq!((summary(&mut desk), words(&mut desk)), (0, (TOO_HOT, 0)));
    desk.sample(0.5, 0, TOO_HOT, 5);
    assert_eq!((summary(&mut desk), words(&mut desk)), (0, (TOO_HOT, TOO_HOT)));
    set_mask(&mut desk, 0);
    assert_eq!((summary(&mut desk), words(&mut desk)), (4, (TOO_HOT, TOO_HOT)));
}

/// A mask bit hides its own bit alone, also of bits that no sample sets but lent bytes have. Other words do not count.
#[test]
fn a_mask_hides_bit_by_bit() {
    for bit in 0..32 {
        let mut desk = Desk::new(subject());
        desk.memory.values[place(0xF381, 1)..place(0xF388, 1) + 4].fill(0xFF);
        desk.memory.values[place(0xF383, 1)..][..4].copy_from_slice(&(1u32 << bit).to_le_bytes());
        for (mask, expected) in [(0, 4), (1 << bit, 0), (!(1 << bit), 4), (u32::MAX, 0)] {
            set_mask(&mut desk, mask);
            assert_eq!(summary(&mut desk), expected, "bit {bit}, mask {mask:08X}");
        }
    }
}

/// A write of any mask works the summary byte out, whole or in parts; only F3A3 hides something.
#[test]
fn each_mask_works_the_summary_out() {
    for index in 0xF3A1..=0xF3A8u16 {
        let mut desk = Desk::new(subject());
        desk.sample(0.5, 1, TOO_HOT, 1);
        for (mask, expected) in [(TOO_HOT, if index == 0xF3A3 { 0 } else { 4 }), (!TOO_HOT, 4), (0, 4)] {
            desk.memory.values[SUMMARY] = 0x55;
            assert_eq!(desk.write(0, index, 1, &mask.to_le_bytes()), Ok(()));
            assert_eq!(summary(&mut desk), expected, "{index:04X}, mask {mask:08X}");
            desk.memory.values[SUMMARY] = 0x55;
            let ([low, high], [a, b, c, d]) = (index.to_le_bytes(), mask.to_le_bytes());
            desk.say(0, [0x20, low, high, 1, 0, 0, 0, 0]);
            assert_eq!(desk.memory.values[SUMMARY], 0x55, "{index:04X} opened");
            desk.say(0, [0x07, a, b, c, d, 0, 0, 0]);
            assert_eq!(summary(&mut desk), expected, "{index:04X} in parts, mask {mask:08X}");
        }
    }
}

/// Refused writes, commands that were not done, a store, other entries and reads leave a summary byte that was lent.
#[test]
fn what_leaves_the_summary() {
    let lock = ("2F 03 20 00 01", "60 03 20 00");
    let cases: [&[(&str, &str)]; 12] = [
        &[lock, ("23 A3 F3 01 00 04", "80 A3 F3 01 22 00 00 08")],
        &[lock, ("21 A3 F3 01 04", "60 A3 F3 01"), ("07 00 04", "80 A3 F3 01 22 00 00 08")],
        &[("2B A3 F3 01 00 04", "80 A3 F3 01 13 00 07 06")],
        &[("20 A3 F3 01", "60 A3 F3 01"), ("05 00 04", "80 A3 F3 01 12 00 07 06")],
        &[lock, ("23 F4 FB 01 6C 6F 61 64", "80 F4 FB 01 22 00 00 08")],
        &[("23 F4 FB 01 6C 6F 61 64", "60 F4 FB 01"), ("40 F4 FB 02", "4F F4 FB 02 02")],
        &[("23 F4 FB 01 64 61 6F 6C", "60 F4 FB 01"), ("40 F4 FB 02", "4F F4 FB 02 02")],
        &[("20 F1 FB 01", "60 F1 FB 01"), ("05 74 65 73 65 73", "20"), ("40 F1 FB 02", "4F F1 FB 02 02")],
        &[("20 F0 FB 01", "60 F0 FB 01"), ("03 74 65 73 65 72 66", "20"), ("40 F0 FB 02", "4F F0 FB 02 02")],
        &[("23 F2 FB 01 73 61 76 65", "60 F2 FB 01"), ("40 F2 FB 02", "4F F2 FB 02")],
        &[("2F 0E 80 02 01", "60 0E 80 02")],
        &[("40 A3 F3 01", "43 A3 F3 01"), ("40 80 F3 00", "4F 80 F3 00 55")],
    ];
    for case in cases {
        let mut desk = Desk::new(subject());
        desk.sample(0.5, 1, TOO_HOT, 1);
        desk.memory.values[SUMMARY] = 0x55;
        exchange(&mut desk, 1, case);
        assert_eq!(desk.memory.values[SUMMARY], 0x55, "after {case:?}");
    }
}

/// A stored mask comes back by load, which works the summary byte out, by device reset and at power-up.
#[test]
fn a_saved_mask() {
    let mut desk = Desk::new(subject());
    desk.sample(0.5, 1, TOO_HOT, 1);
    set_mask(&mut desk, TOO_HOT);
    assert_eq!(desk.write(1, 0xFBF2, 1, b"save"), Ok(()));
    set_mask(&mut desk, 0);
    assert_eq!(summary(&mut desk), 4);
    assert_eq!(desk.write(1, 0xFBF4, 1, b"load"), Ok(()));
    assert_eq!((summary(&mut desk), words(&mut desk)), (0, (TOO_HOT, TOO_HOT)));
    assert_eq!(number(&mut desk, 0xFBF4, 2), 0);
    // a mask that hides less than the one before it
    set_mask(&mut desk, TOO_HOT | FILAMENT);
    desk.sample(0.5, 1, FILAMENT, 2);
    assert_eq!(summary(&mut desk), 0);
    assert_eq!(desk.write(1, 0xFBF4, 1, b"load"), Ok(()));
    assert_eq!(summary(&mut desk), 4);
    for by_command in [true, false] {
        if by_command {
            assert_eq!(desk.write(1, 0xFBF0, 1, b"teser\0"), Ok(()));
        } else {
            assert_eq!(desk.power_up(), 0);
        }
        assert_eq!((summary(&mut desk), words(&mut desk), number(&mut desk, 0xF3A3, 1)), (0, (0, 0), TOO_HOT));
        desk.sample(0.5, 1, TOO_HOT, 1);
        assert_eq!(summary(&mut desk), 0);
        desk.sample(0.5, 1, FILAMENT, 2);
        assert_eq!(summary(&mut desk), 4);
    }
}

/// Plays the text lines of docs/ABORT-CODES.md between a heading and the next: message, answer, remark. `sample` and a fault word
/// stand for a valid sample of 0.5. Gives the numbers of messages and samples.
fn play(heading: &str) -> (u32, u32) {
    let (_, section) = PAGE.split_once(&format!("\n{heading}\n")).unwrap();
    let mut desk = Desk::new(subject());
    let (mut messages, mut samples) = (0, 0);
    for text in section.lines().take_while(|text| !text.starts_with('#')).filter_map(|text| text.strip_prefix("    ")) {
        match text.split_whitespace().collect::<Vec<_>>()[..] {
            ["sample", faults, ..] => {
                samples += 1;
                desk.sample(0.5, 1, u32::from_str_radix(faults, 16).unwrap(), samples);
            }
            [line, message, answering, answer, ..] => {
                messages += 1;
                let message = u64::from_str_radix(message, 16).unwrap().to_be_bytes();
                let given = desk.say(line.parse().unwrap(), message).unwrap();
                assert_eq!((answering, answer), (line, &format!("{:016X}", u64::from_be_bytes(given))[..]), "to '{text}'");
            }
            _ => panic!("'{text}' is no line of a dialogue"),
        }
    }
    (messages, samples)
}

/// The dialogue below the masks.
#[test]
fn a_mask_of_the_page() {
    let (messages, samples) = play("## Exceptions");
    assert!(messages >= 8 && samples >= 3, "{messages} messages and {samples} samples");
}

/// The dialogue of the code for a crossed trip point.
#[test]
fn a_crossed_trip_point_of_the_page() {
    let (messages, _) = play("### 06090036");
    assert!(messages >= 5, "{messages} messages");
}

const POINTS: [u16; 2] = [0x800E, 0x800F];
const HIGH_ENABLE: u8 = 0x01;
const LOW_ENABLE: u8 = 0x02;
const HIGH_LEVEL: u8 = 0x11;
const LOW_LEVEL: u8 = 0x14;

/// High levels, low levels, and whether they are crossed where both sides are enabled.
const LEVELS: [(f32, f32, bool); 18] = [
    (10.0, 1.0, false),
    (1.0, 10.0, true),
    (0.5, 0.5, true),
    (1500.0, 1500.0, true),
    (0.0, 0.0, true),
    (0.0, -0.0, true),
    (-0.0, 0.0, true),
    (-0.0, -0.0, true),
    (0.5, -0.0, false),
    (-0.0, 0.5, true),
    (f32::from_bits(0x3F80_0001), 1.0, false),
    (1.0, f32::from_bits(0x3F80_0001), true),
    (f32::from_bits(1), 0.0, false),
    (f32::from_bits(1), -0.0, false),
    (0.0, f32::from_bits(1), true),
    (f32::NAN, 0.5, true),
    (0.5, f32::NAN, true),
    (f32::NAN, f32::NAN, true),
];

/// Those of them that can be written.
fn levels_written() -> impl Iterator<Item = (f32, f32, bool)> {
    LEVELS.into_iter().filter(|(high, low, _)| !high.is_nan() && !low.is_nan())
}

/// The same for each trip point.
fn points_written() -> impl Iterator<Item = (u16, f32, f32, bool)> {
    levels_written().flat_map(|(high, low, crossed)| POINTS.map(|index| (index, high, low, crossed)))
}

/// Puts bytes into the values, as firmware can.
fn lend(values: &mut [u8], index: u16, sub: u8, bytes: &[u8]) {
    values[place(index, sub)..][..bytes.len()].copy_from_slice(bytes);
}

/// Lends a trip point: enables and levels of its high and low side.
fn lend_point(values: &mut [u8], index: u16, enables: [u8; 2], levels: [f32; 2]) {
    for (sub, enable) in [HIGH_ENABLE, LOW_ENABLE].into_iter().zip(enables) {
        lend(values, index, sub, &[enable]);
    }
    for (sub, level) in [HIGH_LEVEL, LOW_LEVEL].into_iter().zip(levels) {
        lend(values, index, sub, &level.to_le_bytes());
    }
}

/// An expedited write and its whole outcome: a yes and the bytes in the values, or a code and nothing changed.
fn expect_write<B: Board>(desk: &mut Desk<B>, index: u16, sub: u8, bytes: &[u8], outcome: Result<(), u32>) {
    let ([low, high], mut expected) = (index.to_le_bytes(), desk.memory.clone());
    let (mut message, mut answer) = ([0x23, low, high, sub, 0, 0, 0, 0], [0x60, low, high, sub, 0, 0, 0, 0]);
    message[0] |= (4 - bytes.len() as u8) << 2;
    message[4..4 + bytes.len()].copy_from_slice(bytes);
    match outcome {
        Ok(()) => lend(&mut expected.values, index, sub, bytes),
        Err(code) => {
            answer[0] = 0x80;
            answer[4..].copy_from_slice(&code.to_le_bytes());
        }
    }
    assert_eq!(desk.say(1, message), Some(answer), "{index:04X}:{sub:02X} {bytes:02X?}");
    assert!(desk.memory == expected, "memory after {index:04X}:{sub:02X} {bytes:02X?}");
}

/// What a write is if it leaves its trip point crossed or not.
fn judged(crossed: bool) -> Result<(), u32> {
    if crossed {
        Err(code::CROSSED)
    } else {
        Ok(())
    }
}

/// From the defaults: one side can be enabled, the other not until the low level is below the high level.
#[test]
fn levels_of_the_defaults() {
    for index in POINTS {
        for (first, second) in [(HIGH_ENABLE, LOW_ENABLE), (LOW_ENABLE, HIGH_ENABLE)] {
            let mut desk = Desk::new(subject());
            expect_write(&mut desk, index, first, &[1], Ok(()));
            expect_write(&mut desk, index, second, &[1], Err(code::CROSSED));
            expect_write(&mut desk, index, LOW_LEVEL, &0.5f32.to_le_bytes(), Ok(()));
            expect_write(&mut desk, index, second, &[1], Err(code::CROSSED));
            expect_write(&mut desk, index, HIGH_LEVEL, &1f32.to_le_bytes(), Ok(()));
            expect_write(&mut desk, index, second, &[1], Ok(()));
            expect_write(&mut desk, index, LOW_LEVEL, &1f32.to_le_bytes(), Err(code::CROSSED));
            expect_write(&mut desk, index, HIGH_LEVEL, &0.5f32.to_le_bytes(), Err(code::CROSSED));
            expect_write(&mut desk, index, first, &[0], Ok(()));
            expect_write(&mut desk, index, LOW_LEVEL, &10f32.to_le_bytes(), Ok(()));
            expect_write(&mut desk, index, first, &[1], Err(code::CROSSED));
        }
    }
}

/// The customer's relay, low 10 and high 1, is refused; with low 1 and high 10 it opens between them.
#[test]
fn the_customers_relay() {
    let mut desk = Desk::new(subject());
    for (high, low, crossed) in [(1f32, 10f32, true), (10.0, 1.0, false)] {
        expect_write(&mut desk, 0x800E, HIGH_LEVEL, &high.to_le_bytes(), Ok(()));
        expect_write(&mut desk, 0x800E, LOW_LEVEL, &low.to_le_bytes(), Ok(()));
        expect_write(&mut desk, 0x800E, HIGH_ENABLE, &[1], Ok(()));
        expect_write(&mut desk, 0x800E, LOW_ENABLE, &[1], judged(crossed));
    }
    for (pressure, sides) in [(0.5, 2), (5.0, 0), (20.0, 1), (5.0, 0)] {
        desk.sample(pressure, 1, 0, 1);
        assert_eq!(number(&mut desk, 0xF641, 1), sides, "at {pressure}");
    }
}

/// Levels are compared as REALs, equal ones and those that are no numbers are crossed: whichever of the entries comes last, on both
/// trip points, and by an entry that decides nothing. Hystereses play no part.
#[test]
fn crossed_levels() {
    for index in POINTS {
        for (high, low, crossed) in LEVELS {
            let last = [
                (HIGH_ENABLE, vec![1]),
                (LOW_ENABLE, vec![1]),
                (HIGH_LEVEL, high.to_le_bytes().to_vec()),
                (LOW_LEVEL, low.to_le_bytes().to_vec()),
                (0x17, 1500f32.to_le_bytes().to_vec()),
                (0x1A, vec![1, 2, 3, 4]),
            ];
            for (sub, bytes) in last {
                let mut desk = Desk::new(subject());
                lend_point(&mut desk.memory.values, index, [1, 1], [high, low]);
                lend(&mut desk.memory.values, index, 0x18, &1500f32.to_le_bytes());
                lend(&mut desk.memory.values, index, sub, &vec![0; bytes.len()]);
                let is_nan = bytes.len() == 4 && f32::from_le_bytes(*bytes.first_chunk().unwrap()).is_nan();
                expect_write(&mut desk, index, sub, &bytes, if is_nan { Err(code::OUT_OF_RANGE) } else { judged(crossed) });
            }
        }
    }
}

/// Lent enable bytes: each that is not 0 enables, and with one that is 0 nothing is crossed.
#[test]
fn lent_enables() {
    for index in POINTS {
        for high in [0, 1, 2, 0x80, 0xFF] {
            for low in [0, 1, 2, 0x80, 0xFF] {
                let mut desk = Desk::new(subject());
                lend_point(&mut desk.memory.values, index, [high, low], [1.0, 10.0]);
                expect_write(&mut desk, index, 0x17, &[0; 4], judged(high != 0 && low != 0));
            }
        }
    }
}

/// Every entry of a crossed trip point's object is refused, but for those that disable a side or set its levels straight. No entry
/// of the other's is.
#[test]
fn each_entry_of_a_crossed_trip_point() {
    for index in POINTS {
        for line in lines().iter().filter(|line| POINTS.contains(&line.index)) {
            let mut desk = Desk::new(subject());
            lend_point(&mut desk.memory.values, index, [1, 1], [0.5, 10.0]);
            let enable = [HIGH_ENABLE, LOW_ENABLE].contains(&line.sub);
            let bytes = if enable { vec![1] } else { line.default() };
            let straight = line.index == index && line.sub == LOW_LEVEL;
            expect_write(&mut desk, line.index, line.sub, &bytes, judged(line.index == index && !straight));
            if enable {
                expect_write(&mut desk, line.index, line.sub, &[0], Ok(()));
            }
        }
        let mut desk = Desk::new(subject());
        lend_point(&mut desk.memory.values, index, [1, 1], [0.5, 10.0]);
        expect_write(&mut desk, index, HIGH_LEVEL, &10f32.to_le_bytes(), Err(code::CROSSED));
        expect_write(&mut desk, index, HIGH_LEVEL, &11f32.to_le_bytes(), Ok(()));
    }
}

/// A card in parts, and the answer to its last part.
fn send_card<B: Board>(desk: &mut Desk<B>, card: &[u8]) -> String {
    assert_eq!(desk.hex(1, "21 10 20 00 21"), "60 10 20 00 00 00 00 00");
    let mut answer = String::new();
    for (n, bytes) in card.chunks(7).enumerate() {
        let mut part = [0; 8];
        part[0] = (n as u8 % 2) << 4 | if n == 4 { 5 } else { 0 };
        part[1..1 + bytes.len()].copy_from_slice(bytes);
        answer = hex(&desk.say(1, part).unwrap());
    }
    answer
}

const CARD_TAKEN: &str = "20 00 00 00 00 00 00 00";
const CARD_CROSSED: &str = "80 10 20 00 36 00 09 06";

/// A card is judged by its own fields: trip point 1, 2 or both may be crossed in it. Refused it changes nothing.
#[test]
fn crossed_cards() {
    for (high, low, crossed) in levels_written() {
        let (pair, straight) = ([high, 1.0, low, 1500.0], [2.0, 0.5, 0.25, 0.125]);
        for (first, second) in [(pair, straight), (straight, pair), (pair, pair)] {
            let reals: [f32; 8] = [first, second].concat().try_into().unwrap();
            let mut desk = Desk::new(subject());
            // what stood in the values does not count
            lend_point(&mut desk.memory.values, 0x800E, [1, 1], [1.0, 10.0]);
            let before = desk.memory.clone();
            let card = card_of(reals);
            assert_eq!(send_card(&mut desk, &card), if crossed { CARD_CROSSED } else { CARD_TAKEN }, "{reals:?}");
            if crossed {
                assert!(desk.memory == before, "{reals:?}");
            } else {
                assert_eq!(desk.read(0, 0x2010, 0), Ok(card));
            }
        }
        // with one side of each trip point enabled nothing is crossed
        let reals: [f32; 8] = [pair, pair].concat().try_into().unwrap();
        let mut desk = Desk::new(subject());
        assert_eq!(send_card(&mut desk, &card_with(1, [true, false, false, true], reals)), CARD_TAKEN);
    }
}

/// Length, lock and limits are told before a crossed trip point: all of them also of a card, those of trip point 2 too.
#[test]
fn crossed_is_told_last() {
    let mut desk = Desk::new(subject());
    lend_point(&mut desk.memory.values, 0x800E, [1, 1], [1.0, 10.0]);
    expect_write(&mut desk, 0x800E, 0x17, &[0; 3], Err(code::TOO_SHORT));
    expect_write(&mut desk, 0x800E, LOW_ENABLE, &[1, 0], Err(code::TOO_LONG));
    expect_write(&mut desk, 0x800E, HIGH_LEVEL, &f32::NAN.to_le_bytes(), Err(code::OUT_OF_RANGE));
    expect_write(&mut desk, 0x800E, LOW_LEVEL, &1501f32.to_le_bytes(), Err(code::ABOVE));
    expect_write(&mut desk, 0x800E, HIGH_LEVEL, &(-1f32).to_le_bytes(), Err(code::BELOW));
    expect_write(&mut desk, 0x800E, LOW_ENABLE, &[2], Err(code::ABOVE));
    expect_write(&mut desk, 0x800E, 0x12, &[0; 4], Err(code::BELOW));
    let crossed = [1.0, 0.5, 10.0, 0.5, 1.0, 0.5, 10.0, 0.5];
    let before = desk.memory.clone();
    assert_eq!(send_card(&mut desk, &card_with(2, [true; 4], crossed)), "80 10 20 00 30 00 09 06");
    for field in 0..8 {
        for (bad, answer) in [(1501.0, "80 10 20 00 31 00 09 06"), (-1.0, "80 10 20 00 32 00 09 06")] {
            let mut reals = crossed;
            reals[field] = bad;
            assert_eq!(send_card(&mut desk, &card_of(reals)), answer, "field {field}");
        }
    }
    assert!(desk.memory == before);
    assert_eq!(send_card(&mut desk, &card_of(crossed)), CARD_CROSSED);
    assert!(desk.memory == before);
    lend(&mut desk.memory.values, 0x2003, 0, &[1]);
    expect_write(&mut desk, 0x800E, 0x17, &[0; 4], Err(code::LOCKED));
    assert_eq!(send_card(&mut desk, &card_of(crossed)), "80 10 20 00 22 00 00 08");
}

/// An entry that is written in parts is judged at its last part, by the values of that moment.
#[test]
fn crossed_in_parts() {
    let opening = ("21 0E 80 02 01", "60 0E 80 02");
    let mut desk = Desk::new(subject());
    exchange(&mut desk, 0, &[("2F 0E 80 01 01", "60 0E 80 01")]);
    let before = desk.memory.clone();
    exchange(&mut desk, 0, &[opening, ("0D 01", "80 0E 80 02 36 00 09 06")]);
    assert!(desk.memory == before);
    exchange(&mut desk, 0, &[opening]);
    exchange(&mut desk, 1, &[("23 0E 80 11 00 00 80 3F", "60 0E 80 11")]);
    exchange(&mut desk, 0, &[("0D 01", "20"), ("40 0E 80 02", "4F 0E 80 02 01")]);
    exchange(&mut desk, 0, &[("2F 0E 80 02 00", "60 0E 80 02"), opening]);
    exchange(&mut desk, 1, &[("23 0E 80 14 00 00 80 3F", "60 0E 80 14")]);
    exchange(&mut desk, 0, &[("0D 01", "80 0E 80 02 36 00 09 06"), ("40 0E 80 02", "4F 0E 80 02 00")]);
}

/// With both trip points crossed every other entry can be written, and each command is done but a store.
#[test]
fn what_crossed_trip_points_leave_alone() {
    let mut desk = Desk::new(subject());
    assert_eq!(desk.write(0, 0xFBF2, 1, b"save"), Ok(()));
    for index in POINTS {
        lend_point(&mut desk.memory.values, index, [1, 1], [1.0, 10.0]);
    }
    let others = lines().into_iter().filter(|line| line.access == "RW" && line.place.is_some() && !POINTS.contains(&line.index));
    for line in others {
        assert_eq!(desk.write(1, line.index, line.sub, &line.default()), Ok(()), "{line:?}");
    }
    lend(&mut desk.memory.values, 0xFBF1, 2, &[9]);
    assert_eq!(desk.write(1, 0xFBF1, 1, b"teser"), Ok(()));
    assert_eq!(number(&mut desk, 0xFBF1, 2), 0);
    assert_eq!(desk.write(1, 0xFBF4, 1, b"LOAD"), Ok(()));
    assert_eq!(number(&mut desk, 0xFBF4, 2), 2);
    assert_eq!(number(&mut desk, 0x800E, LOW_ENABLE), 1);
    assert_eq!(desk.write(1, 0xFBF4, 1, b"load"), Ok(()));
    assert_eq!((number(&mut desk, 0xFBF4, 2), number(&mut desk, 0x800E, LOW_ENABLE)), (0, 0));
    lend_point(&mut desk.memory.values, 0x800F, [1, 1], [1.0, 10.0]);
    assert_eq!(desk.write(1, 0xFBF0, 1, b"teser\0"), Ok(()));
    assert_eq!(number(&mut desk, 0x800F, LOW_ENABLE), 0);
}

/// The saved block of the defaults, but for a label and a trip point with both sides enabled.
fn block_with(index: u16, high: f32, low: f32) -> Vec<u8> {
    Plain::pack(&lines(), |line| match (line.index, line.sub) {
        (0x2001, _) => vec![0x41; 32],
        (i, HIGH_ENABLE | LOW_ENABLE) if i == index => vec![1],
        (i, HIGH_LEVEL) if i == index => high.to_le_bytes().to_vec(),
        (i, LOW_LEVEL) if i == index => low.to_le_bytes().to_vec(),
        _ => line.default(),
    })
}

/// A load of a block with a crossed trip point sets its status to 2 and changes nothing else.
#[test]
fn crossed_blocks_are_not_loaded() {
    for (index, high, low, crossed) in points_written() {
        let mut desk = Desk::new(subject());
        desk.memory.block = block_with(index, high, low);
        lend(&mut desk.memory.values, 0xFBF4, 2, &[9, 9]);
        let mut expected = desk.memory.clone();
        assert_eq!(desk.hex(0, "23 F4 FB 01 6C 6F 61 64"), "60 F4 FB 01 00 00 00 00");
        if crossed {
            lend(&mut expected.values, 0xFBF4, 2, &[2, 2]);
        } else {
            lend(&mut expected.values, 0xFBF4, 2, &[0, 0]);
            lend(&mut expected.values, 0x2001, 0, &[0x41; 32]);
            lend_point(&mut expected.values, index, [1, 1], [high, low]);
        }
        assert!(desk.memory == expected, "{index:04X} {high} {low}");
    }
}

/// Power-up and device reset on a block with a crossed trip point take the defaults.
#[test]
fn crossed_blocks_at_power_up() {
    let fresh = Desk::new(subject()).memory.values;
    for (index, high, low, crossed) in points_written() {
        let mut desk = Desk::new(subject());
        desk.memory.block = block_with(index, high, low);
        assert_eq!(desk.power_up(), 0);
        assert_eq!(desk.memory.values == fresh, crossed, "{index:04X} {high} {low}");
        let label = if crossed { vec![0; 32] } else { vec![0x41; 32] };
        assert_eq!(desk.read(0, 0x2001, 0), Ok(label), "{index:04X} {high} {low}");
        let after = desk.memory.values.clone();
        desk.memory.values.fill(0x66);
        assert_eq!(desk.write(1, 0xFBF0, 1, b"teser\0"), Ok(()));
        assert!(desk.memory.values == after, "{index:04X} {high} {low}");
    }
}

/// A store while a trip point is crossed sets its status to 2 and leaves the block.
#[test]
fn crossed_values_are_not_stored() {
    for (index, high, low, crossed) in points_written() {
        let mut desk = Desk::new(subject());
        desk.memory.block = block_with(index, 2.0, 1.0);
        lend(&mut desk.memory.values, 0x2001, 0, &[0x41; 32]);
        lend_point(&mut desk.memory.values, index, [1, 1], [high, low]);
        let mut expected = desk.memory.clone();
        assert_eq!(desk.hex(0, "23 F2 FB 01 73 61 76 65"), "60 F2 FB 01 00 00 00 00");
        if crossed {
            lend(&mut expected.values, 0xFBF2, 2, &[2, 2]);
        } else {
            expected.block = block_with(index, high, low);
        }
        assert!(desk.memory == expected, "{index:04X} {high} {low}");
        // with a side disabled it is stored
        assert_eq!(desk.write(0, index, LOW_ENABLE, &[0]), Ok(()));
        assert_eq!(desk.write(0, 0xFBF2, 1, b"save"), Ok(()));
        assert_eq!(number(&mut desk, 0xFBF2, 2), 0);
    }
}
