//! The plain gauge and the observer of demand 3.
//!
//! The plain gauge does whole reads and writes one at a time. It is written for the reader, not for speed, and shares no code
//! with the independent board: entries are byte strings found by their key, cards and saved blocks are lists of bits.

use std::cmp::Ordering;
use std::collections::BTreeMap;

const PAGE: &str = include_str!("../../docs/object-table.md");

/// A line of docs/object-table.md.
#[derive(Clone, Debug)]
pub struct Line {
    pub index: u16,
    pub sub: u8,
    pub kind: String,
    pub access: String,
    pub nv: bool,
    pub length: usize,
    pub place: Option<usize>,
    /// Minimum, maximum and default as they are printed.
    pub printed: [String; 3],
    pub name: String,
}

impl Line {
    fn number(&self, n: usize) -> u64 {
        u64::from_str_radix(&self.printed[n], 16).unwrap_or(0)
    }

    pub fn minimum(&self) -> u64 {
        self.number(0)
    }

    pub fn maximum(&self) -> u64 {
        self.number(1)
    }

    pub fn default(&self) -> Vec<u8> {
        let mut bytes = self.number(2).to_le_bytes().to_vec();
        bytes.resize(self.length, 0);
        bytes
    }
}

/// The lines of docs/object-table.md, in their order.
pub fn lines() -> Vec<Line> {
    let mut lines = Vec::new();
    for text in PAGE.lines() {
        let cells: Vec<&str> = text.split('|').map(str::trim).collect();
        let Some(Ok(index)) = cells.get(1).filter(|cell| cell.len() == 4).map(|cell| u16::from_str_radix(cell, 16)) else {
            continue;
        };
        lines.push(Line {
            index,
            sub: u8::from_str_radix(cells[2], 16).unwrap(),
            kind: cells[3].to_string(),
            access: cells[4].to_string(),
            nv: cells[5] == "NV",
            length: cells[6].parse().unwrap(),
            place: cells[7].parse().ok(),
            printed: [cells[8].to_string(), cells[9].to_string(), cells[10].to_string()],
            name: cells[11].to_string(),
        });
    }
    lines
}

/// Most significant bit first.
pub fn bits_of(value: u64, width: usize) -> Vec<bool> {
    (0..width).rev().map(|i| value >> i & 1 == 1).collect()
}

pub fn number_of(bits: &[bool]) -> u64 {
    bits.iter().fold(0, |n, &bit| n << 1 | bit as u64)
}

pub fn bytes_of(bits: &[bool]) -> Vec<u8> {
    bits.chunks(8).map(|byte| number_of(byte) as u8).collect()
}

pub fn all_bits(bytes: &[u8]) -> Vec<bool> {
    bytes.iter().flat_map(|&byte| bits_of(byte as u64, 8)).collect()
}

fn little_endian(bytes: &[u8]) -> u64 {
    bytes.iter().rev().fold(0, |n, &byte| n << 8 | byte as u64)
}

/// The limits' check of one entry's bytes.
pub fn judge(line: &Line, bytes: &[u8]) -> Result<(), u32> {
    let (low, high, value) = (line.minimum(), line.maximum(), little_endian(bytes));
    let order = match line.kind.as_str() {
        "STRING" | "CARD" | "COMMAND" => return Ok(()),
        "REAL" => {
            let real = |n: u64| f32::from_bits(n as u32);
            match (real(value).partial_cmp(&real(high)), real(value).partial_cmp(&real(low))) {
                (Some(high), Some(low)) => (high.is_gt(), low.is_lt()),
                _ => return Err(0x0609_0030),
            }
        }
        _ => (value > high, value < low),
    };
    match order {
        (true, _) => Err(0x0609_0031),
        (_, true) => Err(0x0609_0032),
        _ => Ok(()),
    }
}

/// The length that a write names.
#[derive(Clone, Copy, PartialEq, Eq, Debug)]
pub enum Length {
    /// Announced, or given by the unused bytes.
    Is(u32),
    /// The entry's own, of the four bytes sent.
    Own,
    Unknown,
}

/// A side of a trip point: whether it is enabled, and its level.
type Side = (bool, f32);

/// Whether a trip point is crossed: both sides are enabled, and the low level is not less than the high level.
fn crossed(high: Side, low: Side) -> bool {
    match (high, low) {
        ((true, high), (true, low)) => !matches!(low.partial_cmp(&high), Some(Ordering::Less)),
        _ => false,
    }
}

pub const SIDES: [(u16, u8, u8, u8); 4] =
    [(0x800E, 0x01, 0x11, 0x17), (0x800E, 0x02, 0x14, 0x18), (0x800F, 0x01, 0x11, 0x17), (0x800F, 0x02, 0x14, 0x18)];

/// Index, subindex and bytes of an entry.
type Entry = (u16, u8, Vec<u8>);

/// The plain gauge.
#[derive(Clone)]
pub struct Plain {
    lines: Vec<Line>,
    entries: BTreeMap<(u16, u8), Vec<u8>>,
    pub block: Vec<u8>,
    pub trips: [bool; 4],
}

impl Plain {
    /// Power-up on a saved block.
    pub fn new(block: &[u8]) -> Plain {
        let mut gauge = Plain { lines: lines(), entries: BTreeMap::new(), block: block.to_vec(), trips: [false; 4] };
        gauge.power_up();
        gauge
    }

    pub fn power_up(&mut self) {
        self.entries = self.lines.iter().filter(|l| l.place.is_some()).map(|l| ((l.index, l.sub), l.default())).collect();
        self.trips = [false; 4];
        self.load();
        self.summary();
    }

    /// The 1,024 bytes that the table's places make of the entries.
    pub fn values(&self) -> Vec<u8> {
        let mut values = vec![0; 1024];
        for line in &self.lines {
            if let Some(place) = line.place {
                values[place..place + line.length].copy_from_slice(&self.entries[&(line.index, line.sub)]);
            }
        }
        values
    }

    fn set(&mut self, index: u16, sub: u8, bytes: &[u8]) {
        let entry = self.entries.get_mut(&(index, sub)).expect("an entry with a place");
        assert_eq!(entry.len(), bytes.len());
        entry.copy_from_slice(bytes);
    }

    fn real(&self, index: u16, sub: u8) -> f32 {
        f32::from_bits(little_endian(&self.entries[&(index, sub)]) as u32)
    }

    /// Whether an object is that of a crossed trip point.
    fn is_crossed(&self, index: u16) -> bool {
        let sides: Vec<Side> = SIDES
            .iter()
            .filter(|side| side.0 == index)
            .map(|&(index, enable, level, _)| (self.entries[&(index, enable)] != [0], self.real(index, level)))
            .collect();
        matches!(sides[..], [high, low] if crossed(high, low))
    }

    /// Sets entries together, or none of them if an object would be that of a crossed trip point.
    fn set_all(&mut self, entries: &[Entry]) -> Result<(), u32> {
        let before = self.entries.clone();
        for (index, sub, bytes) in entries {
            self.set(*index, *sub, bytes);
        }
        if entries.iter().any(|(index, ..)| self.is_crossed(*index)) {
            self.entries = before;
            return Err(0x0609_0036);
        }
        Ok(())
    }

    fn find(&self, index: u16, sub: u8) -> Result<Line, u32> {
        if !self.lines.iter().any(|l| l.index == index) {
            return Err(0x0602_0000);
        }
        self.lines.iter().find(|l| l.index == index && l.sub == sub).cloned().ok_or(0x0609_0011)
    }

    fn card(&self) -> Vec<u8> {
        let mut bits = bits_of(1, 4);
        for point in SIDES.chunks(2) {
            for (index, enable, _, _) in point {
                bits.push(self.entries[&(*index, *enable)] != [0]);
            }
            for (index, _, level, hysteresis) in point {
                bits.extend(bits_of(little_endian(&self.entries[&(*index, *level)]), 32));
                bits.extend(bits_of(little_endian(&self.entries[&(*index, *hysteresis)]), 32));
            }
        }
        bytes_of(&bits)
    }

    /// The card's fields as entries, or the code of its first bad one.
    fn card_entries(&self, card: &[u8]) -> Result<Vec<Entry>, u32> {
        let bits = all_bits(card);
        if number_of(&bits[..4]) != 1 {
            return Err(0x0609_0030);
        }
        let mut entries = Vec::new();
        let mut at = 4;
        for point in SIDES.chunks(2) {
            for (index, enable, _, _) in point {
                entries.push((*index, *enable, vec![bits[at] as u8]));
                at += 1;
            }
            for (index, _, level, hysteresis) in point {
                for sub in [level, hysteresis] {
                    let bytes = (number_of(&bits[at..at + 32]) as u32).to_le_bytes().to_vec();
                    judge(&self.find(*index, *sub).unwrap(), &bytes)?;
                    entries.push((*index, *sub, bytes));
                    at += 32;
                }
            }
        }
        assert_eq!(at, 264);
        Ok(entries)
    }

    /// A whole read.
    pub fn read(&self, index: u16, sub: u8) -> Result<Vec<u8>, u32> {
        let line = self.find(index, sub)?;
        Ok(match line.kind.as_str() {
            "CARD" => self.card(),
            "COMMAND" => {
                let mut word = vec![0; line.length];
                if index == 0xFBF2 || index == 0xFBF4 {
                    word[0] = 1;
                }
                word
            }
            _ => self.entries[&(index, sub)].clone(),
        })
    }

    /// A whole write.
    pub fn write(&mut self, index: u16, sub: u8, length: Length, sent: &[u8]) -> Result<(), u32> {
        let line = self.find(index, sub)?;
        if line.access == "RO" {
            return Err(0x0601_0002);
        }
        let mut bytes = sent;
        match length {
            Length::Is(n) if n > line.length as u32 => return Err(0x0607_0012),
            Length::Is(n) if n < line.length as u32 => return Err(0x0607_0013),
            Length::Own if line.length <= 4 => bytes = &sent[..line.length],
            _ => (),
        }
        if bytes.len() > line.length {
            return Err(0x0607_0012);
        }
        if bytes.len() < line.length {
            return Err(0x0607_0013);
        }
        let load = line.kind == "COMMAND" && index == 0xFBF4;
        if self.entries[&(0x2003, 0)] == [1] && (line.nv || line.kind == "CARD" || load) {
            return Err(0x0800_0022);
        }
        match line.kind.as_str() {
            "CARD" => self.set_all(&self.card_entries(bytes)?)?,
            "COMMAND" => self.command(index, bytes),
            _ => {
                judge(&line, bytes)?;
                self.set_all(&[(index, sub, bytes.to_vec())])?;
                if (0xF3A1..=0xF3A8).contains(&index) {
                    self.summary();
                }
            }
        }
        Ok(())
    }

    fn command(&mut self, index: u16, word: &[u8]) {
        let done = match (index, word) {
            (0xFBF0, [0x74, 0x65, 0x73, 0x65, 0x72, 0x00]) => return self.power_up(),
            (0xFBF1, [0x74, 0x65, 0x73, 0x65, 0x72]) => {
                self.set(0xF390, 0, &[0]);
                for word in 0xF391..=0xF398 {
                    self.set(word, 1, &[0; 4]);
                }
                self.summary();
                true
            }
            (0xFBF2, [0x73, 0x61, 0x76, 0x65]) => self.store(),
            (0xFBF4, [0x6C, 0x6F, 0x61, 0x64]) => {
                let taken = self.load();
                if taken {
                    self.summary();
                }
                taken
            }
            _ => false,
        };
        let number = if done { 0 } else { 2 };
        let second = self.entries[&(index, 3)][1];
        self.set(index, 2, &[number]);
        self.set(index, 3, &[number, second]);
    }

    /// Device Error, as long as a bit of the active word is not hidden by its mask.
    fn summary(&mut self) {
        let (active, mask) = (all_bits(&self.entries[&(0xF383, 1)]), all_bits(&self.entries[&(0xF3A3, 1)]));
        let shown = active.into_iter().zip(mask).any(|(fault, hidden)| fault && !hidden);
        self.set(0xF380, 0, &[if shown { 4 } else { 0 }]);
    }

    fn nv(&self) -> Vec<Line> {
        self.lines.iter().filter(|l| l.nv).cloned().collect()
    }

    /// The saved block of some NV values, in table order.
    pub fn pack(lines: &[Line], of: impl Fn(&Line) -> Vec<u8>) -> Vec<u8> {
        let mut bits = bits_of(0x11, 8);
        for line in lines.iter().filter(|l| l.nv) {
            let bytes = of(line);
            match line.kind.as_str() {
                "BOOL" => bits.push(bytes != [0]),
                "STRING" => bits.extend(all_bits(&bytes)),
                _ => bits.extend(bits_of(little_endian(&bytes), 8 * line.length)),
            }
        }
        bits.resize(4096, false);
        bytes_of(&bits)
    }

    fn store(&mut self) -> bool {
        let bad = self.nv().iter().any(|l| judge(l, &self.entries[&(l.index, l.sub)]).is_err() || self.is_crossed(l.index));
        if !bad {
            self.block = Plain::pack(&self.lines, |l| self.entries[&(l.index, l.sub)].clone());
        }
        !bad
    }

    /// The NV values of the block, or nothing if its layout, its rest or one of them is bad.
    fn unpack(&self) -> Option<Vec<Entry>> {
        let bits = all_bits(&self.block);
        if number_of(&bits[..8]) != 0x11 {
            return None;
        }
        let mut at = 8;
        let mut found = Vec::new();
        for line in self.nv() {
            let width = if line.kind == "BOOL" { 1 } else { 8 * line.length };
            let field = &bits[at..at + width];
            at += width;
            let bytes = match line.kind.as_str() {
                "STRING" => bytes_of(field),
                _ => number_of(field).to_le_bytes()[..line.length].to_vec(),
            };
            judge(&line, &bytes).ok()?;
            found.push((line.index, line.sub, bytes));
        }
        if bits[at..].contains(&true) {
            return None;
        }
        Some(found)
    }

    /// Takes the block, unless it is faulty.
    fn load(&mut self) -> bool {
        self.unpack().is_some_and(|found| self.set_all(&found).is_ok())
    }

    pub fn sample(&mut self, pressure: f32, valid: u8, faults: u32, seconds: u32) {
        let good = valid != 0 && pressure.is_finite() && pressure >= 0.0;
        if good {
            for (index, sub) in [(0x6000, 0x11), (0x900E, 1), (0x900F, 1)] {
                self.set(index, sub, &pressure.to_bits().to_le_bytes());
            }
        }
        self.set(0x6005, 1, &[good as u8]);
        for (n, (index, enable, level, hysteresis)) in SIDES.into_iter().enumerate() {
            let (level, hysteresis) = (self.real(index, level), self.real(index, hysteresis));
            let low = n % 2 == 1;
            let on = if low { pressure < level } else { pressure > level };
            let off = if low { pressure > level + hysteresis } else { pressure < level - hysteresis };
            let enabled = self.entries[&(index, enable)] != [0];
            self.trips[n] = match (good && enabled, on, off) {
                (false, _, _) => false,
                (_, _, true) => false,
                (_, true, _) => true,
                _ => self.trips[n],
            };
        }
        for (n, (index, sub)) in [(0x600E, 1), (0x600E, 2), (0x600F, 1), (0x600F, 2)].into_iter().enumerate() {
            self.set(index, sub, &[self.trips[n] as u8]);
        }
        let all = (0..4).map(|n| (self.trips[n] as u32) << n).sum::<u32>();
        self.set(0xF641, 1, &all.to_le_bytes());
        let kept = faults & 0b110_0000_0011;
        self.set(0x9005, 2, &(kept as u16).to_le_bytes());
        self.set(0xF383, 1, &kept.to_le_bytes());
        let latched = little_endian(&self.entries[&(0xF393, 1)]) as u32 | kept;
        self.set(0xF393, 1, &latched.to_le_bytes());
        self.summary();
        self.set(0xF9F6, 0, &seconds.to_le_bytes());
    }

    pub fn image(&self) -> Vec<u8> {
        let mut bits: Vec<bool> = [1, 2, 3].iter().map(|&sub| self.entries[&(0x6005, sub)] != [0]).collect();
        bits.resize(8, false);
        for key in [(0x6000, 0x11), (0xF380, 0), (0xF641, 1)] {
            for byte in &self.entries[&key] {
                bits.extend((0..8).map(|i| byte >> i & 1 == 1));
            }
        }
        bits.chunks(8).map(|byte| byte.iter().rev().fold(0, |n, &bit| n << 1 | bit as u8)).collect()
    }
}

/// What the observer makes of a dialogue.
#[derive(Clone, Debug, PartialEq)]
pub enum Event {
    /// A finished read, or (beyond demand 3) one that was refused.
    Read {
        index: u16,
        sub: u8,
        outcome: Result<Vec<u8>, u32>,
    },
    /// A finished write.
    Write {
        index: u16,
        sub: u8,
        length: Length,
        sent: Vec<u8>,
        outcome: Result<(), u32>,
    },
    Sample {
        pressure: f32,
        valid: u8,
        faults: u32,
        seconds: u32,
    },
}

#[derive(Clone)]
enum Open {
    Nothing,
    Read { at: usize, index: u16, sub: u8, got: Vec<u8> },
    Write { index: u16, sub: u8, length: Length, sent: Vec<u8> },
}

/// The SDO of a mailbox: the bytes that its length field counts, less the CoE header.
fn sdo_of(mailbox: &[u8]) -> Result<&[u8], String> {
    let counted = mailbox.get(..2).map_or(0, little_endian) as usize;
    mailbox.get(8..6 + counted).filter(|sdo| sdo.len() >= 8).ok_or(format!("length field of {mailbox:02X?}"))
}

/// The bytes of the value that a part brings: of eight bytes it says how many are unused.
fn part_of(sdo: &[u8]) -> &[u8] {
    match sdo.len() {
        8 => &sdo[1..8 - (sdo[0] >> 1 & 7) as usize],
        _ => &sdo[1..],
    }
}

/// The length that the opening of a write names, and the bytes of the value in it.
fn opened(message: &[u8]) -> (Length, Vec<u8>) {
    let unused = (message[0] >> 2 & 3) as usize;
    match (message[0] & 2 != 0, message[0] & 1 != 0) {
        (true, true) => (Length::Is(4 - unused as u32), message[4..8 - unused].to_vec()),
        (true, false) => (Length::Own, message[4..8].to_vec()),
        (false, true) => (Length::Is(little_endian(&message[4..8]) as u32), message[8..].to_vec()),
        (false, false) => (Length::Unknown, message[8..].to_vec()),
    }
}

/// Sees messages and answers alone.
pub struct Observer {
    lines: [Open; 2],
    /// Each event with its place: a read at its opening message, a write at its last.
    events: Vec<(usize, Event)>,
    time: usize,
}

impl Default for Observer {
    fn default() -> Observer {
        Observer::new()
    }
}

impl Observer {
    pub fn new() -> Observer {
        Observer { lines: [Open::Nothing, Open::Nothing], events: Vec::new(), time: 0 }
    }

    pub fn sample(&mut self, pressure: f32, valid: u8, faults: u32, seconds: u32) {
        self.time += 1;
        self.events.push((self.time, Event::Sample { pressure, valid, faults, seconds }));
    }

    /// A message of eight bytes with its answer; `None` where none was given. An answer that no board may give is an error.
    pub fn message(&mut self, line: usize, message: &[u8; 8], answer: Option<&[u8; 8]>) -> Result<(), String> {
        self.exchange(line, message, answer.map(|answer| &answer[..]))
    }

    /// A mailbox on line 0 with its answer of 128 bytes.
    pub fn mailbox(&mut self, mailbox: &[u8], answer: Option<&[u8]>) -> Result<(), String> {
        let answered = answer.map(|answer| {
            let sdo = sdo_of(answer)?;
            let service = if sdo[0] == 0x80 { 2 } else { 3 };
            let addressed = answer[2..4] == mailbox[2..4] && answer[5] >> 4 == mailbox[5] >> 4 & 7;
            let plain = answer[4] == 0 && answer[5] & 0x0F == 3 && little_endian(&answer[6..8]) == service << 12;
            let empty = answer[8 + sdo.len()..].iter().all(|&byte| byte == 0);
            if addressed && plain && empty && answer.len() == 128 {
                Ok(sdo)
            } else {
                Err(format!("headers or end of the answer {answer:02X?} to {mailbox:02X?}"))
            }
        });
        self.exchange(0, sdo_of(mailbox)?, answered.transpose()?)
    }

    /// An SDO request with the SDO of its answer: eight bytes each, or more in a mailbox.
    fn exchange(&mut self, line: usize, message: &[u8], answer: Option<&[u8]>) -> Result<(), String> {
        self.time += 1;
        let now = self.time;
        let was = std::mem::replace(&mut self.lines[line], Open::Nothing);
        let specifier = message[0] >> 5;
        let Some(answer) = answer else {
            return if specifier == 4 { Ok(()) } else { Err("no answer".to_string()) };
        };
        let (index, sub) = (u16::from_le_bytes([message[1], message[2]]), message[3]);
        let code = little_endian(&answer[4..8]) as u32;
        let aborted = answer[0] == 0x80;
        // the two codes that stand before 06020000 only drop a transfer
        let drops = aborted && matches!(code, 0x0504_0001 | 0x0503_0000);
        let strange = || Err(format!("answer {answer:02X?} to {message:02X?}"));
        // only what a read gives is longer than eight bytes
        if answer.len() > 8 && !matches!(specifier, 2 | 3) {
            return strange();
        }
        if drops {
            return if matches!(specifier, 1 | 2 | 4) { strange() } else { Ok(()) };
        }
        match (specifier, was) {
            (2, _) => {
                if answer[1..4] != message[1..4] || answer[0] != 0x41 && answer.len() > 8 {
                    return strange();
                }
                let outcome = match answer[0] {
                    0x80 => Err(code),
                    0x4F | 0x4B | 0x47 | 0x43 => Ok(answer[4..8 - (answer[0] >> 2 & 3) as usize].to_vec()),
                    // the length stands where a code does
                    0x41 if answer.len() - 8 == code as usize => Ok(answer[8..].to_vec()),
                    0x41 if answer.len() - 8 < code as usize => {
                        self.lines[line] = Open::Read { at: now, index, sub, got: answer[8..].to_vec() };
                        return Ok(());
                    }
                    _ => return strange(),
                };
                self.events.push((now, Event::Read { index, sub, outcome }));
            }
            (3, Open::Read { at, index, sub, mut got }) => {
                if answer[0] >> 5 != 0 || (answer[0] ^ message[0]) & 0x10 != 0 {
                    return strange();
                }
                got.extend(part_of(answer));
                if answer[0] & 1 == 0 {
                    self.lines[line] = Open::Read { at, index, sub, got };
                } else {
                    self.events.push((at, Event::Read { index, sub, outcome: Ok(got) }));
                }
            }
            (1, _) => {
                if answer[1..4] != message[1..4] || !aborted && answer[0] != 0x60 {
                    return strange();
                }
                let (length, sent) = opened(message);
                let ended = match length {
                    Length::Is(n) => n as usize <= sent.len(),
                    Length::Own => true,
                    Length::Unknown => false,
                };
                if aborted {
                    self.events.push((now, Event::Write { index, sub, length, sent, outcome: Err(code) }));
                } else if ended {
                    self.events.push((now, Event::Write { index, sub, length, sent, outcome: Ok(()) }));
                } else {
                    self.lines[line] = Open::Write { index, sub, length, sent };
                }
            }
            (0, Open::Write { index, sub, length, mut sent }) => {
                sent.extend(part_of(message));
                if aborted {
                    self.events.push((now, Event::Write { index, sub, length, sent, outcome: Err(code) }));
                } else if answer[0] != 0x20 | message[0] & 0x10 {
                    return strange();
                } else if message[0] & 1 == 1 {
                    self.events.push((now, Event::Write { index, sub, length, sent, outcome: Ok(()) }));
                } else {
                    self.lines[line] = Open::Write { index, sub, length, sent };
                }
            }
            _ => return strange(),
        }
        Ok(())
    }

    /// The events in the order of their places.
    pub fn events(mut self) -> Vec<Event> {
        self.events.sort_by_key(|(at, _)| *at);
        self.events.into_iter().map(|(_, event)| event).collect()
    }
}

/// The plain gauge does the events one at a time and must give the same bytes, the same yes or code.
pub fn follow(gauge: &mut Plain, events: &[Event]) -> Result<(), String> {
    for event in events {
        let same = match event {
            Event::Read { index, sub, outcome } => gauge.read(*index, *sub) == *outcome,
            Event::Write { index, sub, length, sent, outcome } => gauge.write(*index, *sub, *length, sent) == *outcome,
            Event::Sample { pressure, valid, faults, seconds } => {
                gauge.sample(*pressure, *valid, *faults, *seconds);
                true
            }
        };
        if !same {
            return Err(format!("the plain gauge gives something else for {event:02X?}"));
        }
    }
    Ok(())
}
