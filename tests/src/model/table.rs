//! The object table, read at compile time from docs/object-table.md.

use super::code;
use super::fault::{Fault, Mutant::*};

const PAGE: &[u8] = include_bytes!("../../../docs/object-table.md");

#[derive(Clone, Copy, PartialEq, Eq, Debug)]
pub enum Kind {
    Bool,
    Usint,
    Uint,
    Udint,
    Ulint,
    Real,
    Str,
    Card,
    Command,
}

impl Kind {
    pub const fn is_number(self) -> bool {
        !matches!(self, Kind::Str | Kind::Card | Kind::Command)
    }
}

#[derive(Clone, Copy, Debug)]
pub struct Row {
    /// index * 256 + subindex
    pub key: u32,
    pub kind: Kind,
    pub readable: bool,
    pub writable: bool,
    pub nv: bool,
    /// A mask of exceptions, told once so that a write asks no index.
    pub mask: bool,
    /// The trip point, 0 or 1, that the entry is a setting of.
    pub point: Option<u8>,
    pub len: u8,
    /// First byte in the values; 0 for the card and the command words, which have none.
    pub place: u16,
    pub min: u64,
    pub max: u64,
    pub default: u64,
}

impl Row {
    pub const fn index(&self) -> u16 {
        (self.key >> 8) as u16
    }

    pub const fn sub(&self) -> u8 {
        self.key as u8
    }

    pub const fn has_place(&self) -> bool {
        !matches!(self.kind, Kind::Card | Kind::Command)
    }
}

/// Whether an index is that of a mask.
pub const fn is_mask(index: u16) -> bool {
    matches!(index, 0xF3A1..=0xF3A8)
}

/// The trip point of an index, if it is that of a trip point's settings.
const fn point(index: u16) -> Option<u8> {
    match index {
        0x800E => Some(0),
        0x800F => Some(1),
        _ => None,
    }
}

const fn hex_digit(b: u8) -> Option<u64> {
    match b {
        b'0'..=b'9' => Some((b - b'0') as u64),
        b'A'..=b'F' => Some((b - b'A') as u64 + 10),
        _ => None,
    }
}

const fn is_row(at: usize) -> bool {
    if at + 9 > PAGE.len() || PAGE[at] != b'|' || PAGE[at + 1] != b' ' || PAGE[at + 6] != b' ' {
        return false;
    }
    let mut i = at + 2;
    while i < at + 6 {
        if hex_digit(PAGE[i]).is_none() {
            return false;
        }
        i += 1;
    }
    true
}

const fn next_line(mut at: usize) -> usize {
    while at < PAGE.len() && PAGE[at] != b'\n' {
        at += 1;
    }
    at + 1
}

const fn count_rows() -> usize {
    let (mut at, mut n) = (0, 0);
    while at < PAGE.len() {
        if is_row(at) {
            n += 1;
        }
        at = next_line(at);
    }
    n
}

/// Start and end of a line's cell, without its blanks.
const fn cell(line: usize, mut n: usize) -> (usize, usize) {
    let mut at = line + 1;
    while n > 0 {
        while PAGE[at] != b'|' {
            at += 1;
        }
        at += 1;
        n -= 1;
    }
    while PAGE[at] == b' ' {
        at += 1;
    }
    let mut end = at;
    while PAGE[end] != b'|' {
        end += 1;
    }
    while PAGE[end - 1] == b' ' {
        end -= 1;
    }
    (at, end)
}

const fn is(span: (usize, usize), word: &[u8]) -> bool {
    if span.1 - span.0 != word.len() {
        return false;
    }
    let mut i = 0;
    while i < word.len() {
        if PAGE[span.0 + i] != word[i] {
            return false;
        }
        i += 1;
    }
    true
}

const fn number(span: (usize, usize), base: u64) -> u64 {
    if is(span, b"-") {
        return 0;
    }
    let (mut at, mut n) = (span.0, 0);
    while at < span.1 {
        match hex_digit(PAGE[at]) {
            Some(d) if d < base => n = n * base + d,
            _ => panic!("docs/object-table.md: not a number"),
        }
        at += 1;
    }
    n
}

const fn kind(span: (usize, usize)) -> Kind {
    if is(span, b"BOOL") {
        Kind::Bool
    } else if is(span, b"USINT") {
        Kind::Usint
    } else if is(span, b"UINT") {
        Kind::Uint
    } else if is(span, b"UDINT") {
        Kind::Udint
    } else if is(span, b"ULINT") {
        Kind::Ulint
    } else if is(span, b"REAL") {
        Kind::Real
    } else if is(span, b"STRING") {
        Kind::Str
    } else if is(span, b"CARD") {
        Kind::Card
    } else if is(span, b"COMMAND") {
        Kind::Command
    } else {
        panic!("docs/object-table.md: unknown type")
    }
}

const fn row(line: usize) -> Row {
    let (index, access) = (number(cell(line, 0), 16) as u16, cell(line, 3));
    Row {
        key: index as u32 * 256 + number(cell(line, 1), 16) as u32,
        kind: kind(cell(line, 2)),
        readable: !is(access, b"WO"),
        writable: !is(access, b"RO"),
        nv: is(cell(line, 4), b"NV"),
        mask: is_mask(index),
        point: point(index),
        len: number(cell(line, 5), 10) as u8,
        place: number(cell(line, 6), 10) as u16,
        min: number(cell(line, 7), 16),
        max: number(cell(line, 8), 16),
        default: number(cell(line, 9), 16),
    }
}

pub const COUNT: usize = count_rows();

pub static ROWS: [Row; COUNT] = ALL;

const ALL: [Row; COUNT] = {
    let blank = Row {
        key: 0,
        kind: Kind::Bool,
        readable: false,
        writable: false,
        nv: false,
        mask: false,
        point: None,
        len: 0,
        place: 0,
        min: 0,
        max: 0,
        default: 0,
    };
    let mut rows = [blank; COUNT];
    let (mut at, mut n) = (0, 0);
    while at < PAGE.len() {
        if is_row(at) {
            rows[n] = row(at);
            assert!(n == 0 || rows[n - 1].key < rows[n].key);
            n += 1;
        }
        at = next_line(at);
    }
    rows
};

pub static KEYS: [u32; COUNT] = {
    let mut keys = [0; COUNT];
    let mut n = 0;
    while n < COUNT {
        keys[n] = ALL[n].key;
        n += 1;
    }
    keys
};

/// No row's key: keys have 24 bits.
const NONE: u32 = u32::MAX;

/// The row of a key by halves, or the code for an absent index or subindex, and the number of rows looked at. The keys rise.
pub fn search<F: Fault>(f: F, keys: &[u32], key: u32) -> (Result<usize, u32>, u32) {
    let (mut left, mut low, mut looks) = (keys, 0, 0);
    // the nearest rows looked at; rows of one index stand together, so if any row looked at has the index, one of these has
    let (mut below, mut above) = (NONE, NONE);
    while let Some(&row) = left.get(left.len() / 2) {
        let half = left.len() / 2;
        if f.on(OneLeftUnseen) && left.len() == 1 {
            break;
        }
        looks += 1;
        if row == key {
            return (Ok(low + half), looks);
        }
        if f.on(AbsenceByLastLook) {
            (below, above) = (NONE, NONE);
        }
        let before = if f.on(SideByIndexAlone) { row >> 8 < key >> 8 } else { row < key };
        if before {
            below = row;
            low += half + 1;
            left = &left[half + 1..];
            if f.on(SeenForgotten) {
                above = NONE;
            }
        } else {
            above = row;
            left = &left[..half];
        }
    }
    let seen = below >> 8 == key >> 8 || above >> 8 == key >> 8;
    (Err(if seen { code::NO_SUBINDEX } else { code::NO_INDEX }), looks)
}

/// The row of a key of this table. Inlined it would cost every message the registers that it needs.
#[inline(never)]
pub fn find<F: Fault>(f: F, key: u32) -> Result<usize, u32> {
    search(f, &KEYS, key).0
}

/// The place of an entry that must be there, for constants.
pub const fn place(index: u16, sub: u8) -> usize {
    let key = index as u32 * 256 + sub as u32;
    let mut n = 0;
    while n < COUNT {
        if ALL[n].key == key {
            assert!(ALL[n].has_place());
            return ALL[n].place as usize;
        }
        n += 1;
    }
    panic!("no such entry")
}

/// The values as power-up leaves them on a faulty block: defaults, and zeros in the bytes of no entry.
pub static DEFAULTS: [u8; 1024] = {
    let mut values = [0; 1024];
    let mut n = 0;
    while n < COUNT {
        if ALL[n].has_place() {
            let bytes = ALL[n].default.to_le_bytes();
            let mut i = 0;
            while i < ALL[n].len as usize && i < 8 {
                values[ALL[n].place as usize + i] = bytes[i];
                i += 1;
            }
        }
        n += 1;
    }
    values
};

/// An NV entry and its first bit in the saved block.
#[derive(Clone, Copy)]
pub struct Field {
    pub row: Row,
    pub bit: usize,
}

const fn count_nv() -> usize {
    let (mut n, mut count) = (0, 0);
    while n < COUNT {
        count += ALL[n].nv as usize;
        n += 1;
    }
    count
}

pub const fn bits(row: &Row) -> usize {
    match row.kind {
        Kind::Bool => 1,
        _ => row.len as usize * 8,
    }
}

pub const FIELDS: [Field; count_nv()] = {
    let mut fields = [Field { row: ALL[0], bit: 0 }; count_nv()];
    let (mut n, mut count, mut bit) = (0, 0, 8);
    while n < COUNT {
        if ALL[n].nv {
            assert!(bits(&ALL[n]) <= 57 || ALL[n].kind as u8 == Kind::Str as u8);
            fields[count] = Field { row: ALL[n], bit };
            bit += bits(&ALL[n]);
            count += 1;
        }
        n += 1;
    }
    fields
};

/// First bit of the saved block's rest.
pub const FIELDS_END: usize = {
    let (mut n, mut bit) = (0, 8);
    while n < COUNT {
        if ALL[n].nv {
            bit += bits(&ALL[n]);
        }
        n += 1;
    }
    assert!(bit <= 4096 - 64);
    bit
};
